"""What the models of checks/ share: numbers that are the same on every machine, the two files of a model, and what
became of transactions and what their snapshots see, looked up in the list of all events so far."""
import os


class Numbers:
    """A fixed row of numbers."""

    def __init__(self, first):
        self.state = first

    def below(self, count):
        self.state = (self.state * 6364136223846793005 + 1442695040888963407) % 2**64
        return (self.state >> 33) % count

    def of(self, choices):
        return choices[self.below(len(choices))]


def write(folder, lines):
    """Writes the schedules, the first part of each line, and the answers, the second."""
    for name, part in (("stdin", 0), ("stdout", 1)):
        with open(os.path.join(folder, name), "w", encoding="ascii") as out:
            out.write("".join(line[part] + "\n" for line in lines))


def written(numbers):
    """Each number as one byte, `0` and so many more; letters as they are."""
    return "".join(n if isinstance(n, str) else chr(ord("0") + n) for n in numbers)


# ---- transactions and snapshots

def fate(history, tx):
    ends = [event[0] for event in history if event[0] in ("committed", "aborted") and event[2] == tx]
    return "a" if "aborted" in ends else "c" if ends else "r"


def owners(history):
    """The sessions that began the transactions, in order."""
    return [event[1] for event in history if event[0] == "began"]


def open_of(history, session):
    found = None
    for event in history:
        if event[0] in ("began", "committed", "aborted") and event[1] == session:
            found = event[2] if event[0] == "began" else None
    return found


def held_by(history, session):
    """The place, the transaction and the command number of the snapshot that the session holds."""
    found = None
    for event in history:
        if event[0] in ("held", "dropped") and event[1] == session:
            found = event[2] if event[0] == "held" else None
    return found


def given(history, session):
    """The held snapshot, or else a fresh one."""
    return held_by(history, session) or (len(history), open_of(history, session), 0)


def sees(history, snapshot, by, cmd):
    place, tx, number = snapshot
    return fate(history[:place], by) == "c" or (by == tx and cmd < number)
