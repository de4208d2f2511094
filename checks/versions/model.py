#!/usr/bin/env python3
"""What snapshots see, straight from the definitions, and schedules for the transaction table and the row
store to be compared with.

A history is the list of all events so far. What became of a transaction, what a session holds, what a
snapshot sees of a leaf and what became of a version are looked up in that list, event by event, as
`crates/history/specs` defines them in `Transactions.antt`, `Snapshots.antt`, `Rows.antt` and
`History.antt`; a snapshot's place is the number of events before it. Nothing here is kept from one
question to the next. The form of the steps and the answers stands in `crates/store_schedules/src/versions.rt`.

    checks/versions/model.py FOLDER     writes FOLDER/stdin, the schedules, and FOLDER/stdout, the answers
"""
import os
import sys

sys.dont_write_bytecode = True
sys.path.insert(0, os.path.dirname(os.path.dirname(os.path.abspath(__file__))))
from schedules import Numbers, fate, given, held_by, open_of, owners, sees, write, written

SCHEDULES, STEPS, SESSIONS, LEAVES = 2200, 40, 5, 3
# Schedules with their answers, each step before a dash and its answer behind it; they come first. Those of the first three
# were worked out by hand. The first has the three schedules of docs/snapshots.md, one behind the other: a version has its
# number as its value. In the second a snapshot that is held does not see what is committed behind it, and sees what its own
# transaction stored before its number; in the third it is given again, until it is dropped. In the fourth a row is replaced
# so often that its leaf leaves out dead versions twice, and what snapshots see that are held stays.
BY_HAND = [
    """l-0l b2-0b p2000-+ c2-+ b0-1b b1-2b h100-+ s100-00s r0001-+ s001-11s s101-00s c0-+ s101-00s
    b0-3b s000-11s d1-+ c1-+ b1-4b s100-11s e010-+ s001-s s101-11s a0-+
    b0-5b s000-11s s101-11s e111-+ s000-11s c1-+ s000-s p0002-+ s000-s s001-22s p0013-+ p0014-+ s001-22s s002-223344s
    e022-+ s002-223344s s003-3344s""",
    "l-0l b0-0b b1-1b p0000-+ h103-+ c0-+ s103-s p1021-+ p1032-+ s103-11s d1-+ s107-001122s f0-0c f1-1r o1-1o",
    "l-0l b0-0b h005-+ o0-0h5o d0-+ o0-0o a0-+ f0-0a",
    """l-0l b0-0b p0000-+ c0-+ b0-1b r0001-+ r0112-+ c0-+ b0-2b r0203-+ r0314-+ c0-+ b0-3b r0405-+ r0516-+ c0-+ b1-4b
    h100-+ b0-5b r0607-+ c0-+ b0-6b r0708-+ a0-+ b0-7b r0709-+ r0910-+ c0-+ b0-8b r0:01-+ c0-+ b0-9b r0;02-+ c0-+
    b0-:b r0<03-+ c0-+ b0-;b r0=04-+ c0-+ b0-<b r0>05-+ c0-+ s100-66s b0-=b s000-?5s c0-+ b2->b h203-+ b0-?b r0?06-+
    a0-+ b0-@b r0?07-+ c0-+ b0-Ab r0A08-+ r0B19-+ c0-+ b0-Bb r0C00-+ r0D11-+ c0-+ b0-Cb r0E02-+ r0F13-+ c0-+ b0-Db
    r0G04-+ r0H15-+ c0-+ b0-Eb r0I06-+ r0J17-+ c0-+ s100-66s s204-?5s b0-Fb s000-K7s a0-+ d1-+ c1-+ b0-Gb r0K08-+
    a0-+ b0-Hb r0K09-+ r0M10-+ c0-+ b0-Ib r0N01-+ r0O12-+ c0-+ b0-Jb r0P03-+ r0Q14-+ c0-+ b0-Kb r0R05-+ r0S16-+ c0-+
    b0-Lb r0T07-+ c0-+ b1-Mb s100-U7s s203-?5s d2-+ s203-U7s""",
]
# How often each kind of step is drawn: for a session with a transaction, for one that holds a snapshot
# besides, and for one without a transaction.
BUSY = "p" * 12 + "r" * 16 + "e" * 8 + "m" * 8 + "s" * 14 + "n" * 10 + "h" * 14 + "d" + "c" * 10 + "a" * 9 + "fob"
HOLDING = "p" * 6 + "r" * 8 + "e" * 5 + "m" * 5 + "s" * 50 + "n" * 10 + "h" + "d" * 3 + "c" * 4 + "a" * 4 + "fob"
IDLE = "b" * 80 + "dfonspremhca" + "f" * 7


# ---- the definitions

def leaf_count(history):
    return sum(event[0] == "leaf" for event in history)


def versions(history):
    """The versions in order of birth, as (leaf, value, by, command); their numbers are their places."""
    return [event[1:] for event in history if event[0] == "born"]


def end_of(history, version):
    """The end that counts, as (by, command, how): the last one whose transaction is not aborted."""
    found = None
    for event in history:
        if event[0] == "ended" and event[1] == version and fate(history, event[2]) != "a":
            found = event[2:]
    return found


def is_seen(history, snapshot, version):
    _, _, by, cmd = versions(history)[version]
    end = end_of(history, version)
    return sees(history, snapshot, by, cmd) and not (end and sees(history, snapshot, end[0], end[1]))


def seen(history, leaf, snapshot):
    """The numbers and values of the versions of the leaf that the snapshot sees, in order of birth."""
    return [
        (version, value)
        for version, (where, value, _, _) in enumerate(versions(history))
        if where == leaf and is_seen(history, snapshot, version)
    ]


def outcome(history, version):
    """A letter, and the numbers that the answer names."""
    end = end_of(history, version)
    if end is None:
        return "=", [versions(history)[version][1]]
    by, _, how = end
    return ("e", [by]) if fate(history, by) == "r" else (how[0], [by] + how[1:])


# ---- which step may come, what it answers, and its events

def change(history, kind, tx, version, cmd, last):
    """The answer to a replacement, a deletion or a move, and its events."""
    if version >= len(versions(history)):
        return "V", []
    leaf, _, by, _ = versions(history)[version]
    if fate(history, by) != "c" and by != tx:
        return "B", []
    if end_of(history, version):
        return "E", []
    if kind == "r":
        new = len(versions(history))
        return "+", [("born", leaf, last, tx, cmd), ("ended", version, tx, cmd, ["r", new])]
    if kind == "m" and last >= leaf_count(history):
        return "L", []
    return "+", [("ended", version, tx, cmd, ["m", last] if kind == "m" else ["g"])]


def step(history, kind, session=0, what=0, cmd=0, last=0):
    """The letter of the answer, the numbers before it, and the new events."""
    tx = open_of(history, session)
    if kind == "f":
        return fate(history, session), (owners(history) + [0])[session:][:1], []
    if kind == "l":
        return "l", [leaf_count(history)], [("leaf",)]
    if kind == "d":
        return "+", [], [("dropped", session)]
    if kind == "o":
        snapshot = held_by(history, session)
        told = [] if tx is None else [tx]
        return "o", told + ([] if snapshot is None else ["h", snapshot[2]]), []
    if kind == "b":
        new = len(owners(history))
        return ("b", [new], [("began", session, new)]) if tx is None else ("O", [], [])
    if tx is None:
        return "T", [], []
    if kind in "ca":
        return "+", [], [("committed" if kind == "c" else "aborted", session, tx)]
    if kind == "h":
        if held_by(history, session):
            return "H", [], []
        return "+", [], [("held", session, (len(history), tx, cmd))]
    if kind == "n":
        if what >= len(versions(history)):
            return "V", [], []
        return outcome(history, what) + ([],)
    if kind in "rem":
        letter, events = change(history, kind, tx, what, cmd, last)
        return letter, [], events
    if what >= leaf_count(history):
        return "L", [], []
    if kind == "p":
        return "+", [], [("born", what, last, tx, cmd)]
    place, own, _ = given(history, session)
    shown = seen(history, what, (place, own, cmd))
    return "s", [number for pair in shown for number in pair], []


# ---- schedules

def some_version(numbers, history, is_wanted):
    """The number of a version, or now and then the next one: the first of five that is wanted, else the last."""
    for _ in range(5):
        count = len(versions(history)) + (not numbers.below(8))
        version = numbers.below(max(1, count))
        if is_wanted(version):
            break
    return version


def drawn(numbers, history, sessions, commands):
    """A step: its kind and its numbers. `commands` has the number of each session's command, which never
    falls within a transaction and rises before a snapshot is held."""
    session = numbers.below(sessions)
    tx = open_of(history, session)
    kind = numbers.of(IDLE if tx is None else HOLDING if held_by(history, session) else BUSY)
    if tx is None:
        commands[session] = 0
    elif kind == "h" or numbers.below(10) < 6:
        commands[session] += 1
    cmd = commands[session]
    leaf = numbers.below(leaf_count(history) + (not numbers.below(30)))
    value = numbers.below(10)
    if kind in "rem":
        version = some_version(numbers, history, lambda v: change(history, "e", tx, v, cmd, 0)[0] == "+")
        return [kind, session, version, cmd] + {"r": [value], "e": [], "m": [leaf]}[kind]
    if kind == "n":
        return [kind, session, some_version(numbers, history, lambda v: end_of(history, v))]
    if kind == "s":
        return [kind, session, leaf, cmd if numbers.below(6) else numbers.below(cmd + 1)]
    if kind == "f":
        return [kind, numbers.below(len(owners(history)) + 1)]
    if kind == "l":
        return [kind]
    return [kind, session] + {"h": [0, cmd], "p": [leaf, cmd, value]}.get(kind, [])


def schedule(numbers, counts):
    """A line of steps, and the line of their answers."""
    history, steps, answers, trail = [], [], [], []
    sessions = 2 + numbers.below(SESSIONS - 1)
    leaves = 1 + numbers.below(LEAVES)
    commands = [0] * sessions
    todo = [["l"]] * leaves + [["b", 0]]
    todo += [["p", 0, numbers.below(leaves), 0, numbers.below(10)] for _ in range(numbers.below(4))] + [["c", 0]]
    length = STEPS - numbers.below(10)
    while len(steps) < length:
        now = todo.pop(0) if todo else drawn(numbers, history, sessions, commands)
        letter, told, events = step(history, *now)
        if now[0] in "ca" and letter == "+":
            # what was held is given up, but now and then; others look
            if held_by(history, now[1]) and numbers.below(5):
                todo.append(["d", now[1]])
            other = numbers.below(sessions)
            if open_of(history, other) is not None and other != now[1]:
                todo.append(["s", other, numbers.below(leaves), commands[other]])
        if now[0] == "m" and letter == "+" and numbers.below(4):
            todo.append(["p", now[1], now[4], now[3], numbers.below(10)])
        if now[0] == "s" and letter == "s":
            trail.append(now[2])
            tally(counts, history, now, told)
        counts[letter] = counts.get(letter, 0) + 1
        history += events
        steps.append(written(now))
        answers.append(written(told + [letter]) + " ")
    return "".join(steps), "".join(answers) + written(trail)


def by_hand(text):
    """A schedule with its answers and the line of these, which have to be those of the definitions."""
    history, steps, answers, trail = [], [], [], []
    for pair in text.split():
        now, wanted = pair.split("-")
        letter, numbers, events = step(history, now[0], *[ord(byte) - ord("0") for byte in now[1:]])
        assert written(numbers + [letter]) == wanted, pair
        if letter == "s":
            trail.append(ord(now[2]) - ord("0"))
        history += events
        steps.append(now)
        answers.append(wanted + " ")
    return "".join(steps), "".join(answers) + written(trail)


def tally(counts, history, now, told):
    """Counts the scans that show something else than other rules would."""
    _, session, leaf, cmd = now
    tx = open_of(history, session)
    fresh = seen(history, leaf, (len(history), tx, cmd))
    if told != [number for pair in fresh for number in pair]:
        counts["held"] = counts.get("held", 0) + 1
    ends = [event for event in history if event[0] == "ended" and fate(history, event[2]) == "a"]
    if any(event[1] in told[::2] for event in ends):
        counts["undone"] = counts.get("undone", 0) + 1


def main():
    folder = sys.argv[1]
    numbers, counts = Numbers(13), {}
    lines = [schedule(numbers, counts) for _ in range(SCHEDULES)]
    write(folder, [by_hand(text) for text in BY_HAND] + lines)
    print(f"{SCHEDULES} schedules, {counts['s']} scans: {counts['held']} see something else than by a fresh", end=" ")
    print(f"snapshot, {counts['undone']} a version whose end was undone; answers by their letters:", end=" ")
    print(", ".join(f"{letter} {counts[letter]}" for letter in sorted(counts) if len(letter) == 1))


main()
