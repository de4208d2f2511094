#!/usr/bin/env python3
"""Locks and waits, straight from their definitions, and schedules for the lock table to be compared with.

A history is the list of all events so far. Who holds what, who waits for what and who is ready are
looked up in that list, event by event, as `crates/history/specs/Locks.antt` and `Waits.antt` define
them; the cycle is picked from all cycles. Nothing here is kept from one question to the next.

    checks/locks/model.py FOLDER     writes FOLDER/stdin, the schedules, and FOLDER/stdout, the answers
"""
import os
import sys

sys.dont_write_bytecode = True
sys.path.insert(0, os.path.dirname(os.path.dirname(os.path.abspath(__file__))))
from schedules import Numbers, write

MODES = ["AS", "RS", "RE", "SUE", "S", "SRE", "E", "AE"]
CONFLICTS = {
    "AS": ["AE"],
    "RS": ["E", "AE"],
    "RE": ["S", "SRE", "E", "AE"],
    "SUE": ["SUE", "S", "SRE", "E", "AE"],
    "S": ["RE", "SUE", "SRE", "E", "AE"],
    "SRE": ["RE", "SUE", "S", "SRE", "E", "AE"],
    "E": ["RS", "RE", "SUE", "S", "SRE", "E", "AE"],
    "AE": MODES,
}
SCHEDULES, STEPS, SESSIONS, TABLES = 3000, 18, 6, 4
# How often each kind of step is drawn, in a hundred.
KINDS = "r" * 60 + "e" * 5 + "s" * 5 + "n" * 12 + "x" * 8 + "c" * 5 + "g" * 5
# Schedules whose answers were worked out by hand: steps, and then the answers; they come first. In the first, two sessions
# read a table each, and each then wants the other's whole. In the second, a read waits behind an earlier waiter that
# wants the table whole, and a wait for a snapshot goes on when that has gone, and not when locks are given up.
BY_HAND = [
    ("r100 r210 r117 r207 n x2 n", "g g w2 d21 - 1 h1 h1 h h"),
    ("r100 r507 r300 s41. x1 n n g1 n", "g w1 w5 w1 5 - 4 h5 h h h"),
]


def wanted(history, x):
    """What x waits for, and whom of those it waits for has gone since."""
    want, gone = None, set()
    for event in history:
        if event[0] in ("began", "resumed", "withdrawn") and event[1] == x:
            want, gone = (event[2] if event[0] == "began" else None), set()
        elif want and (event[0], want[0]) in (("given up", "ends"), ("gone", "snapshots")):
            gone.add(event[1])
    if want and want[0] != "lock":
        return (want[0], want[1] - gone)
    return want


def holds(history, x, table, mode):
    held = False
    for at, event in enumerate(history):
        if event[1] != x:
            continue
        if event[0] == "got":
            held = held or event[2:] == (table, mode)
        elif event[0] == "given up":
            held = False
        elif event[0] == "resumed":
            held = held or wanted(history[:at], x) == ("lock", table, mode)
    return held


def queue(history):
    waiting = []
    for event in history:
        if event[0] == "began":
            waiting.append(event[1])
        elif event[0] in ("resumed", "withdrawn"):
            waiting = [x for x in waiting if x != event[1]]
    return waiting


def holds_against(history, x, table, mode):
    return any(holds(history, x, table, other) for other in CONFLICTS[mode])


def is_cause(history, x, want, y):
    """Whether y is a cause that x has to wait for what it wants."""
    if want[0] != "lock":
        return y in want[1]
    _, table, mode = want
    if holds(history, x, table, mode) or y == x:
        return False
    if holds_against(history, y, table, mode):
        return True
    waiting = queue(history)
    earlier = waiting[: waiting.index(x)] if x in waiting else waiting
    other = wanted(history, y)
    return (
        y in earlier
        and other[0] == "lock"
        and other[1] == table
        and other[2] in CONFLICTS[mode]
        and not holds_against(history, x, table, other[2])
    )


def waits_for(history, x, y):
    want = wanted(history, x)
    return want is not None and is_cause(history, x, want, y)


def ready(history):
    for x in queue(history):
        if not any(waits_for(history, x, y) for y in range(SESSIONS)):
            return x
    return None


def cycles(edges, path):
    """All cycles that go on from the path and come back to its first session, none of them twice through one."""
    for y in sorted(edges[path[-1]]):
        if y == path[0]:
            yield path
        elif y not in path:
            yield from cycles(edges, path + [y])


def ask(history, x, want):
    """The answer, its event or none, and how many shortest cycles there are."""
    behind = {y for y in range(SESSIONS) if is_cause(history, x, want, y)}
    if not behind:
        event = ("got", x, want[1], want[2]) if want[0] == "lock" else None
        return "g", event, 0
    after = history + [("began", x, want)]
    edges = [{y for y in range(SESSIONS) if waits_for(after, z, y)} for z in range(SESSIONS)]
    found = list(cycles(edges, [x]))
    if found:
        told = min(found, key=lambda cycle: (len(cycle), cycle))
        several = sum(len(cycle) == len(told) for cycle in found)
        return "d" + "".join(map(str, told)), None, several
    return "w" + "".join(map(str, sorted(behind))), after[-1], 0


def wish(step):
    """What a step wants, if it wants something."""
    if step[0] == "r":
        return "lock", int(step[2]), MODES[int(step[3])]
    if step[0] in "es":
        return "ends" if step[0] == "e" else "snapshots", {int(y) for y in step[2:-1]}
    return None


def act(history, step):
    """The answer to a step or none, its event or none, and how many shortest cycles there are."""
    if step == "n":
        first = ready(history)
        return ("-", None, 0) if first is None else (str(first), ("resumed", first), 0)
    want = wish(step)
    if want:
        return ask(history, int(step[1]), want)
    return "", ({"x": "given up", "c": "withdrawn", "g": "gone"}[step[0]], int(step[1])), 0


def drawn(numbers, history, tables, modes):
    """A step, or none where the session that would ask waits already."""
    kind = numbers.of(KINDS)
    x = numbers.below(SESSIONS)
    if kind == "n":
        return "n"
    if kind in "xcg":
        return kind + str(x)
    if wanted(history, x) is not None:
        return None
    if kind == "r":
        table, mode = numbers.below(tables), numbers.of(modes)
        return f"r{x}{table}{MODES.index(mode)}"
    others = {y for y in range(SESSIONS) if y != x and numbers.below(10) < 3}
    return kind + str(x) + "".join(map(str, sorted(others))) + "."


def holders(history):
    """The answers that stand last: who holds each table."""
    for table in range(TABLES):
        yield "h" + "".join(str(x) for x in range(SESSIONS) if any(holds(history, x, table, mode) for mode in MODES))


def schedule(numbers):
    """A line of steps, the line of their answers, and the numbers of shortest cycles that were met."""
    history, steps, answers, met = [], [], [], []
    tables = 1 + numbers.below(TABLES)
    modes = numbers.of([MODES, MODES, MODES[:4], MODES[3:], ["AS", "AE"], ["RE", "S", "AE"]])
    while len(steps) < STEPS:
        step = drawn(numbers, history, tables, modes)
        if step is None:
            continue
        answer, event, several = act(history, step)
        steps.append(step)
        if several:
            met.append(several)
        if event:
            history.append(event)
        if answer:
            answers.append(answer)
    return "".join(steps), " ".join(answers + list(holders(history))), met


def by_hand(steps, answers):
    """A schedule that was worked out by hand; its answers have to be those of the definitions."""
    history, found = [], []
    for step in steps.split():
        answer, event, _ = act(history, step)
        if event:
            history.append(event)
        if answer:
            found.append(answer)
    assert " ".join(found + list(holders(history))) == answers, steps
    return steps.replace(" ", ""), answers


def main():
    folder = sys.argv[1]
    numbers = Numbers(16)
    lines = [schedule(numbers) for _ in range(SCHEDULES)]
    write(folder, [by_hand(*schedule) for schedule in BY_HAND] + lines)
    met = [several for line in lines for several in line[2]]
    print(f"{SCHEDULES} schedules, {sum(bool(line[2]) for line in lines)} with a cycle, {len(met)} cycles,", end=" ")
    print(f"{sum(several > 1 for several in met)} of them one of several shortest")


main()
