#!/usr/bin/env python3
"""Trees of tables, straight from the definitions, and schedules for the catalogue to be compared with.

A history is the list of all events so far. Which tables and entries are there for a session, the tree of a
table, the path above it, which leaf accepts a row and which table a name means are looked up in that list,
event by event, as `crates/history/specs`, `crates/row_router/specs`, `crates/part_catalog/specs` and
`crates/row_router/specs` define them; a snapshot's place is the number of events before it. Nothing here is
kept from one question to the next, and a row is routed by asking each leaf. The form of the steps and the
answers stands in `checks/catalog/program.rattle`.

    checks/catalog/model.py FOLDER     writes FOLDER/stdin, the schedules, and FOLDER/stdout, the answers
"""
import os
import sys

sys.dont_write_bytecode = True
sys.path.insert(0, os.path.dirname(os.path.dirname(os.path.abspath(__file__))))
from schedules import Numbers, fate, given, held_by, open_of, owners, sees, write, written

SCHEDULES, STEPS, SESSIONS, NAMES, NULL = 2200, 40, 5, 6, 40
# The strategy and the key columns of a table, by the number of its shape; a leaf has none.
SHAPES = [None, ("r", [0]), ("l", [1]), ("h", [0]), ("r", [1, 0]), ("h", [0, 1])]
# How often each kind of step is drawn: for a session with a transaction, for one that holds a snapshot
# besides, and for one without a transaction.
BUSY = "t" * 8 + "x" * 2 + "e" * 24 + "n" * 6 + "m" * 9 + "k" * 4 + "rrryyppp" + "g" * 12 + "fffwwwuuu" + "hhhhhhdcca"
HOLDING = "t" * 4 + "e" * 12 + "n" * 4 + "m" * 10 + "k" * 2 + "rrrrppp" + "g" * 16 + "ffwuuhdca"
IDLE = "b" * 60 + "ypwufx"


# ---- what is there

def tables(history):
    """All tables in the order in which they were made, as (name, shape, by); their numbers are their places."""
    return [event[1:] for event in history if event[0] == "table"]


def entries(history):
    """All entries, as (parent, child, bound, by); their numbers are their places."""
    return [event[1:] for event in history if event[0] == "entry"]


def counted(history, kind, number):
    """By whom and in which command a table was dropped, or an entry ended or marked: the newest such event whose
    transaction is not aborted."""
    found = None
    for event in history:
        if event[0] == kind and event[1] == number and fate(history, event[2]) != "a":
            found = event[2:]
    return found


def counts(history, session, by):
    return fate(history, by) == "c" or by == open_of(history, session)


def stands(history, session, kind, number, by):
    """Whether the birth counts for the session and the end does not."""
    end = counted(history, kind, number)
    return counts(history, session, by) and not (end and counts(history, session, end[0]))


def is_there(history, session, table):
    return stands(history, session, "drop", table, tables(history)[table][2])


def is_present(history, session, entry):
    return stands(history, session, "end", entry, entries(history)[entry][3])


def present(history, session):
    """The entries that are present for the session, as (number, parent, child, bound)."""
    return [(k,) + e[:3] for k, e in enumerate(entries(history)) if is_present(history, session, k)]


def shown(history, session, snapshot):
    """Those of them whose mark the snapshot does not see."""
    marks = {e[0]: counted(history, "mark", e[0]) for e in present(history, session)}
    return [e for e in present(history, session) if not (marks[e[0]] and sees(history, snapshot, *marks[e[0]]))]


def resolved(history, session, name):
    there = [t for t, (n, _, _) in enumerate(tables(history)) if n == name and is_there(history, session, t)]
    return there[-1:]


def taken_by(history, session, name):
    """The session whose open transaction, another one, made a table of the name."""
    makers = [by for n, _, by in tables(history) if n == name and fate(history, by) == "r"]
    return [owners(history)[by] for by in makers if by != open_of(history, session)][-1:]


# ---- bounds: (0,), (1, from, to), (2, values), (3, modulus, remainder)

LOW, HIGH = -1, 99


def points(shape, bound):
    """The points of a range: of two key columns, from MINVALUE of the second to MAXVALUE of it."""
    _, lower, upper = bound
    return ([lower], [upper]) if len(SHAPES[shape][1]) == 1 else ([lower, LOW], [upper, HIGH])


def stand(bound):
    """What children are sorted by: the default last, a null behind each value."""
    return (bound[0] == 0, sorted(bound[1]) if bound[0] == 2 else list(bound[1:]))


def overlap(shape, a, b):
    if 0 in (a[0], b[0]):
        return a[0] == b[0]
    if a[0] == 1:
        (low, high), (below, above) = points(shape, a), points(shape, b)
        return max(low, below) < min(high, above)
    if a[0] == 2:
        return bool(set(a[1]) & set(b[1]))
    return (a[2] - b[2]) % min(a[1], b[1]) == 0


def suit(a, b):
    """Of two moduli one is a factor of the other; a hash level has no default."""
    return a[0] != 3 or b[0] != 3 or max(a[1], b[1]) % min(a[1], b[1]) == 0


M = 0xFFFFFFFF


def rot(x, k):
    return (x << k | x >> (32 - k)) & M


def number_hash(n):
    """The hash of two words, of the number's 64 bits, the low one first."""
    a = b = c = (0x9E3779B9 + 8 + 3923095) & M
    a, b = (a + 0x7A5B2236) & M, (b + 0x7996DCFD) & M
    for k, turn in ((4, 0), (6, 1), (8, 2), (16, 0), (19, 1), (4, 2)):
        if turn == 0:
            a = (a - c & M) ^ rot(c, k)
            c = c + b & M
        elif turn == 1:
            b = (b - a & M) ^ rot(a, k)
            a = a + c & M
        else:
            c = (c - b & M) ^ rot(b, k)
            b = b + a & M
    a, b = (a + n) & M, b & M
    c = (c ^ b) - rot(b, 14) & M
    a = (a ^ c) - rot(c, 11) & M
    b = (b ^ a) - rot(a, 25) & M
    c = (c ^ b) - rot(b, 16) & M
    a = (a ^ c) - rot(c, 4) & M
    b = (b ^ a) - rot(a, 14) & M
    c = (c ^ b) - rot(b, 24) & M
    return b << 32 | c


def key_hash(key):
    found = 0
    for value in key:
        if value != NULL:
            found ^= (number_hash(value) + 0x49A0F4DD15E5A8E3 + (found << 54) + (found >> 7)) % 2**64
    return found


def accepts(shape, key, bound):
    """A bound by itself: DEFAULT accepts nothing."""
    if bound[0] == 1:
        low, high = points(shape, bound)
        point = key + [LOW]
        return NULL not in key and low + [LOW] <= point < high + [LOW]
    if bound[0] == 2:
        return key[0] in bound[1]
    return bound[0] == 3 and key_hash(key) % bound[1] == bound[2]


def accepts_among(shape, row, bounds, bound):
    key = [row[column] for column in SHAPES[shape][1]]
    return accepts(shape, key, bound) or (bound[0] == 0 and not any(accepts(shape, key, b) for b in bounds))


# ---- trees: (table, shape, bounds, children)

def children(these, table):
    """The entries below a table in plain order."""
    return sorted((e for e in these if e[1] == table), key=lambda e: stand(e[3]))


def tree(history, these, table):
    """The table with these entries, and so on below."""
    below = children(these, table)
    return table, tables(history)[table][1], [e[3] for e in below], [tree(history, these, e[2]) for e in below]


def height(node):
    return 1 + max([height(child) for child in node[3]], default=0)


def told_bound(bound):
    return [bound[0]] + (bound[1] if bound[0] == 2 else list(bound[1:]))


def told_tree(node):
    table, shape, bounds, below = node
    if shape == 0:
        return [table, "."]
    told = [n for bound, child in zip(bounds, below) for n in told_bound(bound) + told_tree(child)]
    return [table, SHAPES[shape][0], len(below)] + told


def leaves(node, way=()):
    """Each leaf with its way: the tests that stand on it."""
    table, shape, bounds, below = node
    if shape == 0:
        return [(table, way)]
    return [leaf for b, child in zip(bounds, below) for leaf in leaves(child, way + ((shape, bounds, b),))]


def levels(node, way=()):
    """Each table that is a level with its way, and the bounds below it."""
    table, shape, bounds, below = node
    if shape == 0:
        return []
    deeper = [level for b, child in zip(bounds, below) for level in levels(child, way + ((shape, bounds, b),))]
    return [(table, shape, bounds, way)] + deeper


def is_open(row, way):
    return all(accepts_among(shape, row, bounds, b) for shape, bounds, b in way)


def routed(node, row):
    """The leaves that accept the row; where there is none, the table whose way is open and that has no partition
    for the row."""
    found = [leaf for leaf, way in leaves(node) if is_open(row, way)]
    assert len(found) < 2
    ends = [
        table for table, shape, bounds, way in levels(node)
        if is_open(row, way) and not any(accepts_among(shape, row, bounds, b) for b in bounds)
    ]
    assert len(found) + len(ends) == 1
    return found + ["="] if found else ends + ["-"]


# ---- paths: (table, CHECKs, (shape, bounds, place) or None), upwards

def checks(history, session, table):
    kept = [event[1:] for event in history if event[0] == "check"]
    return [(shape, bound) for where, shape, bound, by in kept if where == table and counts(history, session, by)]


def above(history, session, table):
    return next((e for e in present(history, session) if e[2] == table), None)


def path(history, session, table):
    parts = []
    while table is not None and len(parts) < 8:
        over = above(history, session, table)
        place = None
        if over:
            beside = children(present(history, session), over[1])
            place = tables(history)[over[1]][1], [e[3] for e in beside], beside.index(over)
        parts.append((table, checks(history, session, table), place))
        table = over[1] if over else None
    return parts


def told_path(parts):
    told = []
    for table, kept, place in parts:
        told += [table, len(kept)] + [n for _, bound in kept for n in told_bound(bound)]
        told += ["^", SHAPES[place[0]][0], len(place[1]), place[2]] if place else ["."]
    return told


def refuses(part, row, what):
    _, kept, place = part
    if what == 1:
        return any(not accepts(shape, [row[c] for c in SHAPES[shape][1]], bound) for shape, bound in kept)
    return place is not None and not accepts_among(place[0], row, place[1], place[1][place[2]])


# ---- which step may come, what it answers, and its events

def refused_entry(history, session, parent, child):
    these = present(history, session)
    if len(children(these, parent)) >= 1024:
        return "P"
    return "V" if len(path(history, session, parent)) + height(tree(history, these, child)) > 8 else None


def between(history, session, parent, child):
    """The number of the present entry by which the one is a partition of the other."""
    return next((e[0] for e in present(history, session) if e[1:3] == (parent, child)), None)


def step(history, kind, session=0, *numbers):
    """The letter of the answer, what stands before it, and the new events."""
    tx = open_of(history, session)
    if kind == "b":
        new = len(owners(history))
        return ("b", [new], [("began", session, new)]) if tx is None else ("O", [], [])
    if kind == "d":
        return "+", [], [("dropped", session)]
    if kind == "w":
        return "w", resolved(history, session, numbers[0]) + ["/"] + taken_by(history, session, numbers[0]), []
    if kind in "ypuf" and numbers[0] >= len(tables(history)):
        return "N", [], []
    if kind == "y":
        return "y", told_tree(tree(history, present(history, session), numbers[0])), []
    if kind == "p":
        return "p", told_path(path(history, session, numbers[0])), []
    if kind == "f":
        table, a, b, what = numbers
        return "f", [part[0] for part in path(history, session, table) if refuses(part, [a, b], what)][:1], []
    if kind == "u":
        return "u", told_entries(history, session, numbers[0]), []
    if tx is None:
        return "T", [], []
    if kind in "ca":
        return "+", [], [("committed" if kind == "c" else "aborted", session, tx)]
    if kind == "h":
        return ("H", [], []) if held_by(history, session) else ("+", [], [("held", session, (len(history), tx, numbers[1]))])
    return changed(history, kind, session, tx, *numbers) if kind in "txenmk" else asked(history, kind, session, *numbers)


def told_entries(history, session, table):
    """The parent of a table, its pending partition, and the transaction that marked that."""
    over = above(history, session, table)
    told = ([over[1]] if over else []) + ["/"]
    for number, parent, child, _ in present(history, session):
        mark = counted(history, "mark", number)
        if parent == table and mark and counts(history, session, mark[0]):
            return told + [child, mark[0]]
    return told


def changed(history, kind, session, tx, cmd, *numbers):
    if kind == "t":
        name, shape = numbers
        return "t", [len(tables(history))], [("table", name, shape, tx)]
    if numbers[0] >= len(tables(history)):
        return "N", [], []
    if kind == "x":
        return "+", [], [("drop", numbers[0], tx, cmd)]
    if kind == "k":
        table, shape, bound = numbers
        return "+", [], [("check", table, shape, bound, tx)]
    parent, child = numbers[:2]
    if kind == "e":
        full = refused_entry(history, session, parent, child)
        return ("F", [full], []) if full else ("+", [], [("entry", parent, child, numbers[2], tx)])
    number = between(history, session, parent, child)
    return "+", [], [("end" if kind == "n" else "mark", number, tx, cmd)]


def asked(history, kind, session, cmd, table, *row):
    if table >= len(tables(history)):
        return "N", [], []
    shape = tree(history, shown(history, session, given(history, session)[:2] + (cmd,)), table)
    if kind == "r":
        return "r", told_tree(shape), []
    return "g", routed(shape, list(row)), []


# ---- schedules: a step comes only where the calls that it makes may be made

def in_the_way(history, session, parent):
    """The entries below a table that may be there beside one that the session adds."""
    tx = open_of(history, session)
    for number, (over, _, bound, by) in enumerate(entries(history)):
        end = counted(history, "end", number)
        if over == parent and fate(history, by) != "a" and not (end and (end[0] == tx or fate(history, end[0]) == "c")):
            yield bound


def some_bound(numbers, shape):
    strategy = SHAPES[shape][0]
    if strategy != "h" and not numbers.below(6):
        return (0,)
    if strategy == "r":
        lower = numbers.below(9)
        return (1, lower, lower + 1 + numbers.below(5))
    if strategy == "l":
        values = [numbers.of([0, 1, 2, 3, 4, 5, 6, NULL]), numbers.of([0, 1, 2, 3, 4, 5, 6, NULL])]
        return (2, values[:1] if values[0] == values[1] or numbers.below(2) else values)
    modulus = numbers.of([1, 2, 4, 4, 4, 8])
    return (3, modulus, numbers.below(modulus))


def some_entry(numbers, history, session):
    """A parent, a child and a bound that no sibling stands in the way of. The child has the greater number, so
    nothing stands below itself."""
    there = [t for t in range(len(tables(history))) if is_there(history, session, t)]
    parents = [t for t in there if tables(history)[t][1]]
    if not parents or there[-1] <= parents[0]:
        return None
    for _ in range(8):
        parent, child = numbers.of(parents), numbers.of(there)
        shape = tables(history)[parent][1]
        bound = some_bound(numbers, shape)
        free = child > parent and (above(history, session, child) is None or not numbers.below(12))
        others = in_the_way(history, session, parent)
        if free and not any(overlap(shape, bound, b) or not suit(bound, b) for b in others):
            return [parent, child, bound]
    return None


def some_present(numbers, history, session, kind):
    """The parent and child of a present entry that no end, or no mark, counts of."""
    these = [e for e in present(history, session) if counted(history, kind, e[0]) is None]
    these = [e for e in these if between(history, session, e[1], e[2]) == e[0]]
    return list(numbers.of(these)[1:3]) if these else None


def some_table(numbers, history):
    """One with partitions for choice; now and then one that was never made."""
    count = len(tables(history)) + (not numbers.below(20))
    for _ in range(5):
        table = numbers.below(max(1, count))
        if table in [entry[0] for entry in entries(history)]:
            break
    return table


def some_value(numbers):
    return numbers.of([0, 1, 2, 3, 4, 5, 6, 7, 8, 9, NULL])


def drawn(numbers, history, sessions, commands):
    """A step: its kind and its numbers, or None where none of that kind may come. `commands` has the number of
    each session's command, which never falls within a transaction."""
    session = numbers.below(sessions)
    tx = open_of(history, session)
    kind = numbers.of(IDLE if tx is None else HOLDING if held_by(history, session) else BUSY)
    if tx is None:
        commands[session] = 0
    elif kind == "h" or numbers.below(10) < 6:
        commands[session] += 1
    cmd = commands[session]
    if kind == "w":
        return [kind, session, numbers.below(NAMES)]
    if kind in "yppu":
        return [kind, session, some_table(numbers, history)]
    if kind == "f":
        table = numbers.below(len(tables(history)) or 1)
        return [kind, session, table, some_value(numbers), some_value(numbers), numbers.below(2)]
    if tx is None or kind in "bcadh":
        return [kind, session] + ([0, cmd] if kind == "h" else [])
    if kind == "t":
        return [kind, session, cmd, numbers.below(NAMES), numbers.of([0, 0, 0, 1, 1, 2, 3, 4, 5])]
    if kind == "x":
        these = [t for t in range(len(tables(history))) if counted(history, "drop", t) is None]
        return [kind, session, cmd, numbers.of(these)] if these else None
    if kind == "k":
        shape = 1 + numbers.below(5)
        bound = some_bound(numbers, shape)
        made = len(tables(history))
        return [kind, session, cmd, numbers.below(made), shape, bound] if made and bound[0] else None
    if kind in "en" or kind == "m":
        found = some_entry(numbers, history, session) if kind == "e" else \
            some_present(numbers, history, session, "end" if kind == "n" else "mark")
        return [kind, session, cmd] + found if found else None
    number = cmd if numbers.below(4) else numbers.below(cmd + 1)
    row = [some_value(numbers), some_value(numbers)] if kind == "g" else []
    return [kind, session, number, some_table(numbers, history)] + row


def opening(numbers):
    """The first steps: some tables and entries (None), which mostly are committed; in one of eight schedules a chain of
    levels."""
    if not numbers.below(8):
        deep = 5 + numbers.below(4)
        made = [["t", 0, 0, numbers.below(NAMES), 1] for _ in range(deep)] + [["t", 0, 0, numbers.below(NAMES), 0]]
        cut = 2 + numbers.below(deep - 2)
        hung = [["e", 0, 0, t, t + 1, (1, t % 3, t % 3 + 4)] for t in range(deep) if t != cut]
        return [["b", 0]] + made + hung + [["e", 0, 1, cut, cut + 1, (1, 0, 9)], ["p", 0, deep], ["c", 0]]
    first = 1 + numbers.below(5)
    made = [["t", 0, 0, 0, first]] + [["t", 0, 0, 1 + t, numbers.of([0, 0, 0, 1, 2, 3, 4, 5])] for t in range(3)]
    return [["b", 0]] + made + [None] * (1 + numbers.below(4)) + ([["c", 0]] if numbers.below(4) else [])


def written_step(step):
    return written([n for part in step for n in (told_bound(part) if isinstance(part, tuple) else [part])])


def is_legal(history):
    """The entries that are present for each session are siblings."""
    shapes = [shape for _, shape, _ in tables(history)]
    for session in range(SESSIONS):
        these = present(history, session)
        for a in these:
            for b in these:
                if a[0] < b[0] and a[1] == b[1] and (overlap(shapes[a[1]], a[3], b[3]) or not suit(a[3], b[3])):
                    return False
    return True


def schedule(numbers, tally):
    """A line of steps, and the line of their answers."""
    history, steps, answers = [], [], []
    sessions = 2 + numbers.below(SESSIONS - 1)
    commands = [0] * sessions
    todo = opening(numbers)
    while len(steps) < STEPS:
        now = todo.pop(0) if todo else drawn(numbers, history, sessions, commands)
        if now is None:
            found = some_entry(numbers, history, 0) if len(steps) < 9 else None
            if not found:
                continue
            now = ["e", 0, 0] + found
        letter, told, events = step(history, *now)
        if now[0] in "ca" and letter == "+":
            # what was held is given up, but now and then; others look
            if held_by(history, now[1]) and numbers.below(3):
                todo.append(["d", now[1]])
        history += events
        if letter == "+" and now[0] == "m" and numbers.below(2):
            todo.append(["c", now[1]])
        if letter == "+" and now[0] in "mncax":
            other = numbers.below(sessions)
            table = now[3] if now[0] in "mn" else numbers.below(len(tables(history)) or 1)
            todo.append(["r", other, commands[other], table] if open_of(history, other) is not None else ["y", other, table])
        tally[letter] = tally.get(letter, 0) + 1
        if now[0] == "r" and letter == "r":
            compare(history, tally, now, told)
        steps.append(written_step(now))
        answers.append(written(told + [letter]) + " ")
    assert is_legal(history)
    return "".join(steps), "".join(answers)


def compare(history, tally, now, told):
    """Counts the trees that show something else than other rules would."""
    _, session, cmd, table = now
    whole = told_tree(tree(history, present(history, session), table))
    fresh = (len(history), open_of(history, session), cmd)
    for name, other in (("left", whole), ("held", told_tree(tree(history, shown(history, session, fresh), table)))):
        tally[name] = tally.get(name, 0) + (other != told)


def main():
    folder = sys.argv[1]
    numbers, tally = Numbers(17), {}
    lines = [schedule(numbers, tally) for _ in range(SCHEDULES)]
    write(folder, lines)
    print(f"{SCHEDULES} schedules, {tally['r']} trees: {tally['left']} without a pending partition,", end=" ")
    print(f"{tally['held']} other than by a fresh snapshot; answers by their letters:", end=" ")
    print(", ".join(f"{letter} {tally[letter]}" for letter in sorted(tally) if len(letter) == 1))


main()
