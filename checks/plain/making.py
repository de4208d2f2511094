"""Makes scripts from numbers that are the same on every machine: small partitioned tables, a few sessions whose
transactions get in one another's way, and permutations of their steps."""
import re

from bounds import key_hash
from runs import Permutation
from script import Script, Session, Step, Use


class Numbers:
    """A fixed row of numbers."""

    def __init__(self, first):
        self.state = (first * 2862933555777941757 + 3037000493) % 2**64
        for _ in range(3):
            self.below(2)

    def below(self, count):
        self.state = (self.state * 6364136223846793005 + 1442695040888963407) % 2**64
        return (self.state >> 33) % count

    def of(self, choices):
        return choices[self.below(len(choices))]

    def chance(self, percent):
        return self.below(100) < percent

    def weighted(self, choices):
        """One of the choices, each of which stands beside its weight."""
        at = self.below(sum(weight for _, weight in choices))
        for choice, weight in choices:
            at -= weight
            if at < 0:
                return choice
        raise AssertionError


# What the statements of a kind are, each with its weight.
KINDS = {
    "locks": {"select": 5, "insert": 6, "lock": 6, "delete": 2},
    "rows": {"select": 3, "insert": 3, "delete": 10},
    "tables": {"select": 3, "insert": 5, "delete": 2, "create": 1, "partition": 4, "detach": 4, "drop": 2, "lock": 1},
    "detaches": {"select": 4, "insert": 6, "delete": 3, "detach": 6, "drop": 3, "create": 1, "lock": 2},
    "updates": {"select": 2, "insert": 2, "delete": 3, "update": 10},
    "above": {"select": 1, "insert": 1, "delete": 1, "update": 16, "detach_above": 1, "attach_again": 1},
    "defaults": {"select": 2, "insert": 5, "delete": 3, "partition": 6, "detach": 3, "drop": 2, "lock": 1},
    "attaches": {"select": 2, "insert": 5, "delete": 3, "attach": 6, "detach": 5, "partition": 1, "drop": 1},
    "concurrent": {
        "select": 6, "insert": 6, "delete": 2, "update": 3, "attach": 4, "detach": 1, "finalize": 3, "concurrently": 1,
        "drop": 1, "lock": 1, "cancel": 2, "partition": 1,
    },
    "cancels": {"select": 3, "insert": 4, "delete": 4, "lock": 4, "cancel": 5},
    "joins": {"join": 12, "select": 1, "lock": 4, "insert": 4, "delete": 1, "setting": 2},
    "hashed": {"join": 9, "plan": 6, "insert": 4, "update": 2, "delete": 2, "lock": 1, "setting": 3, "mode": 1},
    "pairs": {"join": 10, "plan": 6, "insert": 4, "update": 2, "delete": 2, "lock": 1, "setting": 2, "mode": 1, "attach": 1, "detach": 1},
    "sorted": {
        "plan": 6, "select": 6, "insert": 4, "update": 3, "delete": 2, "lock": 1, "setting": 2, "mode": 1, "detach": 1, "partition": 1,
    },
    "prunes": {"select": 9, "lock": 6, "insert": 3, "setting": 2},
    "plans": {"plan": 12, "select": 1, "lock": 3, "insert": 2, "setting": 2, "attach": 2, "detach": 1, "partition": 1},
    "pruned": {"select": 1, "insert": 2, "delete": 5, "update": 9, "lock": 5, "setting": 2},
    "mixed": {
        "select": 3, "insert": 5, "delete": 3, "update": 5, "attach": 4, "detach": 4, "partition": 3, "create": 1,
        "drop": 2, "lock": 2, "cancel": 2,
    },
    "prepared": {
        "select": 4, "insert": 5, "delete": 3, "update": 6, "attach": 4, "detach": 2, "finalize": 1, "concurrently": 1, "partition": 1,
        "drop": 1, "lock": 4, "cancel": 1, "join": 1, "plan": 1,
    },
    "generic": {
        "select": 4, "insert": 4, "delete": 3, "update": 6, "attach": 3, "detach": 2, "finalize": 1, "concurrently": 1, "partition": 1,
        "drop": 1, "lock": 5, "cancel": 1, "join": 4, "plan": 3, "setting": 1, "mode": 2,
    },
    "analyzed": {"plan": 12, "insert": 3, "update": 3, "delete": 1, "lock": 3, "attach": 1, "setting": 1, "mode": 1},
}
# What is prepared beside statements of the kind, on tables with all columns, and the kinds that the arguments mostly have: a number,
# a date, a text, a truth value.
TYPED = (
    ("SELECT a, d, c FROM {} WHERE d >= $1 OR c = $2", "dc"), ("SELECT tableoid::regclass, a, $1 AS x FROM {} WHERE a = $2 AND v <> $3", "cii"),
    ("SELECT a + $1 AS s, d - $2 AS n FROM {} WHERE f OR $3 IS NULL", "idi"), ("SELECT d + $1 AS e FROM {} WHERE d BETWEEN $2 AND $2 + $1", "id"),
    ("SELECT * FROM {} WHERE $1 OR v = $2 ORDER BY a LIMIT $3", "fii"), ("SELECT a FROM {} WHERE a IN ($1, $2, 3) AND v NOT IN ($3, $1)", "iii"),
    ("SELECT a, c FROM {} WHERE $1 <= c AND NOT (f = $2)", "cf"), ("SELECT a FROM {} WHERE $1 = a AND $1 < c", "c"),
    ("SELECT $1 AS x, $2 + 1 AS y", "ci"), ("SELECT a FROM {} WHERE a = $1 OFFSET $2", "ii"), ("SELECT a, v FROM {} WHERE $1 = $2 AND a = $1", "ii"),
    ("SELECT q0.a, q1.d FROM t AS q0 JOIN {} AS q1 ON q0.a = q1.a AND q1.d <= $1 WHERE q0.a = $2 OR q1.c = $3", "dic"),
    ("INSERT INTO {} (a, d, c) VALUES ($1, $2, $3)", "idc"), ("INSERT INTO {} (c, a, v, f) VALUES ($1, $2, $3, $4), ($1, $2 + 1, $3, $4)", "ciif"),
    ("INSERT INTO {} VALUES ($1, $2, $3), ($1, $1, $3 + 1)", "iid"), ("INSERT INTO {} VALUES ($2, $1, $3)", "iid"),
    ("UPDATE {} SET d = $1, c = $2 WHERE a = $3", "dci"), ("UPDATE {} SET f = $1, v = v + $2 WHERE d IS NULL OR d < $3", "fid"),
    ("UPDATE {} SET a = $1 WHERE a = $2", "ii"), ("UPDATE {} SET v = $1 + $2 WHERE a = $1", "ii"), ("UPDATE {} SET a = a + $1", "i"),
    ("DELETE FROM {} WHERE c = $1 AND a >= $2", "ci"), ("DELETE FROM {} WHERE a = $1 OR d > $2", "id"),
)
VALUES = {
    "d": ("DATE '2024-01-31'", "'2024-01-31'", "DATE '2024-02-29' + 1", "'2024-03-01'", "NULL"), "c": ("'one'", "'two'", "'5'", "NULL"),
    "f": ("TRUE", "FALSE", "'t'", "NULL"),
}
ODD = ("3000000000", "'x'", "DATE '2024-01-01'", "'2024-02-30'", "a", "t.a", "$1", "1 / 0", "TRUE", "1 = 1", "pg_backend_pid()", "now()", "-5")
MODES = (
    "ACCESS SHARE", "ROW SHARE", "ROW EXCLUSIVE", "SHARE UPDATE EXCLUSIVE", "SHARE", "SHARE ROW EXCLUSIVE", "EXCLUSIVE",
    "ACCESS EXCLUSIVE",
)


class Maker:
    def __init__(self, kind, seed):
        self.kind, self.numbers = kind, Numbers(seed)
        self.weights = KINDS[kind]
        self.setup = []
        self.tables, self.parents, self.plain, self.keys = [], {}, [], []
        self.free = self.numbers.of((0, 1, 2, 2)) if self.default_chance() else self.numbers.of((2, 2, None))
        self.free_bound, self.own_bounds, self.cut_off = "", {}, ""
        self.is_hashed = kind in ("hashed", "pairs")
        self.prepares, self.has_all = self.is_hashed or kind in ("prepared", "generic", "analyzed", "sorted"), False
        self.prepared = {}       # by their names: the first words and the kinds of the parameters

    # ---- tables

    def value(self):
        """A value of the key column of the root."""
        numbers = self.numbers
        if numbers.chance(3):
            return "NULL"
        return str(numbers.below(20 if numbers.chance(92) else 40))

    def second(self):
        return "NULL" if self.numbers.chance(6) else str(self.numbers.below(4))

    def row(self):
        return f"({self.value()}, {self.second()})"

    def range_bound(self, is_second):
        numbers = self.numbers
        width = 2 if is_second else 10
        low = numbers.below(3) * width
        if not is_second and numbers.chance(20):
            low += 5
        high = low + (width if numbers.chance(85) else width // 2 if numbers.chance(50) else width * 2)
        from_, to = str(low), str(high)
        if numbers.chance(5):
            from_ = "MINVALUE"
        if numbers.chance(7):
            to = "MAXVALUE"
        return f"FOR VALUES FROM ({from_}) TO ({to})"

    def list_bound(self, is_second):
        numbers = self.numbers
        first = numbers.below(3)
        values = range(first * 8, first * 8 + 8) if not is_second else range(first * 2, first * 2 + 2)
        values = [str(value) for value in values if not numbers.chance(15)] or ["1"]
        if numbers.chance(15):
            values.append("NULL")
        return f"FOR VALUES IN ({', '.join(values)})"

    def hash_bound(self, is_second):
        modulus = self.numbers.of((2, 4, 4) if self.numbers.chance(95) else (3, 8))
        return f"FOR VALUES WITH (MODULUS {modulus}, REMAINDER {self.numbers.below(modulus)})"

    def bound(self, parent):
        """A bound for a partition of a table; most fit, some overlap a sibling."""
        strategy, is_second = self.parents.get(parent, ("RANGE", False))
        if parent == "t" and self.free_bound and self.numbers.chance(50 if self.default_chance() else 15):
            return self.free_bound
        if strategy != "HASH" and self.numbers.chance(self.default_chance()):
            return "DEFAULT"
        return {"RANGE": self.range_bound, "LIST": self.list_bound, "HASH": self.hash_bound}[strategy](is_second)

    def default_chance(self):
        return {"defaults": 15, "attaches": 12, "mixed": 12}.get(self.kind, 0)

    def default_of_setup_chance(self):
        """(beside a default no further partition is made in kinds without it)"""
        return {"tables": 0, "concurrent": 5}.get(self.kind, 60 if self.default_chance() else 25)

    def by(self, name, strategy, is_second):
        self.parents[name] = (strategy, is_second)
        return f" PARTITION BY {strategy} ({'v' if is_second else 'a'})"

    def make_children(self, parent):
        strategy, is_second = self.parents[parent]
        numbers = self.numbers
        prefix = "p" if parent == "t" else parent + "_"
        bounds = {
            ("RANGE", False): ["FROM (0) TO (10)", "FROM (10) TO (20)", "FROM (20) TO (30)"],
            ("RANGE", True): ["FROM (0) TO (2)", "FROM (2) TO (4)"],
            ("LIST", False): ["IN (" + ", ".join(map(str, range(first, first + 8))) + ")" for first in (0, 8, 16)],
            ("LIST", True): ["IN (0, 1)", "IN (2, 3, NULL)"],
            ("HASH", False): [f"WITH (MODULUS {m}, REMAINDER {r})" for m, r in ((2, 0), (4, 1), (4, 3))],
            ("HASH", True): [f"WITH (MODULUS 2, REMAINDER {r})" for r in (0, 1)],
        }[strategy, is_second]
        if self.kind == "above" and parent != "t" and not is_second:
            # (wider than the table above)
            bounds = ["FROM (0) TO (40)"] if numbers.chance(75) else ["FROM (0) TO (25)", "FROM (25) TO (40)"]
        for place, bound in enumerate(bounds):
            if parent == "t":
                # (one place of the root is often left free)
                if place == self.free:
                    self.free_bound = f"FOR VALUES {bound}"
                    continue
                self.own_bounds[f"p{place}"] = f"FOR VALUES {bound}"
            self.make_partition(f"{prefix}{place}", parent, f"FOR VALUES {bound}")
        if strategy != "HASH" and numbers.chance(self.default_of_setup_chance()):
            self.make_partition(f"{prefix}d" if parent != "t" else "pd", parent, "DEFAULT")

    def make_partition(self, name, parent, bound):
        below = ""
        if parent == "t" and self.kind == "above":
            # (by the key of the table above, or by the other column)
            is_second = self.numbers.chance(25)
            below = self.by(name, "RANGE" if not is_second else self.numbers.of(("RANGE", "LIST")), is_second)
        elif parent == "t" and self.numbers.chance(22):
            below = self.by(name, self.numbers.of(("RANGE", "LIST", "LIST", "HASH")), True)
        self.tables.append(name)
        self.setup.append(f"CREATE TABLE {name} PARTITION OF {parent} {bound}{below};")
        if below:
            self.make_children(name)

    def make_tables(self):
        numbers = self.numbers
        kinds = "a int, v int" if numbers.chance(85) else "a int, v int NOT NULL"
        if self.prepares and numbers.chance(70):
            self.has_all, kinds = True, kinds + ", d date, c text, f boolean"
        self.tables.append("t")
        strategies = ("RANGE",) * (12 if self.kind == "sorted" else 2) + ("LIST", "HASH")
        self.setup.append(f"CREATE TABLE t ({kinds})" + self.by("t", numbers.of(strategies), False) + ";")
        self.make_children("t")
        for name in ("x", "y"):
            below = ""
            if numbers.chance(15):
                below = self.by(name, "LIST", True)
            self.plain.append(name)
            self.setup.append(f"CREATE TABLE {name} ({kinds}){below};")
            if below:
                for place, bound in enumerate(("IN (0, 1, NULL)", "IN (2, 3)")):
                    self.setup.append(f"CREATE TABLE {name}{place} PARTITION OF {name} FOR VALUES {bound};")
                    self.plain.append(f"{name}{place}")
        if self.kind == "hashed":
            # (its keys are wider than those that they meet, and some are null)
            self.plain.append("w")
            self.setup.append("CREATE TABLE w (a bigint, v int, d date, c text, f boolean);")
            for _ in range(2 + numbers.below(3)):
                given = ", ".join(numbers.of(VALUES[kind]) for kind in "dcf")
                self.setup.append(f"INSERT INTO w VALUES ({numbers.of(('NULL', numbers.below(20)))}, {self.second()}, {given});")
        if self.kind == "pairs":
            self.make_like(kinds)
        taken = [key for key in range(30) if "pd" in self.tables or self.place_of(key) not in (self.free, None)]
        if self.kind == "above":
            self.cut_off = numbers.of(sorted(self.own_bounds))
            taken = [key for key in taken if f"p{self.place_of(key)}" == self.cut_off or numbers.chance(4)]
        self.keys = [numbers.of(taken) for _ in range(3 + numbers.below(4) if self.kind != "above" else 2)]
        self.setup.append("INSERT INTO t VALUES " + ", ".join(f"({key}, {numbers.below(4)})" for key in self.keys) + ";")
        if self.has_all:
            rows = [f"({numbers.of(taken)}, {numbers.below(4)}, {', '.join(numbers.of(VALUES[kind]) for kind in 'dcf')})" for _ in range(3)]
            self.setup.append(f"INSERT INTO t VALUES {', '.join(rows)};")
        fitting = [key for key in range(30) if self.place_of(key) == (2 if self.free is None else self.free)]
        for name in ("x", "y"):
            if numbers.chance(60):
                keys = [numbers.of(fitting) if numbers.chance(65) else numbers.below(30) for _ in range(2)]
                self.keys += keys
                self.setup.append(f"INSERT INTO {name} VALUES ({keys[0]}, 1), ({keys[1]}, 2);")

    def make_like(self, kinds):
        """A table that is mostly partitioned as t is, and rows of it."""
        numbers, strategy = self.numbers, self.parents["t"][0]
        kinds = kinds.replace("a int", "a bigint") if numbers.chance(8) else kinds
        column = "v" if numbers.chance(8) else "a"
        self.plain.append("u")
        self.setup.append(f"CREATE TABLE u ({kinds}) PARTITION BY {strategy} ({column});")
        kept = {place: bound for place, bound in sorted(self.own_bounds.items()) if not numbers.chance(6)}
        if ("pd" in self.tables) != (strategy != "HASH" and numbers.chance(8)):
            kept["pd"] = "DEFAULT"
        for place, bound in sorted(kept.items()):
            if strategy == "LIST" and numbers.chance(40):
                # (its values in another order)
                bound = re.sub(r"\((.*)\)", lambda of: f"({', '.join(reversed(of[1].split(', ')))})", bound)
            if strategy == "RANGE" and numbers.chance(4):
                bound = re.sub(r"TO \((\d+)\)", lambda of: f"TO ({int(of[1]) - 1})", bound)
            name, below = place.replace("p", "u"), numbers.chance(20)
            self.plain.append(name)
            self.setup.append(f"CREATE TABLE {name} PARTITION OF u {bound}{' PARTITION BY LIST (v)' if below else ''};")
            if below:
                for inner, one in enumerate(("FOR VALUES IN (0, 1)", "FOR VALUES IN (2, NULL)", "DEFAULT")):
                    self.plain.append(f"{name}_{inner}")
                    self.setup.append(f"CREATE TABLE {name}_{inner} PARTITION OF {name} {one};")
        fitting = [key for key in range(29) if key % 10 < 9 and f"p{self.place_of(key)}" in kept]
        if fitting and column == "a":
            rows = [f"({numbers.of(fitting)}, {numbers.below(4)})" for _ in range(2 + numbers.below(5))]
            self.setup.append(f"INSERT INTO u VALUES {', '.join(rows)};")

    def place_of(self, key):
        """Which of the three places of the root accepts a key."""
        strategy = self.parents["t"][0]
        if strategy == "HASH":
            return (0, 1, 0, 2)[key_hash([key]) % 4]
        place = key // (10 if strategy == "RANGE" else 8)
        return place if place < 3 else None

    # ---- statements

    def any_table(self):
        numbers = self.numbers
        if self.kind == "above" and numbers.chance(90):
            return self.inner_table()
        if self.kind == "pairs" and numbers.chance(35):
            return "u"
        if numbers.chance(55):
            return "t"
        if numbers.chance(80):
            return numbers.of(self.tables)
        makes = {"partition", "create"} & set(self.weights)
        return numbers.of(self.plain + (["n1", "n2"] if makes or numbers.chance(5) else []))

    def changed_table(self):
        """(rows of the tables that are attached come and go too)"""
        if self.kind == "above" and self.numbers.chance(95):
            return self.inner_table()
        return self.numbers.of(("x", "y")) if self.default_chance() and self.numbers.chance(30) else self.any_table()

    def inner_table(self):
        """A partition of the one that is mostly detached."""
        return self.numbers.of([name for name in self.tables if name.startswith(f"{self.cut_off}_")])

    def condition(self):
        numbers = self.numbers
        if self.kind == "above" and numbers.chance(45):
            return ""
        if numbers.chance(60 if self.kind in ("rows", "updates", "above") else 12 if self.kind == "sorted" else 35):
            return f" WHERE a = {numbers.of(self.keys)}"
        return numbers.of((
            "", f" WHERE a = {numbers.below(16)}", f" WHERE a < {numbers.of((5, 10, 15))}", f" WHERE v = {numbers.below(4)}",
            f" WHERE v >= {numbers.below(4)}", f" WHERE a >= {numbers.of((3, 10, 12))}",
            f" WHERE a IN ({numbers.below(12)}, {10 + numbers.below(12)})", " WHERE a IS NULL",
            f" WHERE a BETWEEN {numbers.below(8)} AND {8 + numbers.below(14)} AND v <> {numbers.below(4)}",
            f" WHERE a > {numbers.below(16)} OR v IS NULL",
        ))

    def select(self):
        numbers = self.numbers
        if self.kind == "sorted":
            return self.sorted()
        items = numbers.of(("tableoid::regclass, a, v", "a, v", "*", "a"))
        order = numbers.of(("", "", " ORDER BY a", " ORDER BY v DESC, a", " ORDER BY a LIMIT 2"))
        return f"SELECT {items} FROM {self.any_table()}{self.condition()}{order};"

    def sorted(self):
        """In the order of the table's partitions, mostly."""
        numbers = self.numbers
        items = numbers.of(("tableoid::regclass, a, v", "a, v", "*", "a", "v AS a, a AS v", "a + 1 AS n, v", "a, 10 / v AS d"))
        keys = numbers.of((
            "a", "a", "a", "a", "a, v", "a, v DESC", "a, tableoid::regclass DESC", "a NULLS LAST, v NULLS FIRST", "1", "v", "v, a", "a DESC",
            "a NULLS FIRST",
        ))
        cut = numbers.of(("", "", "", " LIMIT 2", " OFFSET 1", " LIMIT 1 OFFSET 2"))
        return f"SELECT {items} FROM {'t' if numbers.chance(75) else self.any_table()}{self.condition()} ORDER BY {keys}{cut};"

    def comparison(self, left, right):
        """Of a column of one item with a column of another, or with a value."""
        numbers = self.numbers
        is_hashed = self.is_hashed
        sign = numbers.of(("=", "=", "=", "<", ">=", "<>")) if not is_hashed or numbers.chance(30) else "="
        if is_hashed and self.has_all and numbers.chance(20):
            # (of dates, texts and truth values too, where both tables have them)
            name = numbers.of("dcf")
            return f"q{left}.{name} {sign} q{right}.{name}"
        if left == right or numbers.chance(10 if is_hashed else 25):
            other = numbers.of(self.keys) if numbers.chance(70) else numbers.of(("NULL", numbers.below(24)))
        else:
            other = f"q{right}.{numbers.of(('a', 'a', 'v'))}"
        column = f"q{left}.{numbers.of(('a', 'a', 'a', 'v'))}"
        return f"{column} {sign} {other}" if numbers.chance(80) else f"{other} {sign} {column}"

    def joining(self, count):
        """A condition over the items before that number."""
        numbers = self.numbers

        def one():
            if self.kind == "pairs" and numbers.chance(45):
                return numbers.of(("q0.a = q1.a", "q1.a = q0.a"))
            return self.comparison(numbers.below(count), count - 1 if numbers.chance(70) else numbers.below(count))
        form = numbers.of(("one", "one", "one", "and", "and", "or", "or of ands", "not", "in", "null"))
        return {
            "one": one, "and": lambda: f"{one()} AND {one()}", "or": lambda: f"({one()} OR {one()})",
            "or of ands": lambda: f"({one()} AND {one()} OR {one()} AND {one()})", "not": lambda: f"NOT ({one()} AND {one()})",
            "in": lambda: f"q{numbers.below(count)}.a IN (q{count - 1}.v, {numbers.of(self.keys)})",
            "null": lambda: f"q{numbers.below(count)}.{numbers.of(('a', 'v'))} IS {numbers.of(('', 'NOT '))}NULL AND {one()}",
        }[form]()

    def join(self):
        numbers, count = self.numbers, self.numbers.of((2, 2, 2, 3, 3, 4))
        tables = f"{self.any_table()} AS q0"
        for item in range(1, count):
            table = f"{('u' if self.kind == 'pairs' else 't') if numbers.chance(50) else self.any_table()} {numbers.of(('', 'AS '))}q{item}"
            if numbers.chance(75) or item > 1:
                tables += f" JOIN {table} ON {self.joining(item + 1)}"
            else:
                tables += f", {table}"
        where = f" WHERE {self.joining(count)}" if numbers.chance(60) or "," in tables else ""
        items = numbers.of((
            "*", "q1.*, q0.v", "q0.tableoid::regclass, q0.a, q1.tableoid::regclass AS other, q1.a AS b", "q0.a, q1.v - q0.v AS d",
            "q1.a", "10 / (q0.v - q1.v) AS d",
        ))
        order = numbers.of(("", "", " ORDER BY q1.v DESC, q0.a", " ORDER BY 1", " LIMIT 3", " ORDER BY q0.v OFFSET 1"))
        return f"SELECT {items} FROM {tables}{where}{order};"

    def plan(self):
        numbers = self.numbers
        return f"{self.explain()}{self.join() if numbers.chance(50 if self.kind != 'sorted' else 10) else self.select()}"

    def explain(self):
        numbers = self.numbers
        if (self.is_hashed or self.kind in ("analyzed", "sorted")) and numbers.chance(70 if self.kind == "analyzed" else 40):
            return f"EXPLAIN {numbers.of(('ANALYZE ', '(ANALYZE) ', '(COSTS OFF, ANALYZE, TIMING OFF) '))}"
        return f"EXPLAIN {numbers.of(('', '', '(COSTS OFF) ', '(TIMING OFF, SUMMARY OFF) '))}"

    def insert(self):
        numbers = self.numbers
        rows = ", ".join(self.row() for _ in range(1 if numbers.chance(70) else 2 + numbers.below(2)))
        if numbers.chance(5):
            return f"INSERT INTO {self.any_table()} (v, a) VALUES ({self.second()}, {self.value()});"
        return f"INSERT INTO {self.any_table()} VALUES {rows};"

    def delete(self):
        return f"DELETE FROM {self.changed_table()}{self.condition()};"

    def update(self):
        numbers = self.numbers
        if self.kind == "above" and numbers.chance(70):
            return f"UPDATE {self.changed_table()} SET v = v + 1{self.condition()};"
        change = numbers.of((
            "v = v + 1", f"v = {self.second()}", f"a = {self.value()}", "a = a + 10", "a = a - 10", "a = a + 1",
            f"a = {self.value()}, v = {self.second()}", "v = a", "a = v",
        ))
        return f"UPDATE {self.changed_table()} SET {change}{self.condition()};"

    def move(self):
        numbers = self.numbers
        return f"UPDATE {self.changed_table()} SET a = {numbers.of(('a + 10', 'a - 10', self.value()))}{self.condition()};"

    def lock(self):
        numbers = self.numbers
        names = [("ONLY " if numbers.chance(25) else "") + self.any_table() for _ in range(1 if numbers.chance(85) else 2)]
        mode = f" IN {numbers.of(MODES)} MODE" if numbers.chance(60) else ""
        return f"LOCK TABLE {', '.join(names)}{mode};"

    def setting(self):
        if self.kind == "pairs" and self.numbers.chance(50):
            return self.numbers.of(("SET enable_partitionwise_join = on;",) * 2 + ("SET enable_partitionwise_join = off;", "RESET enable_partitionwise_join;"))
        if self.numbers.chance(50):
            return self.numbers.of(("SET enable_hashjoin = off;", "SET enable_hashjoin = on;", "RESET enable_hashjoin;"))
        return self.numbers.of((
            "SET enable_partition_pruning = off;", "SET enable_partition_pruning = on;", "RESET enable_partition_pruning;",
        ))

    def outside(self):
        """A statement outside of a transaction, where LOCK is refused."""
        statement = self.statement()
        return self.statement() if statement.startswith("LOCK") and self.numbers.chance(95) else statement

    def parent(self):
        numbers = self.numbers
        if numbers.chance(75) or len(self.parents) == 1:
            return "t" if numbers.chance(97) else numbers.of(self.tables + self.plain)
        return numbers.of(sorted(self.parents))

    def create(self):
        numbers = self.numbers
        name = numbers.of(("n1", "n2", "n3", "x"))
        below = self.by(name, "RANGE", False) if numbers.chance(25) else ""
        return f"CREATE TABLE {name} (a int, v int){below};"

    def partition(self):
        numbers = self.numbers
        name, parent = numbers.of(("n1", "n2", "n3", "p2")), self.parent()
        below = self.by(name, numbers.of(("LIST", "RANGE")), True) if numbers.chance(12) else ""
        return f"CREATE TABLE {name} PARTITION OF {parent} {self.bound(parent)}{below};"

    def attach(self):
        numbers = self.numbers
        if numbers.chance(70 if self.prepares or self.kind == "concurrent" else 25):
            name = numbers.of(sorted(self.own_bounds))
            return f"ALTER TABLE t ATTACH PARTITION {name} {self.own_bounds[name]};"
        name = numbers.of(["x", "y"]) if numbers.chance(85) else numbers.of(self.plain + ["n1", "n2"] + self.tables)
        parent = "t" if numbers.chance(85) else self.parent()
        return f"ALTER TABLE {parent} ATTACH PARTITION {name} {self.bound(parent)};"

    def detach(self):
        numbers = self.numbers
        name = numbers.of(self.tables[1:] + self.plain + ["n1", "n2"])
        parent = "t" if "_" not in name else name.split("_")[0]
        if numbers.chance(6):
            parent = self.parent()
        return f"ALTER TABLE {parent} DETACH PARTITION {name};"

    def detach_above(self):
        """Of a partition whose own partitions others change."""
        numbers = self.numbers
        name = self.cut_off if numbers.chance(80) else numbers.of(sorted(self.own_bounds) + ["pd"])
        return f"ALTER TABLE t DETACH PARTITION {name};"

    def attach_again(self):
        return f"ALTER TABLE t ATTACH PARTITION {self.cut_off} {self.own_bounds[self.cut_off]};"

    def detach_in_stages(self, how):
        numbers = self.numbers
        if numbers.chance(15):
            return f"{self.detach()[:-1]} {how};"
        return f"ALTER TABLE t DETACH PARTITION {numbers.of(sorted(self.own_bounds))} {how};"

    def concurrently(self):
        return self.detach_in_stages("CONCURRENTLY")

    def finalize(self):
        return self.detach_in_stages("FINALIZE")

    def drop(self):
        numbers = self.numbers
        names = [numbers.of(self.tables[1:] + self.plain + ["n1", "n2", "n3"]) for _ in range(1 if numbers.chance(88) else 2)]
        if numbers.chance(4):
            names = ["t"]
        return f"DROP TABLE {'IF EXISTS ' if numbers.chance(15) else ''}{', '.join(names)};"

    def cancel(self):
        numbers = self.numbers
        calls = [f"pg_cancel_backend({numbers.below(7)})" for _ in range(1 if numbers.chance(75) else 2)]
        rest = numbers.of((" LIMIT 0", " LIMIT 1", " OFFSET 1", " WHERE 1 = 2", " WHERE 1 = 1")) if numbers.chance(25) else ""
        return f"SELECT {', '.join(calls)}{rest};"

    def statement(self):
        if self.prepares and self.numbers.chance(47):
            return self.execute()
        return self.written()

    def written(self):
        return getattr(self, self.numbers.weighted(list(self.weights.items())))()

    # ---- prepared statements

    def mode(self):
        return "SET plan_cache_mode = " + self.numbers.of(("force_generic_plan",) * 4 + ("auto", "force_custom_plan")) + ";"

    def with_parameters(self):
        """A statement with parameters in the places of some of its values, and their kinds."""
        numbers, count = self.numbers, 0
        if numbers.chance(55 if self.has_all else 15):
            text, kinds = numbers.of(TYPED)
            return text.format(self.changed_table()), kinds
        text = ""
        while not re.match("SELECT|INSERT|UPDATE|DELETE", text):
            text = re.sub(r"^EXPLAIN (?:\(.*?\) |ANALYZE )?", "", self.written())
        text = text[:-1]

        def put(value):
            nonlocal count
            if numbers.chance(15):
                return value[0]
            if count and numbers.chance(12):
                return f"${1 + numbers.below(count)}"
            count += 1
            return f"${count}"
        text = re.sub(r"(?<![\w.$])(?<!IS )(?<!NOT )(?<!BY )(?:\d+|NULL)(?!\w)", put, text)
        return text, "i" * count

    def prepare(self, name):
        numbers = self.numbers
        text, kinds = self.with_parameters()
        if numbers.chance(3) and kinds:
            # (a number is passed over)
            text, kinds = text.replace(f"${len(kinds)}", f"${len(kinds) + 1}"), kinds[:-1] + "i" + kinds[-1]
        names = {"i": ("int", "int", "integer", "bigint"), "d": ("date",), "c": ("text",), "f": ("boolean", "bool")}
        declared = [numbers.of(names[kind]) for kind in kinds if numbers.chance(85)] if numbers.chance(35) else []
        if declared and numbers.chance(8):
            declared[numbers.below(len(declared))] = numbers.of(("text", "date", "bigint", "boolean", "nosuch"))
        if declared and numbers.chance(6):
            declared, kinds = declared + ["int"] * (len(kinds) + 1 - len(declared)), kinds + "i"
        if name not in self.prepared:
            self.prepared[name] = (text.split()[0], kinds)
        return f"PREPARE {name}{' (' + ', '.join(declared) + ')' if declared else ''} AS {text};"

    def argument(self, kind):
        numbers = self.numbers
        if numbers.chance(3):
            return numbers.of(ODD)
        if kind != "i":
            return numbers.of(VALUES[kind])
        value = str(numbers.of(self.keys) if numbers.chance(70) else numbers.below(24))
        return numbers.weighted((
            (value, 60), (f"'{value}'", 24), ("NULL", 6), (f"{numbers.below(10)} + {numbers.below(12)}", 5), (f"'0{value}'", 3),
        ))

    def execute(self):
        """Executes what the session has prepared, mostly; what it prepares is mostly executed at once."""
        numbers, name = self.numbers, self.numbers.of(("e1", "e2", "e3"))
        if numbers.chance(3):
            self.prepared.pop(name, None)
            return numbers.of((f"DEALLOCATE {name};", f"DEALLOCATE {name};", f"DEALLOCATE PREPARE {name};", "DEALLOCATE ALL;"))
        text = ""
        if name not in self.prepared and numbers.chance(96) or numbers.chance(3):
            text = self.prepare(name)
            if numbers.chance(25):
                return text
        word, kinds = self.prepared.get(name, ("SELECT", "i"))
        arguments = [self.argument(kind) for kind in kinds]
        if numbers.chance(3):
            arguments = arguments + ["1"] if numbers.chance(50) else arguments[1:]
        explain = self.explain() if numbers.chance((70 if self.kind == "analyzed" else 20) if word == "SELECT" else 2) else ""
        return f"{text} {explain}EXECUTE {name}{'(' + ', '.join(arguments) + ')' if arguments else ''};".strip()

    def chain(self):
        """Rows that stand against a new partition go, and then it is made: whoever sees them still is waited for."""
        numbers, width = self.numbers, 8 if self.parents["t"][0] == "LIST" else 10
        if "attach" not in self.weights or numbers.chance(30):
            low = width * (self.free or 0)
            return [f"DELETE FROM t WHERE a BETWEEN {low} AND {low + width - 1};",
                    f"CREATE TABLE {numbers.of(('n1', 'n2'))} PARTITION OF t {self.free_bound};"]
        name = numbers.of(("x", "y"))
        where = f" WHERE a = {numbers.of(self.keys)}" if numbers.chance(50) else ""
        return [f"DELETE FROM {name}{where};", f"ALTER TABLE t ATTACH PARTITION {name} {self.free_bound};"]

    # ---- sessions

    def steps(self, wanted):
        """The blocks of a session, in the order in which it runs them."""
        numbers, found, is_open = self.numbers, [], False
        self.prepared = {}
        if self.kind == "pairs":
            # (in each combination of the settings)
            chances = (("enable_partitionwise_join = on", 85), ("enable_hashjoin = off", 25), ("enable_partition_pruning = off", 25))
            settings = [f"SET {setting};" for setting, chance in chances if numbers.chance(chance)]
            found += [" ".join(settings)] * bool(settings)
        if (self.is_hashed or self.kind in ("generic", "analyzed", "sorted")) and numbers.chance(30 if self.is_hashed or self.kind == "sorted" else 80):
            found.append("SET plan_cache_mode = force_generic_plan;")
        while len(found) < wanted or is_open:
            begin = numbers.of(("BEGIN;", "BEGIN;", "BEGIN ISOLATION LEVEL REPEATABLE READ;"))
            if self.default_chance() and numbers.chance(50):
                # (a snapshot that is kept, and locks nothing that others want)
                begin = "BEGIN ISOLATION LEVEL REPEATABLE READ; SELECT 1;"
            if is_open and (len(found) >= wanted or numbers.chance(27)):
                found.append("ROLLBACK;" if numbers.chance(25) else "COMMIT;")
                is_open = False
            elif is_open:
                found.append(self.statement() + (" " + self.statement() if numbers.chance(30 if "cancel" in self.weights else 8) else ""))
            elif self.free_bound and self.default_chance() and numbers.chance(22):
                found += self.chain()
            elif "concurrently" in self.weights and numbers.chance(35):
                # (it stands alone, outside of a transaction)
                found.append(self.concurrently() if numbers.chance(80) else self.finalize())
            elif numbers.chance(80):
                is_open = True
                found.append(begin + (" " + self.statement() if numbers.chance(60) else ""))
            elif numbers.chance(6):
                found.append(f"{self.outside()} {begin} {self.statement()}")
                is_open = True
            else:
                found.append(self.outside() + (" " + self.statement() if numbers.chance(10) else ""))
        return found

    def steps_above(self, place):
        """One session changes rows and holds them, the next moves them, the next detaches the table above."""
        numbers, found = self.numbers, []
        for _ in range(2 + numbers.below(3)):
            if place == 0:
                found += [f"BEGIN; {self.update()}", "ROLLBACK;" if numbers.chance(40) else "COMMIT;"]
            elif place == 1 and numbers.chance(35):
                found += [f"BEGIN ISOLATION LEVEL REPEATABLE READ; {self.move()}", "ROLLBACK;" if numbers.chance(25) else "COMMIT;"]
            elif place == 1:
                found.append(self.move())
            else:
                found += [self.detach_above()] + [self.attach_again()] * numbers.chance(60)
        return found

    def marked(self, name, others, chance):
        """With markers by such a chance, mostly more than one."""
        numbers = self.numbers
        if not numbers.chance(chance) or not others:
            return name
        markers = [numbers.of(others) for _ in range(1 + numbers.below(4))]
        if numbers.chance(30):
            markers[numbers.below(len(markers))] = "*"
        return f"{name}({','.join(markers)})"

    def permutation(self, setup, sessions, goes_on):
        """The sessions' steps, each session's in their order, mixed. Where `goes_on`, a session that waits is mostly
        left waiting, as the rules tell; else a wait is often cancelled by the next step of its session."""
        numbers, left, uses, session = self.numbers, [list(steps) for steps in sessions], [], 0
        script = Script()
        script.setups, script.sessions = [" ".join(setup)], [Session(f"s{place + 1}") for place in range(len(sessions))]
        run = Permutation(script, [], lambda text: None, False)
        # (in some permutations nearly each step has markers)
        marks = 70 if numbers.chance(30) else 4
        if goes_on:
            run.begin()
        while any(left):
            if numbers.chance(65) or not left[session]:
                choices = [place for place, steps in enumerate(left) if steps]
                free = [place for place in choices if place + 1 not in run.running]
                session = numbers.of(free if free and numbers.chance(92) else choices)
            elif session + 1 in run.running and numbers.chance(92):
                session = numbers.of([place for place, steps in enumerate(left) if steps])
                continue
            name, block = left[session].pop(0)
            others = [name for place, steps in enumerate(sessions) if place != session for name, _ in steps]
            uses.append(self.marked(name, others, marks))
            if goes_on:
                run.launch(Use(Step(name, block, session + 1), False, []))
                run.settle()
        return uses


class Made:
    """Tables, the steps of each session as pairs of name and block, and permutations."""

    def __init__(self, kind, seed, ending):
        maker = Maker(kind, seed)
        maker.make_tables()
        self.setup = maker.setup
        self.sessions = []
        for place, letter in enumerate("abcde"[:(2 if kind != "above" else 3) + maker.numbers.below(4)]):
            if kind == "above" and (place < 3):
                blocks = maker.steps_above(place)
            else:
                blocks = maker.steps(3 + maker.numbers.below(7))
            self.sessions.append([(f"{letter}{number}{ending}", block) for number, block in enumerate(blocks, 1)])
        self.permutations = [maker.permutation(self.setup, self.sessions, place < 2) for place in range(3)]


LOOK = "SELECT tableoid::regclass, * FROM t; SELECT * FROM x;"


def script_of(made):
    """One script of several: the tables of each are made by a step of the session `maker`, and looked at in the end."""
    lines = []
    for place in range(5):
        lines.append(f"session s{place + 1}")
        steps = [step for one in made if place < len(one.sessions) for step in one.sessions[place]]
        lines += [f"step {name} {{ {block} }}" for name, block in steps or [(f"none{place}", "")]]
    lines += ["session z", f"step look {{ {LOOK} }}", "session maker"]
    for number, one in enumerate(made):
        lines += [f"step make{number} {{ " + "\n  ".join(one.setup) + " }"]
    for number, one in enumerate(made):
        lines += [f"permutation make{number} {' '.join(uses)} look" for uses in one.permutations]
    return "\n".join(lines) + "\n"


def alone(setup, sessions, uses):
    """A script of one permutation, of the steps that it uses or names."""
    named = {name for use in uses for name in re.findall(r"\w+", use)}
    lines = ["setup {\n  " + "\n  ".join(setup) + "\n}"]
    for place, steps in enumerate(sessions):
        lines.append(f"session s{place + 1}")
        kept = [step for step in steps if step[0] in named]
        lines += [f"step {name} {{ {block} }}" for name, block in kept or [(f"none{place}", "")]]
    lines += ["session z", f"step look {{ {LOOK} }}", "permutation " + " ".join(uses)]
    return "\n".join(lines) + "\n"
