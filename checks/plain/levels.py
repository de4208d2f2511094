"""Makes scripts of levels of partitions: keys of all kinds, bounds, rows, and conditions that are nested up to the limit. Each
permutation has a table of its own: its partitions are made and its rows inserted one by one, and for each condition its plan
is told and its rows are selected; where it is asked for, also as a prepared statement with parameters in the places of its values,
whose plan is a custom one or a generic one."""
import re

from making import Numbers

KINDS = ("integer", "bigint", "text", "date", "boolean")
SIGNS = ("=", "=", "=", "<", "<=", ">", ">=", "<>", "!=")
MOST_DEPTH = 200
# The values of each kind in their order, as they are written.
VALUES = {
    "integer": ["-7", "0", "1", "2", "3", "8", "20"],
    "bigint": ["-5000000000", "-7", "0", "2", "3", "9", "5000000000"],
    "text": ["''", "'a'", "'aa'", "'b'", "'ba'", "'x''y'", "'é'"],
    "date": [f"DATE '{day}'" for day in ("1969-12-31", "1970-01-01", "2000-02-29", "2024-01-01", "2024-01-02", "9999-12-31")],
    "boolean": ["FALSE", "TRUE"],
}


class Level:
    """A table by the name t with its partitions, its rows, and conditions over them."""

    def __init__(self, seed, modes=()):
        self.numbers, self.modes = Numbers(seed), modes
        numbers = self.numbers
        self.strategy = numbers.of(("RANGE", "RANGE", "RANGE", "LIST", "LIST", "HASH"))
        count = 1 if self.strategy == "LIST" else numbers.of((1, 1, 2, 2, 3))
        kinds = [numbers.of(KINDS) for _ in range(count + 1 + numbers.below(2))]
        self.columns = list(zip("abcde", kinds))
        self.keys = [self.columns[place] for place in range(count)]
        if numbers.chance(30):
            self.keys.reverse()
        columns = ", ".join(f"{name} {kind}" for name, kind in self.columns)
        self.tables = [f"CREATE TABLE t ({columns}) PARTITION BY {self.strategy} ({', '.join(name for name, _ in self.keys)});"]
        for place, bound in enumerate(self.bounds(self.strategy, self.keys)):
            below = self.columns[-1] if numbers.chance(15) else None
            by = f" PARTITION BY {numbers.of(('RANGE', 'LIST'))} ({below[0]})" if below else ""
            self.tables.append(f"CREATE TABLE p{place} PARTITION OF t {bound}{by};")
            if below:
                for inner, one in enumerate(self.bounds(by.split()[2], [below])):
                    self.tables.append(f"CREATE TABLE p{place}_{inner} PARTITION OF p{place} {one};")
        self.rows = [f"INSERT INTO t VALUES ({', '.join(self.value(kind, 8) for _, kind in self.columns)});" for _ in range(4 + numbers.below(5))]
        self.conditions = [self.condition() for _ in range(3 + numbers.below(3))]

    # ---- partitions

    def value(self, kind, nulls=0):
        """As it is written: a literal of the kind, or now and then a string that becomes one."""
        numbers = self.numbers
        if numbers.chance(nulls):
            return "NULL"
        text = numbers.of(VALUES[kind])
        if kind in ("integer", "bigint", "boolean") and numbers.chance(12):
            return f"'{text.lower()}'"
        return text[5:] if kind == "date" and numbers.chance(30) else text

    def point(self, keys):
        """A place of each key column among its values, -1 for MINVALUE and 99 for MAXVALUE."""
        numbers, places = self.numbers, []
        for _, kind in keys:
            last = numbers.of((-1, 99)) if numbers.chance(9) else None
            if last is not None:
                return places + [last] * (len(keys) - len(places))
            places.append(numbers.below(len(VALUES[kind])))
        return places

    def edges(self, keys, point):
        return ", ".join({-1: "MINVALUE", 99: "MAXVALUE"}.get(place) or VALUES[kind][place] for (_, kind), place in zip(keys, point))

    def bounds(self, strategy, keys):
        """Most fit beside one another."""
        numbers, found = self.numbers, []
        if strategy == "RANGE":
            points = sorted(self.point(keys) for _ in range(2 + numbers.below(5)))
            for low, high in zip(points, points[1:]):
                if numbers.chance(6):
                    low, high = self.point(keys), self.point(keys)
                if low != high and numbers.chance(85):
                    found.append(f"FOR VALUES FROM ({self.edges(keys, low)}) TO ({self.edges(keys, high)})")
        elif strategy == "LIST":
            lists = [[] for _ in range(1 + numbers.below(3))]
            for text in VALUES[keys[0][1]] + ["NULL"]:
                if numbers.chance(75):
                    numbers.of(lists).append(text)
            found = [f"FOR VALUES IN ({', '.join(texts)})" for texts in lists if texts]
        else:
            pairs = numbers.of((((2, 0), (2, 1)), ((2, 1), (4, 0), (4, 2)), ((3, 0), (3, 1), (6, 2), (6, 5)), ((2, 0), (4, 1))))
            found = [f"FOR VALUES WITH (MODULUS {m}, REMAINDER {r})" for m, r in pairs if numbers.chance(92)]
        if numbers.chance(5):
            found.append(numbers.of(found or ["DEFAULT"]))
        if strategy != "HASH" and numbers.chance(55):
            found.insert(numbers.below(len(found) + 1), "DEFAULT")
        return found

    # ---- conditions: a text, its depth, and how loosely it holds together (0 an OR, 1 an AND, 2 a NOT, 3 what is tighter)

    def operand(self, kind):
        """A value, and its depth."""
        numbers = self.numbers
        if kind in ("integer", "bigint") and numbers.chance(8):
            return f"{numbers.below(5)} {numbers.of('+-*')} {numbers.below(5)}", 1
        text = self.value(kind, 4)
        return text, 1 if text.startswith("-") else 0

    def comparison(self, name, kind, sign):
        numbers = self.numbers
        value, depth = self.operand(kind)
        alike = [other for other, other_kind in self.columns if other != name and other_kind == kind]
        if alike and numbers.chance(10):
            value, depth = numbers.of(alike), 0
        return (f"{name} {sign} {value}" if numbers.chance(85) else f"{value} {sign} {name}"), depth + 1, 3

    def atom(self):
        numbers = self.numbers
        name, kind = numbers.of(self.keys) if numbers.chance(80) else numbers.of(self.columns)
        form = numbers.weighted((("compare", 60), ("null", 10), ("in", 10), ("between", 9), ("alone", 7), ("constant", 4)))
        if form == "null":
            return f"{name} IS {numbers.of(('', 'NOT '))}NULL", 1, 3
        if form == "in":
            values = [self.operand(kind) for _ in range(1 + numbers.below(3))]
            return f"{name} {numbers.of(('', '', 'NOT '))}IN ({', '.join(text for text, _ in values)})", 1 + max(depth for _, depth in values), 3
        if form == "between":
            (low, one), (high, two) = self.operand(kind), self.operand(kind)
            return f"{name} {numbers.of(('', '', 'NOT '))}BETWEEN {low} AND {high}", 1 + max(one, two), 3
        if form == "alone" and kind == "boolean":
            return name, 0, 3
        if form == "constant":
            return numbers.of(("TRUE", "FALSE", "1 = 2", "2 > 1", "NULL = 1", "'a' < 'b'")), 1, 3
        return self.comparison(name, kind, numbers.of(SIGNS))

    def grouped(self, part, level):
        """In parentheses where it holds together more loosely, and now and then elsewhere."""
        text, depth, own = part
        return (text, depth, own) if own > level and self.numbers.chance(90) else (f"({text})", depth + 1, 3)

    def row_of(self, word, parts):
        level = ("OR", "AND").index(word)
        parts = [self.grouped(part, level) for part in parts]
        return f" {word} ".join(text for text, _, _ in parts), 1 + max(depth for _, depth, _ in parts), level

    def opposite(self, part):
        text, depth, _ = self.grouped(part, 2)
        return f"NOT {text}", depth + 1, 2

    def by_key(self):
        """Equalities on the first key columns, and mostly a comparison behind them."""
        numbers = self.numbers
        count = numbers.below(len(self.keys) + 1)
        parts = [self.comparison(name, kind, "=") for name, kind in self.keys[:count]]
        if numbers.chance(60) and count < len(self.keys):
            parts.append(self.comparison(*self.keys[count], numbers.of(SIGNS)))
        if numbers.chance(25) or not parts:
            parts.append(self.atom())
        if numbers.chance(30):
            parts.reverse()
        return parts[0] if len(parts) == 1 else self.row_of("AND", parts)

    def some(self, size):
        numbers = self.numbers
        if size <= 1:
            return self.atom() if numbers.chance(60) else self.by_key()
        form = numbers.of(("and", "and", "or", "not"))
        if form == "not":
            return self.opposite(self.some(size - 1))
        return self.row_of(form.upper(), [self.some(size // 2) for _ in range(2 + numbers.below(2))])

    def condition(self):
        """Some are as deep as a condition may be."""
        numbers = self.numbers
        found = self.some(numbers.of((1, 1, 2, 2, 3, 5)))
        if numbers.chance(4):
            while found[1] + 3 <= MOST_DEPTH:
                form = numbers.of(("and", "or", "not"))
                found = self.opposite(found) if form == "not" else self.row_of(form.upper(), [found, self.atom()])
            while found[1] < MOST_DEPTH:
                found = f"({found[0]})", found[1] + 1, 3
        return found[0]

    # ---- steps

    def blocks(self):
        """What is run, block by block."""
        for text in self.tables + self.rows:
            yield text
        for place, condition in enumerate(self.conditions):
            select = f"SELECT tableoid::regclass, * FROM t WHERE {condition};"
            yield f"EXPLAIN {select} {select}"
            if self.modes:
                written, values = with_parameters(select)
                yield f"PREPARE e{place} AS {written}"
                for mode in self.modes:
                    execute = f"EXECUTE e{place}{'(' + ', '.join(values) + ')' if values else ''};"
                    yield f"SET plan_cache_mode = {mode}; EXPLAIN {execute} {execute}"
            if place == 0:
                yield f"SET enable_partition_pruning = off; {select} RESET enable_partition_pruning;"


def with_parameters(text):
    """A statement with parameters in the places of its values, and these."""
    values = []

    def put(value):
        values.append(value[0])
        return f"${len(values)}"
    # (a number behind a minus, too; not the NULL of IS NULL)
    sign = r"DATE '[^']*'|'(?:[^']|'')*'|(?<![\w$])\d+(?!\w)|(?<!IS )(?<!IS NOT )\b(?:NULL|TRUE|FALSE)\b"
    return re.sub(sign, put, text), values


def script_of(levels):
    """One script with a permutation for each level."""
    steps = [[f"l{number}x{place}" for place, _ in enumerate(level.blocks())] for number, level in enumerate(levels)]
    lines = ["session s1"]
    for names, level in zip(steps, levels):
        lines += [f"step {name} {{ {block} }}" for name, block in zip(names, level.blocks())]
    lines += ["permutation " + " ".join(names) for names in steps]
    return "\n".join(lines) + "\n"
