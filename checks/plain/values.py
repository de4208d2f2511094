"""Values and expressions: kinds, operators, conditions of three values, and what they are refused with.

A value is None, an int, a str, a bool or a datetime.date.
"""
import datetime
import re


class Refusal(Exception):
    def __init__(self, code, text):
        super().__init__(code, text)
        self.code, self.text = code, text


KINDS = {
    "integer": "integer", "int": "integer", "int4": "integer", "bigint": "bigint", "int8": "bigint", "text": "text",
    "date": "date", "boolean": "boolean", "bool": "boolean",
}
NUMBERS = ("integer", "bigint")
SIZES = {"integer": 2**31, "bigint": 2**63}


def sized(number, kind):
    if not -SIZES[kind] <= number < SIZES[kind]:
        raise Refusal("22003", "number out of range")
    return number


def read_value(kind, text):
    if kind == "text":
        return text
    if kind in NUMBERS:
        if not re.fullmatch(r"[+-]?[0-9]+", text):
            raise Refusal("22P02", f"{text} is no {kind}")
        return sized(int(text), kind)
    if kind == "boolean":
        if text.lower() not in ("t", "f", "true", "false"):
            raise Refusal("22P02", f"{text} is no boolean")
        return text.lower() in ("t", "true")
    if not re.fullmatch(r"[0-9]{4}-[0-9]{2}-[0-9]{2}", text):
        raise Refusal("22007", f"{text} is no date")
    try:
        return datetime.date.fromisoformat(text)
    except ValueError:
        raise Refusal("22008", "date out of range") from None


def spelled(value):
    """As it is printed in a table, but for null."""
    if isinstance(value, bool):
        return "t" if value else "f"
    return str(value)


def in_parentheses(values):
    return "(" + ", ".join("null" if value is None else spelled(value) for value in values) + ")"


def ordered(value):
    """What orders values as partscript does: texts by their bytes."""
    return value.encode() if isinstance(value, str) else value


def assigned(value, kind, wanted):
    """A value of a kind for a column of the kind that is wanted; kinds were judged before."""
    if value is None or kind == wanted or wanted not in NUMBERS:
        return value
    return sized(value, wanted)


def judge_assignment(kind, wanted):
    if kind not in (None, wanted) and not (kind in NUMBERS and wanted in NUMBERS):
        raise Refusal("42804", f"{kind} where {wanted} is wanted")


# ---- expressions

class Bound:
    """An expression whose names and kinds were judged. `kind` is None for null, "literal" for a string
    whose place has given it no kind yet; `of` computes the value of a tuple: for each item of FROM a row, a list
    of values, and the leaf that it lies in (`lying`). A column is known by its item's number and its place, a table by
    its item's number, and a parameter by its own."""

    def __init__(self, kind, of, is_constant, text=None, item=None, place=None, table=None, param=None, read=None):
        self.kind, self.of, self.is_constant, self.text = kind, of, is_constant, text
        self.read = read            # (what the string of a literal is read as first)
        self.item, self.place, self.table, self.param = item, place, table, param


def lying(values, table):
    """A row of an item: its values, and the name of its table and that one's place among all that were made."""
    return values, table.name, table.number


class Test:
    """A condition that was judged: its word and its parts, and what decides it for a row."""

    def __init__(self, word, parts, decide):
        self.word, self.parts, self.decide = word, parts, decide

    def __call__(self, row):
        return self.decide(row)


class Scope:
    """The items of FROM that may be named: the number, the name and the columns of each, these as (name, kind) in
    the order of the row; the parameters, as (kind, value); and what expressions over no column have to be computed when the
    statement starts."""

    def __init__(self, items, user=None, calls=None, params=()):
        self.items, self.user, self.calls, self.params = items, user, calls, params
        self.constants, self.has_tables = [], False     # (`tableoid::regclass` has a place where that is set)
        self.is_in_condition, self.is_in_key = False, False     # (arithmetic over a column has none in WHERE and ON)

    def of_items(self, items):
        """The same, where these items alone may be named."""
        scope = Scope(items, self.user, self.calls, self.params)
        scope.constants = self.constants
        return scope

    def compute_constants(self):
        for compute in self.constants:
            compute()

    def constant(self, bound):
        if bound.is_constant:
            self.constants.append(lambda: bound.of(None))
        return bound

    def as_kind(self, bound, kind):
        """A string literal as a value of a kind that its place has given."""
        if bound.kind != "literal":
            return bound
        read = Bound(kind, lambda row: read_value(kind, bound.text), True)
        if bound.read:
            return self.constant(read)
        bound.read.append(read)
        return read

    def called(self, table):
        """The items of that name, all where none is written."""
        found = [item for item in self.items if table in (None, item[1])]
        if table is not None and not found:
            raise Refusal("42P01", f"no table {table}")
        return found

    def only(self, found, name):
        if len(found) > 1:
            raise Refusal("42702", f"column {name} is ambiguous")
        if not found:
            raise Refusal("42703", f"no column {name}")
        return found[0]

    def operand(self, written):
        """Judges an operand, whose string literal has no kind yet."""
        sort = written[0]
        if sort == "number":
            number = written[1]
            kind = "integer" if number < 2**31 else "bigint"

            def of_number(row):
                return sized(number, "bigint")
            bound = Bound(kind, of_number, True)
            return self.constant(bound) if number >= 2**63 else bound
        if sort == "string":
            # (it is read in its place among the constants, as soon as it has a kind)
            read = []
            self.constants.append(lambda: read and read[0].of(None))
            return Bound("literal", lambda row: written[1], True, written[1], read=read)
        if sort == "date":
            return self.constant(Bound("date", lambda row: read_value("date", written[1]), True))
        if sort == "null":
            return Bound(None, lambda row: None, True)
        if sort in ("true", "false"):
            return Bound("boolean", lambda row: sort == "true", True)
        if sort == "parameter":
            number = int(written[1][1:])
            if not 1 <= number <= len(self.params):
                raise Refusal("42P02", f"no parameter {number}")
            kind, value = self.params[number - 1]
            return Bound(kind, lambda row: value, True, param=number)
        if sort == "column":
            found = [
                (number, [column for column, _ in columns].index(written[2]), dict(columns)[written[2]])
                for number, _, columns in self.called(written[1]) if written[2] in dict(columns)
            ]
            item, place, kind = self.only(found, written[2])
            return Bound(kind, lambda row: row[item][0][place], False, item=item, place=place)
        if sort == "regclass":
            if not self.has_tables:
                raise Refusal("0A000", ":: is not in this profile")
            number = self.only(self.called(written[1]), "tableoid")[0]
            return Bound("text", lambda row: row[number][1], False, table=number)
        if sort == "arithmetic":
            return self.arithmetic(written)
        if sort == "call":
            return self.call(written)
        if sort == "row":
            return self.operand(written[1])
        # (an operator of conditions, of which the parts are judged first)
        for part in parts_of(written):
            self.operand(part)
        words = {"compare": lambda: written[1], "is null": lambda: "IS", "in": lambda: "IN", "between": lambda: "BETWEEN"}
        raise Refusal("0A000", f"{words.get(sort, sort.upper)()} is not in this profile")

    def call(self, written):
        if written[2] == ["*"]:
            # (which fits count alone)
            name = written[1]
            raise Refusal("0A000", "count is not in this profile") if name == "count" else Refusal("42883", f"no function {name}")
        name, arguments = written[1], [self.operand(argument) for argument in written[2]]
        if name in ("count", "sum", "min", "max"):
            raise Refusal("0A000", f"{name} is not in this profile")
        if self.calls is None and name in ("pg_backend_pid", "pg_cancel_backend"):
            raise Refusal("0A000", f"{name} is not in this profile")
        if name == "pg_backend_pid" and not arguments:
            return Bound("integer", lambda row: self.user, False)
        if name == "pg_cancel_backend" and len(arguments) == 1 and arguments[0].kind in ("integer", None, "literal"):
            number, cancel = self.as_kind(arguments[0], "integer"), self.calls
            return Bound("boolean", lambda row: None if number.of(row) is None else cancel(number.of(row)), False)
        raise Refusal("42883", f"no function {name}")

    def arithmetic(self, written):
        sign, left, right = written[1], self.operand(written[2]), self.operand(written[3])
        # (what has no place is not asked for its kinds)
        if self.is_in_condition and not (left.is_constant and right.is_constant):
            raise Refusal("0A000", f"{sign} is not in this profile")
        left, right = self.kinds_of_arithmetic(sign, left, right)
        kinds = (left.kind, right.kind)
        kind = self.kind_of_arithmetic(sign, *kinds)

        def compute(row):
            x, y = left.of(row), right.of(row)
            if x is None or y is None:
                return None
            if sign in "/%" and y == 0:
                raise Refusal("22012", "division by zero")
            if sign == "+" and "date" in kinds:
                return moved(x, y) if kinds[0] == "date" else moved(y, x)
            if sign == "-" and kinds[0] == "date":
                return (x - y).days if kinds[1] == "date" else moved(x, -y)
            number = {"+": lambda: x + y, "-": lambda: x - y, "*": lambda: x * y}.get(sign)
            if number:
                return sized(number(), kind)
            quotient = abs(x) // abs(y) * (1 if (x < 0) == (y < 0) else -1)
            return sized(quotient, kind) if sign == "/" else x - quotient * y
        return self.constant(Bound(kind, compute, left.is_constant and right.is_constant))

    def kinds_of_arithmetic(self, sign, left, right):
        def fits(kind):
            return kind in NUMBERS or kind == "date" and sign == "-"
        if left.kind == "literal":
            left = self.as_kind(left, right.kind if right.kind != "literal" and fits(right.kind) else "text")
        if right.kind == "literal":
            right = self.as_kind(right, left.kind if fits(left.kind) else "text")
        return left, right

    def kind_of_arithmetic(self, sign, left, right):
        known = [kind for kind in (left, right) if kind is not None]
        if known and all(kind in NUMBERS for kind in known):
            return "bigint" if "bigint" in known else "integer"
        pairs = {("+", "date", "integer"), ("+", "integer", "date"), ("-", "date", "integer"), ("+", "date", None),
                 ("+", None, "date"), ("-", "date", None)}
        if (sign, left, right) in pairs:
            return "date"
        if sign == "-" and right == "date" and left in ("date", None):
            return "integer"
        raise Refusal("42883", f"no operator {left or 'text'} {sign} {right or 'text'}")

    def value(self, written, kind=None):
        """An operand at a place that gives a kind to a string literal, text where it gives none."""
        return self.as_kind(self.operand(written), kind or "text")

    # ---- conditions: True, False or None

    def condition(self, written):
        sort = written[0]
        if sort == "row":
            return self.condition(written[1])
        if sort in ("and", "or"):
            parts = [self.condition(part) for part in written[1]]
            return several(sort, parts)
        if sort == "not":
            return opposite(self.condition(written[1]))
        if sort == "is null":
            tested = self.in_condition(written[1])
            if tested.kind == "literal":
                tested = self.as_kind(tested, "text")
            is_null = Test("null", [tested], lambda row: tested.of(row) is None)
            return opposite(is_null) if written[2] else is_null
        if sort == "compare":
            return self.comparison(written[1], self.in_condition(written[2]), self.in_condition(written[3]))
        if sort == "in":
            tested, sign = self.in_condition(written[1]), "<>" if written[3] else "="
            parts = [self.comparison(sign, tested, self.in_condition(value)) for value in written[2]]
            return several("and" if written[3] else "or", parts)
        if sort == "between":
            tested, signs = self.in_condition(written[1]), ("<", ">") if written[4] else (">=", "<=")
            # (the first comparison is judged before the upper end)
            parts = [self.comparison(sign, tested, self.in_condition(end)) for sign, end in zip(signs, written[2:4])]
            return several("or" if written[4] else "and", parts)
        bound = self.in_condition(written)
        if bound.kind != "boolean":
            kind = "text" if bound.kind in ("literal", None) else bound.kind
            raise Refusal("42804", f"{kind} where boolean is wanted")
        if bound.is_constant and bound.param is None:
            return Test("known", [bound], bound.of)
        return self.comparison("=", bound, Bound("boolean", lambda row: True, True))

    def in_condition(self, written):
        if self.is_in_key:
            return self.operand(written)
        outer, self.is_in_condition = self.is_in_condition, True
        try:
            return self.operand(written)
        finally:
            self.is_in_condition = outer

    def comparison(self, sign, left, right):
        if left.kind == "literal":
            left = self.as_kind(left, right.kind if right.kind not in ("literal", None) else "text")
        if right.kind == "literal":
            right = self.as_kind(right, left.kind or "text")
        kinds = {left.kind, right.kind} - {None}
        if len(kinds) == 2 and not kinds <= set(NUMBERS):
            raise Refusal("42883", f"no operator {left.kind} {sign} {right.kind}")

        def decide(row):
            x, y = ordered(left.of(row)), ordered(right.of(row))
            if x is None or y is None:
                return None
            return {"=": x == y, "<>": x != y, "<": x < y, "<=": x <= y, ">": x > y, ">=": x >= y}[sign]
        return Test("compare", [sign, left, right], decide)


def parts_of(written):
    """The parts of an operator of conditions, in text order."""
    if written[0] == "compare":
        return written[2:4]
    if written[0] == "in":
        return [written[1], *written[2]]
    if written[0] == "between":
        return written[1:4]
    return written[1] if written[0] in ("and", "or") else written[1:2]


def several(word, parts):
    return Test(word, parts, lambda row: joined(word, [part(row) for part in parts]))


def opposite(part):
    return Test("not", [part], lambda row: {True: False, False: True}.get(part(row)))


def moved(day, days):
    try:
        return day + datetime.timedelta(days=days)
    except OverflowError:
        raise Refusal("22008", "date out of range") from None


def joined(word, parts):
    """The least or the greatest of truth values, with False below None below True."""
    ranks = [1 if part is None else 2 * part for part in parts]
    return (False, None, True)[min(ranks) if word == "and" else max(ranks)]


# ---- tables as they are printed

def table_text(names, kinds, rows):
    cells = [["" if value is None else spelled(value) for value in row] for row in rows]
    widths = [max(len(text) for text in [name] + [row[place] for row in cells]) for place, name in enumerate(names)]

    def line(texts, is_heading, values):
        out = []
        for place, text in enumerate(texts):
            is_last = place == len(texts) - 1
            if is_last and not is_heading and values[place] is None:
                out.append("")
            elif kinds[place] in NUMBERS:
                out.append(text.rjust(widths[place]))
            else:
                out.append(text if is_last else text.ljust(widths[place]))
        return "|".join(out) + "\n"
    text = line(names, True, names) + "+".join("-" * width for width in widths) + "\n"
    text += "".join(line(texts, False, row) for texts, row in zip(cells, rows))
    return text + ("(1 row)\n\n" if len(rows) == 1 else f"({len(rows)} rows)\n\n")
