"""The parameters of a prepared statement: how many there are, and the kinds that their places give."""
from values import Refusal, Scope


class Item:
    """A table that a statement names, as its expressions name it. What is not there has no columns."""

    def __init__(self, name, columns):
        self.name, self.columns = name, columns

    def kind_of(self, column):
        return dict(self.columns).get(column)


def greatest(written):
    """The greatest number of a parameter in what is written, 0 where there is none."""
    if isinstance(written, list):
        return max(map(greatest, written), default=0)
    if not isinstance(written, tuple):
        return 0
    if written[0] == "parameter":
        return int(written[1][1:])
    return max(map(greatest, written[1:]), default=0)


def count(statement):
    """The greatest number of a parameter in a statement."""
    return max((greatest(written) for written, _, _ in parts(statement, [])), default=0)


def parts(statement, items):
    """The expressions of a statement in the order of the text, each with the items that it may name, and the kind that
    its place has."""
    if statement.word == "SELECT":
        for item, _ in statement.items:
            if item[0] != "*":
                yield item, items, None
        first = 0
        for number, (_, _, on) in enumerate(statement.tables):
            if on is None:
                # (a comma begins anew)
                first = number
            else:
                yield on, items[first:number + 1], None
        if statement.where:
            yield statement.where, items, None
        for key, _, _ in statement.keys:
            yield key, items, None
        for written in (statement.limit, statement.offset):
            if written:
                yield written, [], "bigint"
    elif statement.word == "INSERT":
        table = items[0] if items else Item("", [])
        # (without a list the columns are the table's first ones)
        kinds = [kind for _, kind in table.columns][:len(statement.rows[0])]
        if statement.columns is not None:
            kinds = [table.kind_of(name) for name in statement.columns]
        for row in statement.rows:
            for place, written in enumerate(row):
                yield written, [], kinds[place] if place < len(kinds) else None
    else:
        for name, written in statement.changes if statement.word == "UPDATE" else []:
            yield written, items, items[0].kind_of(name) if items else None
        if statement.where:
            yield statement.where, items, None


class Places:
    """The kinds of operands among some items, where each parameter has a kind, or is a string ("literal") or null (None)."""

    def __init__(self, items, given):
        self.items, self.given = items, given

    def kind(self, written):
        """As Scope has it, and None where an operand has a fault."""
        sort = written[0]
        if sort == "parameter":
            number = int(written[1][1:])
            return self.given[number - 1] if 1 <= number <= len(self.given) else None
        if sort == "number":
            return "integer" if written[1] < 2**31 else "bigint"
        if sort in ("string", "date", "true", "false"):
            return {"string": "literal", "date": "date"}.get(sort, "boolean")
        if sort == "column":
            found = [item.kind_of(written[2]) for item in self.items if written[1] in (None, item.name)]
            found = [kind for kind in found if kind]
            return found[0] if len(found) == 1 else None
        if sort == "regclass":
            return "text"
        if sort == "call":
            return {"pg_backend_pid": "integer", "pg_cancel_backend": "boolean"}.get(written[1])
        if sort == "arithmetic":
            return self.sum_of(written[1], self.kind(written[2]), self.kind(written[3]))
        return None

    def sum_of(self, sign, left, right):
        """What arithmetic makes of two kinds, None where there is no such operator."""
        sides = [self.beside(sign, kind, other) for kind, other in ((left, right), (right, left))]
        try:
            return Scope([]).kind_of_arithmetic(sign, *sides)
        except Refusal:
            return None

    def beside(self, sign, kind, other):
        return kind if kind != "literal" else self.place(sign, other) or "text"

    def place(self, sign, kind):
        """The kind that a place beside an operand of a kind has: where arithmetic is listed for two of that kind."""
        if kind == "literal" or kind is None:
            return None
        is_listed = kind in ("integer", "bigint") or kind == "date" and sign == "-"
        return kind if is_listed or sign not in "+-*/%" else None

    def first(self, written):
        """The first kind that one of some operands has by itself."""
        return next((kind for kind in map(self.kind, written) if kind not in ("literal", None)), None)

    def find(self, written, kind=None):
        """The parameters in what stands at a place of a kind, in the order of the text, with the kinds of their places."""
        sort = written[0]
        if sort == "parameter":
            if kind:
                yield int(written[1][1:]), kind
        elif sort in ("arithmetic", "compare"):
            sign, left, right = written[1:]
            yield from self.find(left, self.place(sign, self.kind(right)))
            yield from self.find(right, self.place(sign, self.kind(left)))
        elif sort in ("in", "between"):
            ends = written[2] if sort == "in" else written[2:4]
            yield from self.find(written[1], self.first(ends))
            for end in ends:
                yield from self.find(end, self.first([written[1]]))
        elif sort == "call" and written[2] != ["*"]:
            for argument in written[2]:
                yield from self.find(argument, "integer" if written[1] == "pg_cancel_backend" else None)
        elif sort in ("is null", "not", "row"):
            yield from self.find(written[1])
        elif sort in ("and", "or"):
            for part in written[1]:
                yield from self.find(part)


def kinds_of_places(statement, items, given):
    """For each parameter the kind of the first of its places that has one, else None."""
    found = {}
    for written, named, kind in parts(statement, items):
        for number, its in Places(named, given).find(written, kind):
            found.setdefault(number, its)
    return [found.get(number + 1) for number in range(len(given))]
