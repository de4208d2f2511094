"""Bounds of partitions: what they accept, when they overlap, how they stand in order, what they are refused with."""
import datetime

from values import NUMBERS, Refusal, Scope, assigned, judge_assignment, ordered, read_value

LEAST, GREATEST = (0,), (2,)


def entry(value):
    return (1, ordered(value))


class Level:
    """A strategy and key columns, as places in a row."""

    def __init__(self, strategy, places, kinds):
        self.strategy, self.places, self.kinds = strategy, places, kinds

    def key(self, row):
        return [row[place] for place in self.places]

    def is_as(self, other):
        return (self.strategy, self.places, self.kinds) == (other.strategy, other.places, other.kinds)


def are_equal(bound, other):
    """Whether two bounds are equal: lists have the same values, in whatever order."""
    def told(bound):
        return {name: set(of) if name == "values" else of for name, of in vars(bound).items()}
    return type(bound) is type(other) and told(bound) == told(other)


class Range:
    def __init__(self, low, high):
        self.low, self.high = low, high

    def accepts(self, key):
        return None not in key and self.low <= [entry(value) for value in key] + [LEAST] < self.high

    def overlaps(self, other):
        return isinstance(other, Range) and max(self.low, other.low) < min(self.high, other.high)

    def lies_in(self, other):
        return isinstance(other, Range) and other.low <= self.low and self.high <= other.high

    def order(self):
        return (0, self.low)


class Listed:
    def __init__(self, values):
        self.values = values

    def accepts(self, key):
        return key[0] in self.values

    def overlaps(self, other):
        return isinstance(other, Listed) and any(value in other.values for value in self.values)

    def lies_in(self, other):
        return isinstance(other, Listed) and all(value in other.values for value in self.values)

    def order(self):
        known = [ordered(value) for value in self.values if value is not None]
        return (0, min(known)) if known else (1,)


class Hashed:
    def __init__(self, modulus, remainder):
        self.modulus, self.remainder = modulus, remainder

    def accepts(self, key):
        return key_hash(key) % self.modulus == self.remainder

    def overlaps(self, other):
        least = min(self.modulus, other.modulus)
        return self.remainder % least == other.remainder % least

    def lies_in(self, other):
        return isinstance(other, Hashed) and self.modulus % other.modulus == 0 and self.remainder % other.modulus == other.remainder

    def order(self):
        return (0, self.modulus, self.remainder)


class Default:
    def overlaps(self, other):
        return isinstance(other, Default)

    def order(self):
        return (2,)


def accepts(bounds, bound, key):
    """Whether a bound accepts a key among all the bounds of its level."""
    if isinstance(bound, Default):
        return not any(other.accepts(key) for other in bounds if not isinstance(other, Default))
    return bound.accepts(key)


# ---- the hash of a key

def key_hash(key):
    acc = 0
    for value in key:
        if value is not None:
            acc ^= (value_hash(value) + 0x49A0F4DD15E5A8E3 + (acc << 54) + (acc >> 7)) % 2**64
    return acc


def value_hash(value):
    if isinstance(value, str):
        data = value.encode()
    else:
        number = (value - datetime.date(1970, 1, 1)).days if isinstance(value, datetime.date) else int(value)
        data = (number % 2**64).to_bytes(8, "little")
    length = len(data)
    data += bytes(-length % 4)
    words = [int.from_bytes(data[at:at + 4], "little") for at in range(0, len(data), 4)]
    a = b = c = (0x9E3779B9 + length + 3923095) % 2**32
    a, b, c = mixed((a + 0x7A5B2236) % 2**32, (b + 0x7996DCFD) % 2**32, c)
    words += [0] * (-len(words) % 3)
    for at in range(0, len(words), 3):
        a, b, c = ((part + word) % 2**32 for part, word in zip((a, b, c), words[at:at + 3]))
        if at + 3 < len(words):
            a, b, c = mixed(a, b, c)
    a, b, c = finished(a, b, c)
    return b << 32 | c


def turned(x, k):
    return (x << k | x >> (32 - k)) % 2**32


def mixed(a, b, c):
    for k in (4, 6, 8, 16, 19, 4):
        a = (a - c) % 2**32 ^ turned(c, k)
        c = (c + b) % 2**32
        a, b, c = b, c, a
    # (each round renames: after six of them the names stand as they stood)
    return a, b, c


def finished(a, b, c):
    def less(x, y, k):
        return ((x ^ y) - turned(y, k)) % 2**32
    c = less(c, b, 14)
    a = less(a, c, 11)
    b = less(b, a, 25)
    c = less(c, b, 16)
    a = less(a, c, 4)
    b = less(b, a, 14)
    c = less(c, b, 24)
    return a, b, c


# ---- a bound as it is written

class Constants(Scope):
    """Where neither a column nor a parameter has a place."""

    def operand(self, written):
        if written[0] in ("column", "parameter"):
            raise Refusal("0A000", f"{written[-1]} is not in this profile")
        return super().operand(written)


def bound_value(written, kind):
    if written[0] == "string":
        return read_value(kind, written[1])
    scope = Constants([])
    bound = scope.value(written)
    judge_kind = bound.kind
    scope.compute_constants()
    judge_assignment(judge_kind, kind)
    return assigned(bound.of(None), judge_kind, kind)


def check_bound(level, written):
    """The bound that is meant."""
    form, strategy = written.form, level.strategy
    if form == "DEFAULT":
        if strategy == "HASH":
            raise Refusal("42P16", "a hash table has no default")
        return Default()
    if form != strategy:
        raise Refusal("42P16", f"the bound does not suit {strategy}")
    if form == "HASH":
        if not (0 < written.first < 2**31 and written.second < written.first):
            raise Refusal("42P16", "bad modulus or remainder")
        return Hashed(written.first, written.second)
    if form == "LIST":
        values = []
        for value in [bound_value(value, level.kinds[0]) for value in written.first]:
            if value not in values:
                values.append(value)
        return Listed(values)
    ends = (written.first, written.second)
    for end in ends:
        if len(end) != len(level.kinds):
            raise Refusal("42P16", f"the bound has {len(end)} values for {len(level.kinds)}")
    words = {"minvalue": LEAST, "maxvalue": GREATEST}
    points = []
    for end in ends:
        points.append([
            words[edge[0]] if edge[0] in words else bound_value(edge, kind) for edge, kind in zip(end, level.kinds)
        ])
    if any(value is None for point in points for value in point):
        raise Refusal("42P16", "null in a range bound")
    for point in points:
        for before, after in zip(point, point[1:]):
            if before in (LEAST, GREATEST) and after != before:
                raise Refusal("42P16", f"{'MINVALUE' if before == LEAST else 'MAXVALUE'} must be repeated")
    low, high = ([at if at in (LEAST, GREATEST) else entry(at) for at in point] + [LEAST] for point in points)
    if not low < high:
        raise Refusal("42P17", "empty range")
    return Range(low, high)
