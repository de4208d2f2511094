"""Reads the SQL of a block: a part of what partscript reads, as plain tuples and objects."""
import functools
import re

from grammar import judge_block
from script import NotRead

RESERVED = set(
    """all analyze and as asc case cast check collate constraint create cross default desc distinct do except false
    fetch for foreign from full grant group having ilike in inner intersect into is join left like limit natural not
    null offset on only or order outer primary references returning right select similar table tablesample to true
    union unique using where window with""".split()
)
TOKEN = re.compile(
    r"[ \t\n\r\f\v]+|--[^\n\r]*|(?P<word>[A-Za-z_\x80-\U0010ffff][A-Za-z0-9_$\x80-\U0010ffff]*)"
    r'|(?P<quoted>"(?:[^"]|"")+"(?!"))|(?P<string>\'(?:[^\']|\'\')*\'(?!\'))|(?P<number>[0-9]+)|(?P<parameter>\$[0-9]+)'
    r"|(?P<sign>::|<>|!=|<=|>=|[-+*/%=<>(),.;])"
)
LEVELS = ("READ COMMITTED", "READ UNCOMMITTED", "REPEATABLE READ")


class Statement:
    """A statement: its first word and what it is made of; the parameters that it is executed with, each with its kind and its
    value; and whether it is run to be explained."""
    params, analyzes = (), False

    def __init__(self, word, **parts):
        self.word = word
        self.__dict__.update(parts)


class Bound:
    """A bound as it is written: `form` is RANGE, LIST, HASH or DEFAULT."""

    def __init__(self, form, first=None, second=None):
        self.form, self.first, self.second = form, first, second


def fold(word):
    return "".join(c.lower() if c.isascii() else c for c in word)


def behind_comment(text, at):
    depth, at = 1, at + 2
    while depth:
        sign = text[at:at + 2]
        if len(sign) < 2:
            raise NotRead("a comment without an end")
        depth += {"/*": 1, "*/": -1}.get(sign, 0)
        at += 2 if sign in ("/*", "*/") else 1
    return at


def tokens(text):
    found, at = [], 0
    while at < len(text):
        if text.startswith("/*", at):
            at = behind_comment(text, at)
            continue
        token = TOKEN.match(text, at)
        if not token:
            raise NotRead(f"a token of SQL at {at}")
        kind, said = token.lastgroup, token[0]
        if kind in ("number", "word") and at > 0 and text[at - 1].isdigit() and found and found[-1][2] == at:
            raise NotRead("a number that runs into a name")
        at = token.end()
        if kind == "word":
            found.append(("word", fold(said), at))
        elif kind == "quoted":
            found.append(("quoted", said[1:-1].replace('""', '"'), at))
        elif kind == "string":
            found.append(("string", said[1:-1].replace("''", "'"), at))
        elif kind == "number":
            found.append(("number", int(said), at))
        elif kind == "parameter":
            found.append(("parameter", said, at))
        elif kind == "sign":
            found.append(("sign", "<>" if said == "!=" else said, at))
    return found


class Reader:
    def __init__(self, text):
        self.tokens, self.at = tokens(text), 0

    def peek(self, ahead=0):
        place = self.at + ahead
        return self.tokens[place][:2] if place < len(self.tokens) else ("end", None)

    def took(self, *words):
        """Takes these words or signs, if all of them follow."""
        for ahead, word in enumerate(words):
            kind, said = self.peek(ahead)
            if kind not in ("word", "sign") or said != word.lower():
                return False
        self.at += len(words)
        return True

    def take(self, *words):
        if not self.took(*words):
            raise NotRead(f"{' '.join(words)} before {self.peek()[1]}")

    def name(self):
        kind, said = self.peek()
        if kind == "quoted" or kind == "word" and said not in RESERVED:
            self.at += 1
            return said
        raise NotRead(f"a name before {said}")

    def is_name(self, ahead=0):
        kind, said = self.peek(ahead)
        return kind == "quoted" or kind == "word" and said not in RESERVED

    def list_of(self, part):
        found = [part()]
        while self.took(","):
            found.append(part())
        return found

    def in_parentheses(self, part):
        self.take("(")
        found = self.list_of(part)
        self.take(")")
        return found

    def number(self):
        kind, said = self.peek()
        if kind != "number":
            raise NotRead("a number")
        self.at += 1
        return said

    # ---- expressions

    def expression(self):
        parts = [self.conjunction()]
        while self.took("or"):
            parts.append(self.conjunction())
        return parts[0] if len(parts) == 1 else ("or", parts)

    def conjunction(self):
        parts = [self.negation()]
        while self.took("and"):
            parts.append(self.negation())
        return parts[0] if len(parts) == 1 else ("and", parts)

    def negation(self):
        return ("not", self.negation()) if self.took("not") else self.null_test()

    def null_test(self):
        tested = self.comparison()
        while self.took("is"):
            negated = self.took("not")
            self.take("null")
            tested = ("is null", tested, negated)
        return tested

    def comparison(self):
        left = self.listing()
        for sign in ("=", "<>", "<", "<=", ">", ">="):
            if self.took(sign):
                return ("compare", sign, left, self.listing())
        return left

    def listing(self):
        tested = self.sum()
        negated = self.peek() == ("word", "not") and self.peek(1)[1] in ("in", "between")
        if negated:
            self.at += 1
        if self.took("in"):
            return ("in", tested, self.in_parentheses(self.expression), negated)
        if self.peek() == ("word", "between") and self.peek(1)[1] not in ("from", ",", ";", None, ")"):
            self.at += 1
            low = self.sum()
            self.take("and")
            return ("between", tested, low, self.sum(), negated)
        return tested

    def sum(self):
        left = self.product()
        while True:
            for sign in "+-":
                if self.took(sign):
                    left = ("arithmetic", sign, left, self.product())
                    break
            else:
                return left

    def product(self):
        left = self.minus()
        while True:
            for sign in "*/%":
                if self.took(sign):
                    left = ("arithmetic", sign, left, self.minus())
                    break
            else:
                return left

    def minus(self):
        return ("arithmetic", "-", ("number", 0), self.minus()) if self.took("-") else self.operand()

    def operand(self):
        kind, said = self.peek()
        if kind in ("number", "string", "parameter"):
            self.at += 1
            return (kind, said)
        if self.took("("):
            inner = self.expression()
            self.take(")")
            return ("row", inner) if inner[0] in ("and", "or") else inner
        if kind == "word" and said in ("null", "true", "false"):
            self.at += 1
            return (said,)
        if kind == "word" and said == "date" and self.peek(1)[0] == "string":
            self.at += 2
            return ("date", self.tokens[self.at - 1][1])
        if self.took("tableoid", "::", "regclass"):
            return ("regclass", None)
        name = self.name()
        if self.took("("):
            if self.took(")"):
                return ("call", name, [])
            if self.took("*", ")"):
                return ("call", name, ["*"])
            arguments = self.list_of(self.expression)
            self.take(")")
            return ("call", name, arguments)
        if self.took(".", "tableoid", "::", "regclass"):
            return ("regclass", name)
        if self.took("."):
            return ("column", name, self.name())
        return ("column", None, name)

    # ---- statements

    def bound(self):
        if self.took("default"):
            return Bound("DEFAULT")
        self.take("for", "values")
        if self.took("from"):
            low = self.in_parentheses(self.edge)
            self.take("to")
            return Bound("RANGE", low, self.in_parentheses(self.edge))
        if self.took("in"):
            return Bound("LIST", self.in_parentheses(self.expression))
        self.take("with", "(", "modulus")
        modulus = self.number()
        self.take(",", "remainder")
        remainder = self.number()
        self.take(")")
        return Bound("HASH", modulus, remainder)

    def edge(self):
        kind, said = self.peek()
        if kind == "word" and said in ("minvalue", "maxvalue") and self.peek(1)[1] in (",", ")"):
            self.at += 1
            return (said,)
        return self.expression()

    def partition_by(self):
        if not self.took("partition", "by"):
            return None
        strategy = self.name().upper()
        if strategy not in ("RANGE", "LIST", "HASH"):
            raise NotRead("a strategy")
        return strategy, self.in_parentheses(self.name)

    def column(self):
        name, kind = self.name(), self.name()
        is_wanted = self.took("not", "null")
        if not is_wanted:
            self.took("null")
        return name, kind, is_wanted

    def level(self):
        if not self.took("isolation", "level"):
            return None
        for level in LEVELS:
            if self.took(*level.split()):
                return level
        raise NotRead("a level")

    def item(self):
        if self.took("*"):
            return ("*", None), None
        if self.peek(1) == ("sign", ".") and self.peek(2) == ("sign", "*"):
            name = self.name()
            self.at += 2
            return ("*", name), None
        value = self.expression()
        if self.took("as"):
            return value, self.name()
        return value, self.name() if self.is_name() else None

    def table_with_alias(self, is_changed=False):
        """(the SET of an UPDATE is an alias just where another one follows that is not a column)"""
        name = self.name()
        if self.took("as"):
            return name, self.name()
        is_set = is_changed and self.peek() == ("word", "set")
        if self.is_name() and not (is_set and (self.peek(1) != ("word", "set") or self.peek(2)[1] == "=")):
            return name, self.name()
        return name, None

    def tables(self):
        """The items of FROM: name, alias, and the condition of ON behind a JOIN."""
        found = [(*self.table_with_alias(), None)]
        while True:
            if self.took(","):
                found.append((*self.table_with_alias(), None))
            elif self.took("join") or self.took("inner", "join"):
                table = self.table_with_alias()
                self.take("on")
                found.append((*table, self.expression()))
            else:
                return found

    def key(self):
        value = self.expression()
        down = self.took("desc")
        if not down:
            self.took("asc")
        nulls_first = down
        if self.took("nulls", "first"):
            nulls_first = True
        elif self.took("nulls", "last"):
            nulls_first = False
        return value, down, nulls_first

    def statement(self):
        if self.took("begin") or self.took("start", "transaction"):
            if not self.took("work"):
                self.took("transaction")
            return Statement("BEGIN", level=self.level())
        for word, meant in (("commit", "COMMIT"), ("end", "COMMIT"), ("rollback", "ROLLBACK"), ("abort", "ROLLBACK")):
            if self.took(word):
                if not self.took("work"):
                    self.took("transaction")
                return Statement(meant)
        if self.took("set"):
            name = self.name()
            if not self.took("="):
                self.take("to")
            kind, said = self.peek()
            if kind not in ("word", "quoted", "string", "number"):
                raise NotRead("a value of a setting")
            self.at += 1
            return Statement("SET", name=name, value=str(said))
        if self.took("reset"):
            return Statement("SET", name=self.name(), value=None)
        if self.took("create", "table"):
            name = self.name()
            if self.took("partition", "of"):
                return Statement("PARTITION OF", name=name, parent=self.name(), bound=self.bound(), by=self.partition_by())
            return Statement("CREATE", name=name, columns=self.in_parentheses(self.column), by=self.partition_by())
        if self.took("drop", "table"):
            if_exists = self.took("if", "exists")
            names = self.list_of(self.name)
            if not self.took("cascade"):
                self.took("restrict")
            return Statement("DROP", names=names, if_exists=if_exists)
        if self.took("alter", "table"):
            parent = self.name()
            if self.took("attach", "partition"):
                return Statement("ATTACH", parent=parent, name=self.name(), bound=self.bound())
            self.take("detach", "partition")
            name = self.name()
            for word in ("concurrently", "finalize"):
                if self.took(word):
                    return Statement(f"DETACH {word.upper()}", parent=parent, name=name)
            return Statement("DETACH", parent=parent, name=name)
        if self.took("lock"):
            self.took("table")
            names = self.list_of(lambda: (self.took("only"), self.name()))
            mode = "ACCESS EXCLUSIVE"
            if self.took("in"):
                words = []
                while not self.took("mode"):
                    words.append(self.peek()[1])
                    self.at += 1
                mode = " ".join(words).upper()
            return Statement("LOCK", names=names, mode=mode)
        if self.took("explain"):
            analyzes = self.took("analyze") or self.took("(") and self.options()
            explained = self.statement()
            if explained.word not in ("SELECT", "EXECUTE"):
                raise NotRead("an EXPLAIN of another statement")
            explained.word = "EXPLAIN" if explained.word == "SELECT" else "EXPLAIN EXECUTE"
            explained.analyzes = analyzes
            return explained
        if self.took("prepare"):
            if self.peek() == ("word", "transaction"):
                raise NotRead("PREPARE TRANSACTION")
            name = self.name()
            kinds = self.in_parentheses(self.name) if self.peek() == ("sign", "(") else []
            self.take("as")
            prepared = self.statement()
            if prepared.word not in ("SELECT", "INSERT", "UPDATE", "DELETE"):
                raise NotRead("a PREPARE of another statement")
            return Statement("PREPARE", name=name, kinds=kinds, prepared=prepared)
        if self.took("execute"):
            name = self.name()
            arguments = self.in_parentheses(self.expression) if self.peek() == ("sign", "(") else []
            return Statement("EXECUTE", name=name, arguments=arguments)
        if self.took("deallocate"):
            if self.peek() == ("word", "prepare") and (self.is_name(1) or self.peek(1) == ("word", "all")):
                self.at += 1
                if self.peek() == ("word", "transaction"):
                    raise NotRead("DEALLOCATE PREPARE TRANSACTION")
            return Statement("DEALLOCATE", name=None if self.took("all") else self.name())
        if self.took("select"):
            items = self.list_of(self.item)
            tables = self.tables() if self.took("from") else []
            where = self.expression() if self.took("where") else None
            keys = self.list_of(self.key) if self.took("order", "by") else []
            limit = offset = None
            if self.took("limit") and not self.took("all"):
                limit = self.expression()
            if self.took("offset"):
                offset = self.expression()
            return Statement("SELECT", items=items, tables=tables, where=where, keys=keys, limit=limit, offset=offset)
        if self.took("insert", "into"):
            name = self.name()
            columns = self.in_parentheses(self.name) if self.peek() == ("sign", "(") else None
            self.take("values")
            rows = self.list_of(lambda: self.in_parentheses(self.expression))
            return Statement("INSERT", name=name, columns=columns, rows=rows)
        if self.took("update"):
            table = self.table_with_alias(True)
            self.take("set")
            changes = self.list_of(self.change)
            return Statement("UPDATE", table=table, changes=changes, where=self.expression() if self.took("where") else None)
        if self.took("delete", "from"):
            table = self.table_with_alias()
            return Statement("DELETE", table=table, where=self.expression() if self.took("where") else None)
        raise NotRead(f"a statement before {self.peek()[1]}")

    def options(self):
        """The options of EXPLAIN: whether ANALYZE is among them, for the others change nothing."""
        analyzes = False
        while True:
            if self.took("analyze"):
                analyzes = True
            elif not any(self.took(word, "off") for word in ("costs", "timing", "summary")):
                raise NotRead("an option of EXPLAIN")
            if not self.took(","):
                self.take(")")
                return analyzes

    def change(self):
        name = self.name()
        self.take("=")
        return name, self.expression()


def read_block(text):
    """The statements of a block. What is not read here is refused where the grammar refuses it."""
    try:
        return statements_of(text)
    except NotRead:
        refusal = judge_block(text)
        if refusal is None:
            raise
        raise refusal from None


@functools.lru_cache(maxsize=4096)
def statements_of(text):
    reader, found = Reader(text), []
    while reader.at < len(reader.tokens):
        if reader.took(";"):
            continue
        found.append(reader.statement())
        if reader.at < len(reader.tokens):
            reader.take(";")
    return found
