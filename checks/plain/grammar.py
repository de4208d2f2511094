"""Where a text stops to begin any block of SQL, and what it is refused with there: by the grammar of docs/sql.md, written as
rules over tokens. All ways to go on are kept side by side (Earley's recogniser), so no parser is made for it by hand."""
import functools
import re

from script import NotRead
from values import Refusal

# 'word' is a word of SQL, in any case and without quotes, or a sign; [ ] may be left out, { } repeats, | parts choices.
GRAMMAR = """
block    = [ stmt ] { ";" [ stmt ] }
stmt     = begin | finish | set | create | drop | alter | lock | select | insert | update | delete | prepare | execute
         | dealloc | explain
begin    = ( "BEGIN" [ "WORK" | "TRANSACTION" ] | "START" "TRANSACTION" ) [ "ISOLATION" "LEVEL" level ]
level    = "READ" "COMMITTED" | "READ" "UNCOMMITTED" | "REPEATABLE" "READ"
finish   = ( "COMMIT" | "END" | "ROLLBACK" | "ABORT" ) [ "WORK" | "TRANSACTION" ]
set      = "SET" name_but_local ( "=" | "TO" ) ( name | "ON" | "TRUE" | "FALSE" | string | number ) | "RESET" name
create   = "CREATE" "TABLE" name "(" column { "," column } ")" [ by ]
         | "CREATE" "TABLE" name "PARTITION" "OF" name bound [ by ]
column   = name name [ "NOT" "NULL" | "NULL" ]
by       = "PARTITION" "BY" ( "RANGE" | "LIST" | "HASH" ) "(" names ")"
names    = name { "," name }
bound    = "FOR" "VALUES" "FROM" "(" edge { "," edge } ")" "TO" "(" edge { "," edge } ")"
         | "FOR" "VALUES" "IN" "(" exprs ")"
         | "FOR" "VALUES" "WITH" "(" "MODULUS" number "," "REMAINDER" number ")"
         | "DEFAULT"
edge     = "MINVALUE" | "MAXVALUE" | expr
drop     = "DROP" "TABLE" [ "IF" "EXISTS" ] names [ "CASCADE" | "RESTRICT" ]
alter    = "ALTER" "TABLE" name "ATTACH" "PARTITION" name bound
         | "ALTER" "TABLE" name "DETACH" "PARTITION" name [ "CONCURRENTLY" | "FINALIZE" ]
lock     = "LOCK" [ "TABLE" ] [ "ONLY" ] name { "," [ "ONLY" ] name } [ "IN" mode "MODE" ]
mode     = "ACCESS" "SHARE" | "ROW" "SHARE" | "ROW" "EXCLUSIVE" | "SHARE" "UPDATE" "EXCLUSIVE" | "SHARE"
         | "SHARE" "ROW" "EXCLUSIVE" | "EXCLUSIVE" | "ACCESS" "EXCLUSIVE"
select   = "SELECT" item { "," item } [ "FROM" from ] [ "WHERE" expr ]
           [ "ORDER" "BY" key { "," key } ] [ "LIMIT" ( expr | "ALL" ) ] [ "OFFSET" expr ]
item     = "*" | name "." "*" | expr [ [ "AS" ] name ]
from     = tab { "," tab | [ "INNER" ] "JOIN" tab "ON" expr }
tab      = name [ [ "AS" ] name ]
key      = expr [ "ASC" | "DESC" ] [ "NULLS" ( "FIRST" | "LAST" ) ]
insert   = "INSERT" "INTO" name [ "(" names ")" ] "VALUES" row { "," row }
row      = "(" exprs ")"
update   = "UPDATE" tab "SET" name "=" expr { "," name "=" expr } [ "WHERE" expr ]
delete   = "DELETE" "FROM" tab [ "WHERE" expr ]
prepare  = "PREPARE" name_but_transaction [ "(" names ")" ] "AS" ( select | insert | update | delete )
execute  = "EXECUTE" name [ "(" exprs ")" ]
dealloc  = "DEALLOCATE" ( name | "ALL" ) | "DEALLOCATE" "PREPARE" ( name_but_transaction | "ALL" )
explain  = "EXPLAIN" [ "ANALYZE" | "(" option { "," option } ")" ] ( select | execute )
option   = "ANALYZE" | ( "COSTS" | "TIMING" | "SUMMARY" ) "OFF"
exprs    = expr { "," expr }
expr     = [ expr "OR" ] conj
conj     = [ conj "AND" ] neg
neg      = "NOT" neg | test
test     = test "IS" [ "NOT" ] "NULL" | comp
comp     = listed [ ( "=" | "<>" | "!=" | "<" | "<=" | ">" | ">=" ) listed ]
listed   = sum [ [ "NOT" ] ( "IN" "(" exprs ")" | "BETWEEN" sum "AND" sum ) ]
sum      = [ sum ( "+" | "-" ) ] product
product  = [ product ( "*" | "/" | "%" ) ] minus
minus    = "-" minus | operand
operand  = number | string | "DATE" string | "NULL" | "TRUE" | "FALSE" | parameter | name | name "." name
         | "TABLEOID" "::" "REGCLASS" | name "." "TABLEOID" "::" "REGCLASS" | name "(" [ exprs | "*" ] ")" | "(" expr ")"
"""
RESERVED = set(
    """all analyze and as asc case cast check collate constraint create cross default desc distinct do except false
    fetch for foreign from full grant group having ilike in inner intersect into is join left like limit natural not
    null offset on only or order outer primary references returning right select similar table tablesample to true
    union unique using where window with""".split()
)
LEFT_OUT = set(
    """analyze buffers call case cast check close cluster collate comment constraint copy create cross declare default
    distinct do except exclude exists fetch for foreign from full function generated grant group having if ilike include
    index inherits intersect left like listen local materialized merge natural notify nowait on only outer prepared
    primary recursive references release returning revoke right rule savepoint select serializable show similar
    tablesample temp temporary to transaction trigger truncate union unique unlogged using vacuum values verbose view
    window with""".split()
)
LONGEST_NAME, LONGEST_TEXT = 63, 8192
# A text with so many of these words and signs may pass the limit on depth; of such a text nothing is said.
DEEP, MOST_DEEP = re.compile(rb"[-+*/%(]|not|is", re.I), 190
MOST_STATEMENTS = 1000


class Token:
    """A kind (word, quoted, string, number, decimal, parameter, sign, fault or end), its text, and its first byte."""

    def __init__(self, kind, text, at):
        self.kind, self.text, self.at = kind, text, at


PIECE = re.compile(
    rb"(?P<blank>[ \t\n\r\f\v]+|--[^\n\r]*)|(?P<word>[A-Za-z_\x80-\xff][A-Za-z0-9_$\x80-\xff]*)"
    rb"|(?P<quoted>\"(?:[^\"]|\"\")*\"(?!\"))|(?P<string>'(?:[^']|'')*'(?!'))"
    rb"|(?P<number>(?>(?:[0-9]+(?:\.(?!\.)[0-9]*)?|\.[0-9]+)(?:[eE][-+]?[0-9]+)?))(?![A-Za-z_\x80-\xff])"
    rb"|(?P<parameter>(?>\$[0-9]+))(?![A-Za-z_\x80-\xff])"
    rb"|(?P<sign>::|<>|!=|<=|>=|[-+*/%=<>(),;]|\.(?![0-9]))"
)


def behind_comment(text, at):
    depth, at = 1, at + 2
    while depth:
        sign = text[at:at + 2]
        if not sign:
            return None
        depth += {b"/*": 1, b"*/": -1}.get(sign, 0)
        at += 2 if sign in (b"/*", b"*/") else 1
    return at


def tokens_of(text):
    """The tokens up to the end, or up to the first place where none begins."""
    at = 0
    while at < len(text):
        if text.startswith(b"/*", at):
            end = behind_comment(text, at)
            if end is None:
                yield Token("fault", "", at)
                return
            at = end
            continue
        piece = PIECE.match(text, at)
        kind, said = (piece.lastgroup, piece[0].decode()) if piece else ("fault", "")
        if kind == "number" and not said.isdigit():
            kind = "decimal"
        if kind == "quoted" and said == '""' or kind == "parameter" and int(said[1:]) >= 2**32:
            kind = "fault"
        if kind == "fault":
            yield Token("fault", "", at)
            return
        if kind != "blank":
            yield Token(kind, "".join(c.lower() if c.isascii() else c for c in said) if kind == "word" else said, at)
        at = piece.end()
    yield Token("end", "", len(text))


# ---- the grammar as rules: a name and what it may be, a row of names and of words (these begin with "=")

def rules_of(text):
    rules, fresh = {}, iter(range(10**6))

    def choices(words):
        found = [[]]
        while words and words[0] not in (")", "]", "}", ".."):
            word = words.pop(0)
            if word == "|":
                found.append([])
            elif word in ("(", "[", "{"):
                inner = choices(words)
                words.pop(0)
                name = f"#{next(fresh)}"
                rules[name] = inner + ([[]] if word == "[" else [])
                if word == "{":
                    rules[name] = [[]] + [[name, *row] for row in inner]
                found[-1].append(name)
            else:
                found[-1].append("=" + word[1:-1].lower() if word[0] == '"' else word)
        return found
    for rule in re.split(r"\n(?=\w)", text.strip()):
        name, _, body = rule.partition("=")
        rules[name.strip()] = choices(re.findall(r'"[^"]*"|\S+', body) + [".."])
    return rules


RULES = rules_of(GRAMMAR)


def may_be_empty():
    empty = set()
    while True:
        more = {name for name, rows in RULES.items() if any(all(part in empty for part in row) for row in rows)}
        if more == empty:
            return empty
        empty = more


EMPTY = may_be_empty()


def fits(wanted, token):
    if wanted[0] == "=":
        return token.kind in ("word", "sign") and token.text == wanted[1:]
    if wanted.startswith("name"):
        is_name = token.kind == "quoted" or token.kind == "word" and token.text not in RESERVED
        return is_name and not (wanted.startswith("name_but_") and token.kind == "word" and token.text == wanted[9:])
    return token.kind == wanted


def first_that_stops(tokens):
    """The first token with which nothing is a beginning of a block any more, the end among them; None where it is one."""
    items, behind = {("block", row, 0, 0) for row in range(len(RULES["block"]))}, []
    for place, token in enumerate(tokens):
        waiting, todo = {}, list(items)
        seen = set(items)
        while todo:
            item = todo.pop()
            name, row, dot, origin = item
            parts = RULES[name][row]
            made = []
            if dot == len(parts):
                if origin == place:
                    continue
                made = [(n, r, d + 1, o) for n, r, d, o in behind[origin].get(name, ())]
            else:
                part = parts[dot]
                waiting.setdefault(part, []).append(item)
                if part in RULES:
                    made = [(part, number, 0, place) for number in range(len(RULES[part]))]
                    if part in EMPTY:
                        made.append((name, row, dot + 1, origin))
            for one in made:
                if one not in seen:
                    seen.add(one)
                    todo.append(one)
        behind.append(waiting)
        if token.kind == "end":
            whole = any(name == "block" and dot == len(RULES[name][row]) and origin == 0 for name, row, dot, origin in seen)
            return None if whole else token
        items = set()
        for part, those in waiting.items():
            if part not in RULES and fits(part, token):
                items.update((name, row, dot + 1, origin) for name, row, dot, origin in those)
        if not items:
            return token
        if token.kind in ("word", "quoted") and size(token, '"') > LONGEST_NAME:
            raise Refusal("54000", "too many bytes of a name")
        if token.kind == "string" and size(token, "'") > LONGEST_TEXT:
            raise Refusal("54000", "too many bytes of a text")
    raise AssertionError("tokens without an end")


def size(token, quote):
    return len(token.text.encode()) if token.kind == "word" else len(token.text[1:-1].replace(quote * 2, quote).encode())


@functools.lru_cache(maxsize=4096)
def judge_block(text):
    """The refusal of a text that is no block, or None."""
    given = text.encode()
    if len(DEEP.findall(given)) > MOST_DEEP or given.count(b";") > MOST_STATEMENTS:
        raise NotRead("what may be past a limit")
    try:
        token = first_that_stops(tokens_of(given))
    except Refusal as refusal:
        return refusal
    if token is None:
        return None
    if token.kind == "decimal" or token.text == "::" or token.kind == "word" and token.text in LEFT_OUT:
        return Refusal("0A000", f"{token.text.upper() if token.kind == 'word' else token.text} is not in this profile")
    return Refusal("42601", f"syntax error at byte {token.at}")
