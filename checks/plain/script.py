"""Reads a script: setups, sessions with their steps, and permutations with their markers."""
import re


class NotRead(Exception):
    """What this program does not read. It says nothing of whether partscript does."""


WORDS = ("setup", "teardown", "session", "step", "permutation", "notices")
TOKEN = re.compile(
    r'[ \t\r\n]+|#[^\n]*|(?P<block>\{[^}]*\})|(?P<quoted>"(?:[^"\n]|"")*")'
    r'|(?P<name>[A-Za-z_\x80-\U0010ffff][A-Za-z0-9_$\x80-\U0010ffff]*)|(?P<number>[0-9]+)|(?P<sign>[(),*])'
)


class Step:
    def __init__(self, name, text, session):
        self.name, self.text, self.session = name, text, session


class Use:
    """A step in a permutation. `star` is the marker (*), `others` are the steps that its markers name."""

    def __init__(self, step, star, others):
        self.step, self.star, self.others = step, star, others


class Session:
    def __init__(self, name):
        self.name, self.setup, self.steps, self.teardown = name, None, [], None


class Script:
    def __init__(self):
        self.setups, self.teardown, self.sessions, self.permutations = [], None, [], []


def tokens(text):
    found, at = [], 0
    while at < len(text):
        token = TOKEN.match(text, at)
        if not token:
            raise NotRead(f"a token at {at}")
        at = token.end()
        kind = token.lastgroup
        if kind == "block":
            found.append(("block", token[0][1:-1].strip(" \t\r\n")))
        elif kind == "quoted":
            found.append(("name", token[0][1:-1].replace('""', '"')))
        elif kind == "name":
            found.append(("word" if token[0] in WORDS else "name", token[0]))
        elif kind:
            found.append((kind, token[0]))
    return found


class Reader:
    def __init__(self, text):
        self.tokens, self.at = tokens(text), 0

    def next_is(self, kind, text=None):
        if self.at == len(self.tokens):
            return False
        token = self.tokens[self.at]
        return token[0] == kind and text in (None, token[1])

    def take(self, kind, text=None):
        if not self.next_is(kind, text):
            raise NotRead(f"{text or kind} is wanted at token {self.at}")
        self.at += 1
        return self.tokens[self.at - 1][1]

    def took(self, kind, text=None):
        return self.take(kind, text) if self.next_is(kind, text) else None


def read_script(text):
    reader, script, steps = Reader(text), Script(), {}
    while reader.took("word", "setup"):
        script.setups.append(reader.take("block"))
    if reader.took("word", "teardown"):
        script.teardown = reader.take("block")
    while reader.took("word", "session"):
        session = Session(reader.take("name"))
        if session.name in (other.name for other in script.sessions):
            raise NotRead("a session's name is used twice")
        script.sessions.append(session)
        if len(script.sessions) > 64:
            raise NotRead("more sessions than there may be")
        if reader.took("word", "setup"):
            session.setup = reader.take("block")
        while reader.took("word", "step"):
            name = reader.take("name")
            if name in steps:
                raise NotRead("a step's name is used twice")
            steps[name] = Step(name, reader.take("block"), len(script.sessions))
            session.steps.append(steps[name])
        if reader.took("word", "teardown"):
            session.teardown = reader.take("block")
        if not session.steps:
            raise NotRead("a session without steps")
    while reader.took("word", "permutation"):
        uses = []
        while reader.next_is("name"):
            step, star, others = steps.get(reader.take("name")), False, []
            if reader.took("sign", "("):
                while True:
                    if reader.took("sign", "*"):
                        star = True
                    else:
                        others.append(reader.take("name"))
                    if not reader.took("sign", ","):
                        break
                reader.take("sign", ")")
            wrong = [name for name in others if name not in steps or steps[name].session == step.session]
            if step is None or wrong:
                raise NotRead("a step or a marker that is not known")
            uses.append(Use(step, star, others))
        if not uses:
            raise NotRead("a permutation without steps")
        script.permutations.append(uses)
    if reader.at < len(reader.tokens) or not script.sessions or not script.permutations:
        raise NotRead("what is no script")
    return script
