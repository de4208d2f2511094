"""What a text that is no script is refused with, by docs/script.md: the line, or None where it is one."""
import re

WORDS = ("setup", "teardown", "session", "step", "permutation", "notices")
MOST = {"setup blocks": 64, "sessions": 64, "steps": 4096, "permutations": 1024, "uses": 4096, "markers": 64}
PIECE = re.compile(
    rb'(?P<blank>[ \t\r\n]+|#[^\n]*)|(?P<block>\{[^}]*\})|(?P<quoted>"(?:[^"\n]|"")*")'
    rb"|(?P<name>[A-Za-z_\x80-\xff][A-Za-z0-9_$\x80-\xff]*)|(?P<number>[0-9]+)|(?P<sign>[(),*])"
)


class Fault(Exception):
    """A text is no script, and this is the line."""


def valid_length(text):
    try:
        text.decode()
    except UnicodeDecodeError as fault:
        return fault.start
    return len(text)


class Reader:
    def __init__(self, text):
        self.text, self.limit, self.at = text, valid_length(text), 0
        self.next()

    def next(self):
        """Goes to the next token: its kind, its name where it is one, and its first byte."""
        while True:
            self.place = min(self.at, self.limit)
            if self.at >= len(self.text):
                self.kind, self.name = ("end", None) if self.limit == len(self.text) else ("fault", None)
                return
            piece = PIECE.match(self.text, self.at)
            if not piece or piece.end() > self.limit:
                self.kind, self.name = "fault", None
                if self.limit < len(self.text) and (piece or self.goes_past_limit()):
                    self.place = self.limit
                return
            self.at = piece.end()
            if piece.lastgroup == "blank":
                continue
            self.kind, said = piece.lastgroup, piece[0].decode()
            self.name = None
            if self.kind == "quoted":
                self.kind, self.name = "name", said[1:-1].replace('""', '"')
            elif self.kind == "name":
                self.name = said
                if said in WORDS:
                    self.kind, self.name = said, None
            elif self.kind == "sign":
                self.kind = said
            return

    def goes_past_limit(self):
        """Whether what begins here and is no token goes past the first byte that is no UTF-8."""
        if self.text[self.at:self.at + 1] == b"{":
            return True
        if self.text[self.at:self.at + 1] == b'"':
            end = self.text.find(b"\n", self.at)
            return self.limit < (len(self.text) if end < 0 else end)
        return self.at >= self.limit

    def took(self, kind):
        if self.kind != kind:
            return False
        self.last = self.name
        self.next()
        return True

    def take(self, *kinds):
        if not any(self.took(kind) for kind in kinds):
            line = self.text.count(b"\n", 0, self.place) + 1
            raise Fault(f"line {line}: unexpected token")
        return self.last


def fault_of(text):
    try:
        judge(text)
    except Fault as fault:
        return f"{fault}\n"
    return None


def judge(text):
    reader, setups, sessions, permutations = Reader(text), 0, [], []
    while reader.took("setup"):
        reader.take("block")
        setups += 1
    if reader.took("teardown"):
        reader.take("block")
    reader.take("session")
    while True:
        steps = []
        sessions.append((reader.take("name"), steps))
        if reader.took("setup"):
            reader.take("block")
        reader.take("step")
        while True:
            steps.append(reader.take("name"))
            reader.take("block")
            if not reader.took("step"):
                break
        if reader.took("teardown"):
            reader.take("block")
        if not reader.took("session"):
            break
    while reader.kind != "end":
        reader.take("permutation")
        uses = [use_of(reader)]
        while reader.kind == "name":
            uses.append(use_of(reader))
        permutations.append(uses)
    judge_counts(setups, sessions, permutations)
    judge_names(sessions, permutations)


def use_of(reader):
    step, markers = reader.take("name"), []
    if reader.took("("):
        while True:
            markers.append(marker_of(reader))
            if not reader.took(","):
                break
        reader.take(")")
    return step, markers


def marker_of(reader):
    """The name of a step; None for the star; `notices` as one of no step."""
    if reader.took("*"):
        return None
    name = reader.take("name")
    if reader.took("notices"):
        reader.take("number")
        return ("notices",)
    return name


def judge_counts(setups, sessions, permutations):
    def judge_count(what, count):
        if count > MOST[what]:
            raise Fault(f"too many {what}")
    judge_count("setup blocks", setups)
    steps = 0
    for place, (_, its) in enumerate(sessions, 1):
        judge_count("sessions", place)
        steps += len(its)
        judge_count("steps", steps)
    for place, uses in enumerate(permutations, 1):
        judge_count("permutations", place)
        for number, (_, markers) in enumerate(uses, 1):
            judge_count("uses", number)
            judge_count("markers", len(markers))


def judge_names(sessions, permutations):
    names, owners = set(), {}
    for number, (name, steps) in enumerate(sessions):
        if name in names:
            raise Fault(f"name {name} is used twice")
        names.add(name)
        for step in steps:
            if step in owners:
                raise Fault(f"name {step} is used twice")
            owners[step] = number
    if not permutations:
        raise Fault("no permutation line")
    uses = [use for uses in permutations for use in uses]
    for step, _ in uses:
        if step not in owners:
            raise Fault(f"unknown step {step}")
    for step, markers in uses:
        for marker in markers:
            if marker == ("notices",):
                raise Fault("unknown marker notices")
            if marker is not None and owners.get(marker, owners[step]) == owners[step]:
                raise Fault(f"unknown marker {marker}")
