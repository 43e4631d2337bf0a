"""Reading the texts of networks, certificates and streams, up to the first byte or line that doesn't fit."""
import re
from dataclasses import dataclass

from model.trees import (
    EXPRESSION_FORMS,
    EXPRESSION_SUGAR,
    EXPRESSION_WORDS,
    GREATEST,
    NETWORK_FORMS,
    NETWORK_SUGAR,
    NETWORK_SUGAR_WORDS,
    NETWORK_WORDS,
    NEW_FORMS,
    NUMBERS,
    TYPE_FORMS,
    TYPE_WORDS,
    at_text,
    expanded,
    is_new,
    shown,
)

FILE_BYTES = 1_048_576
LINE_BYTES = 65_536
OPEN = 600
# The greatest numbers of the laws of each version.
LAST_LAWS = {"1": {"E": 18, "L": 42}, "2": {"E": 18, "L": 46}, "3": {"E": 26, "L": 51}, "4": {"E": 55, "L": 65}}


def laws_of(version):
    """The laws of a version."""
    return [f"{kind}{k}" for kind, last in LAST_LAWS[version].items() for k in range(1, last + 1)]


LAWS = laws_of(max(LAST_LAWS))
# The laws that each version has first, behind the first one's.
LAWS_SINCE = {version: [law for law in laws_of(version) if law not in laws_of(before)] for before, version in zip("123", "234")}
NEW_LAWS = [law for laws in LAWS_SINCE.values() for law in laws]


class TextFault(Exception):
    """What is refused of a file, as the program says it behind the file's role."""


class ValueFault(Exception):
    """What is refused of a value, as the program says it behind the stream's line."""


@dataclass(frozen=True)
class Step:
    """A step of a certificate; `given` is None where no tree is given."""

    law: str
    direction: str
    position: tuple
    given: object = None


# ---- printing


def network_text(input_type, net):
    return f"yampa {2 if is_new(net) else 1}\ninput {shown(input_type)}\n{shown(net)}\n"


def step_text(step):
    given = "" if step.given is None else " " + shown(step.given)
    return f"(step {step.law} {step.direction} {at_text(step.position)}{given})"


def certificate_text(steps):
    version = max(map(version_of, steps), default="1")
    return "".join(line + "\n" for line in [f"laws {version}", *map(step_text, steps)])


def version_of(step):
    """The least version of certificates that has a step's law and the forms of its tree."""
    since = [version for version, laws in LAWS_SINCE.items() if step.law in laws]
    return max([*since, "2" if is_new(step.given) else "1"])


def trace_text(lines):
    """The text of what `traced` tells."""
    text = ""
    for step, told in lines:
        text += step_text(step) + "\n"
        text += "".join(f"{mark} {shown(tree)}\n" for mark, tree in told if tree is not None)
    return text


# ---- networks and certificates


SORTS = {
    "T": (TYPE_WORDS, TYPE_FORMS),
    "E": (EXPRESSION_WORDS, {**EXPRESSION_FORMS, **EXPRESSION_SUGAR}),
    "N": (NETWORK_WORDS + NETWORK_SUGAR_WORDS, {**NETWORK_FORMS, **NETWORK_SUGAR}),
}
VERSIONS = {
    "yampa": {"1": NEW_FORMS, "2": []},
    "laws": {
        version: NEW_FORMS * (version == "1") + [law for law in NEW_LAWS if law not in laws_of(version)] for version in LAST_LAWS
    },
}


def tokens_of(text):
    """The tokens of a file with their places."""
    found = re.finditer(rb";[^\n]*|[()]|[^ \t\r\n();]+", text)
    return [(token.group().decode("latin-1"), token.start()) for token in found if token.group()[:1] != b";"]


class Reader:
    """Reads one file from the left."""

    def __init__(self, text):
        if len(text) > FILE_BYTES:
            raise TextFault("too long")
        self.tokens = tokens_of(text)
        self.length = len(text)
        self.read = 0
        self.open = 0
        self.missing = []

    def refuse(self, why="syntax"):
        """Refuses the token that was taken last."""
        raise TextFault(f"{why} at byte {self.tokens[self.read - 1][1]}")

    def ended(self):
        return self.read == len(self.tokens)

    def next_is(self, token):
        return not self.ended() and self.tokens[self.read][0] == token

    def take(self):
        if self.ended():
            raise TextFault(f"syntax at byte {self.length}")
        token, _ = self.tokens[self.read]
        self.read += 1
        if token == "(":
            self.open += 1
            if self.open > OPEN:
                self.refuse("nesting")
        elif token == ")":
            self.open -= 1
        return token

    def take_one_of(self, words):
        token = self.take()
        if token not in words or token in self.missing:
            self.refuse()
        return token

    def header(self, before, *behind):
        """Takes the words before the version, the version and those behind it; what the version lacks isn't read from there on."""
        found = [token for token, _ in self.tokens[: 2 + len(behind)]]
        if len(found) < 2 + len(behind) or [found[0], *found[2:]] != [before, *behind] or found[1] not in VERSIONS[before]:
            raise TextFault("header")
        self.read = len(found)
        self.missing = VERSIONS[before][found[1]]

    def number(self, token, place):
        if not re.fullmatch(r"-?[0-9]+", token):
            self.refuse()
        least, greatest = NUMBERS[place]
        if not re.fullmatch(r"0|-?[1-9][0-9]*", token) or not least <= int(token) <= greatest:
            self.refuse("number")
        return int(token)

    def tree(self, sort):
        words, forms = SORTS[sort]
        token = self.take()
        if token == "(":
            word = self.take_one_of(forms)
            return self.form(word, forms[word])
        if token in words:
            return token
        if sort == "E":
            return self.number(token, "literal")
        self.refuse()

    def form(self, word, sorts):
        """The form of this word, whose parenthesis and word are read."""
        parts = []
        for sort in sorts:
            if sort == "col":
                self.take_one_of("(")
                self.take_one_of(["col"])
                parts.append(self.form("col", ["N*"]))
            elif sort.endswith("*"):
                while not self.next_is(")"):
                    parts.append(self.tree(sort[0]))
            elif sort in NUMBERS:
                parts.append(self.number(self.take(), sort))
            else:
                parts.append(self.tree(sort))
        self.take_one_of(")")
        return (word, *parts)

    def step(self):
        self.take_one_of("(")
        self.take_one_of(["step"])
        law = self.take_one_of(LAWS)
        direction = self.take_one_of(["forward", "backward"])
        self.take_one_of("(")
        self.take_one_of(["at"])
        position = []
        while not self.next_is(")"):
            position.append(self.number(self.take(), "child"))
        self.take()
        given = None if self.next_is(")") else expanded(self.tree("N" if law[0] == "L" else "E"))
        self.take_one_of(")")
        return Step(law, direction, tuple(position), given)


def read_network(text):
    """The input type and the network in core forms."""
    reader = Reader(text)
    reader.header("yampa", "input")
    input_type, net = reader.tree("T"), reader.tree("N")
    if not reader.ended():
        reader.take()
        reader.refuse()
    return input_type, expanded(net)


def read_certificate(text):
    reader = Reader(text)
    reader.header("laws")
    steps = []
    while not reader.ended():
        steps.append(reader.step())
    return steps


# ---- values and streams


class ValueReader:
    """Reads one value from the left."""

    def __init__(self, text):
        self.text = text
        self.at = 0

    def refuse(self, why):
        raise ValueFault(f"{why} at {self.at}")

    def beginning(self):
        """The word that begins a value here, behind a parenthesis where there is one, and the kind of type that it is of."""
        word = re.compile(rb"\(?[A-Za-z0-9-]*").match(self.text, self.at).group().decode()
        if re.fullmatch(r"0|-?[1-9][0-9]*", word):
            return word, "Int"
        if word not in KINDS:
            self.refuse("no value")
        return word, KINDS[word]

    def want(self, byte):
        if self.text[self.at : self.at + 1] != byte:
            self.refuse("no value")
        self.at += 1

    def value(self, type_):
        word, kind = self.beginning()
        if kind != (type_[0] if isinstance(type_, tuple) else type_):
            self.refuse("other type")
        if kind == "Int" and not -GREATEST - 1 <= int(word) <= GREATEST:
            self.refuse("number range")
        self.at += len(word)
        if kind == "Int":
            return int(word)
        return self.form(word, type_) if word[0] == "(" else word

    def form(self, word, type_):
        parts = []
        if word == "(list":
            while self.text[self.at : self.at + 1] != b")":
                self.want(b" ")
                parts.append(self.value(type_[1]))
        else:
            for part in type_[1:]:
                self.want(b" ")
                parts.append(self.value(part))
        self.want(b")")
        return (word[1:], *parts)


KINDS = {
    "unit": "Unit",
    "true": "Bool",
    "false": "Bool",
    "none": "Event",
    "(event": "Event",
    "(pair": "Pair",
    "(list": "List",
}


def read_value(text, type_):
    reader = ValueReader(text)
    found = reader.value(type_)
    if reader.at < len(text):
        reader.refuse("no value")
    return found


def step_of(line):
    """The step of a line behind the first, and the bytes of its value; None where it has no step."""
    found = re.match(rb"\+([1-9][0-9]*) ", line)
    if not found or int(found.group(1)) > GREATEST:
        return None
    return int(found.group(1)), line[found.end() :]


def read_stream(text, type_):
    """The samples before the first faulty line, and what is refused of that, or None."""
    lines = text.split(b"\n")
    if not lines[-1]:
        lines.pop()
    samples = []
    for number, line in enumerate(lines, 1):
        try:
            samples.append(sample_of(line, samples, type_))
        except ValueFault as fault:
            return samples, f"line {number}: {fault}"
    return samples, None


def sample_of(line, before, type_):
    if len(line) > LINE_BYTES:
        raise ValueFault("too long")
    if not before:
        if line.startswith(b"+"):
            raise ValueFault("step")
        if line == b"=":
            raise ValueFault("nothing before")
        return 1, read_value(line, type_)
    found = step_of(line)
    if not found:
        raise ValueFault("step")
    step, rest = found
    return step, before[-1][1] if rest == b"=" else read_value(rest, type_)
