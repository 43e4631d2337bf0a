"""Why a line of a stream is no sample: the byte, and how to mend it."""
import re

from model.texts import LINE_BYTES, ValueFault, ValueReader
from model.trees import is_form
from front.spell import RecordType
from workbench.written import near
from workbench.telling import Told, article


def of_stream(fault: str, files, stream) -> Told:
    """What is told of a fault of a stream."""
    found = re.match(r"line (\d+): (.*)", fault)
    if stream is None or not found:
        return Told(f"stream: {fault}")
    name, data = stream
    number, why = int(found.group(1)), found.group(2)
    lines = data.split(b"\n")
    start = sum(len(line) + 1 for line in lines[: number - 1])
    line = lines[number - 1] if number <= len(lines) else b""
    role = next(role for role in ("network", "target") if role in files.names)
    at, reason, notes = stream_reason(line, number, why, files.program(role).input)
    return Told(reason, name, data, min(start + at, len(data)), 1, notes)


def stream_reason(line, number, why, given):
    """The byte of the line, what is wrong there, and how to mend it."""
    lead = 0
    step = re.match(rb"\+[0-9]+ ", line)
    if number > 1 and step:
        lead = step.end()
    tidy = "`yampa tidy` mends carriage returns, blank lines, comments and a byte order mark"
    if line.startswith(b"\xef\xbb\xbf"):
        return 0, f"line {number} begins with a byte order mark", [tidy]
    if not line.strip():
        return 0, f"line {number} is blank", [tidy]
    if line.endswith(b"\r") and why.startswith("no value"):
        return len(line) - 1, f"line {number} ends in a carriage return", [tidy]
    if why == "too long":
        return LINE_BYTES, f"line {number} has over {LINE_BYTES:,} bytes", []
    if why == "too many samples":
        return 0, "a run takes 1,000,000 samples", ["cut the recording into several"]
    if why == "nothing before":
        return 0, "the first line has a value: there is none before it that = could repeat", []
    if why == "step":
        return step_reason(line, number, tidy)
    return value_reason(line, lead, why, given, tidy)


def step_reason(line, number, tidy):
    if number == 1:
        return 0, "the first line is a value alone: it has no step", [f"write {line[1:].split(b' ')[-1].decode(errors='replace')}"]
    if not line.startswith(b"+"):
        text = line.decode(errors="replace").strip()
        if text.startswith((";", "#")):
            return 0, "a stream has no comments", [tidy]
        return 0, f"line {number}: a step is missing", [f"write +1 {text}"]
    if re.match(rb"\+0*[0-9]", line) and not re.match(rb"\+[1-9][0-9]* ", line):
        return 1, "a step is a number from 1, without leading zeros, and one space follows it", []
    if re.match(rb"\+[1-9][0-9]* ", line):
        return 1, "a step is at most 9223372036854775807", []
    return 1, "behind + stands a step, a number from 1, and then one space", []


def value_reason(line, lead, why, given, tidy):
    text = line[lead:]
    at = int(re.search(r"(\d+)$", why).group(1))
    reader = PlaceReader(text)
    try:
        reader.value(given)
        whole = True
    except ValueFault:
        whole = False
    part, wanted = text[at:].decode(errors="replace"), reader.told()
    word = re.match(r"\(?[^ ()]*", part).group()
    meant = near(word, ["true", "false", "none", "unit", "(pair", "(event", "(list"])
    meant = f"; did you mean {meant}?" if meant else ""
    if whole and part[:1] in (" ", "\t"):
        rest = part.strip()
        if rest.startswith((";", "#", "//")):
            return lead + at, "a stream has no comments", [tidy]
        return lead + at, "blanks stand behind the value" if not rest else f"the value is whole before {rest}", [tidy]
    if re.match(r"-?[0-9]*\.[0-9]", text.decode(errors="replace")[max(0, at - 20) :][-30:]) or part.startswith("."):
        return lead + at, "numbers are whole", ["count in smaller units, as tenths"]
    if part.startswith("+"):
        return lead + at, "a number has no plus sign", [wanted]
    if part.startswith("(none"):
        return lead + at, "in a stream none stands alone, without its type", ["write none"]
    if why.startswith("number range"):
        return lead + at, "this number is outside of 64 bits, from -9223372036854775808 to 9223372036854775807", []
    if re.match(r"-?0[0-9]|-0$", word):
        return lead + at, "a number is written without leading zeros, and 0 without a sign", [wanted]
    if why.startswith("other type"):
        return lead + at, f"{word or part} is of another type", [wanted]
    if not part:
        return lead + at, "the value ends too early", [wanted]
    if part.startswith(")"):
        return lead + at, "a space and a further part are missing before this parenthesis", [wanted]
    return lead + at, f"{word or part[:1]!r} is no value here{meant}", [wanted]


class PlaceReader(ValueReader):
    """Reads one value, and knows which type is wanted where it stops, and of a record's field its name."""

    def __init__(self, text: bytes):
        super().__init__(text)
        self.type, self.field = None, ""

    def value(self, type_):
        self.type = type_
        return super().value(type_)

    def form(self, word, type_):
        if word == "(list":
            self.type, self.field = type_[1], ""
            return super().form(word, type_)
        for name, part in halves_of(type_):
            self.type, self.field = part, name
            self.want(b" ")
            self.value(part)
        self.want(b")")
        return (word[1:],)

    def told(self) -> str:
        """What is wanted, and how it is written."""
        wants = f"{self.field} wants {article(self.type)}" if self.field else f"{article(self.type)} is wanted"
        return f"{wants}: write {written(self.type)}"


def halves_of(type_) -> list:
    """The parts of a type of one value, each with the name of the field that it is, where it is one."""
    if not isinstance(type_, RecordType):
        return [("", part) for part in type_[1:]]
    rest = type_.fields[1:]
    return [type_.fields[0], rest[0] if len(rest) == 1 else ("", RecordType("", rest))]


def written(type_) -> str:
    """How a value of a type is written, for instance."""
    if is_form("Event", type_):
        return f"none or {example(type_)}"
    return "true or false" if type_ == "Bool" else "unit" if type_ == "Unit" else f"for instance {example(type_)}"


def example(type_) -> str:
    if isinstance(type_, tuple):
        return "(" + " ".join([type_[0].lower(), *map(example, type_[1:])]) + ")"
    return {"Int": "5", "Bool": "true", "Unit": "unit"}[type_]
