"""Words of files with their places: trees as they are written, faults, and what a word may be meant for."""
import difflib
import re
from collections.abc import Sequence
from dataclasses import dataclass
from typing import Any

# What people write in the place of the language's words.
ELSEWHERE = {
    "&&": "and",
    "||": "or",
    "==": "equal",
    "=": "equal",
    "<": "less",
    "+": "add",
    "-": "sub",
    "*": "mul",
    "!": "not",
    "~": "not",
    "let": None,
    "lambda": None,
    "Nothing": "none",
    "NoEvent": "none",
    "Just": "event",
    "Event": "event",
    "cons": None,
    "True": "true",
    "False": "false",
    "()": "unit",
    "par": "parB",
    "loop": "loopPre",
    "pre": "iPre",
    "Integer": "Int",
    "Double": "Int",
    "Float": "Int",
    "Real": "Int",
    "Boolean": "Bool",
    "String": None,
    "Text": None,
    "Maybe": "Event",
}

# What a word may have and a terminal takes for an order.
CONTROL = re.compile("[\x00-\x08\x0b-\x1f\x7f-\x9f]")


@dataclass(frozen=True)
class Text:
    """A file: its name, and what it holds."""

    name: str
    data: bytes


@dataclass
class Node:
    """A tree as it is written: its word or number, its parts, and the bytes that it takes; the comments before it and behind it,
    behind its word and before the parenthesis that closes it."""

    word: Any
    parts: list
    start: int
    end: int
    sort: str
    comments: Sequence[str] = ()
    trailing: Sequence[str] = ()
    opened: Sequence[str] = ()
    closing: Sequence[str] = ()


class SyntaxFault(Exception):
    """The first word that doesn't fit: its byte, what is wrong, and how to mend it."""

    def __init__(self, at, why, mend="", kind="syntax", length=None, also=()):
        super().__init__(readable(why))
        self.at, self.why, self.mend, self.kind, self.length, self.also = at, readable(why), readable(mend), kind, length, list(also)

    def line(self, name: str, data: bytes) -> str:
        line, column = place(data, min(self.at, len(data)))
        return f"{name}:{line}:{column}: {self.why}"


@dataclass(slots=True)
class Token:
    """A word or a parenthesis, its byte, the comments before it, and the one behind it in its line."""

    text: str
    at: int
    before: Sequence[str] = ()
    behind: Sequence[str] = ()

    def end(self) -> int:
        return self.at + len(self.text)


def tokens_of(data: bytes) -> tuple[list[Token], list[str]]:
    """The words and parentheses of a text with their comments, and the comments behind all of them."""
    tokens: list[Token] = []
    before: list[str] = []
    for found in re.finditer(rb";[^\n]*|[()]|[^ \t\r\n();]+", data):
        text, end = found.group().decode("latin-1"), tokens[-1].end() if tokens else 0
        if not text.startswith(";"):
            tokens.append(Token(text, found.start(), before or ()))
            before = []
        elif tokens and not before and not data.count(b"\n", end, found.start()):
            tokens[-1].behind = [text.rstrip(" \t\r")]
        else:
            before.append(text.rstrip(" \t\r"))
    return tokens, before


def decoded(text: str) -> str:
    """A text that has words of a file, each byte of which is a character, with these words in UTF-8."""
    try:
        return text.encode("latin-1").decode()
    except UnicodeError:
        return text


def readable(text: str) -> str:
    """The same as it is told: what a terminal would take for an order is escaped."""
    return CONTROL.sub(lambda found: f"\\x{ord(found.group()):02x}", decoded(text))


def place(data, at):
    """The line and the column of a byte, both from 1; the column counts characters."""
    line = data.count(b"\n", 0, at) + 1
    start = data.rfind(b"\n", 0, at) + 1
    return line, len(data[start:at].decode(errors="replace")) + 1


def excerpt(data, at, length=1):
    """The line of a byte with the part from there on underlined."""
    line, column = place(data, at)
    start = data.rfind(b"\n", 0, at) + 1
    end = data.find(b"\n", at)
    end = len(data) if end < 0 else end
    text = CONTROL.sub("\ufffd", data[start:end].decode(errors="replace").replace("\t", " ").rstrip("\r"))
    cut = max(0, column - 80)
    shown = ("…" if cut else "") + text[cut : cut + 120]
    under = " " * (column - 1 - cut + bool(cut)) + "^" * max(1, min(length, end - at, 120))
    margin = " " * len(str(line))
    return f"{margin} |\n{line} | {shown}\n{margin} | {under}"


def near(word, words):
    """The one of the words that the word may be meant for, or None."""
    if word in ELSEWHERE:
        meant = ELSEWHERE[word]
        return meant if meant in words else None
    close = difflib.get_close_matches(word, words, 1, 0.6)
    lower = [known for known in words if known.lower() == word.lower()]
    return (lower or close or [None])[0]
