"""The words of a file, and Haskell's layout: lines that begin further left end what they stand in, lines at its column begin a new part."""
from __future__ import annotations

import re
from collections.abc import Callable
from dataclasses import dataclass
from typing import NoReturn, TypeVar

from front.faults import Fault, Place

KEYS = set(
    "module import where data type let in if then else case of do proc rec infixl infixr infix deriving class instance newtype"
    " default foreign forall".split()
)
RESERVED = {"=", "->", "<-", "::", "|", "\\", "@", "..", "-<", "-<<", "=>", "~"}
SIGNS = r"!#$%&*+./<=>?@\\^|~:\-"
TOKEN = re.compile(
    rf"""(?P<space>[ \n]+|--+(?![{SIGNS}])[^\n]*)
    |(?P<fraction>\d+\.\d+(?:[eE][-+]?\d+)?|\d+[eE][-+]?\d+)
    |(?P<number>0[xX][0-9a-fA-F]+|0[oO][0-7]+|\d+)
    |(?P<text>"(?:\\.|[^"\\\n])*"|'(?:\\.|[^'\\\n])')
    |(?P<name>[^\W\d][\w']*(?:\.[^\W\d][\w']*)*)
    |(?P<special>[()\[\],;`{{}}])
    |(?P<operator>[{SIGNS}]+)""",
    re.X,
)
Item = TypeVar("Item")


@dataclass(slots=True)
class Token:
    """A word; `first` is whether it is the first of its line, `tight` whether it stands right before the next one, `apart` whether a
    blank stands before it."""

    kind: str
    text: str
    place: Place
    first: bool
    apart: bool
    tight: bool = False

    @property
    def column(self) -> int:
        return self.place.column


def tokens_of(text: str, file: str) -> list[Token]:
    """The words of a text without its comments, and at last a token of the kind `end`."""
    found: list[Token] = []
    at, line, begun, first, apart = 0, 1, 0, True, True
    while at < len(text):
        kind, word = next_word(text, at, file, line, at - begun + 1)
        if kind == "space":
            if "\n" in word:
                line, begun, first = line + word.count("\n"), at + word.rindex("\n") + 1, True
            apart = True
        else:
            found.append(Token(kind, word, Place(file, line, at - begun + 1, len(word)), first, apart))
            first = apart = False
        at += len(word)
        if found and kind != "space":
            found[-1].tight = at < len(text) and text[at] not in " \n"
    last = found[-1].place if found else Place(file, 1, 1, 0)
    found.append(Token("end", "the end of the file", Place(file, last.line, last.column + last.width), True, True))
    return found


def next_word(text: str, at: int, file: str, line: int, column: int) -> tuple[str, str]:
    """The kind of the next word, and the word itself."""
    if text.startswith("{-", at):
        return "space", comment_at(text, at, Place(file, line, column))
    found = TOKEN.match(text, at)
    if not found:
        place = Place(file, line, column)
        letter = text[at]
        raise Fault(place, f"the character {letter if letter.isprintable() else ascii(letter)} has no meaning here")
    kind, word = found.lastgroup or "", found.group()
    if kind == "name":
        return name_kind(word)
    return ("key" if kind == "operator" and word in RESERVED else kind), word


def name_kind(word: str) -> tuple[str, str]:
    """The kind of a name, and the name: of small letters up to a dot, which then is an operator."""
    head = word.partition(".")[0]
    if not head[0].isupper():
        return ("key" if head in KEYS else "variable"), head
    return ("constructor" if word.rpartition(".")[2][0].isupper() else "qualified"), word


def comment_at(text: str, at: int, place: Place) -> str:
    """A comment in braces, which may have others in it."""
    deep, end = 0, at
    for found in re.compile(r"\{-|-\}").finditer(text, at):
        deep += 1 if found.group() == "{-" else -1
        if not deep:
            end = found.end()
            break
    if deep:
        raise Fault(place, "this comment is never closed: -} is wanted")
    return text[at:end]


class Layout:
    """Goes through the words; where the layout ends a part or begins another, it answers a token of the kind `virtual`."""

    def __init__(self, tokens: list[Token]):
        self.tokens, self.read = tokens, 0
        self.columns: list[int] = []
        # The token whose layout has been seen to, and the token that was taken last.
        self.opened, self.taken = -1, 0

    def here(self) -> Token:
        """The next word, whatever the layout says."""
        return self.tokens[self.read]

    def peek(self) -> Token:
        token = self.here()
        if token.first and self.columns and self.read != self.opened:
            if token.kind == "end":
                return Token("virtual", "}", token.place, False, True) if self.columns[-1] > 0 else token
            if token.column < self.columns[-1]:
                return Token("virtual", "}", token.place, False, True)
            if token.column == self.columns[-1]:
                return Token("virtual", ";", token.place, False, True)
        return token

    def behind(self, number: int = 1) -> Token:
        """The word so many further on."""
        return self.tokens[min(self.read + number, len(self.tokens) - 1)]

    def next(self) -> Token:
        token = self.peek()
        if token.kind == "virtual":
            self.wrong()
        self.taken = self.read
        self.read += 1
        return token

    def at(self, *words: str) -> bool:
        token = self.peek()
        return token.kind in ("key", "special", "operator") and token.text in words

    def take(self, word: str) -> Token:
        if not self.at(word):
            self.wrong(word)
        return self.next()

    def since(self, begun: int) -> Place:
        """The place from the token of that number to the one that was taken last; of more lines than one the first."""
        start, end = self.tokens[begun].place, self.tokens[max(self.taken, begun)].place
        if end.line != start.line:
            return Place(start.file, start.line, start.column, start.width)
        return Place(start.file, start.line, start.column, end.column + end.width - start.column)

    def wrong(self, wanted: str = "") -> NoReturn:
        seen, real = self.peek(), self.here()
        what = real.text if real.kind == "end" else f"`{real.text}`"
        if real.text in (")", "]", "}") and not wanted:
            raise Fault(real.place, f"one {real.text} too many, or something is missing before it")
        if real.kind == "qualified":
            raise Fault(real.place, f"{real.text}: names have no module before them here; import the module, and write the name alone")
        if real.kind == "end":
            raise Fault(real.place, f"the file ends here, and {wanted_word(wanted) if wanted else 'more'} is wanted")
        if seen.kind == "virtual":
            raise Fault(real.place, f"{wanted_word(wanted) if wanted else 'more'} is wanted before {what}, which begins a new part by its column")
        raise Fault(real.place, f"{what} is found here" + (f", where {wanted_word(wanted)} is wanted" if wanted else ", and nothing goes on so"))

    def block(self, item: Callable[[], Item]) -> list[Item]:
        """What stands behind `where`, `let`, `of`, `do` and `rec`: parts in braces, or at one column."""
        if self.at("{"):
            return self.braced(item)
        token = self.here()
        if token.kind == "end" or self.columns and token.column <= self.columns[-1]:
            return []
        self.columns.append(token.column)
        self.opened = self.read
        found: list[Item] = []
        while self.begins_part():
            found.append(item())
            after = self.peek()
            if after.kind != "virtual" and after.text != ";":
                break
        self.columns.pop()
        return found

    def begins_part(self) -> bool:
        """Whether another part stands here; what parts it from the one before is taken."""
        while True:
            token = self.peek()
            if token.kind == "end" or token.kind == "virtual" and token.text == "}":
                return False
            if token.kind == "virtual":
                self.opened = self.read
                if self.here().text in ("where", "in", "of", "then", "else", ")", "]", ","):
                    return False
            elif token.text == ";" and token.kind == "special":
                self.read += 1
            else:
                return True

    def braced(self, item: Callable[[], Item]) -> list[Item]:
        self.next()
        self.columns.append(-1)
        found: list[Item] = []
        while not self.at("}"):
            if self.at(";"):
                self.next()
                continue
            found.append(item())
            if not self.at("}"):
                self.take(";")
        self.next()
        self.columns.pop()
        return found


def wanted_word(wanted: str) -> str:
    return wanted if " " in wanted else f"`{wanted}`"
