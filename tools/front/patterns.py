"""Reads types and patterns."""
from __future__ import annotations

from collections.abc import Callable
from typing import TypeVar

from front.faults import Fault
from front.fixity import Fixity
from front.layout import Layout, Token
from front.syntax import (
    Anything,
    As,
    Bound,
    Lazy,
    ListPattern,
    MadePattern,
    NumberPattern,
    Pattern,
    RecordPattern,
    TuplePattern,
    TypeOf,
    TypeTree,
    TypeVariable,
)

Part = TypeVar("Part")
CLOSING = (")", "]", "}")
DEEPEST = 200
NO_TEXTS = "there are no texts and no characters here: use numbers, or a data of names"


class PatternReader(Layout):
    def __init__(self, tokens: list[Token], fixities: dict[str, Fixity]):
        super().__init__(tokens)
        self.fixities = fixities
        self.deep = 0

    def inside(self, read: Callable[[], Part]) -> Part:
        """What is read one level deeper."""
        self.deep += 1
        if self.deep > DEEPEST:
            raise Fault(self.here().place, f"this is nested over {DEEPEST} levels deep")
        try:
            return read()
        finally:
            self.deep -= 1

    def listed(self, close: str, part: Callable[[], Part]) -> list[Part]:
        """Parts between commas, up to what closes them; what opens them was taken last."""
        opened = self.taken
        found: list[Part] = []
        while not self.at(close):
            found.append(part())
            if not self.at(",", close):
                self.close(close, opened)
            if self.at(","):
                self.next()
        self.next()
        return found

    def close(self, word: str, opened: int) -> None:
        """Takes what closes the bracket of that number."""
        if not self.at(word):
            token = self.tokens[opened]
            if self.peek().kind in ("virtual", "end") or self.at(*CLOSING) or self.here().kind == "key":
                raise Fault(token.place, f"this {token.text} is never closed: {word} is wanted before {self.spoken()}")
            self.wrong(word)
        self.next()

    def spoken(self) -> str:
        """The next word and its line."""
        token = self.here()
        return "the end of the file" if token.kind == "end" else f"{token.text} in line {token.place.line}"

    # ---- types

    def type(self) -> TypeTree:
        return self.inside(self.type_inside)

    def type_inside(self) -> TypeTree:
        begun = self.read
        left = self.applied_type()
        if self.at("->"):
            self.next()
            right = self.type()
            return TypeOf(self.since(begun), "->", [left, right])
        return left

    def context(self) -> list[tuple[str, str]]:
        """What stands before `=>`: classes and the variables that they are said of."""
        mark = self.read, self.opened, self.taken
        try:
            found = self.classes()
        except Fault:
            found = None
        if found is not None and self.at("=>"):
            self.next()
            return found
        self.read, self.opened, self.taken = mark
        return []

    def classes(self) -> list[tuple[str, str]]:
        def one() -> tuple[str, str]:
            name = self.next()
            if name.kind != "constructor" or self.peek().kind != "variable":
                self.wrong("a class and its variable")
            return name.text, self.next().text

        if self.at("("):
            self.next()
            return self.listed(")", one)
        return [one()]

    def applied_type(self) -> TypeTree:
        begun, token = self.read, self.peek()
        if token.kind != "constructor":
            return self.type_atom()
        self.next()
        parts = []
        while self.peek().kind in ("constructor", "variable") or self.at("(", "["):
            parts.append(self.type_atom())
        return TypeOf(self.since(begun), token.text, parts)

    def type_atom(self) -> TypeTree:
        begun, token = self.read, self.peek()
        if token.kind == "constructor":
            self.next()
            return TypeOf(token.place, token.text, [])
        if token.kind == "variable":
            self.next()
            return TypeVariable(token.place, token.text)
        if self.at("["):
            self.next()
            inner = self.type()
            self.close("]", begun)
            return TypeOf(self.since(begun), "[]", [inner])
        if self.at("("):
            self.next()
            parts = self.listed(")", self.type)
            if len(parts) == 1:
                return parts[0]
            return TypeOf(self.since(begun), f"({len(parts)})" if parts else "()", parts)
        return self.wrong("a type")

    # ---- patterns

    def pattern(self) -> Pattern:
        return self.inside(self.pattern_inside)

    def pattern_inside(self) -> Pattern:
        begun = self.read
        left = self.applied_pattern()
        if self.at(":"):
            self.next()
            right = self.pattern()
            return MadePattern(self.since(begun), ":", [left, right])
        return left

    def applied_pattern(self) -> Pattern:
        begun, token = self.read, self.peek()
        if token.kind == "constructor" and self.behind().text != "{":
            self.next()
            parts = []
            while self.begins_pattern():
                parts.append(self.pattern_atom())
            return MadePattern(self.since(begun), token.text, parts)
        if token.text == "-" and self.behind().kind == "number":
            self.next()
            return NumberPattern(self.since(begun), -int(self.next().text, 0))
        return self.pattern_atom()

    def begins_pattern(self) -> bool:
        token = self.peek()
        return token.kind in ("variable", "constructor", "number", "text", "fraction") or self.at("(", "[", "~") or self.is_bang()

    def is_bang(self) -> bool:
        """Whether a `!` stands here that says only that a part is computed at once."""
        token = self.peek()
        return token.kind == "operator" and token.text == "!" and token.tight and (token.apart or self.tokens[self.read - 1].text in ("(", "[", ","))

    def pattern_atom(self) -> Pattern:
        begun, token = self.read, self.peek()
        if token.kind == "variable":
            return self.named_pattern()
        if token.kind == "constructor":
            self.next()
            return self.record_pattern(begun, token.text) if self.at("{") else MadePattern(token.place, token.text, [])
        if token.kind == "number":
            self.next()
            return NumberPattern(token.place, int(token.text.replace("0O", "0o"), 0))
        if token.kind in ("text", "fraction"):
            raise Fault(token.place, NO_TEXTS if token.kind == "text" else f"{token.text} has a fraction, and numbers are whole here")
        if self.at("~") or self.is_bang():
            self.next()
            inner = self.pattern_atom()
            return Lazy(self.since(begun), inner) if token.text == "~" else inner
        if self.at("["):
            self.next()
            return ListPattern(self.since(begun), self.listed("]", self.pattern))
        if self.at("("):
            return self.bracketed_pattern(begun)
        return self.wrong("a pattern")

    def named_pattern(self) -> Pattern:
        begun, token = self.read, self.next()
        if self.at("@"):
            self.next()
            inner = self.pattern_atom()
            return As(self.since(begun), token.text, inner)
        return Anything(token.place) if token.text == "_" else Bound(token.place, token.text)

    def bracketed_pattern(self, begun: int) -> Pattern:
        self.next()
        token = self.peek()
        if token.kind == "operator" and self.behind().text == ")":
            self.next()
            self.next()
            return Bound(self.since(begun), token.text)
        parts = self.listed(")", self.pattern)
        if len(parts) == 1:
            return parts[0]
        return TuplePattern(self.since(begun), parts) if parts else MadePattern(self.since(begun), "()", [])

    def record_pattern(self, begun: int, word: str) -> Pattern:
        self.next()
        rest = []

        def one() -> tuple[str, Pattern] | None:
            if self.at(".."):
                rest.append(self.next())
                return None
            name = self.next()
            if name.kind != "variable":
                raise Fault(name.place, "the name of a field is wanted here")
            if self.at("="):
                self.next()
                return name.text, self.pattern()
            return name.text, Bound(name.place, name.text)

        found = [part for part in self.listed("}", one) if part]
        return RecordPattern(self.since(begun), word, found, bool(rest))
