"""The fixities of operators, and chains of operands and operators put together by them, as the Haskell report does."""
from __future__ import annotations

from dataclasses import dataclass

from front.faults import Fault, Place
from front.layout import Token
from front.syntax import Apply, Constructor, Expression, Name, Number

# A precedence, and the side to which an operator associates: l, r or n for neither.
Fixity = tuple[int, str]
STANDARD: dict[str, Fixity] = {
    ".": (9, "r"), "!!": (9, "l"), "^": (8, "r"), "*": (7, "l"), "div": (7, "l"), "mod": (7, "l"), "quot": (7, "l"), "rem": (7, "l"),
    "+": (6, "l"), "-": (6, "l"), ":": (5, "r"), "++": (5, "r"), "==": (4, "n"), "/=": (4, "n"), "<": (4, "n"), "<=": (4, "n"),
    ">": (4, "n"), ">=": (4, "n"), "elem": (4, "n"), "notElem": (4, "n"), "<$>": (4, "l"), "<$": (4, "l"), "$>": (4, "l"), "&&": (3, "r"),
    "***": (3, "r"), "&&&": (3, "r"), "||": (2, "r"), ">>>": (1, "r"), "<<<": (1, "r"), ">>^": (1, "r"), "^>>": (1, "r"), "$": (0, "r"),
    "$!": (0, "r"), "seq": (0, "r"), "-->": (0, "r"), ">--": (0, "r"), "tag": (8, "l"), "attach": (8, "l"), "gate": (8, "l"),
    "lMerge": (6, "l"), "rMerge": (6, "l"),
}  # fmt: skip
PLAIN: Fixity = (9, "l")
MINUS: Fixity = (6, "l")


@dataclass
class Sign:
    """An operator in a chain; `minus` is whether it stands before its only operand."""

    word: str
    place: Place
    minus: bool = False


class Chain:
    """Operands and operators in the order in which they stand."""

    def __init__(self, fixities: dict[str, Fixity]):
        self.items: list[Sign | Expression] = []
        self.fixities, self.read = fixities, 0

    def fixity(self, sign: Sign) -> Fixity:
        return MINUS if sign.minus else self.fixities.get(sign.word, PLAIN)

    def whole(self) -> Expression:
        """The chain as one expression."""
        self.read = 0
        return self.operand((-1, "n"), None)

    def operand(self, around: Fixity, before: Sign | None) -> Expression:
        """What stands behind an operator of that fixity, up to one that doesn't bind as tightly."""
        item = self.items[self.read]
        self.read += 1
        if not isinstance(item, Sign):
            return self.onwards(around, before, item)
        if around[0] >= 6:
            raise Fault(item.place, f"- stands behind {before.word if before else 'it'}: put parentheses around the negated part")
        return self.onwards(around, before, negated(item, self.operand(MINUS, item)))

    def onwards(self, around: Fixity, before: Sign | None, left: Expression) -> Expression:
        while self.read < len(self.items):
            sign = self.items[self.read]
            assert isinstance(sign, Sign)
            fixity = self.fixity(sign)
            if fixity[0] == around[0] and (fixity[1] != around[1] or fixity[1] == "n"):
                raise Fault(sign.place, f"{before.word if before else ''} and {sign.word} bind alike: put parentheses around one of them")
            if around[0] > fixity[0] or around[0] == fixity[0] and around[1] == "l":
                return left
            self.read += 1
            left = joined(sign, left, self.operand(fixity, sign))
        return left

    def section(self, sign: Sign, side: str) -> Expression:
        """The chain as the operand of a section on that side of an operator, which must bind no tighter than what is in the chain."""
        level, own = self.fixity(sign)
        for item in self.items:
            if isinstance(item, Sign) and not (self.fixity(item)[0] > level or self.fixity(item) == (level, own) and own == side):
                raise Fault(sign.place, f"{item.word} and {sign.word} need parentheses here: {sign.word} binds tighter, or as tightly")
        return self.whole()


def joined(sign: Sign, left: Expression, right: Expression) -> Apply:
    place = beyond(left.place, right.place)
    return Apply(place, Apply(left.place, operator_of(sign), left), right)


def operator_of(sign: Sign) -> Expression:
    """An operator by itself: a name, or a constructor."""
    return Constructor(sign.place, sign.word) if sign.word == ":" or sign.word[0].isupper() else Name(sign.place, sign.word)


def negated(sign: Sign, inner: Expression) -> Expression:
    place = beyond(sign.place, inner.place)
    if isinstance(inner, Number) and inner.value >= 0:
        return Number(place, -inner.value)
    return Apply(place, Name(sign.place, "negate"), inner)


def beyond(start: Place, end: Place) -> Place:
    """From the one place to the other; of more lines than one the first."""
    width = end.column + end.width - start.column if start.line == end.line else start.width
    return Place(start.file, start.line, start.column, max(width, 1))


def declared(tokens: list[Token]) -> dict[str, Fixity]:
    """The fixities that a file declares, at its top."""
    found: dict[str, Fixity] = {}
    for number, token in enumerate(tokens):
        if token.kind != "key" or token.text not in ("infixl", "infixr", "infix"):
            continue
        if not token.first or token.column > 1:
            raise Fault(token.place, "fixities are declared at the top of a module, in lines of their own")
        level, read = 9, number + 1
        if tokens[read].kind == "number":
            level, read = int(tokens[read].text), read + 1
        if level > 9:
            raise Fault(tokens[read - 1].place, "a precedence is from 0 to 9")
        for sign in signs_in(tokens, read):
            found[sign] = level, token.text[5:] or "n"
    return found


def signs_in(tokens: list[Token], read: int) -> list[str]:
    """The operators of a fixity declaration, which stand between commas."""
    signs: list[str] = []
    while True:
        token = tokens[read]
        if token.text == "`" and tokens[read + 2].text == "`" and tokens[read + 1].kind in ("variable", "constructor"):
            signs.append(tokens[read + 1].text)
            read += 3
        elif token.kind == "operator":
            signs.append(token.text)
            read += 1
        else:
            raise Fault(token.place, "an operator, or a name between backquotes, is wanted here")
        if tokens[read].text != ",":
            return signs
        read += 1
