"""Texts that are nearly right: bytes and tokens changed, trees with parts of other types, hostile sizes."""
import re

from model.trees import EXPRESSION_WORDS, GREATEST, NETWORK_WORDS, head, is_network, preorder, replaced
from model.typed import Scope

SPLICED = [b"(", b")", b" ", b"\n", b";", b"-", b"0", b"9", b"+", b"=", b"\0", b"\x0b", b"\r", b"\t", b"\x80", b"\xff", b"x"]
STEPS = b"+0 +00 +01 +-1 + 1 ++1 +1a +9223372036854775807 +9223372036854775808 +99999999999999999999".split()
WORDS = (
    "( ) x unit true false none time integral identity edge arr >>> first second parB col list pair event fst snd then "
    "neg add if on nth len p old 0 1 -1 007 -0 - 65535 65536 4097 9223372036854775807 9223372036854775808 "
    "-9223372036854775809 4611686018427387905 Int Bool Unit Pair Event List yampa input laws step forward backward at "
    "E1 E18 E19 E26 E27 E55 E56 L0 L1 L42 L43 L46 L47 L51 L52 L65 L66 L01 2 3 4 5 switch kSwitch pSwitch delay after repeatedly never now --> >-- drSwitch "
    "rpSwitchB , []"
).split()


class Breaker:
    """Breaks texts by a source of random numbers."""

    def __init__(self, rng):
        self.rng = rng

    def broken(self, text):
        """The text with one to three changes."""
        for _ in range(self.rng.choice([1, 1, 1, 2, 3])):
            text = self.rng.choice(WAYS)(self, text)
        return text

    def place(self, text):
        return self.rng.randint(0, len(text))

    def byte(self, text):
        at = self.place(text)
        new = self.rng.choice(SPLICED) if self.rng.random() < 0.8 else bytes([self.rng.randrange(256)])
        return text[:at] + self.rng.choice([new, b"", new]) + text[at + self.rng.randint(0, 1) :]

    def piece(self, text):
        """A piece dropped, doubled, or moved."""
        start, end = sorted([self.place(text), self.place(text)])
        end = min(end, start + self.rng.choice([1, 2, 5, 20, 1000]))
        piece, rest = text[start:end], text[:start] + text[end:]
        at = self.place(rest)
        return self.rng.choice([rest, text[:end] + piece + text[end:], rest[:at] + piece + rest[at:]])

    def token(self, text):
        """A word in another's place, two words swapped, or one put in between."""
        words = text.replace(b"(", b" ( ").replace(b")", b" ) ").split(b" ")
        at, other = self.rng.randrange(len(words)), self.rng.randrange(len(words))
        way = self.rng.choice(["replace", "swap", "insert"])
        if way == "swap":
            words[at], words[other] = words[other], words[at]
        else:
            words[at : at + (way == "replace")] = [self.rng.choice(WORDS).encode()]
        return b" ".join(words).replace(b"( ", b"(").replace(b" )", b")")

    def respelt(self, text):
        """A number spelt otherwise."""
        numbers = list(re.finditer(rb"(?<![^ (])-?[0-9]+(?![^ )])", text))
        if not numbers:
            return text
        start, end = self.rng.choice(numbers).span()
        other = self.rng.choice([b"0%b", b"-%b", b"+%b", b"%bx", b"%b0000000000000000000", b"-0%b"]) % text[start:end]
        return text[:start] + self.rng.choice([other, other, b"-0"]) + text[end:]

    def line(self, line, value):
        """A line of a stream with another step, or with a value that may be of another type."""
        step, space, old = line.partition(b" ")
        if not line.startswith(b"+"):
            return self.rng.choice([b"+1 " + line, b"=\n", b"\n", value + b"\n", b" " + line, line[:-1] + b" \n"])
        step = self.rng.choice([step, *STEPS])
        old = self.rng.choice([old, old, value + b"\n", b"==\n", b"= \n", b"\n", b" " + old, old[:-1] + b"\r\n"])
        return step + space + old

    def cut(self, text):
        return text[: self.place(text)]

    def large(self, before):
        """A text of a hostile size or nesting behind some beginning."""
        byte = self.rng.choice(SPLICED + [b"(>>> ", b"(neg ", b"(Event ", b"(pair ", b"(parB ", b"(list Int ", b"(step "])
        count = self.rng.choice([100, 599, 600, 601, 10_000, 70_000])
        if self.rng.random() < 0.1:
            return (before + b" ").ljust(self.rng.choice([1_048_576, 1_048_577]), self.rng.choice([b" ", b"(", b"a", b";"]))
        return before + byte * count

    def tree(self, net, maker):
        """The network with another part at a random place, which is of its kind but may not be of its type."""
        position, tree = self.rng.choice(list(preorder(net)))
        other = self.other_network(net, tree, maker) if is_network(tree) else self.other_expression(tree, maker)
        return replaced(net, position, other)

    def twin(self, net):
        """The network with one node that is another of the same shape, or with another number or type in it."""
        twins = {}
        for position, tree in preorder(net):
            for twin in twins_of(tree):
                twins.setdefault(head(tree), []).append((position, twin))
        words = [word for word in twins if word in SWITCHES] * self.rng.randint(0, 3) or list(twins)
        position, twin = self.rng.choice(twins[self.rng.choice(words)] if words else [((), net)])
        return replaced(net, position, twin)

    def other_network(self, net, tree, maker):
        ways = [*NETWORK_WORDS, ("old", self.rng.randint(0, 3)), ("parB",), ("arr", "x"), ("first", tree), ("hold", 0)]
        ways += [("iPre", self.rng.choice([0, "true"])), ("delay", 1, "unit"), ("accumBy", ("fst", "x"), 0)]
        ways += [("switch", tree, tree)]
        ways += [("rSwitch", tree, tree), ("kSwitch", tree, tree, tree), ("loopPre", 0, tree), ("loopPre", "unit", tree)]
        ways += [("pSwitch", "x", ("col",), tree, tree), ("pSwitch", ("fst", "x"), ("col", tree), tree, tree)]
        if maker.version == 2:
            ways += [("-->", self.rng.choice([0, "true"]), tree), (">--", self.rng.choice([0, "true"]), tree)]
            ways += [("drSwitch", tree, tree)]
            ways += [("rpSwitchB", ("col", *[tree] * self.rng.choice([0, 1, 64, 65])), "x", tree)]
            ways += [("rpSwitchB", ("col", tree), ("pair", ("list", "Int"), ("list", "Int", "x")), tree)]
        ways += [("parB", *[tree] * self.rng.choice([2, 64, 65])), ("parB", tree, "time", tree), ("dSwitch", tree, "time")]
        part = self.rng.choice([other for _, other in preorder(net) if is_network(other)])
        return self.rng.choice([*ways, part, part, maker.network(maker.type(), maker.type(), size=1)])

    def other_expression(self, tree, maker):
        ways = [*EXPRESSION_WORDS, 7, GREATEST, ("p", self.rng.randint(0, 3)), ("fst", tree), ("not", tree)]
        ways += [("add", tree, tree), ("none", maker.type()), ("list", maker.type(), tree), ("len", tree)]
        ways += [("nth", tree, tree, tree), ("if", tree, tree, tree), ("on", tree, tree, tree), ("equal", tree, 1)]
        ways += [("then", tree, "x"), ("event", tree), self.deep(tree), self.wide(tree)]
        return self.rng.choice([*ways, maker.expression(maker.type(), maker.type(), Scope())])

    def deep(self, tree):
        """The expression inside many others, at the limits of heights and of types."""
        word, most = self.rng.choice([("neg", 255), ("event", 31)])
        for _ in range(most + self.rng.choice([-1, 0, 1])):
            tree = (word, tree)
        return tree

    def wide(self, tree):
        """A pair of pairs of one expression, at the limit of a type's nodes."""
        for _ in range(self.rng.choice([5, 6, 7, 8])):
            tree = ("pair", tree, tree)
        return tree


SWITCHES = ["switch", "dSwitch", "rSwitch", "drSwitch", "old"]
TWINS = [
    ["switch", "dSwitch"],
    ["rSwitch", "drSwitch", ">>>"],
    ["-->", ">--", "loopPre"],
    ["after", "repeatedly", "delay"],
    ["iPre", "hold"],
    ["add", "sub", "mul", "less"],
    ["and", "or"],
    ["fst", "snd", "neg", "not", "event", "len"],
    ["if", "on", "nth"],
    ["none", "list"],
    ["true", "false"],
    ["time", "integral"],
]


def twins_of(tree):
    """Trees that differ from this one in its word, or in a number or a type behind it."""
    word = head(tree)
    others = [other for words in TWINS if word in words for other in words if other != word]
    if not isinstance(tree, tuple):
        return others + ([tree + 1, -tree] if word == "number" else [])
    found = [(other, *tree[1:]) for other in others]
    if word in ("p", "old", "after", "repeatedly", "delay"):
        found += [(word, tree[1] + 1, *tree[2:]), (word, tree[1] - 1, *tree[2:])]
    if word in ("none", "list"):
        found += [(word, other, *tree[2:]) for other in ("Int", "Unit", ("Event", tree[1])) if other != tree[1]]
    return found


WAYS = [Breaker.byte, Breaker.byte, Breaker.piece, Breaker.token, Breaker.token, Breaker.cut, Breaker.respelt]
