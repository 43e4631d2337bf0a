"""What networks that output signals are wired with: values that hold an output, signals, or both, and the packs that are there by turns."""
from __future__ import annotations

from dataclasses import dataclass, replace
from typing import Any, Callable, Optional

from model.trees import child_places, expanded, part_at, with_part
from workbench.signals import Both, Pack, Sometimes, balanced

Tree = Any


def arr(e: Tree) -> Tree:
    return ("arr", e)


def seq(f: Tree, g: Tree) -> Tree:
    """One behind the other; `identity` is left out."""
    if f == arr("x"):
        return g
    return f if g == arr("x") else (">>>", f, g)


def fan(f: Tree, g: Tree) -> Tree:
    """Both outputs side by side."""
    return expanded(("&&&", f, g))


def fst(e: Tree) -> Tree:
    return e[1] if isinstance(e, tuple) and e[0] == "pair" else ("fst", e)


def snd(e: Tree) -> Tree:
    return e[2] if isinstance(e, tuple) and e[0] == "pair" else ("snd", e)


def default(type_: Tree) -> Tree:
    """An expression of the type."""
    plain = {"Unit": "unit", "Bool": "false", "Int": 0}
    if not isinstance(type_, tuple):
        return plain[type_]
    if type_[0] == "Pair":
        return ("pair", default(type_[1]), default(type_[2]))
    return ("none", type_[1]) if type_[0] == "Event" else ("list", type_[1])


def absent(pack: Pack) -> Tree:
    """The value of a pack none of whose signals is there."""
    return ("pair", absent(pack.left), absent(pack.right)) if isinstance(pack, Both) else default(pack.type)


def packed(output: Optional[Tree], signals: Optional[Tree]) -> Tree:
    """The value of an output, of signals, or of both."""
    if output is None or signals is None:
        return signals if output is None else output
    return ("pair", output, signals)


@dataclass(frozen=True)
class Seen:
    """A network with the type of the output in its value and the pack of signals there; where one isn't in it, None."""

    net: Tree
    output: Tree
    signals: Any

    def out(self, value: Tree = "x") -> Optional[Tree]:
        return None if self.output is None else fst(value) if self.signals else value

    def sig(self, value: Tree = "x") -> Optional[Tree]:
        return None if self.signals is None else snd(value) if self.output is not None else value

    @property
    def type(self) -> Tree:
        """The type of its value."""
        return packed_type(self.output, self.signals)


def packed_type(output: Tree, signals: Any) -> Tree:
    if output is None or signals is None:
        return signals.type if output is None else output
    return ("Pair", output, signals.type)


@dataclass(frozen=True)
class Frozen:
    """What a resumed network is made of: what its output is of the value of `(old k)`, and its signals there."""

    out: Callable
    sig: Optional[Callable] = None
    pack: Any = None


@dataclass(frozen=True)
class Scope:
    """What the parameters and the frozen networks of a part have become, and whether nothing is watched in it."""

    params: tuple = ()
    frozen: tuple = ()
    quiet: bool = False

    def same(self) -> bool:
        """Whether a part in which nothing is watched stays as it is."""
        return all(param == ("p", k) for k, param in enumerate(self.params)) and all(one is WHOLE for one in self.frozen)

    def below(self, param: Optional[Tree] = None, frozen: tuple = ()) -> "Scope":
        """The scope of a template."""
        return replace(self, params=(*self.params, param or self.param()), frozen=self.frozen + frozen)

    def param(self) -> Tree:
        return ("p", len(self.params))


WHOLE = Frozen(lambda value: value)


class Sides:
    """The packs of networks of which one runs at a time: each as an event, in one value."""

    def __init__(self, packs: list):
        self.at = [number for number, pack in enumerate(packs) if pack is not None]
        self.nested = [pack is not None and isinstance(pack, Sometimes) for pack in packs]
        there = [pack if isinstance(pack, Sometimes) else Sometimes(pack) for pack in packs if pack is not None]
        self.pack: Any = balanced(there) if there else None

    def value(self, number: int, signals: Optional[Tree]) -> Optional[Tree]:
        """The value with the signals of that network alone."""
        return self.values({} if signals is None else {number: signals if self.nested[number] else ("event", signals)})

    def values(self, events: dict) -> Optional[Tree]:
        """The value with these events in the places of these networks."""
        if self.pack is None:
            return None
        found = [self.at.index(number) for number in events]
        return value_with(self.pack, dict(zip(found, events.values())), 0, len(self.at))

    def side(self, number: int, value: Tree) -> Tree:
        """The event of that network in a value."""
        place, start, count = self.at.index(number), 0, len(self.at)
        while count > 1:
            half = count // 2
            left = place < start + half
            value, start, count = (fst(value), start, half) if left else (snd(value), start + half, count - half)
        return value


def value_with(pack: Any, events: dict, start: int, count: int) -> Tree:
    """The value of so many balanced packs, absent but for those whose events are given by their places."""
    if count == 1:
        return events.get(start) or absent(pack)
    half = count // 2
    return ("pair", value_with(pack.left, events, start, half), value_with(pack.right, events, start + half, count - half))


def packing(seen: Seen, output: Optional[Tree], signals: Tree, pack: Any) -> Seen:
    """The network with another value, made of its value."""
    return Seen(seq(seen.net, arr(packed(output, signals))), seen.output if output is not None else None, pack)


def each_output(elements: Tree, count: int, of: Tree, empty: Tree) -> Tree:
    """The list of the members' outputs, from their elements."""
    return ("list", of, *[("nth", ("fst", ("nth", elements, number, empty)), 0, default(of)) for number in range(count)])


def beside(nets: list, value: Tree = "x") -> tuple:
    """The networks side by side, as one in pairs of pairs, and where the value of each is in its value."""
    if len(nets) == 1:
        return nets[0], [value]
    middle = len(nets) // 2
    left, left_values = beside(nets[:middle], fst(value))
    right, right_values = beside(nets[middle:], snd(value))
    return fan(left, right), left_values + right_values


def joined(values: list) -> Tree:
    """The value of balanced packs."""
    if len(values) == 1:
        return values[0]
    middle = len(values) // 2
    return ("pair", joined(values[:middle]), joined(values[middle:]))


def substituted(tree: Tree, scope: Scope) -> Tree:
    """The tree with what its parameters have become."""
    if not scope.params or not isinstance(tree, tuple):
        return tree
    if tree[0] == "p":
        return scope.params[tree[1]]
    for place in child_places(tree):
        tree = with_part(tree, place, substituted(part_at(tree, place), scope))
    return tree
