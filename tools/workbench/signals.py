"""What a network outputs that outputs several signals at once: how they are packed into one value, and taken out of it."""
from __future__ import annotations

import json
from dataclasses import dataclass
from typing import Any, Iterator, Union

from front import spell
from model.trees import is_form

Tree = Any
Position = tuple


class Absent:
    """What stands for the value of a part where it doesn't run."""

    def __repr__(self) -> str:
        return "-"


class Several(list):
    """The values of a part in the members that run."""


ABSENT = Absent()

# ---- how signals are packed


@dataclass(frozen=True)
class Leaf:
    """The output of the part at a position."""

    position: Position
    type: Tree


@dataclass(frozen=True)
class Both:
    """Two packs side by side, as a pair."""

    left: "Pack"
    right: "Pack"

    @property
    def type(self) -> Tree:
        return ("Pair", self.left.type, self.right.type)


@dataclass(frozen=True)
class Sometimes:
    """A pack that is there only while a part of a switch runs, as an event."""

    inner: "Pack"

    @property
    def type(self) -> Tree:
        return ("Event", self.inner.type)


@dataclass(frozen=True)
class Members:
    """A pack for each member that runs, as a list."""

    inner: "Pack"

    @property
    def type(self) -> Tree:
        return ("List", self.inner.type)


@dataclass(frozen=True)
class Collection:
    """What a `pSwitch` outputs: up to its event an element for each of `count` members, and then one. Each is a pair of outputs,
    of type `output`, and of a pack, in which each signal is there at most once in the list."""

    count: int
    output: Tree
    inner: "Pack"

    @property
    def type(self) -> Tree:
        return ("List", ("Pair", ("List", self.output), self.inner.type))


Pack = Union[Leaf, Both, Sometimes, Members, Collection]


def balanced(packs: list) -> Pack:
    """The packs as one, in pairs of pairs."""
    if len(packs) == 1:
        return packs[0]
    middle = len(packs) // 2
    return Both(balanced(packs[:middle]), balanced(packs[middle:]))


def leaves(pack: Pack) -> Iterator[Leaf]:
    if isinstance(pack, Leaf):
        yield pack
    elif isinstance(pack, Both):
        yield from leaves(pack.left)
        yield from leaves(pack.right)
    else:
        yield from leaves(pack.inner)


def taken_out(pack: Pack, value: Any, found: dict) -> dict:
    """The values of the signals that are there in a pack's value, by their positions. Those of members are several, with ABSENT for a
    member in which the part doesn't run."""
    match pack:
        case Leaf():
            found.setdefault(pack.position, value)
        case Both():
            taken_out(pack.left, value[0], found)
            taken_out(pack.right, value[1], found)
        case Sometimes():
            if value is not None:
                taken_out(pack.inner, value[0], found)
        case Collection():
            for element in value:
                taken_out(pack.inner, element[1], found)
        case Members():
            rows = [taken_out(pack.inner, element, {}) for element in value]
            for leaf in leaves(pack.inner):
                found.setdefault(leaf.position, Several(row.get(leaf.position, ABSENT) for row in rows))
    return found


def in_members(pack: Pack) -> set:
    """The positions of the signals that are lists with an element a member."""
    if isinstance(pack, Members):
        return {leaf.position for leaf in leaves(pack)}
    if isinstance(pack, Both):
        return in_members(pack.left) | in_members(pack.right)
    return set() if isinstance(pack, Leaf) else in_members(pack.inner)


# ---- values


# A spelling becomes JSON: a pair and a list are lists, an event a list of its value, none is null.
JSON_OF = [(b"(pair ", b"["), (b"(event ", b"["), (b"(list)", b"[]"), (b"(list ", b"["), (b")", b"]"), (b" ", b","), (b"none", b"null"), (b"unit", b'"unit"')]


def values_of(lines: list) -> list:
    """The values that the program has spelt or accepted, one a line: an Int as a number, a Bool as a truth value, a pair as a list of
    two, an event as None or a list of one, a list as one."""
    text = b"\n".join(lines)
    for spelt_so, json_so in JSON_OF:
        text = text.replace(spelt_so, json_so)
    return json.loads(b"[" + text.replace(b"\n", b",") + b"]")


def told(value: Any, type_: Tree) -> str:
    """What is shown of a value, or of the several values of a part in members, each of the type."""
    return "[" + " ".join(spelt(one, type_) for one in value) + "]" if isinstance(value, Several) else spelt(value, type_)


def spelt(value: Any, type_: Tree) -> str:
    """The spelling of a value of the type, in its program's words where it has some; of a part that doesn't run `-`."""
    if value is ABSENT:
        return "-"
    shape = spell.shape_of(type_)
    if shape is not None:
        return spell.spelt(value, shape)
    if type_ == "Bool":
        return "true" if value else "false"
    if is_form("Pair", type_):
        return f"(pair {spelt(value[0], type_[1])} {spelt(value[1], type_[2])})"
    if is_form("Event", type_):
        return "none" if value is None else f"(event {spelt(value[0], type_[1])})"
    if is_form("List", type_):
        return "(" + " ".join(["list", *[spelt(part, type_[1]) for part in value]]) + ")"
    return str(value)
