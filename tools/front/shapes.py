"""Types in a program's own words, as its values are spelt by them; and the core's types that they are made of.

| Haskell | core |
|---|---|
| a tuple, a record | nested pairs, the last part without one |
| a data of names | `Int`, the names counted from 0 |
| `Event a`, `Maybe a` | `(Event A)` |
| a data of constructors with parts | the number of the constructor and the parts of each one side by side: those of the others are `blank` |
"""
from __future__ import annotations

from dataclasses import dataclass

# A core's type: a word, or a word with types behind it.
CoreType = str | tuple


@dataclass(frozen=True)
class Made:
    """A constructor: its parts, each with its name, or its number from 1."""

    name: str
    parts: tuple[tuple[str, Shape], ...] = ()
    is_named: bool = False


@dataclass(frozen=True)
class Shape:
    """A type. The sort is `Int`, `Bool` or `Unit`; `Event`, `Maybe` or `List` of one part; `tuple` of two parts or more; `record` with one
    constructor, `names` with constructors without parts, or `sum` with others."""

    sort: str
    parts: tuple[Shape, ...] = ()
    name: str = ""
    constructors: tuple[Made, ...] = ()


def nested(parts: list[CoreType]) -> CoreType:
    """Nested pairs of some types; `Unit` of none."""
    if not parts:
        return "Unit"
    made = parts[-1]
    for part in reversed(parts[:-1]):
        made = ("Pair", part, made)
    return made


def core_type(shape: Shape) -> CoreType:
    """The core's type of a shape."""
    if shape.sort in ("Int", "Bool", "Unit"):
        return shape.sort
    if shape.sort in ("Event", "Maybe", "List"):
        return ("List" if shape.sort == "List" else "Event", core_type(shape.parts[0]))
    if shape.sort == "tuple":
        return nested([core_type(part) for part in shape.parts])
    if shape.sort == "names":
        return "Int"
    sides = [nested([core_type(part) for _, part in one.parts]) for one in shape.constructors]
    if shape.sort == "record":
        return sides[0]
    return nested(["Int", *[side for side, one in zip(sides, shape.constructors) if one.parts]])


def blank(type_: CoreType) -> str:
    """The value of a core's type that stands where nothing does, as a stream spells it."""
    if isinstance(type_, str):
        return {"Int": "0", "Bool": "false", "Unit": "unit"}[type_]
    if type_[0] == "Pair":
        return f"(pair {blank(type_[1])} {blank(type_[2])})"
    return "none" if type_[0] == "Event" else "(list)"


def packed(shape: Shape) -> list:
    """The shape as lists and words, as it is kept in a file."""
    made = [[one.name, one.is_named, [[name, packed(part)] for name, part in one.parts]] for one in shape.constructors]
    return [shape.sort, shape.name, [packed(part) for part in shape.parts], made]


def unpacked(kept: list) -> Shape:
    """The shape that was kept."""
    sort, name, parts, constructors = kept
    made = tuple(Made(one, tuple((part, unpacked(inner)) for part, inner in inside), is_named) for one, is_named, inside in constructors)
    return Shape(sort, tuple(map(unpacked, parts)), name, made)
