"""Recordings in a program's own words: that each input is a value of its types, and how a recording is told."""
from typing import Any

from front.shapes import Made, Shape, blank, core_type
from front.spell import fields_of, in_json, shape_of, spelt
from model.texts import read_value
from workbench.streams import Recording

# How many samples of a recording are told, and how many elements of a list are held to be values of their type.
TOLD, ELEMENTS = 12, 16
Tree = Any


def keeping_to(given: Any) -> tuple:
    """The network that observes that each input is a value of the program's types, where not every value of the core's is one."""
    shape = shape_of(given)
    found = held(shape, "x") if shape is not None else []
    return (("arr", all_of(found)),) if found else ()


def all_of(conditions: list[Tree]) -> Tree:
    """That all of them hold, as a balanced tree."""
    middle = len(conditions) // 2
    return ("and", all_of(conditions[:middle]), all_of(conditions[middle:])) if middle else conditions[0]


def held(shape: Shape, value: Tree) -> list[Tree]:
    """What has to hold of a value in the core."""
    if shape.sort == "names":
        return in_range(len(shape.constructors), value)
    if shape.sort in ("Event", "Maybe"):
        inner = held(shape.parts[0], ("snd", "x"))
        return [("on", value, "true", all_of(inner))] if inner else []
    if shape.sort == "List":
        return in_list(shape.parts[0], value)
    if shape.sort == "sum":
        return in_sum(shape, value)
    parts = [part for _, part in fields_of(shape)]
    return [one for part, inner in zip(parts, unpaired(value, len(parts))) for one in held(part, inner)]


def in_range(count: int, value: Tree) -> list[Tree]:
    return [("not", ("less", value, 0)), ("less", value, count)]


def unpaired(value: Tree, count: int) -> list[Tree]:
    """The parts of nested pairs."""
    found = []
    for _ in range(count - 1):
        found.append(("fst", value))
        value = ("snd", value)
    return [*found, value]


def in_list(part: Shape, value: Tree) -> list[Tree]:
    if not held(part, "x"):
        return []
    other = read_value(blank(core_type(part)).encode(), core_type(part))
    elements = [("nth", value, number, literal(other, core_type(part))) for number in range(ELEMENTS)]
    return [one for element in elements for one in held(part, element)]


def in_sum(shape: Shape, value: Tree) -> list[Tree]:
    """The number is one of a constructor, and the parts of the others are blank."""
    sides = [made for made in shape.constructors if made.parts]
    number, *values = unpaired(value, 1 + len(sides))
    found = in_range(len(shape.constructors), number)
    for made, side in zip(sides, values):
        alone = Shape("record", constructors=(made,))
        is_own = ("equal", number, shape.constructors.index(made))
        found.append(("or", is_own, ("equal", side, blank_of(made))))
        found += held(alone, side)
    return found


def blank_of(made: Made) -> Tree:
    type_ = core_type(Shape("record", constructors=(made,)))
    return literal(read_value(blank(type_).encode(), type_), type_)


def literal(value: Any, type_: Any) -> Tree:
    """A value of the core as an expression."""
    if value == "none":
        return ("none", type_[1])
    if not isinstance(value, tuple):
        return value
    if value[0] == "pair":
        return ("pair", literal(value[1], type_[1]), literal(value[2], type_[2]))
    if value[0] == "event":
        return ("event", literal(value[1], type_[1]))
    return ("list", type_[1], *[literal(part, type_[1]) for part in value[1:]])


def told(recording: Recording, given: Any) -> list[str]:
    """The last samples of a recording in the program's words, where it has some."""
    shape = shape_of(given)
    if shape is None:
        return []
    lines = [(f"+{step} " if number else "") + spelt(in_json(value.value), shape) for number, (step, value) in enumerate(recording)]
    left = len(lines) - TOLD
    return [f"  .. {left} samples before"] * (left > 0) + [f"  {line}" for line in lines[-TOLD:]]
