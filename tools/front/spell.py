"""A program's own words for values: the names of their parts, how Haskell spells them, and what such a spelling means.

A type that a program names is a type of the core that also knows its `Shape`: a `Word` or a `Form`, equal to the plain one. Of any type

- `parts_of(type)` answers the parts that have columns of their own, each with its name
- `columns(type)` answers all columns, as tables, plots and dumps have them
- `shown_type(type)` is its name
- `is_told(type)` is whether a value is told as a text: a name, or a constructor with its parts

and of a shape `spelt(value, shape)` spells a value, and `read(text, shape)` answers how a stream spells what was read. A value has the
form of JSON here: a pair is a list of two, an event a list of one or None, as `values_of` of `workbench.signals` reads them.
"""
from __future__ import annotations

import re
from collections.abc import Iterator
from typing import Any

from front.shapes import Made, Shape, blank, core_type

Value = Any
Type = Any
WORDS = re.compile(r"\s*(-?\d+|[^\W\d][\w']*|[()\[\]{},=]|\S)")
MOST_WORDS = 100_000
DEEPEST = 100
GREATEST = 2**63


class Misspelt(Exception):
    """A text that spells no value of a shape, and what is wanted there."""


class Word(str):
    """A type of the core that is one word, with its shape, and the parts of that, each with its name and its type."""

    shape: Shape
    parts: list[tuple[str, Type]]


class Form(tuple):
    """The same of a type of the core that has parts."""

    shape: Shape
    parts: list[tuple[str, Type]]


class RecordType(tuple):
    """The type of nested pairs, which it is equal to; with the record's name, and its fields, each with its type."""

    name: str
    fields: list

    def __new__(cls, name: str, fields: list) -> "RecordType":
        made = fields[-1][1]
        for _, type_ in reversed(fields[1:-1]):
            made = ("Pair", type_, made)
        whole = super().__new__(cls, ("Pair", fields[0][1], made))  # type: ignore[arg-type]
        whole.name, whole.fields = name, fields
        return whole


# ---- types


def named(shape: Shape) -> Type:
    """The core's type of a shape, which knows it; so do its parts."""
    parts = [(name, named(part)) for name, part in fields_of(shape)]
    inner = inside(shape, [type_ for _, type_ in parts])
    made: Type = Word(inner) if isinstance(inner, str) else Form(inner)
    made.shape, made.parts = shape, parts
    return made


def inside(shape: Shape, types: list[Type]) -> Type:
    """The core's type of a shape with fields of these types."""
    if shape.sort in ("Event", "Maybe", "List"):
        return ("List" if shape.sort == "List" else "Event", named(shape.parts[0]))
    if not types:
        return core_type(shape)
    made = types[-1]
    for type_ in reversed(types[:-1]):
        made = ("Pair", type_, made)
    return made


def fields_of(shape: Shape) -> list[tuple[str, Shape]]:
    """The parts of a tuple or a record, each with its name, or its number from 1."""
    if shape.sort == "tuple":
        return [(str(number), part) for number, part in enumerate(shape.parts, 1)]
    return list(shape.constructors[0].parts) if shape.sort == "record" else []


def shape_of(type_: Type) -> Shape | None:
    return getattr(type_, "shape", None)


def is_told(type_: Type) -> bool:
    shape = shape_of(type_)
    return shape is not None and shape.sort in ("names", "sum")


def parts_of(type_: Type) -> list[tuple[str, Type]]:
    """The parts of nested pairs: of a record or a tuple its own, else fst and snd; none of another type."""
    if isinstance(type_, (Word, Form)):
        return type_.parts
    if isinstance(type_, RecordType):
        return type_.fields
    return [("fst", type_[1]), ("snd", type_[2])] if isinstance(type_, tuple) and type_[0] == "Pair" else []


def has_fields(type_: Type) -> bool:
    """Whether the parts have names of their own, so that they need no name before them."""
    shape = shape_of(type_)
    return isinstance(type_, RecordType) or shape is not None and shape.sort == "record" and shape.constructors[0].is_named


def columns(type_: Type, name: str = "x") -> list[tuple[str, Type]]:
    """The names of the parts of nested pairs, each with its type: a record's fields by their own names, other parts as x.fst."""
    parts = parts_of(type_)
    if not parts:
        return [(name, type_)]
    before = "" if has_fields(type_) and name == "x" else f"{name}."
    return [column for part, part_type in parts for column in columns(part_type, before + part)]


def parts_in(value: list | tuple, count: int) -> list:
    """The values in nested pairs, so many of them; of pairs in the core's words too."""
    found = []
    for _ in range(count - 1):
        first, value = value[-2:]
        found.append(first)
    return [*found, value]


def shown_type(type_: Type) -> str:
    """A type as it is printed, by its name in the program where it has one."""
    shape = shape_of(type_)
    if shape is not None:
        return shape_text(shape)
    if isinstance(type_, RecordType) and type_.name:
        return type_.name
    return "(" + " ".join([type_[0], *map(shown_type, type_[1:])]) + ")" if isinstance(type_, tuple) else str(type_)


def shape_text(shape: Shape, tight: bool = False) -> str:
    """A type as Haskell writes it; the parameters of a data are left out."""
    if shape.sort == "List":
        return f"[{shape_text(shape.parts[0])}]"
    if shape.sort == "tuple":
        return f"({', '.join(map(shape_text, shape.parts))})"
    if shape.sort in ("Event", "Maybe"):
        text = f"{shape.sort} {shape_text(shape.parts[0], True)}"
        return f"({text})" if tight else text
    return {"Unit": "()"}.get(shape.sort, shape.name or shape.sort)


# ---- spelling


def spelt(value: Value, shape: Shape, tight: bool = False) -> str:
    """A value as Haskell spells it; `tight` is whether it is the part of a constructor."""
    match shape.sort:
        case "Bool":
            return "True" if value else "False"
        case "Unit":
            return "()"
        case "Event" | "Maybe":
            none, some = ("NoEvent", "Event") if shape.sort == "Event" else ("Nothing", "Just")
            return none if value is None else bracketed(f"{some} {spelt(value[0], shape.parts[0], True)}", tight)
        case "List":
            return f"[{', '.join(spelt(part, shape.parts[0]) for part in value)}]"
        case "tuple":
            return f"({', '.join(spelt(part, of) for part, of in zip(parts_in(value, len(shape.parts)), shape.parts))})"
        case "names":
            return shape.constructors[value].name if 0 <= value < len(shape.constructors) else str(value)
        case "record":
            return spelt_made(shape.constructors[0], value, tight)
        case "sum":
            return spelt_sum(shape, value, tight)
    return bracketed(str(value), tight and value < 0)


def bracketed(text: str, tight: bool) -> str:
    return f"({text})" if tight else text


def spelt_made(made: Made, value: Value, tight: bool) -> str:
    """What a constructor makes of its parts, which a value has as nested pairs."""
    if not made.parts:
        return made.name
    parts = parts_in(value, len(made.parts))
    if made.is_named:
        inner = ", ".join(f"{name} = {spelt(part, of)}" for (name, of), part in zip(made.parts, parts))
        return bracketed(f"{made.name} {{{inner}}}", tight)
    return bracketed(" ".join([made.name, *[spelt(part, of, True) for (_, of), part in zip(made.parts, parts)]]), tight)


def spelt_sum(shape: Shape, value: Value, tight: bool) -> str:
    """The number of a constructor, and beside it the parts of each that has some."""
    sides = [made for made in shape.constructors if made.parts]
    number, *parts = parts_in(value, 1 + len(sides))
    if not 0 <= number < len(shape.constructors):
        return str(number)
    made = shape.constructors[number]
    return spelt_made(made, parts[sides.index(made)] if made.parts else None, tight)


def in_json(tree: Value) -> Value:
    """A value in the core's words as one in the form of JSON."""
    if isinstance(tree, tuple):
        parts = [in_json(part) for part in tree[1:]]
        return parts
    return {"none": None, "true": True, "false": False}.get(tree, tree) if isinstance(tree, str) else tree


# ---- reading


class Reader:
    """The words of a text, one after the other."""

    def __init__(self, text: str):
        self.words = WORDS.findall(text)
        if len(self.words) > MOST_WORDS:
            raise Misspelt(f"it has over {MOST_WORDS:,} words")
        self.at = self.depth = 0

    def next(self) -> str:
        self.at += 1
        return self.words[self.at - 1] if self.at <= len(self.words) else ""

    def peek(self) -> str:
        return self.words[self.at] if self.at < len(self.words) else ""

    def take(self, word: str) -> None:
        found = self.next()
        if found != word:
            raise Misspelt(f"{word} is wanted where {found or 'the end'} stands")

    def listed(self, end: str) -> Iterator[int]:
        """The numbers of the parts up to a word, which the caller reads."""
        number = 0
        while self.peek() != end:
            if number:
                self.take(",")
            yield number
            number += 1
        self.take(end)

    # ---- values, each as a stream spells it

    def value(self, shape: Shape, tight: bool = False) -> str:
        if self.peek() == "(" and shape.sort not in ("tuple", "Unit"):
            self.take("(")
            self.depth += 1
            if self.depth > DEEPEST:
                raise Misspelt(f"over {DEEPEST} parentheses are open at once")
            found = self.value(shape)
            self.take(")")
            self.depth -= 1
            return found
        match shape.sort:
            case "List":
                self.take("[")
                return f"({' '.join(['list', *[self.value(shape.parts[0]) for _ in self.listed(']')]])})"
            case "tuple":
                self.take("(")
                return self.pairs(list(shape.parts), ")")
            case "Unit":
                self.take("(")
                self.take(")")
                return "unit"
            case "Int":
                return self.number()
        return self.made(shape, tight)

    def number(self) -> str:
        found = self.next()
        if not re.fullmatch(r"-?\d{1,19}", found) or not -GREATEST <= int(found) < GREATEST:
            raise Misspelt(f"a number of 64 bits is wanted where {found or 'the end'} stands")
        return str(int(found))

    def pairs(self, shapes: list[Shape], end: str) -> str:
        """The parts of a tuple up to a word."""
        found: list[str] = []
        for number in self.listed(end):
            if number >= len(shapes):
                raise Misspelt(f"{len(shapes)} parts are wanted, and there are more")
            found.append(self.value(shapes[number]))
        if len(found) < len(shapes):
            raise Misspelt(f"{len(shapes)} parts are wanted, and there {'is' if len(found) == 1 else 'are'} {len(found)}")
        return nested(found)

    def made(self, shape: Shape, tight: bool) -> str:
        """A constructor with its parts."""
        word = self.next()
        ways = {one.name: one for one in made_of(shape)}
        if word not in ways:
            raise Misspelt(f"{one_of(list(ways))} is wanted where {word or 'the end'} stands")
        one = ways[word]
        if one.parts and tight and not one.is_named:
            raise Misspelt(f"{word} with its parts stands in parentheses here")
        parts = self.fields(one) if one.is_named and one.parts else [self.value(of, True) for _, of in one.parts]
        return whole_of(shape, one, parts)

    def fields(self, one: Made) -> list[str]:
        """The fields of a record in braces, in any order."""
        shapes, found = dict(one.parts), dict[str, str]()
        self.take("{")
        for _ in self.listed("}"):
            name = self.next()
            if name not in shapes or name in found:
                raise Misspelt(f"{name or 'the end'} is {'there twice' if name in found else f'no field of {one.name}'}")
            self.take("=")
            found[name] = self.value(shapes[name])
        for name in shapes:
            if name not in found:
                raise Misspelt(f"{one.name} lacks {name}")
        return [found[name] for name in shapes]


def made_of(shape: Shape) -> tuple[Made, ...]:
    """The constructors of a shape."""
    if shape.sort == "Bool":
        return (Made("False"), Made("True"))
    if shape.sort in ("Event", "Maybe"):
        none, some = ("NoEvent", "Event") if shape.sort == "Event" else ("Nothing", "Just")
        return (Made(none), Made(some, (("1", shape.parts[0]),)))
    return shape.constructors


def whole_of(shape: Shape, one: Made, parts: list[str]) -> str:
    """What a stream spells of a constructor of a shape with its parts."""
    if shape.sort == "Bool":
        return one.name.lower()
    if shape.sort in ("Event", "Maybe"):
        return f"(event {parts[0]})" if parts else "none"
    number = shape.constructors.index(one)
    if shape.sort == "names":
        return str(number)
    if shape.sort == "record":
        return nested(parts) if parts else "unit"
    sides = [nested(parts) if other is one else blank(core_side(other)) for other in shape.constructors if other.parts]
    return nested([str(number), *sides])


def core_side(made: Made) -> Type:
    """The core's type of the parts of a constructor."""
    return core_type(Shape("record", constructors=(made,)))


def nested(texts: list[str]) -> str:
    made = texts[-1]
    for text in reversed(texts[:-1]):
        made = f"(pair {text} {made})"
    return made


def one_of(words: list[str]) -> str:
    return words[0] if len(words) == 1 else f"{', '.join(words[:-1])} or {words[-1]}"


def read(text: str, shape: Shape) -> str:
    """What a stream spells of the value that a text spells in Haskell."""
    reader = Reader(text)
    found = reader.value(shape)
    if reader.peek():
        raise Misspelt(f"{reader.peek()} stands behind the value")
    return found
