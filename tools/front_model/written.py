"""Types as a file writes them, and the values of the interpreter as a stream spells those of a type.

Nothing is inferred: a network to be run has its type written. Tuples and records are nested pairs, names are numbers from 0, what may be
there is an event; of a type of several constructors with parts a value is the number of its constructor and the parts of each, side by
side, those of the others blank.
"""
from __future__ import annotations

import random
from collections.abc import Iterable
from dataclasses import dataclass
from typing import Any

from front.syntax import Alias, Data, Declaration, Signature, TypeTree, TypeVariable
from front_model.values import EVENT, JUST, NEVER, NOTHING, By, Made, Value

NUMBERS = [0, 1, 2, 3, 5, -1, -4]
EVENTS = 0.35


class NoType(Exception):
    """A type that can't be known from what is written."""


@dataclass(frozen=True)
class Type:
    """A type with its parts: the word is that of `TypeOf`, and of a `data` the parts are its constructors', each with its types."""

    word: str
    parts: tuple = ()
    made: tuple[By, ...] = ()


class Types:
    """The types of a file."""

    def __init__(self, declarations: Iterable[Declaration], made: dict[str, By]):
        self.made = made
        self.aliases: dict[str, Alias] = {}
        self.data: dict[str, Data] = {}
        self.signatures: dict[str, TypeTree] = {}
        for one in declarations:
            match one:
                case Alias(word=word):
                    self.aliases[word] = one
                case Data(word=word):
                    self.data[word] = one
                case Signature(words=words, type=type_):
                    self.signatures.update(dict.fromkeys(words, type_))

    def of_network(self, name: str) -> tuple[Type, Type]:
        """The types of what goes into a network and comes out."""
        tree = self.signatures.get(name)
        if tree is None:
            raise NoType(f"the type of {name} isn't written: {name} :: SF A B")
        made = self.type(tree, {})
        if made.word != "SF":
            raise NoType(f"{name} is no network by its type")
        given, output = made.parts
        return given, output

    def type(self, tree: TypeTree, given: dict[str, Type]) -> Type:
        if isinstance(tree, TypeVariable):
            if tree.word not in given:
                raise NoType(f"the type {tree.word} may be any")
            return given[tree.word]
        parts = tuple(self.type(part, given) for part in tree.parts)
        if tree.word in self.aliases:
            alias = self.aliases[tree.word]
            return self.type(alias.type, dict(zip(alias.params, parts)))
        if tree.word in self.data:
            return self.of_data(self.data[tree.word], parts)
        return Type({"Time": "Int", "DTime": "Int"}.get(tree.word, tree.word), parts)

    def of_data(self, data: Data, parts: tuple) -> Type:
        given = dict(zip(data.params, parts))
        sides = tuple(tuple(self.type(type_, given) for _, type_ in made.parts) for made in data.constructors)
        return Type("data", sides, tuple(self.made[made.word] for made in data.constructors))


def is_names(type_: Type) -> bool:
    return len(type_.made) > 1 and not any(type_.parts)


# ---- spelling


def nested(texts: list[str]) -> str:
    """Nested pairs of some texts."""
    if not texts:
        return "unit"
    return texts[0] if len(texts) == 1 else f"(pair {texts[0]} {nested(texts[1:])})"


def spelt(value: Value, type_: Type) -> str:
    """A value, all of which is computed, as a stream has it."""
    match type_.word:
        case "Int":
            return str(value)
        case "Bool":
            return "true" if value else "false"
        case "Event" | "Maybe":
            return f"(event {spelt(value.parts[0], type_.parts[0])})" if value.parts else "none"
        case "[]":
            return "(" + " ".join(["list", *[spelt(part, type_.parts[0]) for part in value]]) + ")"
        case "data":
            return spelt_data(value, type_)
    if type_.word.startswith("("):
        return nested([spelt(part, of) for part, of in zip(value, type_.parts)])
    raise NoType(f"no value of a stream is a {type_.word}")


def spelt_data(value: Made, type_: Type) -> str:
    if is_names(type_):
        return str(value.by.number)
    own = nested([spelt(part, of) for part, of in zip(value.parts, type_.parts[value.by.number])])
    if len(type_.made) == 1:
        return own
    sides = [own if by == value.by else nested(list(map(blank, side))) for by, side in zip(type_.made, type_.parts) if side]
    return nested([str(value.by.number), *sides])


def blank(type_: Type) -> str:
    """What stands in the place of a part that isn't there."""
    match type_.word:
        case "Int":
            return "0"
        case "Bool":
            return "false"
        case "Event" | "Maybe":
            return "none"
        case "[]":
            return "(list)"
        case "data":
            if is_names(type_):
                return "0"
            sides = [nested(list(map(blank, side))) for side in type_.parts if side or len(type_.made) == 1]
            return nested(sides if len(type_.made) == 1 else ["0", *sides])
    return nested(list(map(blank, type_.parts)))


# ---- reading


def tree_of(text: str) -> Any:
    """The words of a value, those in parentheses as lists."""
    stack: list[list] = [[]]
    for word in text.replace("(", " ( ").replace(")", " ) ").split():
        if word == "(":
            stack.append([])
        elif word == ")":
            stack[-2].append(stack.pop())
        else:
            stack[-1].append(word)
    return stack[0][0]


def unnested(tree: Any, count: int) -> list:
    """The parts of nested pairs."""
    parts = []
    for _ in range(count - 1):
        parts.append(tree[1])
        tree = tree[2]
    return [*parts, tree] if count else []


def read(tree: Any, type_: Type) -> Value:
    """The value that is spelt so."""
    match type_.word:
        case "Int":
            return int(tree)
        case "Bool":
            return tree == "true"
        case "Event" | "Maybe":
            by, nothing = (EVENT, NEVER.by) if type_.word == "Event" else (JUST, NOTHING)
            return Made(nothing) if tree == "none" else Made(by, [read(tree[1], type_.parts[0])])
        case "[]":
            return [read(part, type_.parts[0]) for part in tree[1:]]
        case "data":
            return read_data(tree, type_)
    return tuple(read(part, of) for part, of in zip(unnested(tree, len(type_.parts)), type_.parts))


def read_data(tree: Any, type_: Type) -> Made:
    if is_names(type_):
        return Made(type_.made[int(tree)])
    if len(type_.made) == 1:
        return made_of(0, tree, type_)
    number, *sides = unnested(tree, 1 + sum(map(bool, type_.parts)))
    at = sum(map(bool, type_.parts[: int(number)]))
    return made_of(int(number), sides[at] if type_.parts[int(number)] else None, type_)


def made_of(number: int, tree: Any, type_: Type) -> Made:
    types = type_.parts[number]
    return Made(type_.made[number], [read(part, of) for part, of in zip(unnested(tree, len(types)), types)])


# ---- random values


def random_value(type_: Type, rng: random.Random) -> Value:
    match type_.word:
        case "Int":
            return rng.choice([*NUMBERS, rng.randint(-50, 50), rng.randint(0, 1000)])
        case "Bool":
            return rng.random() < 0.5
        case "Event" | "Maybe":
            there = rng.random() < EVENTS
            if type_.word == "Maybe":
                return Made(JUST, [random_value(type_.parts[0], rng)]) if there else Made(NOTHING)
            return Made(EVENT, [random_value(type_.parts[0], rng)]) if there else NEVER
        case "[]":
            return [random_value(type_.parts[0], rng) for _ in range(rng.randint(0, 4))]
        case "data":
            number = rng.randrange(len(type_.made))
            return Made(type_.made[number], [random_value(part, rng) for part in type_.parts[number]])
    return tuple(random_value(part, rng) for part in type_.parts)
