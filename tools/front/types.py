"""Types: what they are made of, when two are the same, and how they are shown."""
from __future__ import annotations

from dataclasses import dataclass, field
from itertools import count


class Con:
    """A type by its word with its parts. One that a signature leaves open is `rigid`: it is the same as itself alone."""

    __slots__ = ("name", "args", "rigid")

    def __init__(self, name: str, *args: Type, rigid: int = 0):
        self.name, self.args, self.rigid = name, list(args), rigid


class Var:
    """A type that isn't known yet; of a deeper level than what it may be generalised from."""

    __slots__ = ("to", "level")

    def __init__(self, level: int):
        self.to: Type | None = None
        self.level = level


Type = Con | Var
INT, BOOL, UNIT = Con("Int"), Con("Bool"), Con("()")
NUMBERS = count(1)
# The variables that a unification has given a type, so that one that fails leaves none.
TRAIL: list = []


@dataclass
class Scheme:
    """A type for all types in the place of its variables that are of the classes wanted."""

    variables: list[Var]
    type: Type
    wants: list[tuple[str, Var]] = field(default_factory=list)


class Clash(Exception):
    """Two types that can't be the same."""


def real(type_: Type) -> Type:
    while isinstance(type_, Var) and type_.to is not None:
        type_ = type_.to
    return type_


def function_type(*parts: Type) -> Type:
    made = parts[-1]
    for part in reversed(parts[:-1]):
        made = Con("->", part, made)
    return made


def tuple_type(parts: list[Type]) -> Type:
    return Con(f"({len(parts)})", *parts) if parts else UNIT


def unify(one: Type, other: Type) -> None:
    one, other = real(one), real(other)
    if one is other:
        return
    if isinstance(one, Var):
        adjust(other, one)
        one.to = other
        TRAIL.append(one)
    elif isinstance(other, Var):
        unify(other, one)
    elif one.name != other.name or one.rigid != other.rigid or len(one.args) != len(other.args):
        raise Clash
    else:
        for left, right in zip(one.args, other.args):
            unify(left, right)


def adjust(type_: Type, var: Var) -> None:
    """The variables in a type that a variable becomes are generalised no earlier than it; it can't hold itself."""
    type_ = real(type_)
    if type_ is var:
        raise Clash
    if isinstance(type_, Var):
        type_.level = min(type_.level, var.level)
    else:
        for part in type_.args:
            adjust(part, var)


def copied(type_: Type, fresh: dict) -> Type:
    """The type with others in the place of some variables."""
    type_ = real(type_)
    if isinstance(type_, Var):
        return fresh.get(type_, type_)
    return Con(type_.name, *[copied(part, fresh) for part in type_.args], rigid=type_.rigid) if type_.args else type_


def variables_in(type_: Type, above: int) -> list[Var]:
    """The variables of a type that are deeper than a level."""
    found: list[Var] = []
    left = [type_]
    while left:
        one = real(left.pop())
        if isinstance(one, Con):
            left += reversed(one.args)
        elif one.level > above and one not in found:
            found.append(one)
    return found


def shown(type_: Type, tight: int = 0, names: dict | None = None) -> str:
    """A type as Haskell spells it; tight is 1 left of an arrow, and 2 as a part of a type."""
    names = {} if names is None else names
    type_ = real(type_)
    if isinstance(type_, Var):
        return names.setdefault(type_, "abcdefghijklmnopqrstuvwxyz"[len(names) % 26])
    if type_.name == "->":
        text = f"{shown(type_.args[0], 1, names)} -> {shown(type_.args[1], 0, names)}"
        return f"({text})" if tight else text
    if type_.name == "[]":
        return f"[{shown(type_.args[0], 0, names)}]"
    if type_.name[0] == "(" and type_.args:
        return "(" + ", ".join(shown(part, 0, names) for part in type_.args) + ")"
    if not type_.args:
        return type_.name
    text = " ".join([type_.name, *[shown(part, 2, names) for part in type_.args]])
    return f"({text})" if tight > 1 else text


def with_article(text: str) -> str:
    if text[0] in "([" or " " in text or len(text) == 1:
        return text
    return ("an " if text[0] in "AEIOU" else "a ") + text


def result_of(type_: Type) -> tuple[list[Type], Type]:
    """The parameters of a function's type, and its result."""
    params = []
    type_ = real(type_)
    while isinstance(type_, Con) and type_.name == "->":
        params.append(type_.args[0])
        type_ = real(type_.args[1])
    return params, type_
