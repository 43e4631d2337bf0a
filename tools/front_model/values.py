"""Values of the interpreter, each computed when it is first asked for.

A number is an `int` of 64 bits, truth a `bool`, a tuple a `tuple` (the empty one is `()`), a list a `list`; what a constructor makes is a
`Made`; a function takes one part after the other. The parts of all these may be `Later`.
"""
from __future__ import annotations

from collections.abc import Callable
from dataclasses import dataclass, field
from typing import Any

Value = Any


class Endless(Exception):
    """A value is wanted to compute itself."""


class Unfit(Exception):
    """A value fits none of the patterns, or none of the guards holds."""


class Later:
    """A value that is computed when it is first asked for."""

    __slots__ = ("make", "value")

    def __init__(self, make: Callable[[], Value]):
        self.make, self.value = make, None


def endless() -> Value:
    raise Endless


def now(value: Value) -> Value:
    """A value, computed up to its outermost constructor."""
    while isinstance(value, Later):
        if value.make is not None:
            make, value.make = value.make, endless
            value.value = now(make())
            value.make = None
        value = value.value
    return value


def whole(value: Value) -> Value:
    """A value with all its parts computed; networks and functions stay as they are."""
    value = now(value)
    match value:
        case tuple():
            return tuple(map(whole, value))
        case list():
            return list(map(whole, value))
        case Made():
            return Made(value.by, list(map(whole, value.parts)))
    return value


@dataclass(frozen=True)
class By:
    """A constructor: its number among those of its type, how many parts it takes, their names, where they have some, and all
    constructors of the type."""

    word: str
    number: int = 0
    count: int = 0
    fields: tuple = ()
    beside: list = field(default_factory=list, compare=False, repr=False)


@dataclass
class Made:
    """What a constructor makes of its parts."""

    by: By
    parts: list = field(default_factory=list)


NO_EVENT, EVENT = By("NoEvent", 0), By("Event", 1, 1)
NOTHING, JUST = By("Nothing", 0), By("Just", 1, 1)
NEVER = Made(NO_EVENT)


def event(value: Value) -> Made:
    return Made(EVENT, [value])


def is_there(happening: Value) -> bool:
    """Whether an event happens."""
    return now(happening).by == EVENT


# ---- functions


def curried(count: int, function: Callable[..., Value], *parts: Value) -> Value:
    """A function of so many parts, as one that takes them one after the other."""
    if len(parts) == count:
        return function(*parts)
    return lambda part: curried(count, function, *parts, part)


def call(function: Value, *parts: Value) -> Value:
    for part in parts:
        function = now(function)(part)
    return now(function)


# ---- numbers and order


def wrapped(number: int) -> int:
    return (number + 2**63) % 2**64 - 2**63


def equal(left: Value, right: Value) -> bool:
    return whole(left) == whole(right)


def key(value: Value) -> Any:
    """What values of one type are ordered by."""
    value = now(value)
    match value:
        case tuple() | list():
            return [key(part) for part in value]
        case Made():
            return [value.by.number, *[key(part) for part in value.parts]]
    return value


def less(left: Value, right: Value) -> bool:
    return bool(key(left) < key(right))
