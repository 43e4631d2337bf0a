"""What `succ`, `toEnum`, `maxBound` and their like are at a type: of a number, of a truth, or of a name, which is its number from 0."""
from __future__ import annotations

from typing import Any

from front.core import HALF, Node, arith, constant, equal, fail, if_, less, not_
from front.functions import from_enum
from front.scopes import Scopes
from front.types import Con, Type, real
from front.values import Fun, choose


def count_of(type_: Type, scopes: Scopes, word: str) -> int | None:
    """How many values a type has; nothing of numbers."""
    type_ = real(type_)
    if not isinstance(type_, Con) or type_.rigid:
        return fail(f"{word} is used at any type here, and must know its own: write the type of what it is used for")
    if type_.name == "Int":
        return None
    return len(scopes.data[type_.name].constructors) if type_.name in scopes.data else 2


def named(number: Node, type_: Type) -> Node:
    """The value with that number."""
    type_ = real(type_)
    return not_(equal(number, constant(0))) if isinstance(type_, Con) and type_.name == "Bool" else number


def by_type(word: str, type_: Type, scopes: Scopes) -> Any:
    count = count_of(type_, scopes, word)
    least, most = (-HALF, HALF - 1) if count is None else (0, count - 1)
    if word in ("minBound", "maxBound"):
        return named(constant(least if word == "minBound" else most), type_)
    return Fun(1, lambda value: named(moved(word, from_enum(value), count), type_))


def moved(word: str, number: Node, count: int | None) -> Node:
    """The number of the next name, or of the one before; the last one has no next, and stays. `toEnum` takes the nearest."""
    if word == "toEnum":
        high = number if count is None else if_(less(constant(count - 1), number), constant(count - 1), number)
        return high if count is None else if_(less(number, constant(0)), constant(0), high)
    step = arith("add", number, constant(1 if word == "succ" else -1))
    end = constant(0 if word == "pred" or count is None else count - 1)
    return step if count is None else choose(equal(number, end), lambda: number, lambda: step)
