"""A file's network on samples: its definitions, and those of the files that it imports, are the scope in which it is meant."""
from __future__ import annotations

from collections.abc import Callable

from front.judging import CommandChecker
from front.syntax import Declaration, Name, Node
from front.types import Con, real
from front_model import commands, prelude
from front_model.meaning import Scope, define
from front_model.networks import run
from front_model.values import By, Made, Value, now
from front_model.written import Types

assert commands


def ordinals(checker: CommandChecker, made: dict[str, By]) -> dict[Node, Value]:
    """What `minBound`, `maxBound` and `toEnum` are where they stand, by the types that the checker finds."""
    found: dict[Node, Value] = {}
    for node, type_ in checker.enumerated.items():
        name = getattr(real(type_), "name", "")
        if isinstance(node, Name) and node.word in ("minBound", "maxBound", "toEnum") and isinstance(real(type_), Con):
            data = checker.scopes.data.get(name)
            values: list[Value] = [Made(made[one.word]) for one in data.constructors] if data else [False, True]
            ends = (-(2**63), 2**63 - 1) if name == "Int" else (values[0], values[-1])
            found[node] = with_number([] if name == "Int" else values) if node.word == "toEnum" else ends[node.word == "maxBound"]
    return found


def with_number(values: list) -> Callable[[Value], Value]:
    """The value with a number, or the nearest; without any the number itself."""
    return lambda number: values[min(max(now(number), 0), len(values) - 1)] if values else now(number)


class Interpreter:
    """A program, whose networks are found by their names."""

    def __init__(self, declarations: list[Declaration]):
        known = Scope()
        known.names.update(prelude.names())
        known.made.update(prelude.MADE)
        self.scope = Scope(known)
        define(declarations, self.scope)
        self.types = Types(declarations, self.scope.made)
        checker = CommandChecker(declarations)
        checker.program()
        self.scope.by_type.update(ordinals(checker, self.scope.made))

    def outputs(self, name: str, steps: list[int], inputs: list[Value]) -> list[Value]:
        """What a network outputs on inputs with their steps, of which the first is 0."""
        return run(self.scope.find(name), steps, inputs)
