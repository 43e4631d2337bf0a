"""Goes through the parts of a syntax tree."""
from __future__ import annotations

from collections.abc import Iterator
from typing import Any

from front.faults import Place
from front.syntax import As, Bound, Clause, Function, Node, TypeOf, TypeVariable

PARTS = (Node, list, tuple)


def walked(node: Any) -> Iterator[Node]:
    """All parts of a tree, itself included, types left out."""
    left = [node]
    while left:
        one = left.pop()
        if isinstance(one, Node):
            if not isinstance(one, (TypeOf, TypeVariable)):
                yield one
                left += [part for part in vars(one).values() if isinstance(part, PARTS)]
        elif isinstance(one, (list, tuple)):
            left += [part for part in one if isinstance(part, PARTS)]


def binders(declarations: list) -> Iterator[tuple[str, Place]]:
    """The names that are bound inside of a module's declarations, with their places."""
    for one in declarations:
        parts = one.clauses if isinstance(one, Function) else getattr(one, "rhs", [])
        for node in walked(parts):
            if isinstance(node, (Bound, As)) or isinstance(node, Function) and not isinstance(node, Clause):
                yield node.word, node.place
