"""Where values are to be found in the input of an expression: nodes in trees of pairs, of which a wide one has lists in the place of pairs.

An environment says of nodes where they are: a base, `x` or a parameter, and the steps from there, each `fst`, `snd`, or an element of a list.
"""
from __future__ import annotations

from collections.abc import Callable
from dataclasses import dataclass, field
from typing import Any

from front import core
from front.core import Node, Open, real, spelt, unit
from front.faults import NOWHERE, Place

Steps = tuple
Where = tuple[Any, Steps]
Env = dict[Node, Where]
X: Where = ("x", ())
# How many types a tree of pairs may be made of; a wider one gets lists.
WIDEST = 90


@dataclass(slots=True)
class Tree:
    """A tree of the core's words, the place in Haskell that it comes from, and the name of the wire that it is."""

    head: str
    args: list[Tree] = field(default_factory=list)
    place: Place = NOWHERE
    name: str = ""

    def __str__(self) -> str:
        return self.head if not self.args and self.head not in ("parB",) else f"({' '.join([self.head, *map(str, self.args)])})"


@dataclass(frozen=True)
class Pack:
    """Nodes of one type as a list."""

    nodes: tuple[Node, ...]


Shape = Any  # a node, a Pack, a pair of shapes, or None of nothing


def path(where: Where, place: Place = NOWHERE) -> Tree:
    """The expression that finds what is there."""
    base, steps = where
    made = Tree("x") if base == "x" else Tree("p", [Tree(str(base[1]))])
    for step in steps:
        made = Tree(step, [made], place) if isinstance(step, str) else Tree("nth", [made, Tree(str(step[0])), Tree(step[1])], place)
    return made


def pushed(env: Env, step: str) -> Env:
    """The environment where x is a part of the new one."""
    return {one: (base, (step, *steps)) if base == "x" else (base, steps) for one, (base, steps) in env.items()}


def only_parameters(env: Env) -> Env:
    return {one: where for one, where in env.items() if where[0] != "x"}


def put_leaf(env: Env, one: Node, where: Where) -> Env:
    """Notes where a node is, and so where the parts of a pair are."""
    env[one] = where
    if one.op == "pair":
        for part, step in zip(one.args, ("fst", "snd")):
            if part.op not in ("const", "p"):
                put_leaf(env, part, (where[0], (*where[1], step)))
    return env


def put_shape(shape: Shape, env: Env, where: Where) -> Env:
    """Notes where the nodes of a shape are."""
    if isinstance(shape, Node):
        put_leaf(env, shape, where)
    elif isinstance(shape, Pack):
        for at, one in enumerate(shape.nodes):
            put_leaf(env, one, (where[0], (*where[1], (at, blank_text(one.ty)))))
    elif shape is not None:
        put_shape(shape[0], env, (where[0], (*where[1], "fst")))
        put_shape(shape[1], env, (where[0], (*where[1], "snd")))
    return env


def blank_text(ty: Any) -> str:
    """The value that is put in the place of an element that isn't there, which never happens."""
    ty = real(ty)
    if isinstance(ty, Open) or ty == core.UNIT:
        return "unit"
    if ty[0] == "Pair":
        return f"(pair {blank_text(ty[1])} {blank_text(ty[2])})"
    return {"Int": "0", "Bool": "false"}.get(ty[0]) or (f"(none {spelt(ty[1])})" if ty[0] == "Event" else f"(list {spelt(ty[1])})")


def width(ty: Any) -> int:
    """How many types a type is made of."""
    ty = real(ty)
    return 1 if isinstance(ty, Open) else 1 + sum(map(width, ty[1:]))


def shape_of(nodes: list[Node]) -> Shape:
    """Nodes as a balanced tree of pairs, or where that would be too wide with those of one type in lists."""
    if not nodes:
        return None
    if sum(width(one.ty) + 1 for one in nodes) <= WIDEST:
        return balanced(list(nodes))
    groups: dict[str, list[Node]] = {}
    for one in nodes:
        groups.setdefault(spelt(one.ty), []).append(one)
    return balanced([Pack(tuple(group)) if len(group) > 3 else balanced(list(group)) for group in groups.values()])


def balanced(parts: list) -> Shape:
    if len(parts) == 1:
        return parts[0]
    half = (len(parts) + 1) // 2
    return (balanced(parts[:half]), balanced(parts[half:]))


def shape_node(shape: Shape) -> Node:
    """A shape as one value."""
    if shape is None:
        return unit()
    if isinstance(shape, Node):
        return shape
    if isinstance(shape, Pack):
        return core.node("list", shape.nodes, ("List", shape.nodes[0].ty))
    return core.pair(shape_node(shape[0]), shape_node(shape[1]))


def shape_tree(shape: Shape, text: Callable[[Node], Tree]) -> Tree:
    """A shape as an expression, with the texts of its nodes."""
    if shape is None:
        return Tree("unit")
    if isinstance(shape, Node):
        return text(shape)
    if isinstance(shape, Pack):
        return Tree("list", [Tree(spelt(shape.nodes[0].ty)), *map(text, shape.nodes)])
    return pair_tree(shape_tree(shape[0], text), shape_tree(shape[1], text))


def pair_tree(left: Tree, right: Tree, place: Place = NOWHERE, name: str = "") -> Tree:
    """A pair of two expressions; of both parts of a pair that pair."""
    if left.head == "fst" and right.head == "snd" and str(left.args[0]) == str(right.args[0]):
        return left.args[0]
    return Tree("pair", [left, right], place, name)
