"""What is said of a system's states: expressions of the language, in which `(p N)` is the state's leaf of that number."""
from typing import Any

from model.trees import is_form
from workbench.proving.question import all_hold
from workbench.proving.terms import LEAST, is_truth
from workbench.proving.told import Foreign

Tree = Any


def leaf_at(place: int) -> Tree:
    return ("p", place)


def at_least(tree: Tree, number: int) -> Tree:
    return ("not", ("less", tree, number))


def at_most(tree: Tree, number: int) -> Tree:
    return ("not", ("less", number, tree))


def equal(tree: Tree, value: Any) -> Tree:
    """That a tree has a value: a truth, or a number."""
    if is_truth(value):
        return tree if value else ("not", tree)
    return ("equal", tree, value)


def one_of(tree: Tree, values: list[Any]) -> Tree:
    first, *others = values
    return ("or", equal(tree, first), one_of(tree, others)) if others else equal(tree, first)


def in_modes(modes: tuple, claim: Tree) -> Tree:
    """The claim, where some leaves have their values."""
    if not modes:
        return claim
    condition = all_hold([equal(leaf_at(place), value) for place, value in modes])
    return ("or", condition[1] if is_form("not", condition) else ("not", condition), claim)


def rest_is(tree: Tree, power: int, rest: int) -> Tree:
    """That a number leaves a rest where it is divided by a power of two: numbers wrap, so a multiple of it is none."""
    factor = 2**64 // power
    return ("equal", ("mul", LEAST if factor == -LEAST else factor, ("sub", tree, rest) if rest else tree), 0)


def plainer(tree: Tree) -> Tree:
    """The same in fewer words."""
    if isinstance(tree, Foreign):
        return Foreign(tree.word, tuple(map(plainer, tree.parts)))
    match (tree[0], *map(plainer, tree[1:])) if isinstance(tree, tuple) else tree:
        case ("not", ("not", part)):
            return part
        case ("mul", -1, part):
            return ("neg", part)
        case ("add", left, ("neg", part)):
            return ("sub", left, part)
        case found:
            return found


def with_leaves(tree: Tree, leaves: list[Tree]) -> Tree:
    """The same with what the leaves are."""
    if isinstance(tree, Foreign):
        return Foreign(tree.word, tuple(with_leaves(part, leaves) for part in tree.parts))
    if not isinstance(tree, tuple):
        return tree
    return leaves[tree[1]] if tree[0] == "p" else (tree[0], *[with_leaves(part, leaves) for part in tree[1:]])
