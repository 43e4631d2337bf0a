"""Values and states of an encoding, as trees of leaves.

A tree is a leaf, ("unit",), ("pair", a, b), ("event", whether, a), ("list", length, (a, b, ..)) or ("state", a, b, ..). A list
has room for more elements than its length tells; a tree in a place that doesn't count holds anything of its type."""
from typing import Any, Callable, Iterator

from model.trees import is_form
from workbench.proving.terms import Terms, both, either, implied, is_known, is_truth, negation

Tree = Any
UNIT = ("unit",)
NOTHING = ("list", 0, ())


def is_leaf(tree: Tree) -> bool:
    return not isinstance(tree, tuple)


def mapped(work: Callable, *trees: Tree) -> Tree:
    """The tree of what the work makes of the leaves at each place; lists are as long as the longest, with zeros behind."""
    first = trees[0]
    if is_leaf(first):
        return work(*trees)
    if first[0] != "list":
        return (first[0], *[mapped(work, *parts) for parts in zip(*[tree[1:] for tree in trees])])
    longest = max((tree[2] for tree in trees), key=len)
    rows = [(*tree[2], *map(zero, longest[len(tree[2]) :])) for tree in trees]
    return ("list", work(*[tree[1] for tree in trees]), tuple(mapped(work, *parts) for parts in zip(*rows)))


def zero(tree: Tree) -> Tree:
    return mapped(lambda leaf: False if is_truth(leaf) else 0, tree)


def chosen(terms: Terms, condition: Any, a: Tree, b: Tree) -> Tree:
    """The tree a where the condition holds, else b."""
    if a is b or condition is True:
        return a
    if condition is False:
        return b
    return mapped(lambda one, other: terms.chosen(condition, one, other), a, b)


def padded(tree: Tree, shape: Tree) -> Tree:
    """The tree with room for as much as the shape has."""
    return mapped(lambda leaf, _: leaf, tree, shape)


def same(terms: Terms, a: Tree, b: Tree) -> Any:
    """Whether two trees are the same value."""
    if is_leaf(a):
        return terms.equal(a, b)
    if a[0] == "event":
        return both(terms.equal(a[1], b[1]), implied(a[1], same(terms, a[2], b[2])))
    if a[0] == "list":
        return same_lists(terms, a, b)
    found = True
    for one, other in zip(a[1:], b[1:]):
        found = both(found, same(terms, one, other))
    return found


def same_lists(terms: Terms, a: Tree, b: Tree) -> Any:
    found = terms.equal(a[1], b[1])
    for place, (one, other) in enumerate(zip(a[2], b[2])):
        found = both(found, either(negation(terms.less(place, a[1])), same(terms, one, other)))
    if len(a[2]) != len(b[2]):
        found = both(found, negation(terms.less(min(len(a[2]), len(b[2])), a[1])))
    return found


def element(terms: Terms, items: Tree, place: Any, otherwise: Tree) -> Tree:
    """The element at a place of a list, else what is given."""
    if is_known(place):
        there = 0 <= place < len(items[2]) and terms.less(place, items[1])
        return chosen(terms, there, items[2][place], otherwise) if there is not False else otherwise
    for number, item in enumerate(items[2]):
        otherwise = chosen(terms, both(terms.equal(place, number), terms.less(number, items[1])), item, otherwise)
    return otherwise


def leaves(tree: Tree) -> list:
    found: list = []

    def walk(part: Tree) -> None:
        if is_leaf(part):
            found.append(part)
            return
        if part[0] == "list":
            found.append(part[1])
        for inner in part[2] if part[0] == "list" else part[1:]:
            walk(inner)

    walk(tree)
    return found


def rebuilt(shape: Tree, given: Iterator) -> Tree:
    """The tree of this shape with other leaves."""
    if is_leaf(shape):
        return next(given)
    if shape[0] == "list":
        length = next(given)
        return ("list", length, tuple(rebuilt(item, given) for item in shape[2]))
    return (shape[0], *[rebuilt(part, given) for part in shape[1:]])


def lists_in(tree: Tree) -> list:
    """All lists in a tree."""
    if is_leaf(tree):
        return []
    parts = tree[2] if tree[0] == "list" else tree[1:]
    return ([tree] if tree[0] == "list" else []) + [found for part in parts for found in lists_in(part)]


def default(type_: Any) -> Tree:
    """A value of the type, where it doesn't matter which."""
    if not isinstance(type_, tuple):
        return UNIT if type_ == "Unit" else False if type_ == "Bool" else 0
    if is_form("Pair", type_):
        return ("pair", default(type_[1]), default(type_[2]))
    return ("event", False, default(type_[1])) if is_form("Event", type_) else NOTHING


def encoded(value: Any, type_: Any) -> Tree:
    """The tree of a value as it is written."""
    if not isinstance(type_, tuple):
        return UNIT if type_ == "Unit" else value == "true" if type_ == "Bool" else value
    if is_form("Pair", type_):
        return ("pair", encoded(value[1], type_[1]), encoded(value[2], type_[2]))
    if is_form("Event", type_):
        return default(type_) if value == "none" else ("event", True, encoded(value[1], type_[1]))
    return ("list", len(value) - 1, tuple(encoded(item, type_[1]) for item in value[1:]))


def decoded(tree: Tree, type_: Any) -> Any:
    """The value, as it is written, of a tree whose leaves are known."""
    if not isinstance(type_, tuple):
        return "unit" if type_ == "Unit" else ("true" if tree else "false") if type_ == "Bool" else tree
    if is_form("Pair", type_):
        return ("pair", decoded(tree[1], type_[1]), decoded(tree[2], type_[2]))
    if is_form("Event", type_):
        return ("event", decoded(tree[2], type_[1])) if tree[1] else "none"
    return ("list", *[decoded(item, type_[1]) for item in tree[2][: tree[1]]])
