"""What an expression computes of an encoded sample."""
from typing import Any

from model.trees import is_literal
from workbench.proving.terms import Terms, both, either, negation
from workbench.proving.values import UNIT, Tree, chosen, default, element, same


def value(terms: Terms, tree: Any, params: tuple, x: Tree) -> Tree:
    """The value of a typed expression."""
    if tree == "x":
        return x
    if is_literal(tree):
        return tree if isinstance(tree, int) else UNIT if tree == "unit" else tree == "true"
    word, *parts = tree
    if word in STRICT:
        return STRICT[word](terms, *[value(terms, part, params, x) for part in parts])
    match tree:
        case ("p", level):
            return params[level]
        case ("then", f, g):
            return value(terms, g, params, value(terms, f, params, x))
        case ("none", type_):
            return ("event", False, default(type_))
        case ("on", e, d, b):
            happening = value(terms, e, params, x)
            return branched(terms, happening[1], (b, params, ("pair", x, happening[2])), (d, params, x))
        case ("if", c, a, b):
            return branched(terms, value(terms, c, params, x), (a, params, x), (b, params, x))
        case ("list", _, *elements):
            return ("list", len(elements), tuple(value(terms, part, params, x) for part in elements))
    raise AssertionError(tree)


def branched(terms: Terms, condition: Any, first: tuple, second: tuple) -> Tree:
    """What the first expression computes where the condition holds, else what the second does."""
    if isinstance(condition, bool):
        return value(terms, *(first if condition else second))
    with terms.under(condition):
        one = value(terms, *first)
    with terms.under(negation(condition)):
        other = value(terms, *second)
    return chosen(terms, condition, one, other)


STRICT = {
    "pair": lambda terms, a, b: ("pair", a, b),
    "fst": lambda terms, a: a[1],
    "snd": lambda terms, a: a[2],
    "neg": lambda terms, a: terms.opposite(a),
    "add": lambda terms, a, b: terms.plus(a, b),
    "sub": lambda terms, a, b: terms.minus(a, b),
    "mul": lambda terms, a, b: terms.times(a, b),
    "less": lambda terms, a, b: terms.less(a, b),
    "equal": same,
    "not": lambda terms, a: negation(a),
    "and": lambda terms, a, b: both(a, b),
    "or": lambda terms, a, b: either(a, b),
    "event": lambda terms, a: ("event", True, a),
    "nth": element,
    "len": lambda terms, a: a[1],
}
