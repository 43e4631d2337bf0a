"""Puts shorter ways back into networks in core forms."""
from model.trees import SWAP, expanded_word

EDGE = expanded_word("edge")


def shortened(tree):
    """The network with its shorter ways, as one writes it; expressions stay as they are."""
    if not isinstance(tree, tuple):
        return tree
    if tree == EDGE:
        return "edge"
    if tree[0] == "arr":
        return short_arr(tree)
    return joined(tuple(shortened(part) for part in tree))


def short_arr(tree):
    match tree[1]:
        case "x":
            return "identity"
        case ("then", "unit", e):
            return ("constant", e)
        case ("none", type_):
            return ("never", type_)
    return tree


def joined(tree):
    """A form whose parts are short already."""
    swap = ("arr", SWAP)
    match tree:
        case (">>>", first, (">>>", ("first", f), last)) if first == swap and last == swap:
            return ("second", f)
        case (">>>", ("first", f), ("second", g)):
            return ("***", f, g)
        case (">>>", ("arr", ("pair", "x", "x")), ("***", f, g)):
            return ("&&&", f, g)
        case (">>>", ("accumBy", g, z), ("hold", again)) if z == again:
            return ("accumHoldBy", g, z)
        case ("after", 0, c):
            return ("now", c)
    return tree
