"""Types, values, expressions and networks as they are written: words, numbers, and tuples that begin with a word."""
from functools import lru_cache

TYPE_WORDS = ["Unit", "Bool", "Int"]
TYPE_FORMS = {"Pair": ["T", "T"], "Event": ["T"], "List": ["T"]}

# The parts of a form: T a type, E an expression, N a network, a `*` any number of them, `col` a list of members,
# and the names of NUMBERS numbers.
EXPRESSION_WORDS = ["x", "unit", "true", "false"]
EXPRESSION_FORMS = {
    "p": ["level"],
    "pair": ["E", "E"],
    "fst": ["E"],
    "snd": ["E"],
    "then": ["E", "E"],
    "neg": ["E"],
    "add": ["E", "E"],
    "sub": ["E", "E"],
    "mul": ["E", "E"],
    "less": ["E", "E"],
    "equal": ["E", "E"],
    "not": ["E"],
    "and": ["E", "E"],
    "or": ["E", "E"],
    "if": ["E", "E", "E"],
    "none": ["T"],
    "event": ["E"],
    "on": ["E", "E", "E"],
    "list": ["T", "E*"],
    "nth": ["E", "E", "E"],
    "len": ["E"],
}
EXPRESSION_SUGAR = {"lMerge": ["E", "E"], "gate": ["T", "E", "E"], "tag": ["T", "E", "E"], "attach": ["T", "E", "E"]}

NETWORK_WORDS = ["time", "integral"]
NETWORK_FORMS = {
    "arr": ["E"],
    ">>>": ["N", "N"],
    "first": ["N"],
    "parB": ["N*"],
    "loopPre": ["E", "N"],
    "iPre": ["E"],
    "delay": ["delay", "E"],
    "hold": ["E"],
    "accumBy": ["E", "E"],
    "after": ["after", "E"],
    "repeatedly": ["repeatedly", "E"],
    "switch": ["N", "N"],
    "dSwitch": ["N", "N"],
    "rSwitch": ["N", "N"],
    "kSwitch": ["N", "N", "N"],
    "pSwitch": ["E", "col", "N", "N"],
    "old": ["level"],
    "-->": ["E", "N"],
    ">--": ["E", "N"],
    "drSwitch": ["N", "N"],
    "rpSwitchB": ["col", "E", "N"],
}
# The forms that only files of version 2 have, and where the forms with members have their list.
NEW_FORMS = ["-->", ">--", "drSwitch", "rpSwitchB"]
COLLECTIONS = {"pSwitch": 2, "rpSwitchB": 1}
NETWORK_SUGAR_WORDS = ["identity", "edge"]
NETWORK_SUGAR = {
    "constant": ["E"],
    "second": ["N"],
    "***": ["N", "N"],
    "&&&": ["N", "N"],
    "never": ["T"],
    "now": ["E"],
    "accumHoldBy": ["E", "E"],
}

SUGAR_WORDS = [*EXPRESSION_SUGAR, *NETWORK_SUGAR, *NETWORK_SUGAR_WORDS]

GREATEST = 2**63 - 1
NUMBERS = {
    "literal": (-(2**63), GREATEST),
    "level": (0, 65535),
    "child": (0, 65535),
    "delay": (1, 4096),
    "after": (0, 2**62),
    "repeatedly": (1, 2**62),
}

FORMS = {**EXPRESSION_FORMS, **NETWORK_FORMS}
SWAP = ("pair", ("snd", "x"), ("fst", "x"))


def shown(tree):
    """The tree as it is printed: one space between words, none inside a parenthesis' edges."""
    return "(" + " ".join(map(shown, tree)) + ")" if isinstance(tree, tuple) else str(tree)


def head(tree):
    """The word of a form; of a number the word `number`."""
    return tree[0] if isinstance(tree, tuple) else "number" if isinstance(tree, int) else tree


def is_form(word, tree):
    """Whether the tree is a form of this word."""
    return isinstance(tree, tuple) and tree[0] == word


def is_network(tree):
    return head(tree) in NETWORK_FORMS or tree in NETWORK_WORDS


def is_new(tree):
    """Whether a form of version 2 stands in the tree."""
    return isinstance(tree, tuple) and (tree[0] in NEW_FORMS or any(map(is_new, tree[1:])))


def is_literal(tree):
    return isinstance(tree, int) or tree in ("unit", "true", "false")


# ---- positions


def at_text(position):
    """The position as it is printed."""
    return "(" + " ".join(["at", *map(str, position)]) + ")"


def child_places(tree):
    """For each child by its number, the indices that lead to it in the tuple."""
    if not isinstance(tree, tuple):
        return []
    return places_in(tree[0], len(tree), len(tree[COLLECTIONS[tree[0]]]) if tree[0] in COLLECTIONS else 0)


@lru_cache(maxsize=None)
def places_in(word, length, members):
    """The places of the children in a tuple of this length, whose list of members has that one."""
    places = []
    for index, sort in enumerate(FORMS[word], 1):
        if sort in ("E", "N"):
            places.append((index,))
        elif sort in ("E*", "N*"):
            places += [(at,) for at in range(index, length)]
        elif sort == "col":
            places += [(index, at) for at in range(1, members)]
    return places


def children(tree):
    places = child_places(tree)
    return [tree[place[0]] if len(place) == 1 else part_at(tree, place) for place in places]


def part_at(tree, place):
    for index in place:
        tree = tree[index]
    return tree


def with_part(tree, place, part):
    if not place:
        return part
    index = place[0]
    return tree[:index] + (with_part(tree[index], place[1:], part),) + tree[index + 1 :]


def at(tree, position):
    """The tree at a position, a tuple of child numbers; None where there is none."""
    for number in position:
        places = child_places(tree)
        if number >= len(places):
            return None
        tree = part_at(tree, places[number])
    return tree


def replaced(tree, position, part):
    """The tree with another part at a position that is there."""
    if not position:
        return part
    place = child_places(tree)[position[0]]
    return with_part(tree, place, replaced(part_at(tree, place), position[1:], part))


def preorder(tree, position=()):
    """The positions of a tree with what stands there, a node before its children."""
    yield position, tree
    for number, child in enumerate(children(tree)):
        yield from preorder(child, (*position, number))


def difference(left, right, position=()):
    """The first position in preorder at which two trees have other nodes, with what each has there; None where they are one."""
    if left == right:
        return None
    if node(left) != node(right):
        return position, left, right
    for number, parts in enumerate(zip(children(left), children(right))):
        found = difference(*parts, (*position, number))
        if found:
            return found


def node(tree):
    """A tree with nothing in the place of its children: its word, and the numbers and types in it."""
    for place in child_places(tree):
        tree = with_part(tree, place, None)
    return tree


# ---- sugar


def expanded(tree):
    """The tree in core forms."""
    if not isinstance(tree, tuple):
        return expanded_word(tree)
    word, *parts = tree
    if word in TYPE_FORMS:
        return tree
    return expanded_form(word, [expanded(part) for part in parts])


def expanded_word(word):
    if word == "identity":
        return ("arr", "x")
    if word == "edge":
        rises = ("and", ("fst", "x"), ("not", ("snd", "x")))
        both = expanded(("&&&", "identity", ("iPre", "true")))
        return (">>>", both, ("arr", ("if", rises, ("event", "unit"), ("none", "Unit"))))
    return word


def expanded_form(word, parts):
    match word, parts:
        case "constant", [e]:
            return ("arr", ("then", "unit", e))
        case "second", [f]:
            return (">>>", ("arr", SWAP), (">>>", ("first", f), ("arr", SWAP)))
        case "***", [f, g]:
            return (">>>", ("first", f), expanded_form("second", [g]))
        case "&&&", [f, g]:
            return (">>>", ("arr", ("pair", "x", "x")), expanded_form("***", [f, g]))
        case "never", [t]:
            return ("arr", ("none", t))
        case "now", [c]:
            return ("after", 0, c)
        case "accumHoldBy", [g, z]:
            return (">>>", ("accumBy", g, z), ("hold", z))
        case "lMerge", [a, b]:
            return ("on", a, b, ("event", ("snd", "x")))
        case "gate", [t, e, b]:
            return ("if", b, e, ("none", t))
        case "tag", [t, e, c]:
            return ("on", e, ("none", t), ("event", ("then", ("fst", "x"), c)))
        case "attach", [t, e, c]:
            return ("on", e, ("none", t), ("event", ("pair", ("snd", "x"), ("then", ("fst", "x"), c))))
    return (word, *parts)
