"""Which locals commands write, and to parts of which they keep pointers, as crates/c_meaning counts them: by the name that a place begins
with."""
PLACES = ("member", "at", "deref", "address")


def parts(tree):
    """A tree and all trees in it."""
    if isinstance(tree, tuple):
        yield tree
    if isinstance(tree, (tuple, list)):
        for one in tree:
            yield from parts(one)


def root(tree):
    """The name that a place begins with; None of what is computed."""
    while tree[0] in PLACES:
        tree = tree[1]
    return tree[1] if tree[0] == "name" else None


def pointers(tree, is_const):
    """The names of pointers that are declared as `&` of a place, to what is const or isn't, each with the name that the place begins with."""
    return {one[2]: root(one[3]) for one in parts(tree) if one[0] == "declare" and one[1][::2] == ("pointer", is_const) and one[3] and one[3][0] == "address"}


def written(tree, functions):
    """The names of what commands write, themselves or through a pointer that they pass."""
    found = set()
    for one in parts(tree):
        if one[0] == "assign":
            found.add(root(one[1]))
        elif one[0] == "call":
            given = zip(functions[one[1]].parameters, one[2])
            found |= {root(argument) for (type_, _), argument in given if type_[0] == "pointer" and not type_[2]}
    others = pointers(tree, False)
    return {others.get(name, name) for name in found} - {None}


def is_steady(tree, functions):
    """Whether nothing is written of what pointers to const lead to. That a pointer to an array's first element is one isn't looked at."""
    return not written(tree, functions) & set(pointers(tree, True).values())
