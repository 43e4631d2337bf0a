"""What can be computed where, and the fewest nodes to hand over for it."""
from __future__ import annotations

from collections.abc import Callable, Iterable

from front import core
from front.core import Node
from front.places import Env, X, put_leaf, width

ALWAYS, NEVER = -1, 1 << 30
# What is computed again where it is wanted, if its parts are there, rather than handed over.
SMALL = 8


class Reach:
    """When each node can be computed: from the start, which is 0, by what an environment has; later by variables that come at a time."""

    def __init__(self, env: Env, comes: dict[Node, int] | None = None):
        self.env, self.comes = env, comes or {}
        self.memo: dict[tuple, int] = {}

    def time(self, one: Node, bound: frozenset = frozenset()) -> int:
        if one in self.env:
            return 0
        if not one.vars or one in bound:
            return ALWAYS
        if one.op in ("var", "val"):
            return self.comes.get(one, NEVER)
        key = (one, bound & one.vars if bound else bound)
        found = self.memo.get(key)
        if found is None:
            found = self.memo[key] = self.parts_time(one, bound)
        return found

    def parts_time(self, one: Node, bound: frozenset) -> int:
        """When all parts of a node can be computed."""
        found = ALWAYS
        for at, part in enumerate(one.args):
            if found < NEVER and isinstance(part, Node):
                inner = bound | {core.value_of(one.args[0])} if one.op == "on" and at == 2 else bound
                comes = self.time(part, inner)
                found = comes if comes > found else found
        return found

    def has(self, one: Node) -> bool:
        return self.time(one) < NEVER


def parts_of(one: Node) -> list[Node]:
    return [part for part in one.args if isinstance(part, Node)]


def greatest(roots: Iterable[Node], wanted: Callable[[Node], bool], had: Callable[[Node], bool] | None = None) -> list[Node]:
    """The greatest nodes below some that are wanted, without those that are had already."""
    seen: set[Node] = set()
    found: list[Node] = []
    left = list(roots)
    while left:
        one = left.pop()
        if one in seen or not one.vars:
            continue
        seen.add(one)
        if had is not None and had(one):
            continue
        if wanted(one):
            found.append(one)
        else:
            left += parts_of(one)
    return found


def root_of(one: Node) -> Node:
    while one.op in ("fst", "snd"):
        one = one.args[0]
    return one


def compact(nodes: Iterable[Node]) -> list[Node]:
    """Fewer nodes from which those given can be had: whole ones rather than two parts of them."""
    groups: dict[Node, list[Node]] = {}
    for one in nodes:
        groups.setdefault(root_of(one), []).append(one)
    whole: list[Node] = []
    for root, group in groups.items():
        whole += [root] if root in group or len(group) > 1 and root.op in ("var", "val") and worth_whole(root, group) else group
    kept: list[Node] = []
    leaves: Env = {}
    for one in sorted(set(whole), key=lambda one: -one.id):
        if one not in leaves and not (one.op in ("fst", "snd") and root_of(one) in leaves):
            put_leaf(leaves, one, X)
            kept.append(one)
    return sorted(kept, key=lambda one: one.id)


def worth_whole(root: Node, group: list[Node]) -> bool:
    """Whether a value isn't much wider than the parts of it that are wanted."""
    return width(root.ty) <= 2 * sum(width(one.ty) + 1 for one in set(group)) + 8


def bases(nodes: Iterable[Node], env: Env, cut: Iterable[Node] = (), made: Iterable[Node] = ()) -> list[Node]:
    """The parts of x, and what is made now in any case, that some nodes are computed from; what is cut is had already."""
    seen: set[Node] = set(cut)
    found: list[Node] = []
    left = list(nodes)
    while left:
        one = left.pop()
        if one in seen:
            continue
        seen.add(one)
        if one in env:
            found += [one] if env[one][0] == "x" else []
        elif one in made:
            found.append(one)
        elif one.vars:
            left += parts_of(one)
    paths = {env[one] for one in found if one in env}
    return sorted([one for one in found if one not in env or not is_inside(env[one], paths)], key=lambda one: one.id)


def is_inside(where: tuple, paths: set[tuple]) -> bool:
    """Whether a place is inside of one of some others."""
    base, steps = where
    return any((base, steps[:size]) in paths for size in range(len(steps)))


def fewer(found: list[Node], env: Env, now: Iterable[Node] = ()) -> list[Node]:
    """What is computed from x, or the parts of x instead if these are not more; what is made now is not made again."""
    made = made_for(now, env)
    base = bases(found, env, (), made)
    return compact(without_small(base if len(base) <= len(found) else found, made))


def made_for(now: Iterable[Node], env: Env) -> set[Node]:
    """What is computed or had for some nodes, these included, and worth keeping."""
    reach, seen = Reach(env), set[Node]()
    left = list(now)
    while left:
        one = left.pop()
        if one not in seen and one.vars:
            seen.add(one)
            left += [] if one in env else parts_of(one)
    return {one for one in seen if one.size > 3 and reach.has(one)}


def without_small(nodes: Iterable[Node], kept: Iterable[Node] = (), env: Env | None = None) -> list[Node]:
    """The nodes without small ones that the others give, and what an environment has; some are kept in any case, and one at least."""
    left = dict.fromkeys(nodes)
    given: dict[Node, int] = dict.fromkeys(env or {}, 1)
    for one in left:
        count(one, given, 1)
    for one in sorted(left, key=lambda one: -one.size):
        if 1 < one.size <= SMALL and one not in kept and len(left) > 1:
            count(one, given, -1)
            if is_given(one, given, frozenset()):
                del left[one]
            else:
                count(one, given, 1)
    return list(left)


def count(one: Node, given: dict[Node, int], more: int) -> None:
    """Counts in how many ways a node and the parts of a pair are given."""
    given[one] = given.get(one, 0) + more
    if one.op == "pair":
        for part in parts_of(one):
            count(part, given, more)


def is_given(one: Node, given: dict[Node, int], bound: frozenset) -> bool:
    """Whether a small node can be computed from what is given."""
    if given.get(one) or not one.vars or one in bound:
        return True
    if one.op == "on":
        event, absent, present = one.args
        return is_given(event, given, bound) and is_given(absent, given, bound) and is_given(present, given, bound | {core.value_of(event)})
    return one.op not in ("var", "val") and all(is_given(part, given, bound) for part in parts_of(one))


def has_below(one: Node, others: set[Node]) -> bool:
    """Whether a node is made of one of some others, which are older than it then."""
    oldest = min(other.id for other in others)
    seen: set[Node] = set()
    left = parts_of(one)
    while left:
        part = left.pop()
        if part in others:
            return True
        if part not in seen and part.id > oldest:
            seen.add(part)
            left += parts_of(part)
    return False


def is_large(one: Node, most: int) -> bool:
    """Whether a node is made of more than so many others."""
    seen: set[Node] = set()
    left = parts_of(one)
    while left and len(seen) <= most:
        part = left.pop()
        if part not in seen:
            seen.add(part)
            left += parts_of(part)
    return len(seen) > most
