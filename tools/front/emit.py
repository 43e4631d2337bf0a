"""Nodes as the core's expressions: what is used more than once is computed once, by `then` and pairs, as far inside as can be."""
from __future__ import annotations

from typing import Any

from front import core
from front.core import Node, Open, fail, real, spelt
from front.places import Env, Tree, X, blank_text, pair_tree, path, pushed, put_leaf, put_shape, shape_of, shape_tree
from front.reach import Reach, bases, has_below, is_large, parts_of, root_of

CHEAP = {"const", "p", "none", "var", "val", "default"}
# What is used in branches alone is computed before them where it is so much larger than its uses.
HOISTED = 100
SHARED_AT_ONCE = 4
# How deep an expression may get before an inner part of it is computed first.
DEEPEST = 100


def parts_now(one: Node) -> tuple[list[Node], tuple]:
    """The parts that are computed in any case, and those that only may be."""
    if one.op in ("if", "on"):
        return [one.args[0]], one.args[1:]
    return [part for part in one.args if isinstance(part, Node)], ()


class Uses:
    """How often some nodes are used below a root: at how many places that are computed in any case, and in how many branches, which may not
    be. What is cut is computed before the others."""

    def __init__(self, root: Node, env: Env, some: set[Node], cut: set[Node]):
        self.env, self.some, self.cut = env, some, cut
        # What is older than all of them has none of them below it.
        self.oldest = min(one.id for one in some)
        self.sure: dict[Node, int] = {}
        self.maybe: dict[Node, int] = {}
        self.seen: set[Node] = set()
        self.memo: dict[Node, frozenset] = {}
        self.use(root)
        for one in cut:
            for part in self.parts_used(one):
                self.use(part)

    def use(self, root: Node) -> None:
        left = [root]
        while left:
            one = left.pop()
            self.sure[one] = self.sure.get(one, 0) + 1
            if one not in self.seen and not self.ends(one):
                self.seen.add(one)
                left += self.parts_used(one)

    def ends(self, one: Node) -> bool:
        return one in self.env or one in self.cut or one.id <= self.oldest

    def parts_used(self, one: Node) -> list[Node]:
        """The parts that are computed in any case; what is in the others is counted."""
        now, later = parts_now(one)
        for branch in later:
            for inner in self.reach(branch):
                self.maybe[inner] = self.maybe.get(inner, 0) + 1
        return now

    def reach(self, one: Node) -> frozenset:
        """Those of the nodes that are computed for a node, down to what is had."""
        if one not in self.memo:
            found = {one} & self.some
            if not self.ends(one):
                found = found.union(*[self.reach(part) for part in parts_of(one)])
            self.memo[one] = frozenset(found)
        return self.memo[one]


def worth(one: Node, sure: int, maybe: int) -> bool:
    """Whether to compute a node before its uses: not if it is small, or used in branches alone and not large."""
    again = sure + maybe - 1
    if again < 1 or (one.size - 1) * again < 12:
        return False
    return sure > 0 or is_large(one, HOISTED // again)


class Plan:
    """What is below a node: for each node the lowest that all ways to it go through, those that are used in more places than one, and what
    can be computed. It holds for all that is written with the same environment."""

    def __init__(self, root: Node, env: Env):
        self.env, self.reach = env, Reach(env)
        found, depth = {root: root}, {root: 0}
        self.places: dict[Node, int] = {}
        for one in sorted(self.all_below(root), key=lambda one: -one.id):
            if one not in found:
                continue
            depth.setdefault(one, depth[found[one]] + 1)
            for part in one.args:
                if isinstance(part, Node) and part.op not in CHEAP and part not in env and not is_path(part):
                    found[part] = meeting(found[part], one, found, depth) if part in found else one
                    self.places[part] = self.places.get(part, 0) + 1
        self.under: dict[Node, list[Node]] = {}
        for one, lowest in found.items():
            if self.places.get(one, 0) > 1:
                self.under.setdefault(lowest, []).append(one)

    def all_below(self, root: Node) -> set[Node]:
        seen, left = {root}, [root]
        while left:
            one = left.pop()
            if one in self.env and one is not root:
                continue
            for part in one.args:
                if isinstance(part, Node) and part not in seen:
                    seen.add(part)
                    left.append(part)
        return seen


def meeting(one: Node, other: Node, found: dict[Node, Node], depth: dict[Node, int]) -> Node:
    """The lowest node that all ways to both go through."""
    while one is not other:
        if depth[one] > depth[other]:
            one = found[one]
        elif depth[other] > depth[one]:
            other = found[other]
        else:
            one, other = found[one], found[other]
    return one


def is_path(one: Node) -> bool:
    return one.op in ("fst", "snd") and root_of(one).op in ("var", "val", "p")


def shared_in(root: Node, env: Env, plan: Plan) -> list[Node]:
    """The nodes that are computed before the others."""
    shared, deep = often_used(root, env, plan), too_deep(root, env, plan.reach)
    if deep:
        whole = core.tuple_of(sorted(deep, key=lambda one: one.id))
        shared |= deep | often_used(whole, env, Plan(whole, env))
    return sorted(shared, key=lambda one: one.id)


def often_used(root: Node, env: Env, plan: Plan) -> set[Node]:
    """The nodes of which all uses are below the root, in more than one of its parts, and often enough."""
    pool = {one for one in plan.under.get(root, ()) if plan.reach.has(one)}
    shared: set[Node] = set()
    for _ in range(3 if pool else 0):
        uses = Uses(root, env, pool, shared)
        found = {one for one in shared or pool if worth(one, uses.sure.get(one, 0), uses.maybe.get(one, 0))}
        if found == shared:
            break
        shared = found
    return shared


def too_deep(root: Node, env: Env, reach: Reach) -> set[Node]:
    """The nodes in a deep one that are computed before it, so that no expression gets too deep."""
    if root.depth <= DEEPEST:
        return set()
    found, seen, left = set(), {root}, [root]
    while left:
        one = left.pop()
        if one in env and one is not root:
            continue
        if one is not root and one.depth <= DEEPEST * ((root.depth - 1) // DEEPEST):
            if one.depth > DEEPEST // 2 and reach.has(one):
                found.add(one)
            continue
        for part in one.args:
            if isinstance(part, Node) and part not in seen:
                seen.add(part)
                left.append(part)
    return found


def emit(one: Node, env: Env, plan: Plan | None = None) -> Tree:
    """A node as an expression; the plan is that of a node above it."""
    if one in env:
        return path(env[one], one.place)
    if one.size < 5:
        return body(one, env, None)
    plan = plan or Plan(one, env)
    left = shared_in(one, env, plan)
    wraps = []
    while left:
        now = [left.pop(0)]
        while left and len(now) < SHARED_AT_ONCE and not has_below(left[0], set(now)):
            now.append(left.pop(0))
        wrap, env = first_computed(now, [*left, one], env)
        wraps.append(wrap)
    # A node that isn't computed here may be worth that further below.
    made = body(one, env, None if wraps or plan.under.get(one) else plan)
    for parts in reversed(wraps):
        made = Tree("then", [parts, made], made.place)
    return made


def first_computed(now: list[Node], rest: list[Node], env: Env) -> tuple[Tree, Env]:
    """What is computed before the rest, with what the rest wants of x; and where all is then to be found."""
    shape = shape_of(now)
    made = shape_tree(shape, lambda one: emit(one, env))
    had: Env = {}
    for one in now:
        put_leaf(had, one, X)
    old = bases(rest, env, had)
    others = {one: where for one, where in env.items() if where[0] != "x"}
    if not old:
        return made, put_shape(shape, others, X)
    if is_sprawling(old, env):
        kept = shape_of(old)
        keep = shape_tree(kept, lambda one: path(env[one]))
        inner = put_shape(kept, others, ("x", ("fst",)))
    else:
        keep, inner = Tree("x"), pushed(env, "fst")
    return pair_tree(keep, made), put_shape(shape, inner, ("x", ("snd",)))


def is_sprawling(old: list[Node], env: Env) -> bool:
    """Whether x is much wider than what is wanted of it still, or the ways to that are long: then a smaller tree is made."""
    longest = max(len(env[one][1]) for one in old)
    wide = size_of(env)
    return longest > 3 + len(old).bit_length() or wide > 60 and wide > 1.5 * sum(type_size(one.ty) + 1 for one in old)


def type_size(ty: Any) -> int:
    """How large values of a type are, roughly: a list counts as 16 of its elements."""
    ty = real(ty)
    return 1 if isinstance(ty, Open) else (16 if ty[0] == "List" else 1) * (1 + sum(map(type_size, ty[1:])))


def size_of(env: Env) -> int:
    """How large x is, roughly."""
    found = {where[1]: one for one, where in env.items() if where[0] == "x"}
    return sum(type_size(one.ty) + 1 for steps, one in found.items() if not any(steps[:size] in found for size in range(len(steps))))


def body(one: Node, env: Env, plan: Plan | None) -> Tree:
    """A node as an expression, where what is shared below it has its place already."""
    if one in env:
        return path(env[one], one.place)
    parts = one.args
    if one.op == "const":
        return Tree(str(parts[0]), [], one.place)
    if one.op == "p":
        return Tree("p", [Tree(str(parts[0]))], one.place)
    if one.op == "default":
        return Tree(blank_text(one.ty), [], one.place)
    if one.op == "none":
        return Tree("none", [Tree(spelt(one.ty[1]))], one.place)
    if one.op == "list":
        return Tree("list", [Tree(spelt(one.ty[1])), *[emit(part, env, plan) for part in parts]], one.place, one.name)
    if one.op == "on":
        inner = put_leaf(pushed(env, "fst"), core.value_of(parts[0]), ("x", ("snd",)))
        return Tree("on", [emit(parts[0], env, plan), emit(parts[1], env, plan), emit(parts[2], inner)], one.place, one.name)
    if one.op == "pair":
        return pair_tree(emit(parts[0], env, plan), emit(parts[1], env, plan), one.place, one.name)
    if one.op in ("var", "val"):
        fail("a value is used where it isn't known: please report this with the file")
    return Tree(one.op, [emit(part, env, plan) for part in parts], one.place, one.name)
