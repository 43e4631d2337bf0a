"""The values of one sample as a graph without copies: nodes of the core's expressions, each once, with their types.

A node is made by the function of its name, which computes what is constant and takes off what vanishes. `Session` has what is known while
one program is translated: all nodes, the place that is being translated, and the lists whose lengths are known.
"""
from __future__ import annotations

from collections.abc import Callable
from typing import Any

from front.faults import NOWHERE, Fault, Place

# ---- the core's types


class Open:
    """A type that isn't known yet."""

    __slots__ = ("to",)

    def __init__(self) -> None:
        self.to: Any = None


INT, BOOL, UNIT = ("Int",), ("Bool",), ("Unit",)
WRAP, HALF = 2**64, 2**63


def real(type_: Any) -> Any:
    while isinstance(type_, Open) and type_.to is not None:
        type_ = type_.to
    return type_


def spelt(type_: Any) -> str:
    """A type as the core spells it; of one that nothing fixes `Unit`."""
    type_ = real(type_)
    if isinstance(type_, Open):
        return "Unit"
    return type_[0] if len(type_) == 1 else f"({type_[0]} {' '.join(map(spelt, type_[1:]))})"


def unify(one: Any, other: Any) -> None:
    one, other = real(one), real(other)
    if one is other or one == other:
        return
    if isinstance(one, Open):
        one.to = other
    elif isinstance(other, Open):
        other.to = one
    elif one[0] != other[0] or len(one) != len(other):
        fail(f"{spelt(one)} and {spelt(other)} do not go together")
    else:
        for left, right in zip(one[1:], other[1:]):
            unify(left, right)


def parts_of(type_: Any, head: str, count: int) -> tuple:
    """The parts of a type with that head, which it gets if it isn't known yet."""
    type_ = real(type_)
    if isinstance(type_, Open):
        type_.to = (head, *[Open() for _ in range(count)])
        type_ = type_.to
    if type_[0] != head:
        fail(f"a {head} is wanted, and this is {spelt(type_)}")
    return type_[1:]


# ---- nodes


class Node:
    """`vars` are the variables in it, `top` the greatest parameter, `size` how much it takes to write it without sharing, `depth` how deep."""

    __slots__ = ("op", "args", "ty", "vars", "id", "place", "size", "depth", "name", "top")
    op: str
    args: tuple
    ty: Any
    vars: frozenset
    id: int
    place: Place
    size: int
    depth: int
    name: str
    top: int


class Session:
    """What is known while a program is translated."""

    def __init__(self) -> None:
        self.table: dict[tuple, Node] = {}
        self.count = 0
        self.here: Place = NOWHERE
        # What is known of values in a branch: of a truth, of an event (`some`, `none`), of a number, or the numbers that it isn't.
        self.facts: dict[Node, Any] = {}
        # The lengths of lists whose elements aren't known; and of which cells the lists don't keep that which they begin with.
        self.lengths: dict[Node, int | None] = {}
        self.varying: set[tuple] = set()


NOW = Session()
UNSHARED = ("none", "default")
LARGEST = 1 << 30


def fail(text: str) -> Any:
    raise Fault(NOW.here, text)


def node(op: str, args: tuple, ty: Any, vars_: frozenset | None = None, key: Any = None) -> Node:
    """The node of that form with those parts, which is made where there is none yet."""
    known = None
    if op not in UNSHARED and (op != "list" or args):
        known = (op, key, tuple([part.id if isinstance(part, Node) else part for part in args]))
        if known in NOW.table:
            return NOW.table[known]
    made = Node()
    made.op, made.args, made.ty, made.place, made.name = op, args, ty, NOW.here, ""
    parts = [part for part in args if isinstance(part, Node)]
    made.vars = frozenset().union(*[part.vars for part in parts]) if vars_ is None else vars_
    made.id = NOW.count
    made.top = args[0] if op == "p" else max([part.top for part in parts], default=-1)
    NOW.count += 1
    made.size = min(LARGEST, 1 + sum(part.size for part in parts)) if op not in ("fst", "snd", "var", "val") else 1
    made.depth = 1 + max([part.depth for part in parts], default=0) if op not in ("var", "val") else 1
    if known:
        NOW.table[known] = made
    return made


def variable(ty: Any) -> Node:
    """A value that isn't made of others: an input, or what a part with a state outputs."""
    made = node("var", (NOW.count,), ty, frozenset())
    made.vars = frozenset([made])
    return made


def parameter(number: int, ty: Any) -> Node:
    return node("p", (number,), ty, key=id(ty))


def constant(value: int | bool) -> Node:
    if isinstance(value, bool):
        return node("const", ("true" if value else "false",), BOOL)
    return node("const", (wrapped(value),), INT, key="int")


def unit() -> Node:
    return node("const", ("unit",), UNIT)


def wrapped(value: int) -> int:
    return (value + HALF) % WRAP - HALF


def number(one: Node) -> int | None:
    return one.args[0] if one.op == "const" and isinstance(one.args[0], int) else None


def truth(one: Node) -> bool | None:
    return {"true": True, "false": False}.get(one.args[0]) if one.op == "const" else None


def blank(ty: Any) -> Node:
    """The value that stands where nothing does; of a type that isn't known yet a node that waits for it."""
    ty = real(ty)
    if isinstance(ty, Open):
        return node("default", (), ty)
    makers: dict[str, Callable[[], Node]] = {
        "Int": lambda: constant(0), "Bool": lambda: constant(False), "Unit": unit, "Event": lambda: none(ty[1]),
        "List": lambda: node("list", (), ty), "Pair": lambda: pair(blank(ty[1]), blank(ty[2])),
    }  # fmt: skip
    return makers[ty[0]]()


# ---- pairs


def pair(left: Node, right: Node) -> Node:
    if left.op == "fst" and right.op == "snd" and left.args[0] is right.args[0]:
        return left.args[0]
    return node("pair", (left, right), ("Pair", left.ty, right.ty))


def tuple_of(parts: list[Node]) -> Node:
    """Nested pairs."""
    if not parts:
        return unit()
    made = parts[-1]
    for part in reversed(parts[:-1]):
        made = pair(part, made)
    return made


def fst(one: Node) -> Node:
    return one.args[0] if one.op == "pair" else node("fst", (one,), parts_of(one.ty, "Pair", 2)[0])


def snd(one: Node) -> Node:
    return one.args[1] if one.op == "pair" else node("snd", (one,), parts_of(one.ty, "Pair", 2)[1])


def parts_in(one: Node, count: int) -> list[Node]:
    """The parts of nested pairs."""
    found = []
    for _ in range(count - 1):
        found.append(fst(one))
        one = snd(one)
    return [*found, one]


# ---- numbers and truths

COMPUTED: dict[str, Callable] = {
    "add": lambda a, b: wrapped(a + b), "sub": lambda a, b: wrapped(a - b), "mul": lambda a, b: wrapped(a * b),
    "less": lambda a, b: a < b, "neg": lambda a: wrapped(-a),
}  # fmt: skip


def arith(op: str, *args: Node) -> Node:
    for one in args:
        unify(one.ty, INT)
    values = [number(one) for one in args]
    if None not in values:
        return constant(COMPUTED[op](*values))
    if op == "add" and 0 in values:
        return args[1 - values.index(0)]
    if op == "sub" and values[1] == 0 or op == "mul" and values[1] == 1:
        return args[0]
    if op == "mul" and values[0] == 1:
        return args[1]
    if op == "mul" and 0 in values:
        return constant(0)
    if op == "add" and values[1] is not None and -HALF < values[1] < 0:
        return node("sub", (args[0], constant(-values[1])), INT)
    if op in ("sub", "less") and args[0] is args[1]:
        return constant(0) if op == "sub" else constant(False)
    return node(op, args, BOOL if op == "less" else INT)


def equal(one: Node, other: Node) -> Node:
    unify(one.ty, other.ty)
    if one is other:
        return constant(True)
    if one.op == "const" and other.op == "const":
        return constant(one.args[0] == other.args[0])
    return node("equal", (one, other), BOOL)


def not_(one: Node) -> Node:
    if truth(one) is not None:
        return constant(not truth(one))
    return one.args[0] if one.op == "not" else node("not", (one,), BOOL)


def both(op: str, left: Node, right: Node) -> Node:
    """`and` or `or`."""
    ends = op == "or"
    for one, other in ((left, right), (right, left)):
        if truth(one) is ends:
            return one
        if truth(one) is (not ends):
            return other
    return left if left is right else node(op, (left, right), BOOL)


def if_(condition: Node, yes: Node, no: Node) -> Node:
    unify(yes.ty, no.ty)
    if truth(condition) is not None:
        return yes if truth(condition) else no
    if yes is no or yes.op == no.op == "none":
        return yes
    if truth(yes) is True:
        return condition if truth(no) is False else both("or", condition, no)
    if truth(yes) is False:
        return not_(condition) if truth(no) is True else both("and", not_(condition), no)
    if truth(no) is False:
        return both("and", condition, yes)
    if condition.op == "not":
        return if_(condition.args[0], no, yes)
    return node("if", (condition, yes, no), yes.ty)


def less(one: Node, other: Node) -> Node:
    """Whether the one comes before the other: by numbers, false before true, no event before one, pairs by their first parts first."""
    unify(one.ty, other.ty)
    ty = real(one.ty)
    if isinstance(ty, Open) or ty == INT:
        return arith("less", one, other)
    if ty == BOOL:
        return both("and", not_(one), other)
    if ty == UNIT:
        return constant(False)
    if ty[0] == "Pair":
        first, second = less(fst(one), fst(other)), less(snd(one), snd(other))
        return both("or", first, both("and", equal(fst(one), fst(other)), second))
    if ty[0] == "Event":
        return on(other, constant(False), on(one, constant(True), less(value_of(one), value_of(other))))
    return fail("lists are compared by == alone: < of lists waits for version 4 of the core")


# ---- events


def none(ty: Any = None) -> Node:
    return node("none", (), ("Event", ty or Open()))


def event(one: Node) -> Node:
    return node("event", (one,), ("Event", one.ty))


def passes(one: Node) -> Node | None:
    """Of an event that never happens in one branch what it is in the other, or nothing of another event."""
    if one.op == "on" and one.args[1].op == "none" or one.op == "if" and one.args[1].op == "none":
        return one.args[2]
    return one.args[1] if one.op == "if" and one.args[2].op == "none" else None


def value_of(one: Node) -> Node:
    """The value of an event, which has a meaning inside of an `on` of that event alone."""
    if one.op == "event":
        return one.args[0]
    inner = passes(one)
    if inner is not None:
        return value_of(inner)
    made = node("val", (one,), parts_of(one.ty, "Event", 1)[0], frozenset())
    made.vars = one.vars | {made}
    return made


def on(one: Node, absent: Node, present: Node) -> Node:
    """What is present where there is an event, in which its value may stand, else what is absent."""
    unify(absent.ty, present.ty)
    if one.op == "none" or absent is present:
        return absent
    if one.op == "event":
        return present
    value = value_of(one)
    if absent.op == "none" and present.op == "event" and present.args[0] is value:
        return one
    inner = passes(one)
    if inner is not None:
        found = on(inner, absent, present)
        if one.op == "on":
            return on(one.args[0], absent, found)
        return if_(one.args[0], found, absent) if inner is one.args[1] else if_(one.args[0], absent, found)
    made = node("on", (one, absent, present), absent.ty)
    made.vars = one.vars | absent.vars | (present.vars - {value})
    return made


# ---- lists


def known_length(one: Node) -> int | None:
    """The length of a list, where it is the same whatever the samples are."""
    if one.op == "list":
        return len(one.args)
    if one not in NOW.lengths:
        found = {known_length(way) for way in ways_of(one)}
        NOW.lengths[one] = found.pop() if len(found) == 1 else None
    return NOW.lengths[one]


def ways_of(one: Node) -> list[Node]:
    """What a value is in one branch or in another; nothing where that isn't known."""
    if one.op in ("if", "on"):
        return list(one.args[1:])
    if one.op in ("fst", "snd"):
        return [fst(way) if one.op == "fst" else snd(way) for way in ways_of(one.args[0])]
    return []


def list_of(parts: list[Node]) -> Node:
    whole = parts[0].args[0] if parts and parts[0].op == "nth" else None
    if whole is not None and known_length(whole) == len(parts):
        if all(part.op == "nth" and part.args[0] is whole and number(part.args[1]) == at for at, part in enumerate(parts)):
            return whole
    ty = Open()
    for part in parts:
        unify(ty, part.ty)
    return node("list", tuple(parts), ("List", ty))


def nth(one: Node, at: Node, other: Node) -> Node:
    unify(one.ty, ("List", other.ty))
    unify(at.ty, INT)
    place = number(at)
    if one.op == "list" and place is not None:
        return one.args[place] if 0 <= place < len(one.args) else other
    return node("nth", (one, at, other), other.ty)


def length(one: Node) -> Node:
    parts_of(one.ty, "List", 1)
    found = known_length(one)
    return node("len", (one,), INT) if found is None else constant(found)
