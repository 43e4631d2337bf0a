"""What stands for Haskell's values while a program is translated: nodes for what a sample has, and what is known before it runs."""
from __future__ import annotations

from collections.abc import Callable
from typing import Any

from front import core
from front.core import NOW, Node, constant, fail, truth
from front.faults import WaitsForLength


class Group:
    """A tuple that holds something else than values of a sample."""

    def __init__(self, parts: list):
        self.parts = parts


class Fixed(Group):
    """A list of a known length, of something else than values of a sample."""


class Sifted:
    """A list whose elements are known, each with the condition on which it is there."""

    def __init__(self, parts: list[tuple[Node, Any]]):
        self.parts = parts


class Fun:
    """A function that wants so many parts, with those that it has."""

    def __init__(self, arity: int, made: Callable, args: tuple = (), name: str = ""):
        self.arity, self.made, self.args, self.name = arity, made, args, name

    def __call__(self, *args: Any) -> Any:
        found: Any = self
        for one in args:
            found = applied(found, one)
        return found


class Net:
    """A signal function: what it does to an input in a graph, and, if it can, its output before its input is known."""

    def __init__(self, run: Callable, split: Callable | None = None):
        self.run, self.split = run, split
        # Where it is what a function makes of a value: that function, and the value.
        self.made_of: tuple[Any, Any] | None = None


class Brings:
    """An event with something else than a value: the event that brings it about, and what it is, from that one's value."""

    def __init__(self, event: Node, make: Callable):
        self.event, self.make = event, make


class Mapped:
    """A function over a list of a length that only a sample knows."""

    def __init__(self, make: Callable, over: Node):
        self.make, self.over = make, over


class Members:
    """The members of a collection that run: those with some numbers, or all, and behind them new ones."""

    def __init__(self, keep: Node | None = None, new: Any = None):
        self.keep, self.new = keep, new


KINDS = {
    Fun: "a function", Net: "a network", Brings: "an event that brings a network or a function",
    Mapped: "a list of a length that is not known before it runs", Members: "a collection of networks",
}  # fmt: skip


def as_node(value: Any) -> Node:
    """A value as a node; a function or a network is refused."""
    if isinstance(value, Node):
        return value
    if isinstance(value, Fixed):
        return core.list_of([as_node(part) for part in value.parts])
    if isinstance(value, Group):
        return core.tuple_of([as_node(part) for part in value.parts])
    if isinstance(value, Sifted):
        return packed(value)
    if isinstance(value, Mapped):
        raise WaitsForLength(NOW.here, LENGTH)
    return fail(f"{KINDS.get(type(value), 'this')} is wanted here as a value of a sample, and only data can be one")


def plain(value: Any) -> bool:
    """Whether something is a value of a sample."""
    if isinstance(value, Sifted):
        return all(plain(part) for _, part in value.parts)
    return isinstance(value, Node) or type(value) in (Group, Fixed) and all(plain(part) for part in value.parts)


def tupled(parts: list) -> Any:
    return core.tuple_of(parts) if all(isinstance(part, Node) for part in parts) else Group(list(parts))


def listed(parts: list) -> Any:
    return core.list_of(parts) if all(isinstance(part, Node) for part in parts) else Fixed(list(parts))


def parts(value: Any, count: int) -> list:
    return value.parts if isinstance(value, Group) else core.parts_in(as_node(value), count)


def applied(function: Any, part: Any) -> Any:
    args = (*function.args, part)
    if len(args) < function.arity:
        return Fun(function.arity, function.made, args, function.name)
    return function.made(*args)


# ---- branches


class Known:
    """What is known of a value in a branch."""

    def __init__(self, value: Node, fact: Any):
        self.value, self.fact = value, fact

    def __enter__(self) -> None:
        self.before = NOW.facts.get(self.value)
        NOW.facts[self.value] = self.fact

    def __exit__(self, *_: object) -> None:
        if self.before is None:
            NOW.facts.pop(self.value, None)
        else:
            NOW.facts[self.value] = self.before


def choose(condition: Node, yes: Callable, no: Callable) -> Any:
    """`if`, of anything; what is chosen from is made by calls."""
    if truth(condition) is not None:
        return yes() if truth(condition) else no()
    if NOW.facts.get(condition) in (True, False) and isinstance(NOW.facts.get(condition), bool):
        return yes() if NOW.facts[condition] else no()
    with Known(condition, True):
        one = yes()
    with Known(condition, False):
        other = no()
    return merged(condition, one, other)


def merged(condition: Node, yes: Any, no: Any) -> Any:
    """The one or the other, as a truth says."""
    if yes is no:
        return yes
    if plain(yes) and plain(no):
        return core.if_(condition, as_node(yes), as_node(no))
    if isinstance(yes, Fixed) or isinstance(no, Fixed):
        ones, others = members(yes), members(no)
        if len(ones) != len(others):
            fail("a value chooses between lists of different lengths here, of which a function or a network needs the length before it runs")
        return Fixed([merged(condition, one, other) for one, other in zip(ones, others)])
    if isinstance(yes, Group) or isinstance(no, Group):
        count = len((yes if isinstance(yes, Group) else no).parts)
        return Group([merged(condition, one, other) for one, other in zip(parts(yes, count), parts(no, count))])
    if isinstance(yes, Fun) and isinstance(no, Fun):
        return Fun(1, lambda part: merged(condition, applied(yes, part), applied(no, part)))
    for one, other, swap in ((yes, no, False), (no, yes, True)):
        if isinstance(one, Brings) and isinstance(other, Node) and other.op == "none":
            absent = core.none(one.event.ty[1])
            return Brings(core.if_(condition, *((absent, one.event) if swap else (one.event, absent))), one.make)
    if isinstance(yes, Net) and isinstance(no, Net):
        # What a network is chosen by doesn't change while it runs: so both run, and the output of the one is taken.
        return Net(lambda graph, value: merged(condition, yes.run(graph, value), no.run(graph, value)))
    if isinstance(yes, Brings) and isinstance(no, Brings):
        return Brings(core.if_(condition, tagged(True, yes, no), tagged(False, yes, no)), untagged(yes, no))
    return fail(f"a value chooses between {KINDS.get(type(yes), 'data')} and {KINDS.get(type(no), 'data')} here")


def tagged(which: bool, one: Brings, other: Brings) -> Node:
    """Of two events one, with a mark of which, and a place for the value of each."""
    own = one if which else other
    value = core.value_of(own.event)
    sides = [value if which else core.blank(one.event.ty[1]), core.blank(other.event.ty[1]) if which else value]
    return core.on(own.event, core.none(), core.event(core.tuple_of([constant(which), *sides])))


def untagged(one: Brings, other: Brings) -> Callable:
    def make(value: Node) -> Any:
        mark, left, right = core.parts_in(value, 3)
        return merged(mark, one.make(left), other.make(right))

    return make


def on_event(value: Any, absent: Callable, present: Callable) -> Any:
    """`event`, of anything."""
    if isinstance(value, Brings):
        own = core.value_of(value.event)
        return on_known(value.event, absent, lambda _: present(value.make(own)))
    if isinstance(value, Node) and value.op == "none":
        return absent()
    return on_known(as_node(value), absent, present)


def on_known(one: Node, absent: Callable, present: Callable) -> Any:
    if one.op == "event":
        return present(one.args[0])
    if one in NOW.facts:
        return absent() if NOW.facts[one] == "none" else present(core.value_of(one))
    with Known(one, "none"):
        without = absent()
    with Known(one, "some"):
        found = present(core.value_of(one))
    return merged_on(one, without, found)


def merged_on(one: Node, without: Any, found: Any) -> Any:
    """What is found where there is an event, else the other; of anything."""
    if isinstance(without, Node) and without.op == "none" and isinstance(found, Brings):
        return Brings(core.on(one, core.none(found.event.ty[1]), found.event), found.make)
    if isinstance(without, Fun) and isinstance(found, Fun):
        return Fun(1, lambda part: merged_on(one, applied(without, part), applied(found, part)))
    if not (plain(without) and plain(found)) and isinstance(without, Group) and isinstance(found, Group):
        if len(without.parts) == len(found.parts):
            return type(found)([merged_on(one, left, right) for left, right in zip(without.parts, found.parts)])
    return core.on(one, as_node(without), as_node(found))


def mapped_event(function: Any, value: Any) -> Any:
    """`fmap` of events, of anything."""
    if isinstance(value, Brings):
        make = value.make
        found = Brings(value.event, lambda one: applied(function, make(one)))
        result = found.make(core.value_of(value.event))
        return core.on(value.event, core.none(), core.event(as_node(result))) if plain(result) else found
    one = as_node(value)
    if one.op == "none":
        return core.none()
    result = applied(function, core.value_of(one))
    if plain(result):
        return core.on(one, core.none(), core.event(as_node(result)))
    return Brings(one, lambda inner: applied(function, inner))


# ---- lists


def members(value: Any) -> list:
    """The elements of a list of a known length."""
    found = members_if_known(value)
    if found is None:
        raise WaitsForLength(NOW.here, LENGTH)
    return found


LENGTH = (
    "the length of this list is known only to a sample: map, filter, sum and their like over such a list wait for version 4 of the core;"
    " write them over [nth xs k other | k <- [0 .. 7]], say, or keep a list of a known length, as take 4 (x : was) where was begins as replicate 4 0"
)


def members_if_known(value: Any) -> list | None:
    if isinstance(value, Fixed):
        return value.parts
    if isinstance(value, Sifted):
        return [part for _, part in value.parts] if all(truth(condition) is True for condition, _ in value.parts) else None
    if isinstance(value, Node) and value.op == "list":
        return list(value.args)
    count = core.known_length(value) if isinstance(value, Node) else None
    return None if count is None else elements(value, count)


def elements(value: Node, count: int) -> list[Node]:
    """So many elements of a list."""
    return [core.nth(value, constant(at), core.blank(core.parts_of(value.ty, "List", 1)[0])) for at in range(count)]


def sifted(value: Any) -> list[tuple[Node, Any]]:
    """The elements of a list, each with the condition on which it is there."""
    return value.parts if isinstance(value, Sifted) else [(constant(True), part) for part in members(value)]


def sieve(parts_: list[tuple[Node, Any]]) -> Any:
    """The list of what is there on its condition."""
    kept = [(condition, part) for condition, part in parts_ if truth(condition) is not False]
    if all(truth(condition) is True for condition, _ in kept):
        return listed([part for _, part in kept])
    return Sifted(kept)


def packed(value: Sifted) -> Node:
    """A sifted list as one of a sample: each element goes to the place that those before it leave, the last one first."""
    slots: list[Node] = []
    count = constant(0)
    for condition, part in reversed(value.parts):
        one = as_node(part)
        shifted = [one, *slots]
        slots = [core.if_(condition, new, old) for new, old in zip(shifted, [*slots, core.blank(one.ty)])]
        count = core.arith("add", count, core.if_(condition, constant(1), constant(0)))
    least = sum(truth(condition) is True for condition, _ in value.parts)
    made = core.list_of(slots)
    for size in range(len(slots) - 1, least - 1, -1):
        made = core.if_(core.equal(count, constant(size)), core.list_of(slots[:size]), made)
    return made
