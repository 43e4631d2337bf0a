"""The functions of the Prelude and of Yampa's events, over what stands for their parts."""
from __future__ import annotations

from collections.abc import Callable
from typing import Any

from front import core
from front.core import Node, arith, both, constant, equal, fail, if_, not_, number
from front.values import (
    Brings,
    Fixed,
    Fun,
    Mapped,
    Members,
    Net,
    Sifted,
    applied,
    as_node,
    choose,
    listed,
    mapped_event,
    members,
    members_if_known,
    on_event,
    parts,
    plain,
    sieve,
    sifted,
    tupled,
)

Env = dict[str, Any]


class Names:
    """What is defined, by name; `define` takes names that are parted by blanks."""

    def __init__(self) -> None:
        self.env: Env = {}

    def define(self, names: str, arity: int, made: Callable) -> None:
        for name in names.split():
            self.env[name] = Fun(arity, made, name=name)


def static(value: Any) -> int:
    """A number that is known before the network runs."""
    found = number(as_node(value))
    return fail("this number must be known before it runs") if found is None else found


# ---- numbers, truths, functions


def numbers(names: Names) -> None:
    define = names.define
    for sign, op in (("+", "add"), ("-", "sub"), ("*", "mul")):
        define(sign, 2, lambda one, other, op=op: arith(op, as_node(one), as_node(other)))
    define("subtract", 2, lambda one, other: arith("sub", as_node(other), as_node(one)))
    define("negate", 1, lambda one: arith("neg", as_node(one)))
    define("fromIntegral fromEnum", 1, from_enum)
    define("abs", 1, lambda one: if_(arith("less", as_node(one), constant(0)), arith("neg", as_node(one)), as_node(one)))
    define("signum", 1, signum)
    define("<", 2, lambda one, other: core.less(as_node(one), as_node(other)))
    define(">", 2, lambda one, other: core.less(as_node(other), as_node(one)))
    define("<=", 2, lambda one, other: not_(core.less(as_node(other), as_node(one))))
    define(">=", 2, lambda one, other: not_(core.less(as_node(one), as_node(other))))
    define("min", 2, least)
    define("max", 2, greatest)
    define("==", 2, lambda one, other: equal(as_node(one), as_node(other)))
    define("/=", 2, lambda one, other: not_(equal(as_node(one), as_node(other))))
    define("&&", 2, lambda one, other: both("and", as_node(one), as_node(other)))
    define("||", 2, lambda one, other: both("or", as_node(one), as_node(other)))
    define("not", 1, lambda one: not_(as_node(one)))


def from_enum(value: Any) -> Node:
    one = as_node(value)
    return if_(one, constant(1), constant(0)) if core.real(one.ty) == core.BOOL else one


def signum(value: Any) -> Node:
    one = as_node(value)
    return if_(arith("less", one, constant(0)), constant(-1), if_(equal(one, constant(0)), constant(0), constant(1)))


def least(one: Any, other: Any) -> Node:
    left, right = as_node(one), as_node(other)
    return if_(core.less(right, left), right, left)


def greatest(one: Any, other: Any) -> Node:
    left, right = as_node(one), as_node(other)
    return if_(core.less(left, right), right, left)


def plumbing(names: Names) -> None:
    define = names.define
    names.env |= {"True": constant(True), "False": constant(False), "otherwise": constant(True), "()": core.unit()}
    for size in range(2, 8):
        define(f"({size})", size, lambda *args: tupled(list(args)))
    define("fst", 1, lambda value: parts(value, 2)[0])
    define("snd", 1, lambda value: parts(value, 2)[1])
    define("id", 1, lambda value: value)
    define("const", 2, lambda one, _: one)
    define("seq", 2, lambda _, one: one)
    define("flip", 3, lambda function, one, other: applied(applied(function, other), one))
    define("curry", 3, lambda function, one, other: applied(function, tupled([one, other])))
    define("uncurry", 2, lambda function, value: applied(applied(function, parts(value, 2)[0]), parts(value, 2)[1]))
    define(".", 3, lambda outer, inner, value: applied(outer, applied(inner, value)))
    define("$ $!", 2, applied)


# ---- lists


def mapped(function: Any, over: Any) -> Any:
    if isinstance(over, Node) and members_if_known(over) is None:
        return Mapped(lambda value: applied(function, value), over)
    found = []
    for condition, part in sifted(over):
        value = applied(function, part)
        if isinstance(value, Net) and plain(part):
            value = Net(value.run, value.split)
            value.made_of = function, part
        found.append((condition, value))
    return sieve(found)


def folded(function: Callable, start: Any, over: Any) -> Any:
    """From the left; what isn't there is passed over."""
    for condition, part in sifted(over):
        before = start
        start = choose(condition, lambda before=before, part=part: function(before, part), lambda before=before: before)
    return start


def total(op: str, start: int, over: Any) -> Node:
    """The sum of a list, or the product; what isn't there counts as what changes nothing."""
    found = constant(start)
    for condition, part in sifted(over):
        found = arith(op, found, if_(condition, as_node(part), constant(start)))
    return found


def folded_right(function: Callable, start: Any, over: Any) -> Any:
    for condition, part in reversed(sifted(over)):
        before = start
        start = choose(condition, lambda before=before, part=part: function(part, before), lambda before=before: before)
    return start


def folded_one(function: Callable, over: Any, right: bool = False) -> Any:
    """The fold of a list whose first element, or last, is surely there."""
    found = sifted(over)
    found = found[::-1] if right else found
    if not found:
        fail("this list must have an element")
    if core.truth(found[0][0]) is not True:
        fail("whether this list has an element is known only to a sample: put one that is surely there before the others")
    if right:
        return folded_right(function, found[0][1], sieve(found[:0:-1]))
    return folded(function, found[0][1], sieve(found[1:]))


def extreme(function: Callable, over: Any) -> Any:
    """The greatest element, or the least, of which the order doesn't matter."""
    found = sifted(over)
    return folded_one(function, sieve(sorted(found, key=lambda one: core.truth(one[0]) is not True)))


def joined(one: Any, other: Any) -> Any:
    kinds = (Members, Mapped)
    if isinstance(one, kinds) or isinstance(other, kinds):
        if isinstance(other, Node) and other.op == "list" and not other.args:
            return one
        if isinstance(one, Node) and one.op == "list" and not one.args:
            return Members(core.list_of([]), other) if isinstance(other, Mapped) else other
        if isinstance(one, Members) and one.new is None and not isinstance(other, Members):
            return Members(one.keep, other)
        if isinstance(one, Members) and isinstance(one.new, Fixed) and isinstance(other, Fixed):
            return Members(one.keep, Fixed([*one.new.parts, *other.parts]))
        fail("what goes on comes first, and then what is new: at numbers members ++ map template values")
    return sieve([*sifted(one), *sifted(other)])


def length(value: Any) -> Node:
    if isinstance(value, Node) and members_if_known(value) is None:
        return core.length(value)
    return total("add", 0, sieve([(condition, constant(1)) for condition, _ in sifted(value)]))


def chosen_element(over: Any, at: Any, other: Any) -> Any:
    place = number(as_node(at))
    if isinstance(over, Fixed):
        if place is None:
            fail("which function or network of a list is taken must be known before it runs")
        return over.parts[place] if 0 <= place < len(over.parts) else other
    return core.nth(as_node(over), as_node(at), as_node(other))


def element(over: Any, at: Any) -> Any:
    found, place = members(over), static(at)
    return found[place] if 0 <= place < len(found) else fail(f"there is no element {place} in a list of {len(found)}")


def kept_members(keep: Any, over: Any) -> Any:
    if not isinstance(over, Members):
        fail("at chooses among the members of an rpSwitchB: of a list take [nth xs k other | k <- ..]")
    return Members(as_node(keep))


def scanned(function: Any, start: Any, over: Any) -> Any:
    found = [start]
    for part in members(over):
        found.append(applied(applied(function, found[-1]), part))
    return listed(found)


def while_it_holds(function: Any, over: Any, drops: bool) -> Any:
    """The first elements for which something holds, or those behind them."""
    found, going = [], constant(True)
    for has, part in sifted(over):
        going = both("and", going, both("or", not_(has), as_node(applied(function, part))))
        found.append((both("and", has, not_(going) if drops else going), part))
    return sieve(found)


def looked_up(key: Any, over: Any) -> Any:
    def found(part: Any, rest: Any) -> Any:
        own, value = parts(part, 2)
        return choose(equal(as_node(key), as_node(own)), lambda: event_of(value), lambda: rest)

    return folded_right(found, core.none(), over)


def those_there(over: Any) -> Any:
    """`catMaybes`."""
    found = []
    for has, part in sifted(over):
        is_there = on_event(part, lambda: constant(False), lambda _: constant(True))
        found.append((both("and", has, is_there), on_event(part, lambda: core.blank(core.Open()), lambda value: value)))
    return sieve(found)


def power(one: Any, count: Any) -> Node:
    if static(count) < 0:
        fail("a power has an exponent from 0")
    return total("mul", 1, listed([one] * static(count)))


def lists(names: Names) -> None:
    define, env = names.define, names.env

    def two(function: Any) -> Callable:
        return lambda one, other: applied(applied(function, one), other)

    define("map", 2, mapped)
    define("filter", 2, lambda function, xs: sieve([(both("and", has, as_node(applied(function, part))), part) for has, part in sifted(xs)]))
    define(":", 2, lambda one, xs: joined(listed([one]), xs))
    define("++", 2, joined)
    define("at", 2, kept_members)
    define("zip", 2, lambda *xs: zipped(lambda *args: tupled(list(args)), *xs))
    define("zip3", 3, lambda *xs: zipped(lambda *args: tupled(list(args)), *xs))
    define("zipWith", 3, zipped)
    define("zipWith3", 4, zipped)
    define("unzip", 1, lambda xs: tupled([listed([parts(one, 2)[side] for one in members(xs)]) for side in (0, 1)]))
    define("foldl foldl'", 3, lambda function, start, xs: folded(two(function), start, xs))
    define("foldr", 3, lambda function, start, xs: folded_right(two(function), start, xs))
    define("foldl1", 2, lambda function, xs: folded_one(two(function), xs))
    define("foldr1", 2, lambda function, xs: folded_one(two(function), xs, True))
    define("scanl", 3, scanned)
    define("sum", 1, lambda xs: total("add", 0, xs))
    define("product", 1, lambda xs: total("mul", 1, xs))
    define("maximum", 1, lambda xs: extreme(two(env["max"]), xs))
    define("minimum", 1, lambda xs: extreme(two(env["min"]), xs))
    define("and", 1, lambda xs: holds_for("and", lambda part: as_node(part), xs))
    define("or", 1, lambda xs: holds_for("or", lambda part: as_node(part), xs))
    define("any", 2, lambda function, xs: holds_for("or", lambda part: as_node(applied(function, part)), xs))
    define("all", 2, lambda function, xs: holds_for("and", lambda part: as_node(applied(function, part)), xs))
    define("elem", 2, lambda one, xs: holds_for("or", lambda part: equal(as_node(one), as_node(part)), xs))
    define("notElem", 2, lambda one, xs: not_(holds_for("or", lambda part: equal(as_node(one), as_node(part)), xs)))
    define("concat", 1, lambda xs: folded(joined, core.list_of([]), xs))
    define("concatMap", 2, lambda function, xs: folded(joined, core.list_of([]), mapped(function, xs)))
    list_parts(names)
    define("reverse", 1, lambda xs: sieve(sifted(xs)[::-1]) if not isinstance(xs, Members) else fail("members of an rpSwitchB keep their order"))
    define("replicate", 2, lambda count, one: listed([one] * static(count)))


def list_parts(names: Names) -> None:
    define, env = names.define, names.env
    define("take", 2, lambda count, xs: listed(members(xs)[: max(static(count), 0)]))
    define("drop", 2, lambda count, xs: listed(members(xs)[max(static(count), 0) :]))
    define("takeWhile", 2, lambda function, xs: while_it_holds(function, xs, False))
    define("dropWhile", 2, lambda function, xs: while_it_holds(function, xs, True))
    define("splitAt", 2, lambda count, xs: tupled([applied(applied(env[word], count), xs) for word in ("take", "drop")]))
    define("lookup", 2, looked_up)
    define("catMaybes", 1, those_there)
    define("mapMaybe", 2, lambda function, xs: those_there(mapped(function, xs)))
    define("^", 2, power)
    define("head", 1, lambda xs: element(xs, constant(0)))
    define("last", 1, lambda xs: element(xs, constant(len(members(xs)) - 1)))
    define("tail", 1, lambda xs: listed(members(xs)[1:]) if members(xs) else fail("an empty list has no tail"))
    define("init", 1, lambda xs: listed(members(xs)[:-1]) if members(xs) else fail("an empty list has no init"))
    define("null", 1, lambda xs: equal(length(xs), constant(0)))
    define("!!", 2, element)
    define("length", 1, length)
    define("nth", 3, chosen_element)


def zipped(function: Any, *lists_: Any) -> Any:
    found = []
    for args in zip(*[members(one) for one in lists_]):
        made = function
        if isinstance(function, Fun):
            for part in args:
                made = applied(made, part)
            found.append(made)
        else:
            found.append(function(*args))
    return listed(found)


def holds_for(op: str, test: Callable, over: Any) -> Node:
    """Whether something holds of one element that is there, or of all."""
    found = constant(op == "and")
    for condition, part in sifted(over):
        own = both("and", condition, test(part)) if op == "or" else both("or", not_(condition), test(part))
        found = both(op, found, own)
    return found


# ---- events


def event_of(value: Any) -> Any:
    return core.event(as_node(value)) if plain(value) else Brings(core.event(core.unit()), lambda _: value)


def left_first(one: Any, other: Any) -> Any:
    """`lMerge`; of events that bring functions the one or the other."""
    if not isinstance(one, Brings) and not isinstance(other, Brings):
        left, right = as_node(one), as_node(other)
        return right if left.op == "none" else core.on(left, right, core.event(core.value_of(left)))
    if isinstance(one, Node) and one.op == "none":
        return other
    if isinstance(other, Node) and other.op == "none":
        return one
    left, right = brings(one), brings(other)
    is_left = core.on(left.event, constant(False), constant(True))
    return choose(is_left, lambda: left, lambda: right)


def brings(value: Any) -> Brings:
    return value if isinstance(value, Brings) else Brings(as_node(value), lambda one: one)


def merged_by(function: Any, one: Any, other: Any) -> Any:
    def both_there(left: Any) -> Any:
        return on_event(other, lambda: event_of(left), lambda right: event_of(applied(applied(function, left), right)))

    return on_event(one, lambda: other if isinstance(other, Brings) else as_node(other), both_there)


def gated(one: Any, condition: Any) -> Any:
    if isinstance(one, Brings):
        return Brings(gated(one.event, condition), one.make)
    return if_(as_node(condition), as_node(one), core.none())


def filtered(test: Any, one: Any) -> Any:
    if isinstance(one, Brings):
        fail("an event that brings a function or a network can't be filtered by that: filter the event that it is made of")
    event = as_node(one)
    return on_event(event, core.none, lambda value: if_(as_node(applied(test, value)), core.event(as_node(value)), core.none()))


def mapped_inside(function: Any, value: Any) -> Any:
    """`fmap` of a list, of an event, of what may be there."""
    is_list = isinstance(value, (Fixed, Sifted)) or isinstance(value, Node) and core.real(value.ty)[0] == "List"
    return mapped(function, value) if is_list else mapped_event(function, value)


def joined_events(one: Any, other: Any) -> Any:
    return on_event(one, core.none, lambda left: on_event(other, core.none, lambda right: event_of(tupled([left, right]))))


def split_event(one: Any) -> Any:
    return tupled([mapped_event(Fun(1, lambda value, side=side: parts(value, 2)[side]), one) for side in (0, 1)])


def events(names: Names) -> None:
    define, env = names.define, names.env
    env["NoEvent"] = env["Nothing"] = core.none()
    define("Event Just", 1, event_of)
    define("event maybe", 3, lambda other, function, one: on_event(one, lambda: other, lambda value: applied(function, value)))
    define("fromMaybe", 2, lambda other, one: on_event(one, lambda: other, lambda value: value))
    define("isEvent isJust", 1, lambda one: on_event(one, lambda: constant(False), lambda _: constant(True)))
    define("isNoEvent isNothing", 1, lambda one: on_event(one, lambda: constant(True), lambda _: constant(False)))
    define("maybeToEvent", 1, lambda one: one)
    define("fmap <$>", 2, mapped_inside)
    define("<$ tagWith", 2, lambda value, one: mapped_inside(Fun(1, lambda _: value), one))
    define("$>", 2, lambda one, value: mapped_inside(Fun(1, lambda _: value), one))
    define("tag", 2, lambda one, value: mapped_event(Fun(1, lambda _: value), one))
    define("attach", 2, lambda one, value: mapped_event(Fun(1, lambda inner: tupled([inner, value])), one))
    define("gate", 2, gated)
    define("lMerge", 2, left_first)
    define("rMerge", 2, lambda one, other: left_first(other, one))
    define("mergeBy", 3, merged_by)
    define("joinE", 2, joined_events)
    define("splitE", 1, split_event)
    define("filterE", 2, filtered)
    define("mapFilterE", 2, lambda function, one: on_event(one, core.none, lambda value: as_node(applied(function, value))))


def functions() -> Names:
    names = Names()
    numbers(names)
    plumbing(names)
    lists(names)
    events(names)
    return names
