"""Yampa's networks: what each does to an input in a graph."""
from __future__ import annotations

from collections.abc import Callable
from typing import Any

from front import core
from front.core import INT, Node, arith, both, constant, fail, not_, unify
from front.elaborate import Elaborator
from front.emit import emit
from front.functions import Names
from front.graph import Graph
from front.lengths import cell, keeps, note_lengths, steady
from front.network import network
from front.places import Env, Tree, only_parameters, put_leaf
from front.values import Brings, Fun, Net, applied, as_node, listed, mapped_event, members, merged, parts, plain, tupled

# More members of a parB than these stay one; fewer become parts of the graph around them.
WIDE = 12
X_PLACE = ("x", ())


def run(one: Any, graph: Graph, value: Any) -> Any:
    return one.run(graph, value)


# ---- networks without a state of their own


def then(one: Net, other: Net) -> Net:
    def split(graph: Graph) -> tuple:
        if one.split:
            out, feed = one.split(graph)
            return other.run(graph, out), feed
        assert other.split
        out, feed = other.split(graph)
        return out, lambda value: feed(one.run(graph, value))

    return Net(lambda graph, value: other.run(graph, one.run(graph, value)), split if one.split or other.split else None)


def pure(function: Any) -> Net:
    return Net(lambda graph, value: applied(function, value))


def beside(one: Net, other: Net) -> Net:
    def both_run(graph: Graph, value: Any) -> Any:
        left, right = parts(value, 2)
        return tupled([one.run(graph, left), other.run(graph, right)])

    return Net(both_run)


def wiring(names: Names) -> None:
    define, same = names.define, Net(lambda graph, value: value)
    names.env["identity"] = names.env["returnA"] = same
    define("arr", 1, pure)
    define("constant", 1, lambda value: Net(lambda graph, _: value))
    define(">>>", 2, then)
    define("<<<", 2, lambda other, one: then(one, other))
    define(">>^", 2, lambda one, function: then(one, pure(function)))
    define("^>>", 2, lambda function, one: then(pure(function), one))
    define("***", 2, beside)
    define("first", 1, lambda one: beside(one, same))
    define("second", 1, lambda one: beside(same, one))
    define("&&&", 2, lambda one, other: Net(lambda graph, value: tupled([one.run(graph, value), other.run(graph, value)])))
    names.env["never"] = Net(lambda graph, _: core.none())


# ---- a memory of one sample


def loop_pre(init: Any, inner: Net) -> Net:
    def looped(graph: Graph, value: Any) -> Any:
        before, feed = cell(graph, as_node(init))
        out, new = parts(inner.run(graph, tupled([value, before])), 2)
        feed(new)
        return out

    return Net(lambda graph, value: steady(graph, lambda: looped(graph, value)))


def i_pre(init: Any) -> Net:
    def before(graph: Graph, value: Any) -> Node:
        first, given = as_node(init), as_node(value)
        out = graph.before(first, given)
        note_lengths(out, [first, given])
        return out

    return Net(before, lambda graph: cell(graph, as_node(init)))


def is_first(graph: Graph) -> Node:
    """Whether a sample is the first."""
    return graph.before(constant(True), constant(False))


def edge(init: Any) -> Net:
    def rising(graph: Graph, value: Any) -> Any:
        one = as_node(value)
        return core.if_(both("and", one, not_(graph.before(as_node(init), one))), core.event(core.unit()), core.none())

    return Net(rising)


def once() -> Net:
    def first_alone(graph: Graph, value: Any) -> Any:
        event = as_node(value)
        cell = graph.cell(constant(False))
        cell.into = both("or", cell.out, core.on(event, constant(False), constant(True)))
        return core.if_(cell.out, core.none(event.ty[1]), event)

    return Net(first_alone)


def not_yet(graph: Graph, value: Any) -> Any:
    event = as_node(value)
    return core.if_(is_first(graph), core.none(core.parts_of(event.ty, "Event", 1)[0]), event)


def memories(names: Names) -> None:
    define = names.define
    define("loopPre", 2, loop_pre)
    define("iPre", 1, i_pre)
    define("iEdge", 1, edge)
    names.env["edge"] = edge(constant(True))
    define("edgeTag", 1, lambda value: then(edge(constant(True)), pure(Fun(1, lambda one: mapped_event(Fun(1, lambda _: value), one)))))
    define("-->", 2, lambda value, one: Net(lambda graph, given: merged(is_first(graph), value, one.run(graph, given))))
    define(">--", 2, lambda value, one: Net(lambda graph, given: one.run(graph, merged(is_first(graph), value, given))))
    names.env["notYet"] = Net(not_yet)
    names.env["once"] = once()


# ---- the core's networks with a state


def primitive(word: str, constants: list, type_of: Callable, given: str = "", literal: tuple = ()) -> Net:
    """A network of the core: its word, its constants, its output's type from that of the input, which may be `nothing` or `Int`."""

    def runs(graph: Graph, value: Any) -> Any:
        inits = [as_node(one) for one in constants]
        one = core.unit() if given == "nothing" else as_node(value)
        if given == "Int":
            unify(one.ty, INT)

        def text(outer: Env) -> Tree:
            return Tree(word, [Tree(str(part)) for part in literal] + [emit(init, only_parameters(outer)) for init in inits])

        out = graph.add(word, one, type_of(one.ty, *inits), text, key=(literal, tuple(init.id for init in inits)), inits=inits)
        if word in ("hold", "delay"):
            note_lengths(out, [inits[0], core.value_of(one) if word == "hold" else one])
        return out

    return Net(runs)


def held_type(ty: Any, init: Node) -> Any:
    unify(ty, ("Event", init.ty))
    return init.ty


def same_type(ty: Any, init: Node) -> Any:
    unify(ty, init.ty)
    return ty


def period(value: Any, least: int, most: int, word: str) -> int:
    found = core.number(as_node(value))
    if found is None:
        fail(f"how long {word} waits must be a number that is known before it runs")
    if not least <= found <= most:
        fail(f"how long {word} waits is from {least} to {most:,}")
    return found


def timed(word: str, least: int) -> Callable:
    """`after` and `repeatedly`, whose events may bring functions and networks too."""

    def made(wait: Any, value: Any) -> Net:
        literal = (period(wait, least, 2**62, word),)
        if plain(value):
            return primitive(word, [value], lambda _, init: ("Event", init.ty), "nothing", literal)
        alone = primitive(word, [core.unit()], lambda _, init: ("Event", init.ty), "nothing", literal)
        return Net(lambda graph, given: Brings(alone.run(graph, given), lambda _: value))

    return made


def step_integral(graph: Graph) -> tuple:
    """The integral in a cycle: the sum so far and the sample before are known before the sample is."""
    clock = TIME.run(graph, core.unit())
    step = arith("sub", clock, graph.before(constant(0), clock))
    before, total = graph.cell(constant(0)), graph.cell(constant(0))
    out = arith("add", total.out, arith("mul", step, before.out))
    total.into = out

    def feed(value: Any) -> None:
        before.into = as_node(value)

    return out, feed


TIME = primitive("time", [], lambda _: INT, "nothing")
INTEGRAL = primitive("integral", [], lambda _: INT, "Int")
INTEGRAL.split = step_integral


def next_state(init: Node, value: Node, ty: Any, next_of: Callable) -> tuple[Node, Node, bool]:
    """The pair of a state and of an event's value, what comes of it, and whether lists in the state keep the lengths that they begin with."""
    x = core.variable(ty)
    note_lengths(core.fst(x), [init], 1)
    note_lengths(core.snd(x), [value])
    new = next_of(core.fst(x), core.snd(x))
    if keeps(core.fst(x), new):
        return x, new, True
    x = core.variable(ty)
    return x, next_of(core.fst(x), core.snd(x)), False


def accumulator(word: str) -> Callable:
    """`accumBy` and `accumHoldBy`; what events bring may be functions too."""

    def made(function: Any, start: Any) -> Net:
        def runs(graph: Graph, value: Any) -> Any:
            brought = value if isinstance(value, Brings) else None
            event, init = brought.event if brought else as_node(value), as_node(start)
            inner = core.parts_of(event.ty, "Event", 1)[0]
            # An event of functions that brings none never happens.
            never = function is APPLY and not brought

            def next_of(before: Node, given: Node) -> Node:
                part = brought.make(given) if brought else given
                new = as_node(before if never else applied(applied(function, before), part))
                unify(new.ty, init.ty)
                return new

            x, new, keeping = next_state(init, core.value_of(event), ("Pair", init.ty, inner), next_of)
            if new.vars - {x}:
                fail(f"the function of {word} uses a value that changes with each sample: put it into the event, by attach")
            out = init.ty if word == "accumHoldBy" else ("Event", init.ty)

            def text(outer: Env) -> Tree:
                return Tree(word, [emit(new, put_leaf(only_parameters(outer), x, X_PLACE)), emit(init, only_parameters(outer))])

            made = graph.add(word, event, out, text, inits=[init])
            if keeping:
                note_lengths(made if word == "accumHoldBy" else core.value_of(made), [init])
            return made

        return Net(runs)

    return made


APPLY = Fun(2, lambda value, function: applied(function, value))


def primitives(names: Names) -> None:
    define = names.define
    define("hold trackAndHold", 1, lambda init: primitive("hold", [init], held_type))
    define("dHold", 1, lambda init: then(primitive("hold", [init], held_type), i_pre(init)))
    define("delay", 2, lambda wait, init: primitive("delay", [init], same_type, "", (period(wait, 1, 4096, "delay"),)))
    define("after", 2, timed("after", 0))
    define("repeatedly", 2, timed("repeatedly", 1))
    define("now", 1, lambda value: timed("after", 0)(constant(0), value))
    names.env["time"] = names.env["localTime"] = TIME
    names.env["integral"] = INTEGRAL
    define("accumBy", 2, accumulator("accumBy"))
    define("accumHoldBy", 2, accumulator("accumHoldBy"))
    define("accum", 1, lambda init: accumulator("accumBy")(APPLY, init))
    define("accumHold", 1, lambda init: accumulator("accumHoldBy")(APPLY, init))


# ---- members side by side


def par_b(elaborator: Elaborator) -> Callable:
    """A few members become parts of the graph around them; more stay a parB, since a type has a limit."""

    def made(fs: Any) -> Net:
        def runs(graph: Graph, value: Any) -> Any:
            found = members(fs)
            if len(found) <= WIDE or len(found) > 64:
                return listed([one.run(graph, value) for one in found])
            graph.keep_state()
            given = as_node(value)
            inner = [elaborator.graph(one, given.ty, graph.params, graph.olds, graph.bound) for one in found]
            for one in inner:
                unify(one.output.ty, inner[0].output.ty)
            element = inner[0].output.ty

            def text(outer: Env) -> Tree:
                return Tree("parB", [network(one, only_parameters(outer)) for one in inner])

            out = graph.add("parB", given, ("List", element), text, graphs=inner)
            core.NOW.lengths[out] = len(inner)
            return core.list_of([core.nth(out, constant(at), core.blank(element)) for at in range(len(inner))])

        return Net(runs)

    return made
