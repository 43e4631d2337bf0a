"""Yampa's switches: the networks that they start are graphs of their own, templates over the value of an event."""
from __future__ import annotations

from collections.abc import Callable
from typing import Any

from front import core
from front.combinators import par_b, primitives, memories, wiring
from front.core import INT, Node, both, constant, fail, on, parameter, parts_of, unify, value_of
from front.elaborate import Elaborator
from front.functions import Names, functions
from front.graph import Graph, Inside
from front.lengths import note_lengths
from front.network import network
from front.emit import emit
from front.places import Env, Tree, X, only_parameters, put_leaf, put_shape, shape_node, shape_of
from front.values import Brings, Fixed, Fun, Mapped, Members, Net, applied, as_node, members, parts, tupled

NO_NETWORK = "the event of an rSwitch brings a network: write fmap template e, or e `tag` network"
NO_FUNCTION = "the event of an rpSwitchB brings a function: write fmap (\\.. members -> at numbers members ++ map template values) e"
ONE_TEMPLATE = "what is new in an rpSwitchB is of one template: write map template values"


class Switches:
    """Makes the networks that start others; `elaborator` makes the graphs of these."""

    def __init__(self, elaborator: Elaborator):
        self.elaborator = elaborator

    def sub(self, graph: Graph, one: Net, ty: Any, more: int = 0, olds: int = 0, bound: frozenset = frozenset()) -> Graph:
        """The graph of a network that stands in another, with so many more parameters and frozen networks."""
        return self.elaborator.graph(one, ty, graph.params + more, graph.olds + olds, graph.bound | bound)

    # ---- switch, dSwitch

    def switch(self, word: str) -> Callable:
        def made(one: Net, template: Any) -> Net:
            def runs(graph: Graph, value: Any) -> Any:
                graph.keep_state()
                given = as_node(value)
                first = Graph(given.ty, graph.params, graph.olds, graph.bound)
                out, event = parts(one.run(first, first.input), 2)
                brought = event if isinstance(event, Brings) else None
                told = brought.event if brought else as_node(event)
                inner = parameter(graph.params, parts_of(told.ty, "Event", 1)[0])
                first.output = core.tuple_of([as_node(out), told])
                after = applied(template, brought.make(inner) if brought else inner)
                second = self.sub(graph, after, given.ty, 1)
                unify(as_node(out).ty, second.output.ty)

                def text(outer: Env) -> Tree:
                    return Tree(word, [network(first, only_parameters(outer)), network(second, only_parameters(outer))])

                made = graph.add(word, given, second.output.ty, text, graphs=[first, second])
                note_lengths(made, [as_node(out), second.output])
                return made

            return Net(runs)

        return made

    # ---- rSwitch, drSwitch

    def r_switch(self, word: str) -> Callable:
        def made(one: Net) -> Net:
            def runs(graph: Graph, value: Any) -> Any:
                graph.keep_state()
                given, event = parts(value, 2)
                given = as_node(given)
                if isinstance(event, Node) and event.op == "none":
                    return one.run(graph, given)
                if not isinstance(event, Brings):
                    fail(NO_NETWORK)
                return self.restarted(word, one, graph, given, event)

            return Net(runs)

        return made

    def restarted(self, word: str, one: Net, graph: Graph, given: Node, event: Brings) -> Node:
        """The event carries what the template captures."""
        first = self.sub(graph, one, given.ty)
        value = value_of(event.event)
        template = self.sub(graph, event.make(value), given.ty, 1, 0, frozenset(var for var in value.vars if var.op == "val"))
        shape = shape_of(template.captured())
        payload = shape_node(shape)
        sent = on(event.event, core.none(payload.ty), core.event(payload))
        unify(first.output.ty, template.output.ty)

        def text(outer: Env) -> Tree:
            inner = only_parameters(outer)
            if shape is not None:
                put_shape(shape, inner, (("p", graph.params), ()))
            return Tree(word, [network(first, only_parameters(outer)), network(template, inner)])

        made = graph.add(word, core.pair(given, sent), template.output.ty, text, graphs=[first, Inside(template)])
        note_lengths(made, [first.output, template.output])
        return made

    # ---- kSwitch, pSwitchB

    def old(self, number: int, out_type: Any) -> Net:
        """A frozen network, resumed."""

        def runs(graph: Graph, value: Any) -> Node:
            return graph.add("old", as_node(value), out_type, lambda _: Tree("old", [Tree(str(number))]))

        return Net(runs)

    def k_switch(self, one: Net, watch: Net, template: Any) -> Net:
        def runs(graph: Graph, value: Any) -> Any:
            graph.keep_state()
            given = as_node(value)
            first = self.sub(graph, one, given.ty)
            second = self.sub(graph, watch, ("Pair", given.ty, first.output.ty))
            brought = parameter(graph.params, parts_of(second.output.ty, "Event", 1)[0])
            after = applied(applied(template, self.old(graph.olds, first.output.ty)), brought)
            third = self.sub(graph, after, given.ty, 1, 1)
            unify(first.output.ty, third.output.ty)

            def text(outer: Env) -> Tree:
                return Tree("kSwitch", [network(inner, only_parameters(outer)) for inner in (first, second, third)])

            return graph.add("kSwitch", given, first.output.ty, text, graphs=[first, second, third])

        return Net(runs)

    def p_switch(self, route: Any, fs: Any, watch: Net, template: Any) -> Net:
        def runs(graph: Graph, value: Any) -> Any:
            graph.keep_state()
            given, networks = as_node(value), members(fs)
            if not networks:
                fail("a pSwitch has a member at least: use switch where none runs at first")
            x = core.variable(("Pair", given.ty, INT))
            routed = routed_to(route, x, networks)
            inner = [self.sub(graph, one, routed.ty) for one in networks]
            element = inner[0].output.ty
            for one in inner:
                unify(one.output.ty, element)
            second = self.sub(graph, watch, ("Pair", given.ty, ("List", element)))
            olds = Fixed([self.old(graph.olds + at, element) for at in range(len(inner))])
            brought = parameter(graph.params, parts_of(second.output.ty, "Event", 1)[0])
            third = self.sub(graph, applied(applied(template, olds), brought), given.ty, 1, len(inner))
            unify(third.output.ty, ("List", element))

            def text(outer: Env) -> Tree:
                own = only_parameters(outer)
                way = emit(routed, put_leaf(only_parameters(outer), x, X))
                return Tree("pSwitch", [way, Tree("col", [network(one, own) for one in inner]), network(second, own), network(third, own)])

            return graph.add("pSwitch", given, ("List", element), text, graphs=[*inner, second, third])

        return Net(runs)

    # ---- rpSwitchB

    def rp_switch_b(self, fs: Any) -> Net:
        def runs(graph: Graph, value: Any) -> Any:
            graph.keep_state()
            given, event = parts(value, 2)
            if isinstance(event, Node) and event.op == "none":
                return par_b(self.elaborator)(fs).run(graph, given)
            if not isinstance(event, Brings):
                fail(NO_FUNCTION)
            return Collection(self, graph, as_node(given), members(fs), event).output()

        return Net(runs)


def routed_to(route: Any, x: Node, networks: list) -> Node:
    """What a member gets of the pair of the sample and the member's number."""
    found = [parts(one, 2) for one in members(applied(applied(route, core.fst(x)), Fixed(networks)))]
    if len(found) != len(networks) or any(network is not own for (_, network), own in zip(found, networks)):
        fail("the route of a pSwitch gives each member its input, in their order: write \\x members -> zip [.. | k <- [0 .. 3]] members")
    routed = as_node(found[-1][0])
    for at, (value, _) in reversed(list(enumerate(found[:-1]))):
        routed = core.if_(core.equal(core.snd(x), constant(at)), as_node(value), routed)
    if routed.vars - {x}:
        fail("the route of a pSwitch uses a value that changes with each sample: let it come with the input")
    return routed


# All members get the sample.
TO_ALL = Fun(2, lambda value, networks: Fixed([tupled([value, one]) for one in members(networks)]))


class Collection:
    """An rpSwitchB: members that run, and an event that says which go on and which come."""

    def __init__(self, switches: Switches, graph: Graph, given: Node, first: list, event: Brings):
        self.switches, self.graph, self.given, self.first, self.event = switches, graph, given, first, event
        made = applied(event.make(value_of(event.event)), Members())
        if not isinstance(made, Members):
            made = Members(core.list_of([]), made)
        self.keep = made.keep if made.keep is not None else self.all_of_them()
        unify(self.keep.ty, ("List", INT))
        self.new = made.new

    def all_of_them(self) -> Node:
        """The numbers of all members that may run."""
        return core.list_of([constant(at) for at in range(64)])

    def output(self) -> Node:
        make, values, bound = self.template()
        ty = parts_of(values.ty, "List", 1)[0]
        count = self.graph.params
        template = self.switches.sub(self.graph, make(parameter(count, ty)), self.given.ty, 1, 0, bound)
        caught = shape_of(template.captured())
        if caught is not None:
            values = self.with_captured(values, shape_node(caught))
            whole = parameter(count, ("Pair", ty, shape_node(caught).ty))
            template = self.switches.sub(self.graph, make(core.fst(whole)), self.given.ty, 1, 0, bound)
        return self.added(template, caught, values)

    def template(self) -> tuple[Callable, Node, frozenset]:
        """What makes a new member of a value, and the list of the values."""
        bound = frozenset(var for var in value_of(self.event.event).vars if var.op == "val")
        new = self.new
        if isinstance(new, Mapped):
            return new.make, new.over, bound
        found = members(new) if new is not None else []
        if not found:
            return lambda _: self.first[0] if self.first else self.nothing(), core.node("list", (), ("List", core.UNIT)), bound
        made = [one.made_of for one in found]
        if all(one is not None and one[0] is made[0][0] for one in made):
            return lambda value: applied(made[0][0], value), core.list_of([as_node(one[1]) for one in made]), bound
        if len(found) == 1:
            return lambda _: found[0], core.list_of([core.unit()]), bound
        return fail(ONE_TEMPLATE)

    def nothing(self) -> Any:
        return fail("this rpSwitchB has no member at first, and no new one comes: write constant []")

    def with_captured(self, values: Node, payload: Node) -> Node:
        """The values of new members, each with what the template takes from around it."""
        if values.op != "list":
            fail("the template of this rpSwitchB uses a value of the sample besides its own: put it into the list that map goes over")
        return core.list_of([core.pair(one, payload) for one in values.args])

    def added(self, template: Graph, caught: Any, values: Node) -> Node:
        graph, element = self.graph, template.output.ty
        inner = [self.switches.sub(graph, one, self.given.ty) for one in self.first]
        for one in inner:
            unify(one.output.ty, element)
        keep, begun = self.keep, None
        if not inner:
            inner = [self.switches.sub(graph, Net(lambda _, __: core.blank(element)), self.given.ty)]
            before, begun = self.begun()
            keep = core.if_(before, keep, core.list_of([]))
        event = on(self.event.event, core.none(), core.event(core.pair(keep, values)))

        def text(outer: Env) -> Tree:
            own, mine = only_parameters(outer), only_parameters(outer)
            if caught is not None:
                put_shape(caught, mine, (("p", graph.params), ("snd",)))
            return Tree("rpSwitchB", [Tree("col", [network(one, own) for one in inner]), Tree("x"), network(template, mine)])

        out = graph.add("rpSwitchB", core.pair(self.given, event), ("List", element), text, graphs=[*inner, Inside(template)])
        return out if begun is None else core.if_(begun, out, core.node("list", (), ("List", element)))

    def begun(self) -> tuple[Node, Node]:
        """Whether an event came before this sample, and whether one has come by now: up to then a collection without members has none."""
        cell = self.graph.cell(constant(False))
        now = both("or", cell.out, on(self.event.event, constant(False), constant(True)))
        cell.into = now
        return cell.out, now


def built_in(elaborator: Elaborator) -> dict[str, Any]:
    """All names that every module has, as values."""
    names: Names = functions()
    wiring(names)
    memories(names)
    primitives(names)
    names.define("parB", 1, par_b(elaborator))
    switches = Switches(elaborator)
    for word in ("switch", "dSwitch"):
        names.define(word, 2, switches.switch(word))
    for word in ("rSwitch", "drSwitch"):
        names.define(word, 1, switches.r_switch(word))
    names.define("kSwitch", 3, switches.k_switch)
    names.define("pSwitch", 4, switches.p_switch)
    names.define("pSwitchB", 3, lambda fs, watch, template: switches.p_switch(TO_ALL, fs, watch, template))
    names.define("rpSwitchB", 1, switches.rp_switch_b)
    return names.env
