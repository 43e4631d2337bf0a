"""The graph of a network: what keeps a state, between values of one sample."""
from __future__ import annotations

from collections.abc import Callable, Iterable
from typing import Any

from front.core import NOW, Node, fail, unify, variable
from front.emit import emit
from front.places import Env, Tree
from front.reach import compact


class Item:
    """Something with a state: what goes into it, what it outputs, and its text, which is made from parameters alone."""

    def __init__(self, kind: str, into: Node | None, out: Node, text: Callable[[Env], Tree], graphs: Iterable = (), inits: Iterable[Node] = ()):
        self.kind, self.into, self.out, self.text = kind, into, out, text
        self.graphs, self.inits, self.place = list(graphs), list(inits), NOW.here
        self.init: Node | None = None

    @property
    def name(self) -> str:
        return self.out.name

    def feed(self) -> Node:
        assert self.into is not None
        return self.into


class Graph:
    """A network while it is put together. `bound` are the values of events that templates around it have; `stateless` says why nothing with
    a state can stand here, where it can't."""

    def __init__(self, input_type: Any, params: int = 0, olds: int = 0, bound: frozenset = frozenset()):
        self.input = variable(input_type)
        self.params, self.olds, self.bound = params, olds, bound
        self.items: list[Item] = []
        self.known: dict[tuple, Node] = {}
        self.output: Node = self.input
        self.stateless = ""

    def add(self, kind: str, into: Node, out_type: Any, text: Callable[[Env], Tree], key: Any = None, **more: Any) -> Node:
        """The output of a part with a state; two with the same constants and input are one."""
        self.keep_state()
        known = (kind, key, into.id) if key is not None else None
        if known in self.known:
            return self.known[known]
        item = Item(kind, into, variable(out_type), text, **more)
        self.items.append(item)
        if known:
            self.known[known] = item.out
        return item.out

    def keep_state(self) -> None:
        if self.stateless:
            fail(self.stateless)

    def cell(self, init: Node) -> Item:
        """A memory of one sample; what goes into it is set later."""
        self.keep_state()
        item = Item("cell", None, variable(init.ty), lambda outer: Tree("iPre", [emit(init, outer)]), inits=[init])
        item.init = init
        self.items.append(item)
        return item

    def before(self, init: Node, into: Node) -> Node:
        """The sample before."""
        self.keep_state()
        key = ("before", init.id, into.id)
        if key not in self.known:
            unify(init.ty, into.ty)
            item = self.cell(init)
            item.into = into
            self.known[key] = item.out
        return self.known[key]

    # ---- what it has

    def roots(self) -> list[Node]:
        """All nodes that its text is made of, also those of the graphs inside."""
        found = [self.output]
        for item in self.items:
            found += [item.feed(), *item.inits]
            for inner in item.graphs:
                found += inner.roots()
        return found

    def own(self) -> set[Node]:
        """The variables of it and of the graphs inside."""
        found = {self.input} | {item.out for item in self.items}
        for item in self.items:
            for inner in item.graphs:
                found |= inner.own()
        return found

    def captured(self) -> list[Node]:
        """The greatest nodes of graphs outside that it uses: they have no variable and no parameter of its own."""
        mine, found, seen = self.own(), [], set()
        left = self.roots()
        while left:
            one = left.pop()
            if one in seen or not one.vars:
                continue
            seen.add(one)
            if not one.vars & mine and one.top < self.params - 1 and all(var.op != "val" or var in self.bound for var in one.vars):
                found.append(one)
            else:
                left += [part for part in one.args if isinstance(part, Node)]
        return compact(found)


class Inside:
    """A graph whose nodes from outside come by a parameter, so that the graph around it need not have them."""

    def __init__(self, graph: Graph):
        self.own = graph.own

    def roots(self) -> list[Node]:
        return []


def needed(graph: Graph) -> list[Item]:
    """The items that the output depends on."""
    by_out = {item.out: item for item in graph.items}
    left, done = [graph.output], set()
    while left:
        for var in left.pop().vars:
            if var in by_out and var not in done:
                done.add(var)
                item = by_out[var]
                left += [item.feed(), *item.inits]
                for inner in item.graphs:
                    left += inner.roots()
    return [item for item in graph.items if item.out in done]
