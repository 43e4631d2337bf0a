"""Patterns against values: what fits is decided before the network runs where it can be, and else by the network."""
from __future__ import annotations

from collections.abc import Callable
from typing import Any

from front import core
from front.core import NOW, Node, constant, fail, number
from front.scopes import Maker, Scopes
from front.syntax import Anything, As, Bound, Lazy, ListPattern, MadePattern, NumberPattern, Pattern, RecordPattern, TuplePattern
from front.values import Known, Sifted, as_node, choose, listed, members_if_known, merged, on_event, parts, sieve

Env = dict[str, Any]
Way = Callable[[], Any]
CAN_FAIL = "this pattern doesn't fit all values, and stands where it must: write a case"


class Matcher:
    """`fits` is called where a pattern fits, its names put into the environment, and `fails` where it doesn't."""

    scopes: Scopes

    def bind(self, node: Pattern, value: Any, env: Env) -> None:
        """A pattern that must fit."""
        self.match(node, value, env, lambda: None, lambda: fail(CAN_FAIL))

    def match(self, node: Pattern, value: Any, env: Env, fits: Way, fails: Way) -> Any:
        if isinstance(node, Anything):
            return fits()
        if isinstance(node, (Bound, As)):
            env[node.word] = value
            if isinstance(value, Node) and not value.name:
                value.name = node.word
            return fits() if isinstance(node, Bound) else self.match(node.inner, value, env, fits, fails)
        if isinstance(node, Lazy):
            self.bind(node.inner, value, env)
            return fits()
        if isinstance(node, NumberPattern):
            return self.equals(as_node(value), node.value, 0, fits, fails)
        if isinstance(node, TuplePattern):
            return self.all(node.parts, parts(value, len(node.parts)), env, fits, fails)
        if isinstance(node, ListPattern):
            return self.list_pattern(node, value, env, fits, fails)
        return self.constructor(node, value, env, fits, fails)

    def constructor(self, node: MadePattern | RecordPattern, value: Any, env: Env, fits: Way, fails: Way) -> Any:
        word = node.word
        if word in ("True", "False"):
            return choose(as_node(value), *((fits, fails) if word == "True" else (fails, fits)))
        if word == "()":
            return fits()
        if word in ("NoEvent", "Nothing"):
            return on_event(value, fits, lambda _: fails())
        if word in ("Event", "Just"):
            assert isinstance(node, MadePattern)
            return on_event(value, fails, lambda inner: self.match(node.parts[0], inner, env, fits, fails))
        if word == ":":
            assert isinstance(node, MadePattern)
            return self.cons(node, value, env, fits, fails)
        maker = self.scopes.makers[word]
        inner = list(node.parts) if isinstance(node, MadePattern) else [part for _, part in node.fields]
        wanted = list(range(len(inner))) if isinstance(node, MadePattern) else [maker.parts.index(name) for name, _ in node.fields]
        return self.made(maker, inner, wanted, value, env, fits, fails)

    def made(self, maker: Maker, inner: list, wanted: list[int], value: Any, env: Env, fits: Way, fails: Way) -> Any:
        """A constructor of the program's, with patterns for some of its parts."""
        constructors = maker.data.constructors if maker.data else []
        count = len(maker.parts)
        if len(constructors) == 1:
            found = parts(value, count) if count else []
            return self.all(inner, [found[at] for at in wanted], env, fits, fails)
        sides = [one for one in constructors if one.parts]
        if not sides:
            return self.equals(as_node(value), maker.number, len(constructors), fits, fails)
        whole = parts(value, len(sides) + 1)
        found = []
        if count:
            side = sides.index(constructors[maker.number])
            found = parts(whole[side + 1], count)
        ways = (lambda: self.all(inner, [found[at] for at in wanted], env, fits, fails)), fails
        return self.equals(as_node(whole[0]), maker.number, len(constructors), *ways)

    def all(self, nodes: list, values: list, env: Env, fits: Way, fails: Way) -> Any:
        if not nodes:
            return fits()
        return self.match(nodes[0], values[0], env, lambda: self.all(nodes[1:], values[1:], env, fits, fails), fails)

    def equals(self, value: Node, wanted: int, of: int, fits: Way, fails: Way) -> Any:
        """Whether a number is that one; `of` says how many names its type has, or 0 of a number."""
        if number(value) is not None:
            return fits() if number(value) == wanted else fails()
        fact = NOW.facts.get(value, frozenset())
        if isinstance(fact, int) and not isinstance(fact, bool):
            return fits() if fact == wanted else fails()
        if wanted in fact:
            return fails()
        if of and len(fact) == of - 1:
            return fits()
        with Known(value, wanted):
            one = fits()
        with Known(value, fact | {wanted}):
            other = fails()
        return merged(core.equal(value, constant(wanted)), one, other)

    # ---- lists

    def list_pattern(self, node: ListPattern, value: Any, env: Env, fits: Way, fails: Way) -> Any:
        found = members_if_known(value)
        if found is not None:
            return self.all(node.parts, found, env, fits, fails) if len(found) == len(node.parts) else fails()
        one = as_node(value)
        element = core.parts_of(one.ty, "List", 1)[0]
        inner = [core.nth(one, constant(at), core.blank(element)) for at in range(len(node.parts))]
        length = core.length(one)
        return self.equals(length, len(node.parts), 0, lambda: self.all(node.parts, inner, env, fits, fails), fails)

    def cons(self, node: MadePattern, value: Any, env: Env, fits: Way, fails: Way) -> Any:
        """`x : xs`; of a list whose length isn't known the rest must not be wanted."""
        head, rest = node.parts
        if isinstance(value, Sifted) and value.parts and core.truth(value.parts[0][0]) is True:
            return self.all([head, rest], [value.parts[0][1], sieve(value.parts[1:])], env, fits, fails)
        found = members_if_known(value)
        if found is not None:
            return self.all([head, rest], [found[0], listed(found[1:])], env, fits, fails) if found else fails()
        if not isinstance(rest, Anything):
            fail("the rest of a list whose length only a sample knows can't be taken: that waits for version 4 of the core")
        one = as_node(value)
        first = core.nth(one, constant(0), core.blank(core.parts_of(one.ty, "List", 1)[0]))
        return self.equals(core.length(one), 0, 0, fails, lambda: self.match(head, first, env, fits, fails))
