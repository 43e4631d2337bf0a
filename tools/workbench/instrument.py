"""Networks that output beside their own output, or in its place, what parts of them output: made by wiring alone.

Each part becomes one whose value holds its output, where that is needed, and a pack of signals, where some are watched in it: of both
the pair, of one that one.
"""
from __future__ import annotations

from dataclasses import dataclass, field, replace
from typing import Any, Callable, Optional

from model.trees import children, head, is_network
from workbench.outline import Network
from workbench.signals import Both, Collection, Leaf, Members, Pack, Position, Sometimes, balanced
from workbench.wiring import (
    WHOLE,
    Frozen,
    Scope,
    Seen,
    Sides,
    absent,
    arr,
    beside,
    default,
    each_output,
    fan,
    fst,
    joined,
    packed,
    packing,
    seq,
    snd,
    substituted,
)

Tree = Any


@dataclass
class Instrument:
    """Builds networks that output the signals of the wanted positions of a whole."""

    whole: Network
    wanted: set
    above: set = field(default_factory=set)
    olds: dict = field(default_factory=dict)

    def __post_init__(self) -> None:
        self.above = {position[:depth] for position in self.wanted for depth in range(len(position) + 1)}

    def made(self) -> Any:
        """The network that outputs the signals alone."""
        return self.part((), self.whole.tree, Scope(), False)

    def part(self, here: Position, tree: Tree, scope: Scope, needs: bool) -> Any:
        """What stands at a position, as a Seen, with its output where that is needed; None where it has neither that nor signals."""
        watched = not scope.quiet and here in self.above
        if not watched and scope.same():
            return Seen(tree, self.whole.output(here), None) if needs else None
        mine = watched and here in self.wanted
        inner = getattr(self, WAYS.get(head(tree), "leaf"))(here, tree, scope, needs or mine)
        if not mine:
            return inner
        leaf = Leaf(here, self.whole.output(here))
        if inner.signals is None and not needs:
            return Seen(inner.net, None, leaf)
        signals = inner.out() if inner.signals is None else ("pair", inner.out(), inner.sig())
        pack = leaf if inner.signals is None else Both(leaf, inner.signals)
        return packing(inner, inner.out() if needs else None, signals, pack)

    def child(self, here: Position, tree: Tree, number: int, scope: Scope, needs: bool) -> Any:
        return self.part((*here, number), children(tree)[number], scope, needs)

    # ---- networks without switches

    def leaf(self, here: Position, tree: Tree, scope: Scope, needs: bool) -> Any:
        return Seen(substituted(tree, scope), self.whole.output(here), None) if needs else None

    def old(self, here: Position, tree: Tree, scope: Scope, needs: bool) -> Any:
        frozen = scope.frozen[tree[1]]
        signals = None if scope.quiet else frozen.pack
        if not needs and signals is None:
            return None
        out, sig = frozen.out("x") if needs else None, frozen.sig("x") if signals else None
        return Seen(seq(tree, arr(packed(out, sig))), self.whole.output(here) if needs else None, signals)

    def chain(self, here: Position, tree: Tree, scope: Scope, needs: bool) -> Any:
        return self.stages(self.flattened(here, tree, scope), scope, needs)

    def flattened(self, here: Position, tree: Tree, scope: Scope) -> list:
        """The stages of a chain, with their positions; what stays as it is is one."""
        if head(tree) != ">>>" or (scope.same() and (scope.quiet or here not in self.above)):
            return [(here, tree)]
        return self.flattened((*here, 0), tree[1], scope) + self.flattened((*here, 1), tree[2], scope)

    def stages(self, parts: list, scope: Scope, needs: bool) -> Any:
        if len(parts) == 1:
            return self.part(parts[0][0], parts[0][1], scope, needs)
        middle = len(parts) // 2
        right = self.stages(parts[middle:], scope, needs)
        left = self.stages(parts[:middle], scope, right is not None)
        if right is None:
            return left
        if left.signals is None:
            return Seen(seq(left.net, right.net), right.output, right.signals)
        both = Seen(seq(left.net, ("first", right.net)), right.output, left.signals)
        if right.signals is None:
            return both
        signals = ("pair", snd("x"), right.sig(fst("x")))
        return packing(both, right.out(fst("x")), signals, Both(left.signals, right.signals))

    def first(self, here: Position, tree: Tree, scope: Scope, needs: bool) -> Any:
        inner = self.child(here, tree, 0, scope, needs)
        if not needs:
            return inner and Seen(seq(arr(("fst", "x")), inner.net), None, inner.signals)
        net = Seen(("first", inner.net), self.whole.output(here), inner.signals)
        return net if inner.signals is None else packing(net, ("pair", inner.out(fst("x")), snd("x")), inner.sig(fst("x")), inner.signals)

    def members(self, here: Position, tree: Tree, scope: Scope, needs: bool) -> Any:
        seen = [self.child(here, tree, number, scope, needs) for number in range(len(children(tree)))]
        mute = [one for one in seen if one is not None and one.signals is None]
        loud = [one for one in seen if one is not None and one.signals is not None]
        output = self.whole.output(here)
        if not loud:
            return Seen(("parB", *[one.net for one in mute]), output, None) if needs else None
        net, values = beside(([("parB", *[one.net for one in mute])] if mute else []) + [one.net for one in loud])
        loud_values = values[-len(loud) :]
        signals = joined([one.sig(value) for one, value in zip(loud, loud_values)])
        pack = balanced([one.signals for one in loud])
        if not needs:
            return Seen(seq(net, arr(signals)), None, pack)
        outs = iter([one.out(value) for one, value in zip(loud, loud_values)])
        rest = iter([("nth", values[0], number, default(output[1])) for number in range(len(mute))])
        listed = ("list", output[1], *[next(rest if one.signals is None else outs) for one in seen])
        return Seen(seq(net, arr(("pair", listed, signals))), output, pack)

    def loop(self, here: Position, tree: Tree, scope: Scope, needs: bool) -> Any:
        inner = self.child(here, tree, 1, scope, True)
        constant = substituted(tree[1], scope)
        output = self.whole.output(here) if needs else None
        if inner.signals is None:
            return Seen(("loopPre", constant, inner.net), output, None) if needs else None
        value = packed(fst(inner.out()) if needs else None, inner.sig())
        return Seen(("loopPre", constant, seq(inner.net, arr(("pair", value, snd(inner.out()))))), output, inner.signals)

    def first_output(self, here: Position, tree: Tree, scope: Scope, needs: bool) -> Any:
        inner = self.child(here, tree, 1, scope, needs)
        constant = substituted(tree[1], scope)
        if inner is None or not needs:
            return inner
        if inner.signals is None:
            return replace(inner, net=("-->", constant, inner.net))
        return replace(inner, net=seq(inner.net, ("first", ("-->", constant, arr("x")))))

    def first_input(self, here: Position, tree: Tree, scope: Scope, needs: bool) -> Any:
        inner = self.child(here, tree, 1, scope, needs)
        return inner and replace(inner, net=(">--", substituted(tree[1], scope), inner.net))

    # ---- switches

    def watches(self, here: Position, tree: Tree, scope: Scope) -> bool:
        """Whether something may be watched in a part: in it, or in a frozen network that it resumes."""
        if scope.quiet:
            return False
        return here in self.above or any(one.pack for number, one in enumerate(scope.frozen) if number in self.resumed(here, tree))

    def resumed(self, here: Position, tree: Tree) -> frozenset:
        """The numbers of the frozen networks that are resumed in a part."""
        if here not in self.olds:
            inner = [self.resumed((*here, number), part) for number, part in enumerate(children(tree)) if is_network(part)]
            self.olds[here] = frozenset([tree[1]] if head(tree) == "old" else []).union(*inner)
        return self.olds[here]

    def switch(self, here: Position, tree: Tree, scope: Scope, needs: bool) -> Any:
        """What the first network's signals are at the event's sample, and of a `dSwitch` its output too, goes to the template with
        the event's value, where that runs at this sample."""
        delayed = head(tree) == "dSwitch"
        first = self.child(here, tree, 0, scope, True)
        then_watches = self.watches((*here, 1), tree[2], scope.below())
        at_once = not delayed or then_watches
        handed = Seen("x", first.output[1] if delayed and then_watches and needs else None, first.signals if at_once else None)
        hands = handed.output is not None or handed.signals is not None
        then = self.child(here, tree, 1, scope.below(("fst", scope.param()) if hands else None), needs)
        sides = Sides([first.signals, then.signals if then else None])
        output = self.whole.output(here) if needs else None
        if output is None and sides.pack is None:
            return None
        before = self.up_to_event(first, handed if hands else None, sides, needs)
        behind = self.from_event(then, handed, sides, ("snd", scope.param())) if hands else self.template(then, sides)
        return Seen(("switch" if at_once else "dSwitch", before, behind), output, sides.pack)

    def up_to_event(self, first: Seen, handed: Optional[Seen], sides: Sides, needs: bool) -> Tree:
        """The first network of a switch, which hands a value to the template."""
        value, event = fst(first.out()), snd(first.out())
        if handed is not None:
            there = packed(fst(first.out(fst("x"))) if handed.output is not None else None, first.sig(fst("x")) if handed.signals else None)
            type_ = ("Pair", first.output[2][1], handed.type)
            event = ("on", event, ("none", type_), ("event", ("pair", snd("x"), there)))
        return seq(first.net, arr(("pair", packed(value if needs else None, sides.value(0, first.sig())), event)))

    def template(self, then: Optional[Seen], sides: Sides) -> Tree:
        """The second network of a switch."""
        if then is None:
            return arr(sides.value(1, None))
        return then.net if sides.pack is None else seq(then.net, arr(packed(then.out(), sides.value(1, then.sig()))))

    def from_event(self, then: Optional[Seen], handed: Seen, sides: Sides, value: Tree) -> Tree:
        """The same, where at the first sample there is that value, of what was handed."""
        now = ("after", 0, value)
        event, then_value = ("x", None) if then is None else (snd("x"), fst("x"))
        events = {}
        if handed.signals is not None:
            inner = handed.sig(snd("x"))
            alone = handed.output is None and not sides.nested[0]
            events[0] = event if alone else ("on", event, ("none", self.event_of(handed.signals)), inner if sides.nested[0] else ("event", inner))
        if then is None:
            return seq(now, arr(sides.values(events)))
        out = then.out(then_value)
        if handed.output is not None:
            out = ("on", event, out, handed.out(snd("x")))
        if then.signals is not None:
            events[1] = then.sig(then_value) if sides.nested[1] else ("event", then.sig(then_value))
        return seq(fan(then.net, now), arr(packed(out, sides.values(events))))

    @staticmethod
    def event_of(pack: Pack) -> Tree:
        """The type of what an event of the pack holds."""
        return pack.inner.type if isinstance(pack, Sometimes) else pack.type

    def restart(self, here: Position, tree: Tree, scope: Scope, needs: bool) -> Any:
        """In a `drSwitch` the signals of what starts are those of an `rSwitch` beside it: at the event's sample both run."""
        word = head(tree)
        if word == "rSwitch" or not self.watches((*here, 1), tree[2], scope.below()):
            return self.restarting(word, here, tree, (scope, scope.below()), needs)
        plain = self.restarting(word, here, tree, (scope, replace(scope.below(), quiet=True)), needs)
        started = self.restarting("rSwitch", here, tree, (replace(scope, quiet=True), scope.below()), False)
        if plain is None or started is None:
            return plain or started
        net, (left, right) = beside([plain.net, started.net])
        signals = [one.sig(value) for one, value in ((plain, left), (started, right)) if one.signals]
        pack = balanced([one.signals for one in (plain, started) if one.signals])
        return Seen(seq(net, arr(packed(plain.out(left), joined(signals)))), plain.output, pack)

    def restarting(self, word: str, here: Position, tree: Tree, scopes: tuple, needs: bool) -> Any:
        first = self.child(here, tree, 0, scopes[0], needs)
        then = self.child(here, tree, 1, scopes[1], needs)
        sides = Sides([first.signals if first else None, then.signals if then else None])
        if not needs and sides.pack is None:
            return None
        before = arr(sides.value(0, None)) if first is None else seq(first.net, arr(packed(first.out(), sides.value(0, first.sig()))))
        return Seen((word, before, self.template(then, sides)), self.whole.output(here) if needs else None, sides.pack)

    def template_with(self, here: Position, tree: Tree, scope: Scope, frozen: Callable) -> Seen:
        """The template of a switch that freezes: `frozen` tells what it freezes, from whether the template has signals itself."""
        number = len(children(tree)) - 1
        guess = self.watches((*here, number), children(tree)[number], scope.below(None, frozen(True)))
        then = self.child(here, tree, number, scope.below(None, frozen(guess)), True)
        if guess and then.signals is None:
            then = self.child(here, tree, number, scope.below(None, frozen(False)), True)
        return then

    def freezing(self, here: Position, tree: Tree, scope: Scope, needs: bool) -> Any:
        first = self.child(here, tree, 0, scope, True)

        def frozen(loud: bool) -> tuple:
            """The frozen network outputs its signals beside those of the template, which are absent."""
            if first.signals is None:
                return (Frozen(fst) if loud else WHOLE,)
            sides = Sides([first.signals, Leaf((), "Unit") if loud else None])
            return (Frozen(fst, lambda value: sides.side(0, snd(value)), sides.pack.left if loud else sides.pack),)

        then = self.template_with(here, tree, scope, frozen)
        sides = Sides([first.signals, then.signals])
        watch = self.child(here, tree, 1, replace(scope, quiet=True), True).net
        output = self.whole.output(here)
        if sides.pack is None:
            return Seen(("kSwitch", first.net, watch, then.net), output, None) if needs else None
        before = seq(first.net, arr(packed(first.out(), sides.value(0, first.sig()))))
        sees = seq(arr(("pair", fst("x"), fst(snd("x")))), watch)
        both = Seen(("kSwitch", before, sees, self.template(then, sides)), output, sides.pack)
        return both if needs else Seen(seq(both.net, arr(snd("x"))), None, sides.pack)

    def collection(self, here: Position, tree: Tree, scope: Scope, needs: bool) -> Any:
        """A member's element is the list of its output alone, with its signals; the template's only element has its whole list."""
        _, route, _, _, _ = tree
        count, of = len(children(tree)) - 3, self.whole.output(here)[1]
        seen = [self.child(here, tree, number, scope, True) for number in range(1, count + 1)]
        packs = [one.signals for one in seen]
        loud = any(packs)

        def frozen(then_loud: bool) -> tuple:
            if not loud and not then_loud:
                return (WHOLE,) * count
            sides = Sides([*packs, Leaf((), "Unit") if then_loud else None])
            return tuple(self.frozen_member(sides, number, of) for number in range(count))

        then = self.template_with(here, tree, scope, frozen)
        watch = self.child(here, tree, count + 1, replace(scope, quiet=True), True).net
        route, output = substituted(route, scope), self.whole.output(here)
        if not loud and then.signals is None:
            return Seen(("pSwitch", route, ("col", *[one.net for one in seen]), watch, then.net), output, None) if needs else None
        sides = Sides([*packs, then.signals])
        pack = Collection(count, of, sides.pack)
        empty = ("pair", ("list", of), absent(sides.pack))
        nets = [seq(one.net, arr(("pair", ("list", of, one.out()), sides.value(number, one.sig())))) for number, one in enumerate(seen)]
        sees = seq(arr(("pair", fst("x"), each_output(snd("x"), count, of, empty))), watch)
        behind = seq(then.net, arr(("list", pack.type[1], ("pair", then.out(), sides.value(count, then.sig())))))
        net = ("pSwitch", route, ("col", *nets), sees, behind)
        if not needs:
            return Seen(net, None, pack)
        whole = ("if", ("equal", ("len", "x"), 1), ("fst", ("nth", "x", 0, empty)), each_output("x", count, of, empty))
        return Seen(seq(net, arr(("pair", whole, "x"))), output, pack)

    @staticmethod
    def frozen_member(sides: Sides, number: int, of: Tree) -> Frozen:
        def out(value: Tree) -> Tree:
            return ("nth", fst(value), 0, default(of))

        if number not in sides.at:
            return Frozen(out)
        one = sides.pack
        place, count = sides.at.index(number), len(sides.at)
        while count > 1:
            half = count // 2
            one, place, count = (one.left, place, half) if place < half else (one.right, place - half, count - half)
        return Frozen(out, lambda value: sides.side(number, snd(value)), one)

    def comings(self, here: Position, tree: Tree, scope: Scope, needs: bool) -> Any:
        """The list of the members' signals comes from a second collection beside the first."""
        count = len(children(tree)) - 2
        numbers = [*range(count), count + 1]
        chooses = substituted(tree[2], scope)

        def collected(scope_of: Scope, wants: bool) -> list:
            return [self.child(here, tree, number, scope_of.below() if number > count else scope_of, wants) for number in numbers]

        loud = collected(scope, False)
        sides = Sides([one.signals if one else None for one in loud])
        outputs = []
        if needs:
            *nets, then = [one.net for one in collected(replace(scope, quiet=True), True)]
            outputs.append(Seen(("rpSwitchB", ("col", *nets), chooses, then), self.whole.output(here), None))
        if sides.pack is None:
            return outputs[0] if needs else None
        silent = arr(sides.value(0, None))
        *nets, then = [seq(one.net, arr(sides.value(number, one.sig()))) if one else silent for number, one in enumerate(loud)]
        signals = Seen(("rpSwitchB", ("col", *nets), chooses, then), None, Members(sides.pack))
        return Seen(fan(outputs[0].net, signals.net), outputs[0].output, signals.signals) if needs else signals


WAYS = {
    ">>>": "chain",
    "first": "first",
    "parB": "members",
    "loopPre": "loop",
    "-->": "first_output",
    ">--": "first_input",
    "switch": "switch",
    "dSwitch": "switch",
    "rSwitch": "restart",
    "drSwitch": "restart",
    "kSwitch": "freezing",
    "pSwitch": "collection",
    "rpSwitchB": "comings",
    "old": "old",
}
