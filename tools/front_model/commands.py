"""What `proc` means: at each sample its commands run in the order in which they are written, each with the names bound before it.

A command is a function from a sample and a scope to an output and the command of the next sample; a statement also gets the scope in
which its names are bound, and answers the statement of the next sample alone. In a `rec` that scope is the one in which all of its
statements are meant.
"""
from __future__ import annotations

from collections.abc import Callable

from front.syntax import Bind, CaseCommand, Do, Feed, IfCommand, LetCommand, LetStatement, Node, Proc, Rec
from front_model.meaning import MEANINGS, Scope, bind_later, chosen, define, later, value
from front_model.networks import Network, Sample, stepped
from front_model.values import Later, Value, now

Command = Callable[[Sample, Scope], tuple]
Statement = Callable[[Sample, Scope, Scope], "Statement"]


def proc(node: Proc, outer: Scope) -> Network:
    return fed(node, outer, command(node.command, outer))


def fed(node: Proc, outer: Scope, body: Command) -> Network:
    def step(sample: Sample, x: Value) -> tuple:
        wires = Scope(outer)
        bind_later(node.pattern, x, wires)
        output, rest = body(sample, wires)
        return output, fed(node, outer, rest)

    return step


MEANINGS[Proc] = proc

# ---- commands


def command(node: Node, outer: Scope) -> Command:
    """A command at its start; what stands left of `-<` is meant in the scope outside of the `proc`."""
    return COMMANDS[type(node)](node, outer)


def feed(node: Feed, outer: Scope) -> Command:
    return feeding(node, later(node.network, outer))


def feeding(node: Feed, network: Network) -> Command:
    def run(sample: Sample, wires: Scope) -> tuple:
        output, rest = stepped(network, sample, later(node.value, wires))
        return output, feeding(node, rest)

    return run


def do(node: Do, outer: Scope) -> Command:
    return in_order([statement(one, outer) for one in node.statements], command(node.last, outer))


def in_order(statements: list[Statement], last: Command) -> Command:
    def run(sample: Sample, wires: Scope) -> tuple:
        rests = []
        for one in statements:
            wires, before = Scope(wires), wires
            rests.append(one(sample, before, wires))
        output, rest = last(sample, wires)
        return output, in_order(rests, rest)

    return run


def either(node: IfCommand, outer: Scope) -> Command:
    return choosing(node, command(node.yes, outer), command(node.no, outer))


def choosing(node: IfCommand, yes: Command, no: Command) -> Command:
    """Only the branch that is chosen runs, and goes on."""

    def run(sample: Sample, wires: Scope) -> tuple:
        if value(node.condition, wires):
            output, rest = yes(sample, wires)
            return output, choosing(node, rest, no)
        output, rest = no(sample, wires)
        return output, choosing(node, yes, rest)

    return run


def alternatives(node: CaseCommand, outer: Scope) -> Command:
    bodies = [branch.body for alternative in node.alternatives for branch in alternative.rhs.branches]
    return among(node, {id(body): command(body, outer) for body in bodies})


def among(node: CaseCommand, bodies: dict[int, Command]) -> Command:
    def run(sample: Sample, wires: Scope) -> tuple:
        body, inner = chosen(node.alternatives, later(node.of, wires), wires)
        output, rest = bodies[id(body)](sample, inner)
        return output, among(node, {**bodies, id(body): rest})

    return run


def with_let(node: LetCommand, outer: Scope) -> Command:
    return letting(node, command(node.body, outer))


def letting(node: LetCommand, body: Command) -> Command:
    def run(sample: Sample, wires: Scope) -> tuple:
        inner = Scope(wires)
        define(node.declarations, inner)
        output, rest = body(sample, inner)
        return output, letting(node, rest)

    return run


COMMANDS: dict[type[Node], Callable] = {Feed: feed, Do: do, IfCommand: either, CaseCommand: alternatives, LetCommand: with_let}

# ---- statements


def statement(node: Node, outer: Scope) -> Statement:
    return STATEMENTS[type(node)](node, outer)


def bind(node: Bind, outer: Scope) -> Statement:
    return binding(node, command(node.command, outer))


def binding(node: Bind, body: Command) -> Statement:
    def run(sample: Sample, wires: Scope, into: Scope) -> Statement:
        ran = Later(lambda: body(sample, wires))
        if node.pattern is not None:
            bind_later(node.pattern, Later(lambda: now(ran)[0]), into)
        rest = sample.keep(Later(lambda: now(ran)[1]))
        return binding(node, lambda then, scope: now(rest)(then, scope))

    return run


def let(node: LetStatement, _outer: Scope) -> Statement:
    def run(_sample: Sample, _wires: Scope, into: Scope) -> Statement:
        define(node.declarations, into)
        return run

    return run


def rec(node: Rec, outer: Scope) -> Statement:
    return together([statement(one, outer) for one in node.statements])


def together(statements: list[Statement]) -> Statement:
    def run(sample: Sample, _wires: Scope, into: Scope) -> Statement:
        return together([one(sample, into, into) for one in statements])

    return run


STATEMENTS: dict[type[Node], Callable] = {Bind: bind, LetStatement: let, Rec: rec}
