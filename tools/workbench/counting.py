"""How often recordings run each part of a network: the model's machine runs it, with plain numbers, and counts what it computes."""
from __future__ import annotations

from collections import Counter
from dataclasses import dataclass, replace
from typing import Any

from model.texts import read_stream
from model.trees import children, head, is_network, preorder
from model.typed import check_types
from workbench.ending import REFUSED, UNREADABLE, Refused, missing, stream_bytes
from workbench.origin import Haskell, Program
from workbench.program import call

try:
    from workbench.proving.expressions import STRICT, value
    from workbench.proving.machines import Environment, Machine
    from workbench.proving.switching import machine_of
    from workbench.proving.terms import Terms
    from workbench.proving.values import UNIT, Tree, encoded
except ImportError as error:
    raise missing("python3-z3", error) from None

Position = tuple


class Counts:
    """How often each part was run, by its position."""

    def __init__(self, terms: Terms):
        self.terms, self.of = terms, Counter[Position]()

    def value(self, tree: Any, params: tuple, x: Tree, here: Position) -> Tree:
        """The value of an expression, whose parts are counted where they are computed."""
        self.of[here] += 1
        word, parts = head(tree), children(tree)

        def part(number: int, given: Tree = x) -> Tree:
            return self.value(parts[number], params, given, (*here, number))

        if word in STRICT:
            return STRICT[word](self.terms, *[part(number) for number in range(len(parts))])
        match word:
            case "then":
                return part(1, part(0))
            case "if":
                return part(1 if part(0) else 2)
            case "on":
                happening = part(0)
                return part(2, ("pair", x, happening[2])) if happening[1] else part(1)
            case "list":
                return ("list", len(parts), tuple(part(number) for number in range(len(parts))))
        return value(self.terms, tree, params, x)


@dataclass(frozen=True)
class Counting(Environment):
    """An environment in which what is computed for a network is counted at its position; for none, as its constants are, it isn't."""

    counts: Counts | None = None
    places: dict[int, Position] | None = None

    def value(self, tree: Any, x: Tree = UNIT) -> Tree:
        if self.counts is None or self.places is None:
            return value(self.terms, tree, self.params, x)
        return self.counts.value(tree, self.params, x, self.places[id(tree)])


def count_in(machine: Machine, counts: Counts) -> None:
    """From now on each step of the network, and of those in it, is counted."""
    advance, first_cells, position = machine.advance, machine.first_cells, machine.position
    places = {id(child): (*position, number) for number, child in reversed([*enumerate(children(machine.tree))])}
    # The environment that it got last, and the same with the places of its own expressions: mostly it is the same again.
    got = own = None

    def counted(state: Tree, d: Any, a: Tree, env: Counting) -> tuple:
        nonlocal got, own
        counts.of[position] += 1
        if env is not got:
            got, own = env, replace(env, places=places)
        return advance(state, d, a, own)

    machine.advance = counted  # type: ignore[method-assign]
    machine.first_cells = lambda env: first_cells(replace(env, places=None))  # type: ignore[method-assign]
    for part in machine.parts:
        count_in(part, counts)


class Counted:
    """A network that counts its parts."""

    state: Tree

    def __init__(self, program: Program):
        self.program, self.tree, self.given = program, program.file.tree, program.file.input
        self.terms = Terms()
        self.counts = Counts(self.terms)
        self.machine = machine_of(check_types(self.given, self.tree))
        count_in(self.machine, self.counts)
        self.env = Counting(self.terms, counts=self.counts)

    def begin(self) -> None:
        self.state = self.machine.start(self.env)

    def step(self, step: int, sample: Tree) -> Tree:
        """What it outputs at a sample."""
        self.terms.steps = 0
        output, self.state = self.machine.step(self.state, step, sample, self.env)
        return output

    def totals(self) -> dict[Position, int]:
        """How often each part was run; a constant as often as its network."""
        found: dict[Position, int] = {}
        self.add_totals(self.tree, (), 0, True, found)
        return found

    def add_totals(self, tree: Any, position: Position, above: int, is_run: bool, found: dict[Position, int]) -> None:
        found[position] = count = self.counts.of[position] if is_run else above
        word, inside = head(tree), not is_network(tree)
        for number, child in enumerate(children(tree)):
            runs = is_run if inside else is_network(child) or word in ("arr", "pSwitch", "rpSwitchB") or (word == "accumBy" and number == 0)
            self.add_totals(child, (*position, number), count, runs, found)


class Run:
    """A network, and what a file of Haskell says of it, on one recording after the other."""

    def __init__(self, program: Program):
        self.network = Counted(program)
        stated = program.translation.stated if isinstance(program, Haskell) else []
        self.properties = [(one.kind, Counted(program.with_network(one.network))) for one in stated]

    def networks(self) -> list[Counted]:
        return [self.network, *[one for _, one in self.properties]]

    def hear(self, recording: str) -> str:
        """Counts a recording's samples; what is wrong with it, or nothing."""
        stream, given = stream_bytes(recording), self.network.given
        told = call(["run", self.network.program.path()], stream)
        if told.status not in (0, REFUSED):
            raise Refused(f"{recording}: {told.fault()}", UNREADABLE)
        for network in self.networks():
            network.begin()
        for step, sample in read_stream(stream, given)[0][: told.output.count(b"\n")]:
            heard = encoded(sample, given)
            output = self.network.step(step, heard)
            for kind, one in self.properties:
                one.step(step, heard if kind == "assume" else ("pair", heard, output))
        return f"{recording}: {told.fault()}" if told.status else ""


def counts_of(program: Program, recordings: list[str]) -> dict[Position, int]:
    """How often the recordings run each network, by its position."""
    run = Run(program)
    for recording in recordings:
        fault = run.hear(recording)
        if fault:
            raise Refused(fault)
    totals = run.network.totals()
    return {position: totals[position] for position, tree in preorder(run.network.tree) if is_network(tree)}
