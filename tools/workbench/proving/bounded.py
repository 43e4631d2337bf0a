"""Recordings from the first sample on: whether one of so many samples makes the goal false."""
import time
from typing import Any, Iterator, Optional

import z3

from model.trees import shown
from workbench.proving.system import System
from workbench.proving.terms import Leaf, Terms, all_of, both, formula, is_known, is_truth, negation
from workbench.proving.values import decoded, mapped

# What takes choices out of sums, and numbers that are equal to others out of all.
PARTING = ("simplify", "propagate-values", "solve-eqs", "cofactor-term-ite", "simplify", "solve-eqs")
DEPTHS = (1, 2, 4, 8, 12, 16, 24, 32, 48, 64, 96, 128, 192, 256, 384, 512, 768, 1024, 2048)


def depths(most: int) -> Iterator[int]:
    """How many samples are looked at, ever more, up to the most."""
    depth = 0
    for depth in DEPTHS:
        if depth < most:
            yield depth
    while (depth := 2 * depth) < most:
        yield depth
    yield most


class Unknown(Exception):
    """z3 doesn't know, or not in time."""


def solver_of(terms: Terms, until: float) -> z3.Solver:
    """A solver for these terms, which ends by itself at that time."""
    left = until - time.monotonic()
    if left <= 0:
        raise Unknown
    solver = made_for(terms)
    solver.set("timeout", max(1, int(min(left, 100_000) * 1000)))
    return solver


def made_for(terms: Terms) -> z3.Solver:
    if terms.parted:
        return z3.Then(*PARTING, "simplify", "bit-blast", "sat").solver()
    logic = "QF_UFBV" if terms.named else "QF_BV"
    return z3.SolverFor(logic) if terms.width else z3.Solver()


def satisfied(solver: z3.Solver) -> bool:
    result = solver.check()
    if result == z3.unknown:
        raise Unknown
    return result == z3.sat


def known(model: z3.ModelRef, leaf: Leaf) -> Any:
    """What a leaf is in a model."""
    if is_known(leaf):
        return leaf
    found = model.eval(leaf, model_completion=True)
    if is_truth(found):
        return z3.is_true(found)
    return found.as_signed_long() if z3.is_bv(found) else found.as_long()


class Unrolling:
    """The samples of any recording, one behind the other; a strict one is wrong too where a number leaves 64 bits."""

    def __init__(self, system: System, strict: bool = False):
        self.system, self.state, self.strict = system, system.start, strict
        self.samples: list = []
        self.bounds: list = []
        self.broken: list = []
        self.fair: list[Leaf] = []

    def extend(self, count: int, until: float) -> None:
        while len(self.samples) < count:
            if time.monotonic() > until:
                raise Unknown
            step, sample, bounds = self.system.sample(str(len(self.samples)), not self.samples)
            frame = self.system.step(self.state, step, sample)
            self.state = frame.state
            self.bounds += bounds
            before = self.fair[-1] if self.fair else True
            fair = all_of([before, frame.fair, frame.inside, negation(frame.doubtful)])
            self.broken.append(both(before, frame.wrong) if self.strict else both(fair, negation(frame.good)))
            self.fair.append(fair)
            self.samples.append((step, sample))

    def search(self, first: int, count: int, until: float) -> Optional[bytes]:
        """A recording on which the goal is false at a sample from the first on, before that number; or None."""
        self.extend(count, until)
        broken = self.broken[first:count]
        if all(leaf is False for leaf in broken):
            return None
        solver = self.breaking(first, count, until)
        if not satisfied(solver):
            return None
        model = solver.model()
        at = next(number for number, leaf in enumerate(broken, first) if known(model, leaf))
        return self.recording(model, at + 1)

    def breaking(self, first: int, count: int, until: float) -> z3.Solver:
        """A recording on which the goal is false at a sample from the first on, before that number."""
        self.extend(count, until)
        solver = self.solver(until)
        solver.add(z3.Or([formula(leaf) for leaf in self.broken[first:count]]))
        return solver

    def is_fair(self, count: int, until: float) -> bool:
        """Whether there is a recording of so many samples on which all that is assumed holds."""
        self.extend(count, until)
        solver = self.solver(until)
        solver.add(formula(self.fair[count - 1]))
        return satisfied(solver)

    def solver(self, until: float) -> z3.Solver:
        solver = solver_of(self.system.terms, until)
        for bound in self.bounds:
            solver.add(formula(bound))
        return solver

    def recording(self, model: z3.ModelRef, count: int) -> bytes:
        lines = []
        for number, (step, sample) in enumerate(self.samples[:count]):
            value = decoded(mapped(lambda leaf: known(model, leaf), sample), self.system.question.given)
            lines.append((f"+{known(model, step)} " if number else "") + shown(value))
        return "\n".join(lines).encode() + b"\n"


def fair_samples(system: System, most: int, until: float) -> int:
    """How many samples a recording on which all that is assumed holds can have, at most so many."""
    unrolling, fair = Unrolling(system), 0
    for depth in depths(most):
        if not unrolling.is_fair(depth, until):
            break
        fair = depth
    else:
        return most
    while fair + 1 < depth:
        middle = (fair + depth) // 2
        fair, depth = (middle, depth) if unrolling.is_fair(middle, until) else (fair, middle)
    return fair
