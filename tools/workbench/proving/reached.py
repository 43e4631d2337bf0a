"""A search from one known state to the next: z3 looks for an input that leads to a state that wasn't reached before.

The states are numbers and truths, so one sample at a time is asked of z3, with any numbers in the input: that reaches far where each
sample has to be just so. If no state leads to a new one, all that can be reached have been seen.
"""
from dataclasses import dataclass
from typing import Any, Optional

import z3

from model.trees import shown
from workbench.proving.bounded import known, satisfied, solver_of
from workbench.proving.system import System
from workbench.proving.terms import Terms, any_of, both, formula, negation
from workbench.proving.told import Holds, Search, Searched, Wrong
from workbench.proving.values import decoded, mapped, rebuilt

MOST_STATES, EACH = 3_000, 200


@dataclass
class Reached:
    """A state that was reached: its leaves but the last, which counts time, and the sample that led here from which other one."""

    leaves: tuple
    state: Any
    before: Optional["Reached"] = None
    line: str = ""

    def recording(self) -> bytes:
        lines, at = [], self
        while at.before:
            lines.append(at.line)
            at = at.before
        return "\n".join(reversed(lines)).encode() + b"\n"


class Successors:
    """The states behind a reached one, each once, and first of all one at which the goal is false."""

    def __init__(self, system: System, at: Reached, until: float):
        self.system, self.at = system, at
        self.step, self.sample, bounds = system.sample("next", at.before is None)
        frame = system.step(at.state, self.step, self.sample)
        self.after, self.wrong = system.leaves(frame.state)[:-1], both(frame.fair, negation(frame.good))
        self.solver = solver_of(system.terms, until)
        self.solver.add([formula(bound) for bound in [*bounds, frame.fair]])

    def false_one(self) -> Optional[Reached]:
        if self.wrong is False:
            return None
        self.solver.push()
        self.solver.add(formula(self.wrong))
        found = self.reached(self.solver.model()) if satisfied(self.solver) else None
        self.solver.pop()
        return found

    def next(self) -> Optional[Reached]:
        """One that this answered not yet."""
        if not satisfied(self.solver):
            return None
        found = self.reached(self.solver.model())
        self.solver.add(formula(any_of(negation(self.system.terms.equal(one, other)) for one, other in zip(self.after, found.leaves))))
        return found

    def reached(self, model: z3.ModelRef) -> Reached:
        """The state that a model leads to."""
        spelled = shown(decoded(mapped(lambda leaf: known(model, leaf), self.sample), self.system.question.given))
        line = f"+{known(model, self.step)} {spelled}" if self.at.before else spelled
        leaves = tuple(known(model, leaf) for leaf in self.after)
        return Reached(leaves, rebuilt(self.system.shape, iter((*leaves, 0))), self.at, line)


def last_reached(search: Search) -> tuple[Optional[Reached], int]:
    """A state at which the goal is false, or None, and how many states were reached, the newest of which are gone on from first."""
    system = System(search.question, Terms())
    seen: set[tuple] = set()
    open_ = [Successors(system, Reached((), system.start), search.until)]
    if wrong := open_[0].false_one():
        return wrong, 0
    while open_ and len(seen) < MOST_STATES:
        found = open_[-1].next()
        if found is None:
            open_.pop()
        elif found.leaves not in seen:
            seen.add(found.leaves)
            open_.append(Successors(system, found, search.until))
            if wrong := open_[-1].false_one():
                return wrong, len(seen)
            if len(seen) % EACH == 0:
                search.tell(Searched("reached", f"none in {len(seen):,} states that were reached one by one"))
    return None, len(seen)


def by_reaching(search: Search) -> None:
    """All states that can be reached, if these are few; or far ones."""
    found, count = last_reached(search)
    if found:
        recording = found.recording()
        if search.confirmed(recording):
            search.tell(Wrong(recording))
    elif count < MOST_STATES:
        search.tell(Holds(f"a search of all states, one by one: {count:,} seen", search.question.told()))
