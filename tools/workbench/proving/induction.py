"""Proofs by induction over the samples: from any state, with what is known to hold of the states."""
from dataclasses import dataclass
from typing import Callable, Iterator, Optional

import z3

from workbench.proving.bounded import Unknown, known, satisfied, solver_of
from workbench.proving.expressions import value
from workbench.proving.system import Link, System
from workbench.proving.terms import Leaf, Terms, any_of, formula, implied, negation
from workbench.proving.values import UNIT, Tree


@dataclass(frozen=True)
class Candidate:
    """What may hold of each state, as an expression of the state's leaves. An equality has the leaf's place and what it is equal to:
    another place, or where it is fixed that value."""

    says: Tree
    equal: Optional[tuple] = None
    fixed: bool = False

    def of(self, terms: Terms, leaves: list[Leaf]) -> Leaf:
        """Whether it holds of these leaves."""
        return value(terms, self.says, tuple(leaves), UNIT)

    def weaker(self, after: list, value: Callable[[Leaf], int]) -> Optional["Candidate"]:
        """What may still hold where this doesn't, by the values of a model."""
        return None


def is_inductive(system: System, depth: int, invariants: list[Candidate], until: float) -> bool:
    """Whether the goal holds at a sample where it held at so many before, all from a state with these invariants."""
    return not satisfied(broken_goal(system, depth, invariants, until))


def broken_goal(system: System, depth: int, invariants: list[Candidate], until: float) -> z3.Solver:
    """So many samples at which the goal holds, from a state with these invariants, and then one at which it doesn't."""
    solver = solver_of(system.terms, until)
    for number, link in enumerate(system.chain(depth + 1)):
        held = [candidate.of(system.terms, link.before) for candidate in invariants]
        for leaf in [*link.given, *held, link.frame.passed if number < depth else link.frame.wrong]:
            solver.add(formula(leaf))
    return solver


def broken_invariants(system: System, invariants: list[Candidate], until: float) -> Iterator[tuple[str, z3.Solver]]:
    """A first sample, and any sample behind a state with these invariants, after which one of them doesn't hold."""
    first, (next_,) = system.beginning, system.chain(1)
    yield "the invariants hold behind the first sample", behind(system, first, invariants, until)
    solver = behind(system, next_, invariants, until)
    solver.add([formula(candidate.of(system.terms, next_.before)) for candidate in invariants])
    yield "the invariants hold behind a sample if they held before it", solver


def behind(system: System, link: Link, invariants: list[Candidate], until: float) -> z3.Solver:
    """A sample at which all is well, after which one of the invariants doesn't hold."""
    solver, after = solver_of(system.terms, until), system.leaves(link.frame.state)
    solver.add([formula(leaf) for leaf in [*link.given, link.frame.passed]])
    solver.add(formula(any_of(negation(candidate.of(system.terms, after)) for candidate in invariants)))
    return solver


def needed(system: System, depth: int, invariants: list[Candidate], until: float) -> list[Candidate]:
    """Those of some invariants that the goal rests on, and that these rest on themselves, as z3 tells."""
    literals = [z3.Bool(f"needed.{number}") for number in range(len(invariants))]
    links, found = system.chain(depth + 1), set()
    solver = solver_of(system.terms, until)
    for number, link in enumerate(links):
        held = [implied(literal, one.of(system.terms, link.before)) for literal, one in zip(literals, invariants)]
        solver.add([formula(leaf) for leaf in [*link.given, *held, link.frame.passed if number < depth else link.frame.wrong]])
    more = in_core(solver, literals)
    next_ = links[0]
    while not more <= found:
        found |= more
        solver = behind(system, next_, [invariants[number] for number in sorted(found)], until)
        solver.add([formula(implied(literal, one.of(system.terms, next_.before))) for literal, one in zip(literals, invariants)])
        more = in_core(solver, literals)
    return [invariants[number] for number in sorted(found)]


def dropped(system: System, depth: int, invariants: list[Candidate], until: float) -> list[Candidate]:
    """The invariants without those that aren't missed, each tried in its turn until the time is over: z3 tells no more where choices are
    taken apart."""
    for one in invariants:
        left = [other for other in invariants if other is not one]
        try:
            solvers = [broken_goal(system, depth, left, until), *[solver for _, solver in broken_invariants(system, left, until)]]
            invariants = invariants if any(map(satisfied, solvers)) else left
        except Unknown:
            break
    return invariants


def in_core(solver: z3.Solver, literals: list[z3.BoolRef]) -> set[int]:
    """The numbers of the literals without which there may be a solution."""
    if solver.check(*literals) != z3.unsat:
        raise Unknown
    core = {literal.get_id() for literal in solver.unsat_core()}
    return {number for number, literal in enumerate(literals) if literal.get_id() in core}


def kept(system: System, candidates: list[Candidate], until: float) -> list[Candidate]:
    """Those of the candidates that hold behind the first sample, and behind each sample where all of them held before, if all is well
    at the sample."""
    if not candidates:
        return []
    first, (next_,) = system.beginning, system.chain(1)
    found = pruned(system, candidates, [*first.given, first.frame.passed], None, system.leaves(first.frame.state), until)
    return pruned(system, found, [*next_.given, next_.frame.passed], next_.before, system.leaves(next_.frame.state), until)


def pruned(system: System, candidates: list, given: list, before: Optional[list], after: list, until: float) -> list:
    """Drops what a model refutes, or takes what is weaker, until none is refuted."""
    made: dict = {}
    left = candidates
    while True:
        for candidate in left:
            if candidate not in made:
                made[candidate] = formula(candidate.of(system.terms, before)) if before else None, candidate.of(system.terms, after)
        left = [candidate for candidate in left if made[candidate][1] is not False]
        open_ = [candidate for candidate in left if made[candidate][1] is not True]
        if not open_:
            return left
        solver = solver_of(system.terms, until)
        solver.add([formula(leaf) for leaf in given] + [made[candidate][0] for candidate in left if before])
        solver.add(z3.Or([formula(negation(made[candidate][1])) for candidate in open_]))
        if not satisfied(solver):
            return left
        model = solver.model()
        refuted = {candidate for candidate in open_ if not known(model, made[candidate][1])}
        weaker = [candidate.weaker(after, lambda leaf: known(model, leaf)) for candidate in left if candidate in refuted]
        left = [candidate for candidate in left if candidate not in refuted] + [candidate for candidate in weaker if candidate]
