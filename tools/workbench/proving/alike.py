"""Leaves of a state that are always equal, or always the same: classes of those that were so in some states, split by z3's models
until each sample keeps them."""
from dataclasses import dataclass
from typing import Any, Optional

import z3

from workbench.proving.bounded import known, satisfied, solver_of
from workbench.proving.induction import Candidate
from workbench.proving.saying import equal, leaf_at
from workbench.proving.system import Link, System
from workbench.proving.terms import Leaf, Terms, formula, negation


@dataclass(frozen=True)
class Class:
    """The places of leaves that are equal; where a value is told, all of them are that."""

    places: tuple
    value: Any = None

    def truths(self, terms: Terms, leaves: list[Leaf]) -> list[Leaf]:
        if self.value is not None:
            return [terms.equal(leaves[place], self.value) for place in self.places]
        return [terms.equal(leaves[self.places[0]], leaves[place]) for place in self.places[1:]]

    def split(self, values: list) -> list["Class"]:
        """Those that have the same of these values."""
        groups: dict = {}
        for place in self.places:
            groups.setdefault(values[place], []).append(place)
        return [Class(tuple(places), value if value == self.value else None) for value, places in groups.items()]

    def candidates(self) -> list[Candidate]:
        if self.value is not None:
            return [Candidate(equal(leaf_at(place), self.value), (place, self.value), True) for place in self.places]
        one, *others = self.places
        return [Candidate(("equal", leaf_at(one), leaf_at(other)), (one, other)) for other in others]


def classes_of(system: System, rows: list[tuple]) -> list[Class]:
    """The leaves that were equal in all of these states."""
    columns = list(zip(*rows)) or [()] * len(system.truths)
    groups: dict = {}
    for place, column in enumerate(columns):
        groups.setdefault((system.truths[place], column), []).append(place)
    return [Class(tuple(places), column[0] if len(set(column)) == 1 else None) for (_, column), places in groups.items()]


def equal_leaves(system: System, rows: list[tuple], held: list[Candidate], until: float) -> list[Candidate]:
    """What of that holds behind each sample, where what is held does."""
    classes = kept_by(system, classes_of(system, rows), system.beginning, None, until)
    (link,) = system.chain(1)
    classes = kept_by(system, classes, link, [candidate.of(system.terms, link.before) for candidate in held], until)
    return [candidate for one in classes for candidate in one.candidates()]


def kept_by(system: System, classes: list[Class], link: Link, held: Optional[list[Leaf]], until: float) -> list[Class]:
    """The classes, split until a sample keeps all; where nothing is held, it is the first."""
    terms, after = system.terms, system.leaves(link.frame.state)
    while True:
        broken = [negation(truth) for one in classes for truth in one.truths(terms, after) if truth is not True]
        if not broken:
            return classes
        solver = solver_of(terms, until)
        before = [] if held is None else held + [truth for one in classes for truth in one.truths(terms, link.before)]
        solver.add([formula(leaf) for leaf in [*link.given, link.frame.passed, *before]])
        solver.add(z3.Or([formula(leaf) for leaf in broken]))
        if not satisfied(solver):
            return classes
        model = solver.model()
        values = [known(model, leaf) for leaf in after]
        classes = [part for one in classes for part in one.split(values) if len(part.places) > 1 or part.value is not None]
