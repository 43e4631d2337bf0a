"""Guesses about several numbers of a state at once: sums that are bounded, linear equations, and the low bits of one."""
from dataclasses import dataclass
from fractions import Fraction
from itertools import combinations
from math import lcm
from typing import Callable, Iterator, Optional

from workbench.proving.induction import Candidate
from workbench.proving.mining import MOST, RAISED, Bound, Templates
from workbench.proving.saying import at_most, in_modes, leaf_at, rest_is
from workbench.proving.terms import Leaf, Terms
from workbench.proving.values import Tree

# The largest coefficient of an equation, how many of its numbers it relates, of how many low bits a guess tells, and from where on a
# number may have wrapped.
COEFFICIENT, RELATED, BITS, WRAPS = 8, 8, 3, 2**40


@dataclass(frozen=True)
class Sum:
    """Numbers of the state, each by its place, times their coefficients."""

    parts: tuple[tuple[int, int], ...]

    def of_row(self, columns: list, row: int) -> int:
        return sum(times * columns[place][row] for times, place in self.parts)

    def tree(self) -> Tree:
        found: Tree = None
        for times, place in sorted(self.parts, reverse=True):
            part = leaf_at(place) if abs(times) == 1 else ("mul", abs(times), leaf_at(place))
            if found is None:
                found = part if times > 0 else ("neg", part)
            else:
                found = ("add" if times > 0 else "sub", found, part)
        return found

    def value(self, after: list, value: Callable[[Leaf], int]) -> int:
        return sum(times * value(after[place]) for times, place in self.parts)


@dataclass(frozen=True)
class Rest(Candidate):
    """What a number leaves where it is divided by a power of two. Integers that don't wrap are divided."""

    place: int = 0
    power: int = 1
    rest: int = 0

    def of(self, terms: Terms, leaves: list[Leaf]) -> Leaf:
        return terms.equal(terms.low_bits(leaves[self.place], self.power), self.rest)


class Linear:
    """The guesses that the rows of some templates leave."""

    def __init__(self, templates: Templates):
        self.templates, self.columns = templates, templates.columns
        self.most: dict[Sum, int] = {}

    def exact(self) -> list[Candidate]:
        """Equations, low bits, and what is known in modes."""
        equations = [found for modes, rows in self.every() for found in self.equations(modes, rows)]
        return [*equations, *self.low_bits(), *self.templates.values_in_modes()]

    def sums(self) -> list[Candidate]:
        """How large the sums of two numbers are, everywhere and in modes."""
        return [found for modes, rows in self.every() for found in self.sums_in(modes, rows)][:MOST]

    def every(self) -> list[tuple]:
        """No mode and each one, with the rows."""
        return [((), list(self.templates.rows)), *[((mode,), rows) for mode, rows in self.templates.modes() if len(rows) > RELATED]]

    def sums_in(self, modes: tuple, rows: list[int]) -> Iterator[Candidate]:
        """How large the sum of two numbers is at most, and at least, in some modes; if not the same everywhere."""
        given = [place for place, _ in modes]
        for one, other in combinations([place for place in self.templates.ints if place not in given], 2):
            for sign in (1, -1):
                total = Sum(((sign, one), (sign, other)))
                most = max(total.of_row(self.columns, row) for row in rows)
                if abs(most) <= self.templates.far and most < self.most.get(total, most + 1):
                    yield self.at_most(total, most, modes, 0)
                if not modes:
                    self.most[total] = most

    def at_most(self, total: Sum, most: int, modes: tuple, raised: int) -> Candidate:
        far = self.templates.far

        def weaker(after: list, value: Callable[[Leaf], int]) -> Optional[Candidate]:
            more = total.value(after, value)
            return self.at_most(total, more, modes, raised + 1) if raised < RAISED and most < more <= far else None

        return Bound(in_modes(modes, at_most(total.tree(), most)), raise_=weaker)

    def low_bits(self) -> Iterator[Candidate]:
        """What a number leaves when it is divided by a power of two, if always the same."""
        for place in self.templates.ints:
            for bits in range(BITS, 0, -1):
                rests = {value % 2**bits for value in self.columns[place]}
                if len(rests) == 1:
                    rest = rests.pop()
                    yield Rest(rest_is(leaf_at(place), 2**bits, rest), None, False, place, 2**bits, rest)
                    break

    def equations(self, modes: tuple, rows: list[int]) -> Iterator[Candidate]:
        """The linear equations that hold of the numbers in some rows, by elimination; rows in which a number may have wrapped are left out."""
        rows = [row for row in rows if all(abs(self.columns[place][row]) < WRAPS for place in self.templates.ints)]
        places = [place for place in self.templates.ints if len({self.columns[place][row] for row in rows}) > 1]
        for parts in relations([[self.columns[place][row] for place in places] for row in rows]):
            total = Sum(tuple((times, place) for times, place in zip(parts, places) if times))
            value = total.of_row(self.columns, rows[0])
            if len(total.parts) > 1 and abs(value) <= self.templates.far:
                yield Candidate(in_modes(modes, ("equal", total.tree(), value)))


def relations(rows: list[list[int]]) -> Iterator[list[int]]:
    """A basis of the small whole coefficients by which columns sum up to the same in all rows."""
    if not rows or not rows[0]:
        return
    basis = eliminated([[Fraction(value - first) for value, first in zip(row, rows[0])] for row in rows[1:]])
    pivots, width = list(basis), len(rows[0])
    for free in (place for place in range(width) if place not in basis):
        found = [Fraction(0)] * width
        found[free] = Fraction(1)
        for pivot in pivots:
            found[pivot] = -basis[pivot][free]
        whole = [int(value * lcm(*[part.denominator for part in found])) for value in found]
        if all(abs(value) <= COEFFICIENT for value in whole) and sum(map(bool, whole)) <= RELATED:
            yield whole


def eliminated(rows: list[list[Fraction]]) -> dict[int, list[Fraction]]:
    """The reduced row echelon form of a matrix, each row by the place of its first one."""
    basis: dict[int, list[Fraction]] = {}
    for row in rows:
        for pivot, other in basis.items():
            if row[pivot]:
                row = [value - row[pivot] * part for value, part in zip(row, other)]
        pivot = next((place for place, value in enumerate(row) if value), None)
        if pivot is None:
            continue
        row = [value / row[pivot] for value in row]
        for place, other in basis.items():
            if other[pivot]:
                basis[place] = [value - other[pivot] * part for value, part in zip(other, row)]
        basis[pivot] = row
    return basis
