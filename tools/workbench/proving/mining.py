"""What may hold of a system's states: guessed from the states of random recordings, by templates."""
import random
from dataclasses import dataclass, field
from itertools import combinations, permutations
from typing import Any, Iterator, Optional

from model.trees import GREATEST
from workbench.proving.induction import Candidate
from workbench.proving.saying import at_least, at_most, equal, in_modes, leaf_at, one_of
from workbench.proving.system import System
from workbench.proving.terms import LEAST
from workbench.proving.values import encoded
from workbench.streams import Streams, Wishes

RUNS, LENGTH, ROWS, SEED = 40, 100, 1_500, 7
# How many steps its parts take for the states from which equal leaves are guessed, and for those from which all is.
FEW_STEPS, STEPS = 40_000, 400_000
FEW, MODES, MOST, RAISED = 12, 20, 2_000, 12


@dataclass(frozen=True)
class Bound(Candidate):
    """A candidate with a number that may be raised."""

    raise_: Any = field(default=None, compare=False)

    def weaker(self, after: list, value: Any) -> Optional[Candidate]:
        return self.raise_(after, value)


class States:
    """The leaves of states behind samples of random recordings, each state once; more are simulated as they are asked for."""

    def __init__(self, system: System):
        self.system, self.taken = system, 0
        self.rows: dict[tuple, None] = {}
        self.more = self.simulated()

    def by(self, steps: int) -> list[tuple]:
        """Those that are seen until the parts have taken so many steps, but not many more than ROWS."""
        while self.taken < steps and len(self.rows) < ROWS and (row := next(self.more, None)):
            self.rows[row] = None
        return list(self.rows)

    def simulated(self) -> Iterator[tuple]:
        system, pace = self.system, self.system.pace
        wishes = Wishes(LENGTH, pace.steps, pace.most or 2**63 - 1, pace.lists, pace.ints)
        streams = Streams(system.question.given, system.question.numbers, random.Random(SEED), wishes)
        for _ in range(RUNS):
            state = system.start
            for number, (step, value) in enumerate(streams.recording()):
                state = self.behind(state, step if number else 0, encoded(value.value, system.question.given))
                if state is None:
                    break
                yield tuple(system.leaves(state))

    def behind(self, state: Any, step: int, sample: Any) -> Optional[Any]:
        """The state behind a sample, or None where it isn't fair; it is tried with a step of 1 too."""
        system, pace = self.system, self.system.pace
        others = [pace.step or 1] if not system.timed else [step] if pace.steps else [step, 1]
        for length in others if step else [0]:
            frame = system.step(state, length, sample)
            self.taken += system.terms.steps
            if frame.fair is True and frame.inside is True:
                return frame.state
        return None


class Templates:
    """The candidates that some states leave."""

    def __init__(self, system: System, rows: list[tuple]):
        self.truths = system.truths
        self.columns = list(zip(*rows)) or [()] * len(self.truths)
        near = {number + by for number in [0, *system.question.numbers] for by in (-1, 0, 1)}
        self.numbers = sorted(number for number in near if LEAST <= number <= GREATEST)
        self.far = 4 * sum(abs(number) for number in system.question.numbers if abs(number) < 2**20) + 16
        self.rows = range(len(rows))
        self.distances: dict = {}
        self.farthest: dict = {}
        varied = [place for place in range(len(self.truths)) if place not in system.learned and len(set(self.columns[place])) > 1]
        self.ints = [place for place in varied if not self.truths[place]]
        self.bools = [place for place in varied if self.truths[place]]

    def plain(self) -> list[Candidate]:
        """Bounds and differences."""
        return [*self.bounds(), *self.differences()][:MOST]

    def values_in_modes(self) -> list[Candidate]:
        """Values and bounds in modes."""
        return [found for mode, rows in self.modes() for found in self.values_in((mode,), rows)][:MOST]

    def differences_in_modes(self) -> list[Candidate]:
        return [*self.of_modes()][:MOST]

    def bounds(self) -> Iterator[Candidate]:
        for place in self.ints:
            values = sorted(set(self.columns[place]))
            yield from self.bounded(place, values, ())
            if 1 < len(values) <= FEW:
                is_span = values[-1] - values[0] == len(values) - 1
                few = [at_least(leaf_at(place), values[0]), at_most(leaf_at(place), values[-1])] if is_span else [one_of(leaf_at(place), values)]
                yield from map(Candidate, few)

    def bounded(self, place: int, values: Any, modes: tuple) -> Iterator[Candidate]:
        """The numbers of the file that bound a leaf in some modes, and more closely so than everywhere."""
        least, most = min(values), max(values)
        everywhere = (min(self.columns[place]), max(self.columns[place])) if modes else (least - 1, most + 1)
        below = [number for number in self.numbers if everywhere[0] < number <= least or number <= least and not modes][-2:]
        above = [number for number in self.numbers if most <= number < everywhere[1] or number >= most and not modes][:2]
        yield from (Candidate(in_modes(modes, at_least(leaf_at(place), number))) for number in below)
        yield from (Candidate(in_modes(modes, at_most(leaf_at(place), number))) for number in above)

    def differences(self) -> Iterator[Candidate]:
        for pair in permutations(self.ints, 2):
            yield from self.apart(pair, self.rows, ())

    def apart(self, pair: tuple, rows: Any, modes: tuple) -> Iterator[Candidate]:
        """How far two numbers are apart in some modes, if nearer than in fewer of them, and not too far."""
        apart = self.distance(pair)
        most = self.farthest[pair, modes] = max(apart[row] for row in rows)
        fewer = [self.farthest.get((pair, tuple(mode for mode in modes if mode != one))) for one in modes]
        if most not in fewer and -self.far <= most <= self.far:
            yield self.within(pair, most, modes, 0)

    def within(self, pair: tuple, most: int, modes: tuple, raised: int) -> Candidate:
        """That one number is at most so much greater than another; what a model refutes is raised a few times."""
        one, other = pair
        claim = at_most(("sub", leaf_at(one), leaf_at(other)), most) if most else ("not", ("less", leaf_at(other), leaf_at(one)))

        def weaker(after: list, value: Any) -> Optional[Candidate]:
            more = value(after[one]) - value(after[other])
            if raised == RAISED or not most < more <= self.far:
                return None
            return self.within(pair, more, modes, raised + 1)

        return Bound(in_modes(modes, claim), raise_=weaker)

    def distance(self, pair: tuple) -> list[int]:
        """How far two numbers are apart in each row."""
        if pair not in self.distances:
            self.distances[pair] = [a - b for a, b in zip(*[self.columns[place] for place in pair])]
        return self.distances[pair]

    def modes(self) -> list[tuple]:
        """A truth with what it is, or a number that is one of few; each with its rows."""
        few = [*self.bools, *[place for place in self.ints if len(set(self.columns[place])) <= FEW]]
        places = [place for place in few if not any(self.tells(other, place) for other in few)]
        rows: dict = {}
        for place in places:
            for number, value in enumerate(self.columns[place]):
                rows.setdefault((place, value), []).append(number)
        return sorted(rows.items(), key=lambda item: item[0])

    def tells(self, one: int, other: int) -> bool:
        """Whether a leaf told, in all rows, what another one is, and more than that."""
        together = set(zip(self.columns[one], self.columns[other]))
        return len(together) == len(set(self.columns[one])) > len(set(self.columns[other]))

    def of_modes(self) -> Iterator[Candidate]:
        modes = self.modes()
        for mode, rows in modes:
            yield from self.apart_in((mode,), rows)
        if len(modes) <= MODES:
            for (first, rows), (second, others) in combinations(modes, 2):
                rows = sorted({*rows} & {*others})
                if first[0] != second[0] and rows:
                    yield from self.apart_in((first, second), rows)

    def values_in(self, modes: tuple, rows: list[int]) -> Iterator[Candidate]:
        for place in [*self.bools, *self.ints]:
            values = {self.columns[place][row] for row in rows}
            if place == modes[0][0]:
                continue
            if len(values) == 1:
                yield Candidate(in_modes(modes, equal(leaf_at(place), values.pop())))
            elif place in self.ints:
                yield from self.bounded(place, values, modes)

    def apart_in(self, modes: tuple, rows: list[int]) -> Iterator[Candidate]:
        for pair in permutations(self.ints, 2):
            if all(mode not in pair for mode, _ in modes):
                yield from self.apart(pair, rows, modes)
