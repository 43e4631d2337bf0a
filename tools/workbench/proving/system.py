"""The transition system of a question, that is given to z3."""
from dataclasses import dataclass, replace
from functools import cached_property
from typing import Any, Optional

from workbench.ending import Refused
from workbench.proving.machines import Environment
from workbench.proving.question import TOTAL, Pace, Question
from workbench.proving.switching import machine_of
from workbench.proving.terms import Leaf, Terms, TooLarge, all_of, any_of, both, either, implied, is_truth, negation
from workbench.proving.values import UNIT, Tree, leaves, lists_in, padded, rebuilt

GROWTHS = 70
MOST_LEAVES = 20_000


@dataclass
class Frame:
    """What a sample leads to: whether it is one that counts, since all that is assumed holds; whether each lemma does; whether the
    goal does, and all numbers have their bits; whether one hasn't in what is assumed, so that `fair` tells nothing; the state behind
    it; and the pair of its input and its output."""

    fair: Leaf
    known: Leaf
    good: Leaf
    inside: Leaf
    doubtful: Leaf
    state: Tree
    seen: Tree

    @property
    def passed(self) -> Leaf:
        """Whether the sample counts and all is well."""
        return both(both(self.fair, self.known), both(both(self.good, self.inside), negation(self.doubtful)))

    @property
    def wrong(self) -> Leaf:
        """Whether the goal is false at a sample that counts, or that isn't known."""
        return either(self.doubtful, both(both(self.fair, self.known), negation(both(self.good, self.inside))))


@dataclass
class Link:
    """A sample: the leaves of the state before it, what holds of it, and what it leads to."""

    before: list[Leaf]
    given: list[Leaf]
    frame: Frame


class System:
    """The networks of a question side by side: a state, and a step that is Python's or z3's."""

    def __init__(self, question: Question, terms: Terms, pace: Optional[Pace] = None):
        self.question, self.terms, self.pace = question, terms, pace or question.pace
        self.timed, self.machines = question.timed, [machine_of(part) for part in question.parts]
        terms.most_step = max(self.pace.steps or [0]) or self.pace.most
        self.env = Environment(terms)
        self.start = self.started(self.env)
        self.begun = all_of(terms.ranges)
        self.learned: dict[int, tuple] = {}
        self.links: list[Link] = []

    def started(self, env: Environment) -> Tree:
        return ("state", *[machine.start(env) for machine in self.machines], 0)

    @cached_property
    def shape(self) -> Tree:
        """The first state with room in its lists for all that a step may put there."""
        shape, sizes = self.started(replace(self.env, roomy=True)), []
        while not sizes or len(leaves(shape)) > sizes[-1]:
            sizes.append(len(leaves(shape)))
            if len(sizes) > GROWTHS or sizes[-1] > MOST_LEAVES:
                raise Refused(f"{self.largest(shape)}: its state is too large for z3")
            given = [self.terms.variable(f"shape.{place}", is_truth(leaf)) for place, leaf in enumerate(leaves(shape))]
            step, sample, _ = self.sample("shape", False)
            shape = padded(shape, self.step(rebuilt(shape, iter(given)), step, sample).state)
        return shape

    def largest(self, shape: Tree) -> str:
        """The innermost form that has most of the state, by its word and position."""
        machine, state = max(zip(self.machines, shape[1:]), key=lambda pair: len(leaves(pair[1])))
        while machine.word not in ("rpSwitchB", "old"):
            half, parts = len(leaves(state)) / 2, zip(machine.parts, state[1 + len(machine.cells) :])
            larger = [pair for pair in parts if len(leaves(pair[1])) > half]
            if not larger:
                break
            machine, state = larger[0]
        return machine.named()

    @cached_property
    def truths(self) -> list[bool]:
        """Which leaves of the state are truths."""
        return [is_truth(leaf) for leaf in leaves(self.shape)]

    def leaves(self, state: Tree) -> list[Leaf]:
        """The leaves of a state, as many as its shape has."""
        return leaves(padded(state, self.shape))

    def owners(self) -> list[str]:
        """What each machine is for, in a word; a network that is alone has none."""
        question = self.question
        nets = [""] if len(question.nets) == 1 else ["source", "target"]
        return [*nets, "goal", *["invariant"] * len(question.lemmas), *["assumed"] * len(question.observed)]

    def learn(self, equal: tuple, fixed: bool) -> None:
        """Takes in that a leaf is always equal to one before it, or to a fixed value; so it is in an unknown state from now on."""
        place, other = equal if fixed else (max(equal), min(equal))
        self.learned.setdefault(place, (None, other) if fixed else (other, None))
        self.links.clear()

    # ---- unknowns

    def unknown(self, name: str) -> tuple:
        """Any state, and what holds of the lengths of its lists."""
        given: list = []
        for place, truth in enumerate(self.truths):
            other, value = self.learned.get(place, (None, None))
            new = self.terms.variable(f"{name}.{place}", truth) if value is None else value
            given.append(new if other is None else given[other])
        state = rebuilt(self.shape, iter(given))
        return state, [bound for found in lists_in(state) for bound in (found[1] >= 0, found[1] <= len(found[2]))]

    def sample(self, name: str, first: bool) -> tuple:
        """Any step and input, and what holds of them."""
        bounds: list = []
        tree = self.unknown_value(self.question.given, f"in.{name}", bounds)
        if first:
            return 0, tree, bounds
        if not self.timed:
            return min(self.pace.steps or [1]), tree, bounds
        if self.pace.step:
            return self.pace.step, tree, bounds
        step = self.terms.variable(f"step.{name}", False)
        if self.pace.among:
            return step, tree, [*bounds, any_of([self.terms.equal(step, one) for one in self.pace.among])]
        most = self.pace.most or (TOTAL * 2 - 1 if self.terms.width is None else None)
        return step, tree, [*bounds, step >= 1, *([step <= most] if most else [])]

    def unknown_value(self, type_: Any, name: str, bounds: list) -> Tree:
        word = type_[0] if isinstance(type_, tuple) else type_
        if word == "Unit":
            return UNIT
        if word in ("Bool", "Int"):
            leaf = self.terms.variable(name, word == "Bool")
            if word == "Int" and self.terms.width is None:
                bounds += [leaf >= -(2**63), leaf <= 2**63 - 1]
            return leaf
        if word == "Pair":
            return ("pair", *[self.unknown_value(part, f"{name}.{at}", bounds) for at, part in enumerate(type_[1:])])
        if word == "Event":
            return ("event", self.terms.variable(f"{name}.is", True), self.unknown_value(type_[1], f"{name}.of", bounds))
        length = self.terms.variable(f"{name}.len", False)
        bounds += [length >= 0, length <= self.pace.lists]
        return ("list", length, tuple(self.unknown_value(type_[1], f"{name}.{at}", bounds) for at in range(self.pace.lists)))

    # ---- the step

    @cached_property
    def beginning(self) -> Link:
        """The first sample."""
        step, sample, given = self.sample("first", True)
        return Link(self.leaves(self.start), given, self.step(self.start, step, sample))

    def chain(self, count: int) -> list[Link]:
        """So many samples from any state on."""
        while len(self.links) < count:
            state, lengths = (self.links[-1].frame.state, []) if self.links else self.unknown("state")
            step, sample, given = self.sample(f"step{len(self.links)}", False)
            self.links.append(Link(self.leaves(state), [*lengths, *given], self.step(state, step, sample)))
        return self.links[:count]

    def step(self, state: Tree, step: Leaf, sample: Tree) -> Frame:
        self.terms.steps, self.terms.facts = 0, []
        states, nets, lemmas = list(state[1:-1]), len(self.question.nets), len(self.question.lemmas)
        try:
            fair, doubtful, total = self.counted(states, state[-1], step, sample)
            outputs = [self.part(states, number, step, sample) for number in range(nets)]
            seen = ("pair", sample, outputs[0][0] if nets == 1 else ("pair", *[output for output, _ in outputs]))
            helping = [self.part(states, nets + 1 + number, step, seen) for number in range(lemmas)]
            good, more = self.part(states, nets, step, seen)
        except TooLarge:
            raise Refused("a sample of it takes too many steps for z3") from None
        inside = all_of([self.begun, *[inside for _, inside in outputs + helping]])
        known = implied(inside, all_of([truth for truth, _ in helping]))
        facts = all_of(self.terms.facts)
        return Frame(both(facts, fair), known, good, both(inside, more), both(facts, doubtful), ("state", *states, total), seen)

    def part(self, states: list, number: int, step: Leaf, given: Tree) -> tuple:
        """What a network outputs, and whether all its numbers have their bits; its state is put in the place of the one before."""
        self.terms.ranges = []
        output, states[number] = self.machines[number].step(states[number], step, given, self.env)
        return output, all_of(self.terms.ranges)

    def counted(self, states: list, total: Leaf, step: Leaf, sample: Tree) -> tuple:
        """Whether a sample counts, whether that isn't known, since a number of what is assumed hasn't its bits where all that is
        assumed before it holds; and the sum of the steps."""
        fair, total = self.in_time(total, step)
        doubtful: Leaf = False
        for number in range(len(self.machines) - len(self.question.observed), len(self.machines)):
            truth, inside = self.part(states, number, step, sample)
            doubtful = either(doubtful, both(fair, negation(inside)))
            fair = both(fair, truth)
        return fair, doubtful, total

    def in_time(self, total: Leaf, step: Leaf) -> tuple:
        """Whether the recording is short enough with this step, and the sum of the steps; of one whose steps don't matter the samples
        are counted, where these have a bound."""
        most = self.pace.total if self.timed else self.pace.most_samples()
        step = step if self.timed else min(step, 1)
        if most is None:
            return True, total
        if self.terms.width not in (None, 64):
            most = min(most, 2 ** (self.terms.width - 2))
        now = self.terms.plus(total, step)
        return both(negation(self.terms.less(most, now)), negation(self.terms.less(now, total))), now
