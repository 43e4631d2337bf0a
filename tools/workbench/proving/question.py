"""A question that is asked of networks: whether something holds of all their recordings."""
from dataclasses import dataclass, field, replace
from functools import cached_property
from typing import Any, Iterator, Optional

from model.texts import network_text
from model.trees import expanded
from model.typed import TypeFault, Typed, check_types
from workbench.ending import Refused

# How many ticks a recording has at most, and how many samples one that `run` takes.
TOTAL, SAMPLES = 2**62, 1_000_000
OUTPUT = ("arr", ("snd", "x"))
TIMED = ("delay", "after", "repeatedly", "time", "integral")
ALIKE = ("arr", ("equal", ("fst", ("snd", "x")), ("snd", ("snd", "x"))))


@dataclass(frozen=True)
class Pace:
    """What steps a recording may have, how many elements its lists, between which its numbers are, and how many samples it has at most:
    any number, or where nothing is known of these the bound to fall back to."""

    step: Optional[int] = None
    most: Optional[int] = None
    total: Optional[int] = TOTAL
    lists: int = 4
    among: Optional[tuple[int, ...]] = None
    ints: Optional[tuple[int, int]] = None
    samples: Optional[int] = None
    fallback: Optional[int] = SAMPLES

    def most_samples(self) -> Optional[int]:
        """How many samples may come behind the first of what isn't timed, where that is bounded, also by the sum of the steps."""
        by_total = [self.total // min(self.steps or [1])] if self.total not in (None, TOTAL) else []
        by_count = [self.samples - 1] if self.samples else []
        return min(by_total + by_count, default=None)

    @property
    def steps(self) -> Optional[list[int]]:
        """The steps that it may have, if these are few."""
        return [self.step] if self.step else list(self.among) if self.among else None

    def told(self, timed: bool, listed: bool) -> str:
        """Which recordings these are, in words."""
        words = [f"of at most {power(self.total)} ticks"] if self.total and (timed or self.total != TOTAL) else []
        words += [f"of at most {self.samples:,} samples"] if self.samples else []
        if timed:
            few = " or ".join(map(str, self.steps or []))
            words += [f"with steps of {few}"] if few else [f"with steps of at most {self.most}"] if self.most else []
        words += [f"with lists of at most {self.lists} elements"] if listed else []
        words += [f"with numbers from {self.ints[0]} to {self.ints[1]}"] if self.ints else []
        return "".join(f" {word}" for word in words)


def power(number: int) -> str:
    return f"2^{number.bit_length() - 1}" if number >= 2**20 and number & (number - 1) == 0 else f"{number:,}"


@dataclass(frozen=True)
class Question:
    """Whether the goal, a network on the pair of the input and of what the networks output, ever outputs false. It is asked of
    recordings on which the assumed networks, which see the input, output true; the lemmas see what the goal sees. Hints may hold of the
    states, as `hints` reads them."""

    given: Any
    nets: tuple
    goal: Any = OUTPUT
    assumed: tuple = ()
    lemmas: tuple = ()
    pace: Pace = field(default_factory=Pace)
    hints: tuple = ()

    @cached_property
    def observed(self) -> tuple:
        """All observers of the input that hold on the recordings that are asked of: what is assumed, the span of the numbers, and where
        steps matter the number of samples."""
        tests = within(self.given, "x", self.pace.ints, self.pace.lists) if self.pace.ints else []
        span = [("arr", all_hold(tests))] if tests else []
        count = [at_most(self.pace.samples)] if self.timed and self.pace.samples else []
        return (*self.assumed, *span, *count)

    @cached_property
    def of_any_length(self) -> "Question":
        """The same of recordings that last as long as time can be counted."""
        total = self.pace.total and max(self.pace.total, TOTAL)
        return replace(self, pace=replace(self.pace, total=total, samples=None))

    @cached_property
    def output(self) -> Any:
        """The type of what the networks output: of two of them the pair."""
        types = [check_types(self.given, net).output for net in self.nets]
        return types[0] if len(types) == 1 else ("Pair", *types)

    @cached_property
    def parts(self) -> list[Typed]:
        """The networks, the goal, the lemmas and what is assumed, all typed."""
        seen = ("Pair", self.given, self.output)
        try:
            nets = [check_types(self.given, net) for net in self.nets]
            watching = [check_types(seen, net) for net in (self.goal, *self.lemmas)]
            return nets + watching + [check_types(self.given, net) for net in self.observed]
        except TypeFault as fault:
            raise Refused(f"with what it is asked of, the network is refused: {fault}") from None

    @cached_property
    def timed(self) -> bool:
        """Whether the steps matter to what the networks output."""
        nets = (*self.nets, self.goal, *self.lemmas, *self.assumed)
        return any(word in TIMED for net in nets for word in words_in(expanded(net)))

    @cached_property
    def numbers(self) -> list[int]:
        """The numbers that stand in the networks, in order."""
        found = {number for part in self.parts for number in numbers_in(part.places[()].tree)}
        return sorted(found | ({self.pace.total} - {TOTAL, None}))

    def told(self) -> str:
        return self.pace.told(self.timed, "List" in words_in(self.given))

    def observer(self) -> str:
        """The file of a network that outputs the pair of whether all that is assumed holds, and of whether the goal does."""
        net = self.nets[0] if len(self.nets) == 1 else ("&&&", *self.nets)
        goal = net if self.goal == OUTPUT else (">>>", ("&&&", "identity", net), self.goal)
        fair: Any = ("constant", "true")
        for assumed in self.observed:
            fair = (">>>", ("&&&", fair, assumed), ("arr", ("and", ("fst", "x"), ("snd", "x"))))
        return network_text(self.given, expanded(("&&&", fair, goal)))


def at_most(samples: int) -> Any:
    """The observer that so many samples have come."""
    return (">>>", ("loopPre", 0, ("arr", ("pair", ("snd", "x"), ("add", ("snd", "x"), 1)))), ("arr", ("less", "x", samples)))


def within(type_: Any, place: Any, ints: tuple[int, int], lists: int) -> list:
    """The tests that all numbers of a value of this type, an expression, are in a span; its lists have at most so many elements."""
    match type_:
        case "Int":
            return [("not", ("less", place, ints[0])), ("not", ("less", ints[1], place))]
        case ("Pair", left, right):
            return within(left, ("fst", place), ints, lists) + within(right, ("snd", place), ints, lists)
        case ("Event", part):
            tests = within(part, ("snd", "x"), ints, lists)
            return [("on", place, "true", all_hold(tests))] if tests else []
        case ("List", part):
            items = [(at, all_hold(within(part, ("nth", place, at, least(part)), ints, lists))) for at in range(lists)]
            return [("or", ("not", ("less", at, ("len", place))), test) for at, test in items if test != "true"]
    return []


def all_hold(tests: list) -> Any:
    found: Any = "true"
    for test in tests:
        found = test if found == "true" else ("and", found, test)
    return found


def least(type_: Any) -> Any:
    """An expression of a type's simplest value."""
    match type_:
        case "Unit":
            return "unit"
        case "Bool":
            return "false"
        case "Int":
            return 0
        case ("Pair", left, right):
            return ("pair", least(left), least(right))
        case ("Event", part):
            return ("none", part)
    return ("list", type_[1])


def words_in(tree: Any) -> list:
    return [word for part in tree for word in words_in(part)] if isinstance(tree, tuple) else [tree]


def numbers_in(tree: Any) -> Iterator[int]:
    for word in words_in(tree):
        if isinstance(word, int):
            yield word
