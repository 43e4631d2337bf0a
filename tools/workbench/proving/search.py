"""The ways to answer a question, run side by side: bounded search, induction, unbounded integers."""
import time
from dataclasses import replace
from itertools import product
from typing import Callable, Iterator, Optional, Sequence

import z3

from workbench.proving.alike import equal_leaves
from workbench.proving.bounded import Unknown, Unrolling, depths, fair_samples
from workbench.proving.hints import hinted
from workbench.proving.induction import Candidate, broken_goal, broken_invariants, dropped, is_inductive, kept, needed
from workbench.proving.integers import SEEDS, Horn
from workbench.proving.linear import Linear
from workbench.proving.mining import FEW_STEPS, STEPS, States, Templates
from workbench.proving.question import Pace, Question
from workbench.proving.reached import by_reaching
from workbench.proving.system import System
from workbench.proving.terms import Terms
from workbench.proving.told import Holds, Search, Searched, Unfair, Wrong
from workbench.proving.views import viewed

SPARE_BITS, LATER, SHALLOW, FIRST_SAMPLES = 4, 2**40, 8, 6
# Over how many samples induction is tried, before one more.
FEW, MORE = (0, 1), (0, 1, 2, 4, 8)
# How many seconds there are to write down what a proof rests on.
OBLIGED = 60.0
# For how many seconds it is looked which invariants a proof needs.
NEEDED = 5.0
Way = Callable[[Search], None]
WITHIN = " over integers, of which none leaves 64 bits"


# ---- a recording on which it is false


def looked_into(search: Search, system: System, until: float, told: str, most: Optional[int] = None) -> Optional[bytes]:
    """A recording from the first sample on, ever longer; what was searched is told."""
    unrolling, clear = Unrolling(system), 0
    for depth in depths(min(most or search.depth, search.depth)):
        try:
            found = unrolling.search(clear, depth, until)
        except Unknown:
            return None
        if found:
            return found
        if system.terms.width == 64 and search.question.observed and not unrolling.is_fair(depth, until):
            tell_unfair(search, depth, until)
            return None
        clear = depth
        search.tell(Searched(told, f"none up to {clear} sample{'s' * (clear != 1)}{told}"))
    return None


def tell_unfair(search: Search, most: int, until: float) -> int:
    """How many samples a recording has at most on which all that is assumed holds, with any steps that are asked for and in any time;
    it is told where these are fewer than so many."""
    count = fair_samples(System(search.question.of_any_length, Terms()), most, until)
    if count < most:
        search.tell(Unfair(count))
    return count


def by_fair_recordings(search: Search) -> None:
    """Recordings on which all that is assumed holds, ever longer, as far as there are some."""
    tell_unfair(search, search.depth, search.until)


def paces(search: Search) -> list[Pace]:
    """Steps of one first, which are easier, then any."""
    pace, question = search.question.pace, search.question
    return [pace] if pace.steps or not question.timed else [replace(pace, step=1), pace]


def told_steps(search: Search, pace: Pace) -> str:
    one = len(paces(search)) == 2 and pace.step == 1
    return " with steps of 1" if one else " with any steps" if len(paces(search)) == 2 else ""


def narrow_width(question: Question) -> int:
    """How many bits the numbers of the networks need, but those that are far away, and a few more."""
    return max([8, *[abs(number).bit_length() for number in question.numbers if abs(number) < LATER]]) + SPARE_BITS


def by_narrow_numbers(search: Search) -> None:
    """Numbers of few bits are searched faster; the program tells whether what is found holds of 64. A few samples of any steps come
    before many with steps of one."""
    width = narrow_width(search.question)
    plans = [(width, search.question.pace, 0.1, SHALLOW)] if len(paces(search)) == 2 else []
    plans += [(min(bits, 64), pace, 0.4, None) for bits in (width, 2 * width) for pace in paces(search)]
    for bits, pace, share, most in plans:
        told = f" with numbers of {bits} bits{told_steps(search, pace)}"
        if seen(search, looked_into(search, System(search.question, Terms(bits), pace), search.by(share), told, most)):
            return


def by_all_bits(search: Search) -> None:
    for pace in paces(search):
        share = 0.5 if pace != search.question.pace else 1.0
        found = looked_into(search, System(search.question, Terms(), pace), search.by(share), told_steps(search, pace))
        if seen(search, found):
            return


def shorter_than(count: int) -> Way:
    """The way to a recording of fewer samples, with few bits and then with all."""

    def way(search: Search) -> None:
        for bits in (min(narrow_width(search.question), 64), 64):
            found = Unrolling(System(search.question, Terms(bits))).search(0, count - 1, search.by(0.5))
            if seen(search, found):
                return

    return unless_unknown(way)


# ---- a proof


def by_induction(search: Search) -> None:
    """Over numbers that wrap, first with products of unknown numbers as a function of which nothing is known."""
    states = States(System(search.question, Terms()))
    if not keeps_to_it(search):
        return
    for named, share in ((True, 0.6), (False, 1.0)):
        terms = Terms(named=named)
        if proved(search, System(search.question, terms), states, search.by(share)) or not terms.uses_function:
            return


def by_cases(search: Search) -> None:
    """Over numbers that wrap, with choices taken apart: what is a sum in each case is compared part by part."""
    if keeps_to_it(search):
        proved(search, System(search.question, Terms(parted=True)), States(System(search.question, Terms())), search.until)


def by_integers(search: Search) -> None:
    """Over integers, of which it is proved that none leaves 64 bits."""
    if keeps_to_it(search):
        proved(search, System(search.question, Terms(None)), States(System(search.question, Terms(None))), search.by(0.6))


def in_integers(search: Search) -> None:
    """Recordings on which no number leaves 64 bits are plausible ones."""
    seen(search, looked_into(search, System(search.question, Terms(None)), search.until, " where no number leaves 64 bits"))


def by_spacer(search: Search) -> None:
    """Over integers too; z3 finds invariants, which are tried as those that are guessed, and with them."""
    if not keeps_to_it(search):
        return
    for seed, strict in product(SEEDS, (True, False)):
        system = System(search.question, Terms(None))
        horn = Horn(system, search.until, seed, strict)
        found = horn.lemmas() if horn.holds() else []
        if found and proved(search, system, States(system), search.by(0.4), found, "Spacer"):
            return
    search.tell(Searched("spacer", "Spacer finds none"))


def keeps_to_it(search: Search) -> bool:
    """Whether some recording keeps to what is assumed; how short all are is told."""
    if not search.question.observed:
        return True
    try:
        return tell_unfair(search, FIRST_SAMPLES, search.by(0.3)) > 0
    except Unknown:
        return True


def proved(search: Search, system: System, states: States, until: float, given: Sequence[Candidate] = (), way: str = "") -> bool:
    """Tries induction from any state: with what is given and hinted, with equal leaves, and with what is guessed, ever more of it. What
    is proved is told."""
    try:
        found = kept(system, [*given, *hinted(system)], until)
        if by_depths(search, system, FEW, found, min(until, search.by(0.1)), way):
            return True
        equal = found + equal_leaves(system, states.by(FEW_STEPS), found, until)
        for candidate in equal:
            if candidate.equal:
                system.learn(candidate.equal, candidate.fixed)
        if len(equal) > len(found) and by_depths(search, system, FEW, equal, until, way):
            return True
        return by_guesses(search, system, states, equal, until, way)
    except Unknown:
        return False


def by_guesses(search: Search, system: System, states: States, held: list[Candidate], until: float, way: str) -> bool:
    """Induction with equations and with values in modes, then with bounds and differences, then with sums, then with differences in modes."""
    templates, guessed = Templates(system, states.by(STEPS)), len(held)
    linear = Linear(templates)
    stages = (FEW, linear.exact), (FEW, templates.plain), (FEW, linear.sums), (MORE, templates.differences_in_modes)
    for depths_, guesses in stages:
        more = guesses()
        guessed += len(more)
        before, held = held, kept(system, held + more, until)
        search.tell(Searched("induction", f"induction with {len(held)} invariants of {guessed} guessed"))
        if (len(held) > len(before) or depths_ == MORE) and by_depths(search, system, depths_, held, until, way):
            return True
    return False


def by_depths(search: Search, system: System, depths: tuple, invariants: list[Candidate], until: float, way: str = "") -> bool:
    """Whether induction over one of these numbers of samples and one more decides it; the way that it is told by."""
    for depth in depths:
        try:
            if not is_inductive(system, depth, invariants, until):
                continue
        except Unknown:
            return False
        terms = Terms(system.terms.width)
        found = Unrolling(System(search.question, terms), strict=True).search(0, depth + 1, search.until)
        if found:
            return seen(search, found)
        whole = System(search.question, Terms(terms.width, system.terms.named, system.terms.parted))
        invariants = shortened(whole, depth, invariants)
        told = way or f"induction over {depth + 1} sample{'s' * (depth > 0)}"
        bounded = system.pace.samples is not None and system.pace.fallback is not None
        holds = Holds(told + ("" if terms.width else WITHIN), search.question.told(), bounded, viewed(whole, invariants))
        holds.obligations = obligations(search, whole, depth, invariants) if search.obliged else []
        search.tell(holds)
        return True
    return False


def shortened(system: System, depth: int, invariants: list[Candidate]) -> list[Candidate]:
    """The invariants that are needed, if that is known in a while, of a system that has learned none of them."""
    find = dropped if system.terms.parted else needed
    try:
        return find(system, depth, invariants, time.monotonic() + NEEDED)
    except (Unknown, z3.Z3Exception):
        return invariants


def obligations(search: Search, system: System, depth: int, invariants: list[Candidate]) -> list[tuple[str, str]]:
    """What has no solution where it holds, as SMT-LIB, each with what it says."""
    until, samples = time.monotonic() + OBLIGED, f"{depth + 1} sample{'s' * (depth > 0)}"
    first = Unrolling(System(search.question, Terms(system.terms.width)), strict=True).breaking(0, depth + 1, until)
    found = [(f"the goal holds at the first {samples}", first)]
    found += broken_invariants(system, invariants, until) if invariants else []
    found.append((f"the goal holds at the last of {samples} if it held at those before", broken_goal(system, depth, invariants, until)))
    return [(told, solver.to_smt2()) for told, solver in found]


def seen(search: Search, found: Optional[bytes]) -> bool:
    """Whether a recording is found that the program confirms, which is told."""
    if not found or not search.confirmed(found):
        return False
    search.tell(Wrong(found))
    return True


def also_bounded(way: Way, last: Optional[Way] = None) -> Way:
    """A way that is gone again, for recordings of at most so many samples, where it finds nothing for all; and one behind it."""

    def run(search: Search) -> None:
        heard: list = []

        def tell(said: object) -> None:
            heard.append(said)
            search.tell(said)

        for part in with_bounds(search):
            unless_unknown(way)(replace(part, tell=tell))
            if any(isinstance(said, Holds) for said in heard):
                return
        if last:
            last(search)

    return run


def with_bounds(search: Search) -> Iterator[Search]:
    """What is asked, and where steps don't matter, behind half of the time at most, the same of recordings that aren't too long."""
    question = search.question
    if question.timed or question.pace.samples or not question.pace.fallback:
        yield search
        return
    yield replace(search, until=search.by(0.5))
    yield replace(search, question=replace(question, pace=replace(question.pace, samples=question.pace.fallback)))


def unless_unknown(way: Way) -> Way:
    """A way that ends where z3 gives up."""

    def run(search: Search) -> None:
        try:
            way(search)
        except (Unknown, z3.Z3Exception):
            return

    return run


FAIR = unless_unknown(by_fair_recordings)
REFUTING = {"narrow": unless_unknown(by_narrow_numbers), "bits": unless_unknown(by_all_bits), "reached": unless_unknown(by_reaching)}
INDUCTIVE = {
    "induction": also_bounded(by_induction),
    "cases": also_bounded(by_cases),
    "integers": also_bounded(by_integers, in_integers),
    "spacer": also_bounded(by_spacer),
}
PROVING = {**REFUTING, **{name: unless_unknown(way) for name, way in INDUCTIVE.items()}}
