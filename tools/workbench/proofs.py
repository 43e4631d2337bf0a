"""`yampa prove`: whether what is said of a network holds on every recording."""
import sys
import time
from argparse import Namespace
from dataclasses import replace
from functools import cached_property
from typing import Any, Optional

from workbench.ending import INTERRUPTED, REFUSED, UNREADABLE, Refused, Words, read, write
from workbench.program import again
from workbench.proving.contract import Contract, Said, contract_of, joined
from workbench.proving.deciding import (
    NOT_KNOWN,
    Decision,
    Verdict,
    Way,
    at_random,
    breaks,
    in_long_recordings,
    ways_of_z3,
    ways_or_none,
    wishes_of,
)
from workbench.proving.explicit import by_states
from workbench.proving.question import OUTPUT, Question
from workbench.proving.rows import Rows, counted, counted_covers
from workbench.proving.vacuous import condition_of
from workbench.proving.words import (
    assumed,
    limits_of,
    loaded,
    observing,
    pace_of,
    with_assumptions,
    with_limits,
    with_paces,
)
from workbench.streams import stream_text

# For how many seconds it is looked whether the condition of what holds comes about, and how many a property has at least.
CONDITION, LEAST = 10.0, 0.1
INVARIANT = "an observer of the input that is proved first, and then used; or what --show prints of a core network"
# The ways whose answers a certificate can be written of, and those that only find recordings.
CERTIFIED = ("narrow", "bits", "induction", "cases", "integers", "spacer")
CERTIFICATE = """; By `yampa prove --certificate`. What is asked for holds if each check-sat answers unsat: by induction over the samples of the
; network's encoding, whose states are |state.N|, with the invariants that stand in comments. Trusted is the encoding alone."""

PROVE = """Says whether OBSERVER, a network that outputs Bool, outputs true at every sample of every recording.

  holds on every recording ..   status 0; by z3 and an encoding of the network, or by a search of all states of the
                                compiled network: no proofs of this project
  false at sample 8: FILE       status 1; FILE has a recording on which the program outputs false there
  not known: ..                 status 4; what was tried; if no recording was run, status 3

A file of Haskell may state what it assumes of its input, what it guarantees of the pair of its input and its
output, what helps to prove that, and what should be true at some sample; each guarantee has a row, and each cover.

  sane :: Assume Car                     sane = arr (\\car -> speed car < 4000)
  rising :: Invariant Car Lights         rising = ..
  safe :: Guarantee Car Lights           safe = arr (\\(_, l) -> not (green l && walk l))
  walks :: Cover Car Lights              walks = arr (\\(_, l) -> walk l)

All guarantees are asked about together first, so that they share what is found, then each that is left alone.

Recordings are searched from the first sample on, with small numbers and with all, and long random ones are
run; all states of the compiled network are searched where a sample has few inputs (--ints A..B says
between which its numbers are); a proof is sought by induction with guessed invariants, over numbers that wrap and over integers of
which none leaves 64 bits, and by z3's Spacer. A recording that is found is run by the program, and made as
short and simple as possible.

Assume what is true of the world, such as a speed from 0 to 300: else the recording that is found has a
speed of 2^63 - 1. An assumption is an observer of the input."""


def prove_main() -> None:
    words = Words("prove", PROVE)
    words.add_argument("observer", metavar="OBSERVER")
    with_assumptions(words)
    words.add_argument("--invariant", metavar="NET", action="append", default=[], help=INVARIANT)
    with_paces(words)
    with_limits(words, 60)
    words.add_argument("--goal", metavar="NAME", action="append", default=[], help="tries only the guarantee of this name")
    words.add_argument("--show", action="store_true", help="prints the invariants")
    words.add_argument("--certificate", metavar="FILE", help="writes what must have no solution for all that holds, as SMT-LIB 2: any solver checks it")
    given = words.parse_args()
    sys.exit(Proof(given).status())


class Proof:
    """What is asked for, and what came of it."""

    def __init__(self, given: Namespace):
        self.given = given
        self.ways = ways_or_none("prove", True)
        self.certified: list[str] = []
        if given.certificate:
            self.ways = {name: way for name, way in self.ways.items() if name in CERTIFIED}
        self.contract: Contract = contract_of(given.observer, loaded(given.observer))
        self.assumed = assumed(given.assume, self.contract.loaded.given)
        self.lemmas: tuple = ()
        self.hints: tuple = ()
        self.pace = pace_of(given)
        self.goals, self.covers = self.asked(self.contract.goals), self.asked(self.contract.covers)
        for name in given.goal:
            if name not in [one.name for one in (*self.goals, *self.covers)]:
                raise Refused(f"{given.observer}: nothing is guaranteed by the name {name}")
        self.rows = Rows(given, self.contract.loaded, [one.name for one in (*self.goals, *self.covers)])

    def asked(self, every: tuple[Said, ...]) -> list[Said]:
        return [one for one in every if not self.given.goal or one.name in self.given.goal]

    def status(self) -> int:
        """Tries all; the status of the worst."""
        for one in self.contract.invariants:
            self.lemma(one.name, one.net)
        for name in self.given.invariant:
            self.use(name, again(name))
        goals, covers = self.decide_goals(), self.decide_covers()
        if goals and self.goals[0].name:
            print(counted(goals, self.question_of(self.goals)))
        if covers:
            print(counted_covers(covers, self.question_of(self.covers)))
        if self.given.certificate:
            self.write_certificate()
        found = [status_of(one, bool(one.recording)) for one in goals] + [status_of(one, bool(one.holds)) for one in covers]
        worst = next((status for status in (REFUSED, INTERRUPTED, UNREADABLE, NOT_KNOWN) if status in found), 0)
        if worst == UNREADABLE:
            raise Refused("no recording was run", UNREADABLE)
        return worst

    def question(self, net: Any) -> Question:
        return replace(self.contract.question(net, self.pace, self.assumed, self.lemmas), hints=self.hints)

    def question_of(self, every: list[Said]) -> Question:
        return self.question(joined([one.net for one in every]))

    def decided(self, net: Any, seconds: float) -> Verdict:
        question = self.question(net)
        limits = replace(limits_of(self.given), seconds=seconds, obliged=bool(self.given.certificate))
        return Decision(question, limits).by(self.ways_for(question))

    def ways_for(self, question: Question) -> dict[str, Way]:
        wishes = wishes_of(question.pace)
        states = {} if self.given.certificate else {"states": by_states}
        return {**self.ways, **states, "long": in_long_recordings(wishes), "short": at_random("short", question.numbers, wishes)}

    def use(self, name: str, file: str) -> None:
        """Takes in a file of what helps to prove: hints, each in parentheses, or an observer of the input."""
        if not read(file).lstrip().startswith((b"(", b";")):
            self.lemma(name, (">>>", ("arr", ("fst", "x")), observing(file, self.contract.loaded.given, "is an invariant")))
            return
        ways_of_z3(True)  # refused where z3 isn't there
        from workbench.proving.hints import hints_in, refuse_others

        self.hints = (*self.hints, *hints_in(file))
        refuse_others(name, self.question((*self.goals, *self.covers)[0].net))

    def lemma(self, name: str, net: Any) -> None:
        """Proves an invariant, which is used from then on, if it only holds of recordings that aren't too long for these alone; one that
        isn't proved is left out."""
        verdict = self.decided(net, self.given.seconds)
        if verdict.holds:
            self.certify(f"invariant {name}", verdict)
            self.lemmas = (*self.lemmas, net)
            if verdict.holds.bounded:
                self.pace = replace(self.pace, samples=self.pace.fallback)
        elif verdict.recording:
            told = stream_text(verdict.recording).decode().replace("\n", " / ").removesuffix(" / ")
            print(f"yampa prove: invariant {name} is left out: it is false at sample {verdict.sample} of {told}", file=sys.stderr)
        else:
            print(f"yampa prove: invariant {name} is left out: it isn't known to hold", file=sys.stderr)

    # ---- what is guaranteed

    def decide_goals(self) -> list[Verdict]:
        """Asks about all goals at once, as long as that tells something of some; then about each that is left alone."""
        until, left, found = time.monotonic() + self.given.seconds, self.goals, []
        searched = Verdict()
        while len(left) > 1 and not searched.interrupted:
            searched, decided = self.together(left, until)
            found += [searched] * len(decided)
            left = [one for one in left if one not in decided]
            if not decided:
                break
        for number, one in enumerate(left):
            begun = time.monotonic()
            alone = searched if searched.interrupted else self.decided(one.net, max(LEAST, until - begun) / (len(left) - number)).after(searched)
            self.tell(one, alone, begun)
            found.append(alone)
            searched = alone if alone.interrupted else searched
            if alone.holds and not alone.holds.bounded:
                self.lemmas = (*self.lemmas, one.net)
        return found

    def together(self, goals: list[Said], until: float) -> tuple[Verdict, list[Said]]:
        """Asks whether all of some goals hold, for half of the time that is left; and which of them that decides: none where it needs a
        bound that one alone may do without."""
        begun = time.monotonic()
        verdict = self.decided(joined([one.net for one in goals]), (until - begun) / 2)
        of_all = verdict.holds and not verdict.holds.bounded
        decided = goals if of_all else [one for one in goals if verdict.recording and breaks(self.question(one.net), verdict)]
        for one in decided:
            self.tell(one, verdict, begun, one is decided[-1])
        return verdict, decided

    def tell(self, one: Said, verdict: Verdict, begun: float, last: bool = True) -> None:
        verdict = replace(self.with_longest(verdict), condition=self.condition(one.net) if verdict.holds else "")
        if last:
            self.certify(one.name or "the observer", verdict)
        self.rows.of_goal(one.name, verdict, self.question(one.net), time.monotonic() - begun, last)

    def with_longest(self, verdict: Verdict) -> Verdict:
        """What holds, with how long a recording can keep to what is assumed, if that isn't long."""
        return replace(verdict, unfair=self.longest) if verdict.holds and verdict.unfair is None else verdict

    @cached_property
    def longest(self) -> Optional[int]:
        return Decision(self.question(("arr", "true")), limits_of(self.given)).longest()

    def condition(self, net: Any) -> str:
        """Looks for a while whether the condition of what holds ever comes about; what is to be said of that."""
        refuting = condition_of(self.contract.loaded.net if net == OUTPUT else net)
        if refuting is None:
            return ""
        if net == OUTPUT:
            refuting = (">>>", ("arr", ("fst", "x")), refuting)
        found = self.decided(refuting, min(self.given.seconds, CONDITION))
        if found.holds:
            return "but its condition never comes about"
        return "" if found.recording else f"whether its condition comes about isn't known: {found.what_was_searched()}"

    # ---- what should come about

    def decide_covers(self) -> list[Verdict]:
        """Looks for a recording on which each is true at some sample."""
        until, found = time.monotonic() + self.given.seconds, []
        for number, one in enumerate(self.covers):
            begun, net = time.monotonic(), (">>>", one.net, ("arr", ("not", "x")))
            found.append(self.decided(net, max(LEAST, until - begun) / (len(self.covers) - number)))
            self.certify(f"{one.name} is never true", found[-1])
            self.rows.of_cover(one.name, self.with_longest(found[-1]), self.question(net), time.monotonic() - begun)
        return found

    # ---- what it rests on

    def certify(self, name: str, verdict: Verdict) -> None:
        """Takes in what it rests on that something holds."""
        for told, text in verdict.holds.obligations if verdict.holds else []:
            lines = [f"; {name}: {told}", *[f"; {line}" for line in self.rows.invariants(verdict.holds)], "(reset)", "(set-logic ALL)"]
            self.certified.append("\n".join([*lines, *[line for line in text.splitlines() if not line.startswith(("; benchmark", "(set-info"))]]))

    def write_certificate(self) -> None:
        if not self.certified:
            print("yampa prove: no certificate is written: nothing holds", file=sys.stderr)
            return
        write(self.given.certificate, "\n\n".join([CERTIFICATE, *self.certified]) + "\n")


def status_of(verdict: Verdict, refused: bool) -> int:
    if refused:
        return REFUSED
    return 0 if verdict.holds or verdict.recording else verdict.open_status()
