"""What comes of a question: the ways race, the program confirms a recording, and the recording is made short."""
import contextlib
import io
import os
import random
import sys
import time
from dataclasses import dataclass, field, replace
from typing import Any, Callable, Iterator, Optional

from model.texts import read_stream
from model.trees import GREATEST
from workbench.batches import Observer, Shortening, read_recording
from workbench.ending import INTERRUPTED, REFUSED, UNREADABLE, Refused, defect, missing
from workbench.program import call
from workbench.proving.question import Pace, Question
from workbench.proving.race import raced
from workbench.proving.told import Hindered, Holds, Search, Searched, Tried, Unfair, Wrong
from workbench.streams import Recording, Streams, Wishes, stream_text

SHORTENING, LEAST, CERTIFYING, BATCH, CONTRADICTING = 8.0, 5.0, 10.0, 4_000, 100
# For how many seconds it is looked whether what is assumed can hold.
FAIR = 5.0
# The status of a question that isn't decided.
NOT_KNOWN = 4
# The ways that decide most questions, and soon.
FIRST = ("states", "narrow", "induction", "spacer", "certify")
Way = Callable[[Search], None]


@dataclass
class Verdict:
    """What is known of a question: that it holds, a recording on which it is false with the sample, or what was searched."""

    holds: Optional[Holds] = None
    recording: Optional[Recording] = None
    sample: int = 0
    certified: str = ""
    unfair: Optional[int] = None
    searched: dict[str, str] = field(default_factory=dict)
    tried: dict[str, int] = field(default_factory=dict)
    hindered: dict[str, str] = field(default_factory=dict)
    found_after: float = 0.0
    condition: str = ""
    interrupted: bool = False

    def hear(self, way: str, told: Any) -> None:
        """Takes in what a way tells, but a recording."""
        match told:
            case Holds():
                if way == "certify":
                    self.certified = told.by
                else:
                    self.holds = told
            case Searched(kind, text):
                self.searched[kind] = text
            case Tried(streams):
                self.tried[way] = streams
            case Unfair(samples):
                self.unfair = samples
            case Hindered(why):
                self.hindered[way] = why

    def streams(self) -> int:
        return sum(self.tried.values())

    def why_nothing_was_tried(self) -> str:
        """Where no way to an answer worked, the reasons; else nothing."""
        decided = self.holds or self.recording or self.certified or self.unfair is not None or self.interrupted
        tried = decided or self.searched or self.streams()
        return "" if tried else "; ".join(dict.fromkeys(self.hindered.values()))

    def open_status(self) -> int:
        """The status of a question that isn't decided: an error where no recording was run."""
        return INTERRUPTED if self.interrupted else NOT_KNOWN if self.streams() else UNREADABLE

    def after(self, other: "Verdict") -> "Verdict":
        """The verdict with what was found and searched before."""
        tried = {**{f"before {way}": count for way, count in other.tried.items()}, **self.tried}
        holds = None if self.recording else self.holds or other.holds
        return replace(self, holds=holds, searched={**other.searched, **self.searched}, tried=tried)

    def random_streams(self) -> str:
        count = self.streams()
        return f"{count:,} random stream{'s' * (count != 1)}"

    def what_was_searched(self) -> str:
        return "; ".join([*self.searched.values(), self.random_streams(), *dict.fromkeys(self.hindered.values())])


@dataclass
class Limits:
    """How long is looked, how deep, and whether what a proof rests on is written down."""

    seconds: float = 60.0
    depth: int = 2048
    obliged: bool = False


def breaks(question: Question, verdict: Verdict) -> bool:
    """Whether a question is false where the verdict's recording ends."""
    return Observer(question.observer()).first(verdict.recording) == verdict.sample


def asked_part(question: Question) -> Callable[[Recording], Recording]:
    """Of a recording the samples up to the first that isn't asked about: one with another step, or behind too many ticks or samples."""
    pace = question.pace

    def part(recording: Recording) -> Recording:
        total = 0
        for number, (step, _) in enumerate(recording[1:], 1):
            total += step
            inside = (not pace.steps or step in pace.steps) and (not pace.most or step <= pace.most)
            if number == pace.samples or not inside or pace.total is not None and total > pace.total:
                return recording[:number]
        return recording

    return part


def wishes_of(pace: Pace) -> Wishes:
    """Random recordings of this pace."""
    return Wishes(steps=pace.steps, most_step=pace.most or GREATEST, lists=pace.lists, ints=pace.ints)


class Decision:
    """A question that is looked at from all sides until it is decided or the time is over."""

    def __init__(self, question: Question, limits: Limits):
        self.question, self.limits = question, limits
        self.observer = Observer(question.observer())
        self.asked_part = asked_part(question)
        self.until = time.monotonic() + limits.seconds
        self.verdict = Verdict()

    def confirmed(self, stream: bytes) -> bool:
        return self.first(self.read(stream)) is not None

    def allowed(self, recording: Recording) -> bool:
        """Whether it is asked about the whole recording."""
        return len(self.asked_part(recording)) == len(recording)

    def read(self, stream: bytes) -> Recording:
        return read_recording(read_stream(stream, self.question.given)[0])

    def first(self, recording: Recording) -> Optional[int]:
        return self.observer.first(recording) if self.allowed(recording) else None

    def by(self, ways: dict[str, Way]) -> Verdict:
        """What the ways lead to. One that finds a certificate says more than z3, which waits for it a while."""
        with contextlib.suppress(Refused):
            self.question.parts  # found here, and once for all ways
        search = Search(self.question, self.until, self.limits.depth, self.confirmed, self.limits.obliged)
        running = {name: guarded(way, search) for name, way in ways.items()}
        try:
            for name, told in raced(running, FIRST, self.limits.seconds):
                if isinstance(told, Holds) and name != "certify":
                    told = self.contradicted() or told
                if isinstance(told, Wrong):
                    if self.shortened(name, told.recording):
                        return self.verdict
                    continue
                self.verdict.found_after = self.verdict.found_after or (self.passed() if isinstance(told, Holds) else 0.0)
                self.verdict.hear(name, told)
                if self.is_decided("certify" in ways):
                    break
        except KeyboardInterrupt:
            self.verdict.interrupted = True
        if why := self.verdict.why_nothing_was_tried():
            raise Refused(f"nothing could be tried: {why}", UNREADABLE)
        if self.verdict.unfair == 0:
            raise Refused("no recording keeps to what is assumed: it is false at the first sample, whatever the input")
        return self.verdict

    def passed(self) -> float:
        """How many seconds it has been looked at."""
        return time.monotonic() - (self.until - self.limits.seconds)

    def is_decided(self, certifying: bool) -> bool:
        """Whether nothing better than what is known is waited for: a certificate for a while, and for as long again as it took to find
        that it holds of recordings that aren't too long, that it holds of all."""
        verdict, passed = self.verdict, self.passed()
        if verdict.holds and verdict.holds.bounded:
            return passed > 2 * verdict.found_after
        return verdict.unfair == 0 or bool(verdict.certified or verdict.holds and (not certifying or passed > CERTIFYING))

    def contradicted(self) -> Optional[Wrong]:
        """A recording on which the program outputs false, of some random ones that are run where z3 says that there is none."""
        streams = Streams(self.question.given, self.question.numbers, random.Random(1), wishes_of(self.question.pace))
        recordings = [self.asked_part(streams.recording()) for _ in range(CONTRADICTING)]
        found = zip(recordings, self.observer.firsts(recordings))
        return next((Wrong(stream_text(recording[:first])) for recording, first in found if first is not None), None)

    def shortened(self, name: str, stream: bytes) -> bool:
        """Whether the program confirms a recording; it is made as short as the time allows."""
        recording = self.read(stream)
        first = self.first(recording)
        if first is None:
            self.verdict.hear(name, Hindered("a recording was found that the program doesn't confirm"))
            return False
        best = self.simplest(recording, first)
        while (shorter := self.shorter(best)) is not None:
            best = self.simplest(shorter, len(shorter))
        self.verdict.recording, self.verdict.sample = best, len(best)
        return True

    def simplest(self, recording: Recording, first: int) -> Recording:
        """The recording made short, and its numbers small, in a while."""
        until = min(time.monotonic() + SHORTENING, max(self.until, time.monotonic() + 0.5))
        return Shortening(self.observer, self.question.given, self.allowed, until).shortest(recording, first)

    def shorter(self, best: Recording) -> Optional[Recording]:
        """A recording of fewer samples, if z3 is there and finds one in a while."""
        until = min(self.until, time.monotonic() + LEAST)
        if len(best) == 1 or until <= time.monotonic():
            return None
        with contextlib.suppress(Refused, KeyboardInterrupt):
            for told in self.told_by(shorter_than(len(best)), until, self.limits.depth):
                if isinstance(told, Wrong):
                    recording = self.read(told.recording)
                    return recording[: self.first(recording)]
        return None

    def longest(self) -> Optional[int]:
        """How many samples a recording has at most that keeps to what is assumed, if z3 is there and finds that these are few in a while."""
        if self.question.observed:
            with contextlib.suppress(Refused, KeyboardInterrupt):
                for told in self.told_by(fair_ones(), time.monotonic() + FAIR, self.limits.depth):
                    if isinstance(told, Unfair):
                        return told.samples
        return None

    def told_by(self, way: Way, until: float, depth: int) -> Iterator[Any]:
        """What a way by itself tells until then."""
        search = Search(self.question, until, depth, self.confirmed)
        for _, told in raced({"": guarded(way, search)}, ("",), until - time.monotonic()):
            yield told


def guarded(way: Way, search: Search) -> Callable:
    """A way as a process runs it: what it can't take it tells."""

    def run(tell: Callable[[Any], None]) -> None:
        search.tell = tell
        try:
            way(search)
        except Refused as refused:
            tell(Hindered(str(refused)))
        except (MemoryError, RecursionError):
            tell(Hindered("memory was short"))
        except Exception as error:  # pylint: disable=broad-exception-caught
            tell(Hindered(defect(error)))

    return run


# ---- ways that need no z3


def tried_at_random(search: Search, seed: str, numbers: list[int], wishes: Wishes) -> Iterator[Recording]:
    """Random recordings on which it is false, up to there; many are tried in each run of the program, first of all those that are wished."""
    observer = Observer(search.question.observer())
    streams = Streams(search.question.given, numbers, random.Random(seed), wishes)
    part, tried, size = asked_part(search.question), 0, BATCH // 16
    while search.left() > 0:
        batch: list[Recording] = [] if tried else [part(recording) for recording in wishes.recordings]
        while sum(map(len, batch)) < size:
            batch.append(part(streams.recording()))
        for recording, first in zip(batch, observer.firsts(batch)):
            if first is not None:
                yield recording[:first]
        tried, size = tried + len(batch), min(2 * size, BATCH)
        search.tell(Tried(tried))


def at_random(seed: str, numbers: list[int], wishes: Wishes) -> Way:
    def way(search: Search) -> None:
        for recording in tried_at_random(search, seed, numbers, wishes):
            search.tell(Wrong(stream_text(recording)))

    return way


def in_long_recordings(wishes: Wishes) -> Way:
    """Random recordings of as many samples as are searched."""

    def way(search: Search) -> None:
        for recording in tried_at_random(search, "long", search.question.numbers, replace(wishes, length=search.depth)):
            search.tell(Wrong(stream_text(recording)))

    return way


def random_ways(seed: int, question: Question, wishes: Wishes) -> dict[str, Way]:
    """One for each processor."""
    return {f"random {number}": at_random(f"{seed} {number}", question.numbers, wishes) for number in range(len(os.sched_getaffinity(0)))}


def certifying(source: str, target: str) -> Way:
    """A certificate from one file's network to the other's, which the program finds: a proof."""

    def way(search: Search) -> None:
        told = call(["certify", source, target])
        steps = told.output.count(b"(step ")
        if told.status not in (0, REFUSED):
            raise Refused(f"`yampa certify`: {told.line() or f'status {told.status}'}")
        if told.status:
            search.tell(Searched("certify", "`yampa certify` finds no certificate"))
        else:
            search.tell(Holds(f"a certificate of {steps:,} steps, which `yampa certify` prints and `yampa check` accepts", ""))

    return way


# ---- ways of z3


def shorter_than(count: int) -> Way:
    """Refused where z3 isn't there."""
    ways_of_z3(False)
    from workbench.proving import search

    return search.shorter_than(count)


def fair_ones() -> Way:
    """The way to recordings that keep to what is assumed. Refused where z3 isn't there."""
    ways_of_z3(False)
    from workbench.proving.search import FAIR as found

    return found


def ways_or_none(name: str, proving: bool) -> dict[str, Way]:
    """Those of z3; where it isn't there that is told, and there are none."""
    try:
        return ways_of_z3(proving)
    except Refused as refused:
        if refused.status != UNREADABLE:
            raise
        print(f"yampa {name}: {refused}; so without z3", file=sys.stderr)
        return {}


def ways_of_z3(proving: bool) -> dict[str, Way]:
    """Refused where z3 isn't there, or can't be loaded: of that it tells on standard output, at length."""
    try:
        with contextlib.redirect_stdout(io.StringIO()):
            import z3  # noqa: F401
    except ImportError as error:
        raise missing("python3-z3", error) from None
    except Exception as error:  # pylint: disable=broad-exception-caught
        raise Refused(f"z3 can't be loaded: {error}", UNREADABLE) from None
    from workbench.proving.search import PROVING, REFUTING

    return PROVING if proving else REFUTING
