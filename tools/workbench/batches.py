"""Many recordings in one run of the program, and recordings made short."""
import contextlib
import time
from itertools import islice
from typing import Any, Callable, Iterator, Optional

from model.texts import network_text, read_network
from model.trees import GREATEST, is_form, shown
from workbench.ending import Refused
from workbench.program import Told, call, kept
from workbench.streams import Recording, Value, stream_text

FAIR = ("arr", ("then", "unit", ("pair", "true", "true")))
SAMPLES, TRIED = 30_000, 20_000


def with_one_more(tree: Any) -> Any:
    """A network as it stands in a template: its parameters have other numbers."""
    if not isinstance(tree, tuple):
        return tree
    return ("p", tree[1] + 1) if tree[0] == "p" else tuple(with_one_more(part) for part in tree)


def accepted(words: list[str], stream: bytes = b"") -> Told:
    """What the program tells; where it refuses, or ends otherwise, that is the refusal."""
    told = call(words, stream)
    if told.status:
        raise Refused(told.fault() or f"the program ended with status {told.status}", told.refused_with())
    return told


class Observer:
    """A network that outputs the pair of whether a recording is fair so far, and of whether what is wanted holds. The program runs
    it on many recordings at once: in an `rSwitch` that starts it anew where one begins."""

    def __init__(self, text: str):
        self.text = text
        given, net = read_network(text.encode())
        again = network_text(("Pair", given, ("Event", "Unit")), ("rSwitch", FAIR, with_one_more(net)))
        with kept(again) as name:
            told = call(["types", name])
        self.again = again if told.status == 0 else None

    def firsts(self, recordings: list[Recording]) -> list[Optional[int]]:
        """For each recording the number of the first sample at which it is false, where all was fair up to there, or None."""
        found: list[Optional[int]] = []
        part: list[Recording] = []
        for recording in [*recordings, None]:
            if part and (recording is None or sum(map(len, part)) + len(recording) > SAMPLES):
                found += self.of_batch(part)
                part = []
            if recording is not None:
                part.append(recording)
        return found

    def of_batch(self, recordings: list[Recording]) -> list[Optional[int]]:
        if self.again is None:
            with kept(self.text) as name:
                outputs = [accepted(["run", name], stream_text(recording)).output for recording in recordings]
            return [first_false(output.split(b"\n")) for output in outputs]
        lines = []
        for recording in recordings:
            lines += [f"+{step} (pair {value.text} none)" for step, value in recording]
            at = len(lines) - len(recording)
            lines[at] = f"+1 (pair {recording[0][1].text} (event unit))"
        stream = "\n".join(lines).removeprefix("+1 ").encode() + b"\n"
        with kept(self.again) as name:
            output = accepted(["run", name], stream).output
        if b" false)" not in output:
            return [None] * len(recordings)
        told, at, found = output.split(b"\n"), 0, []
        for recording in recordings:
            found.append(first_false(told[at : at + len(recording)]))
            at += len(recording)
        return found

    def first(self, recording: Recording) -> Optional[int]:
        """The same of one recording, as the program runs it by itself."""
        with kept(self.text) as name:
            return first_false(accepted(["run", name], stream_text(recording)).output.split(b"\n"))


def first_false(lines: list[bytes]) -> Optional[int]:
    for number, line in enumerate(lines, 1):
        if line.startswith(b"(pair false"):
            return None
        if line.endswith(b" false)"):
            return number
    return None


# ---- recordings made short


class Shortening:
    """A recording on which something is false, made as short and simple as can be."""

    def __init__(self, observer: Observer, given: Any, allowed: Callable[[Recording], bool], until: float):
        self.observer, self.given, self.allowed, self.until = observer, given, allowed, until

    def shortest(self, recording: Recording, at: int) -> Recording:
        """The recording made short; an interrupt ends that, and what is shortest so far is kept."""
        best, before = recording[:at], None
        with contextlib.suppress(KeyboardInterrupt):
            while best is not before:
                before = best
                for ways in (self.cuts, self.steps, self.values):
                    while (better := self.better(best, ways(best))) is not None:
                        best = better
        return best

    def better(self, best: Recording, ways: Iterator[Recording]) -> Optional[Recording]:
        """A recording that is simpler and still makes it false: the simplest of the first that are run at once and have one."""
        limit = measure(best)
        simpler = (made for made in ways if made and measure(made) < limit and self.allowed(made))
        while time.monotonic() < self.until:
            made = list(islice(simpler, max(1, TRIED // len(best))))
            if not made:
                return None
            firsts = self.observer.firsts(made)
            cut = [recording[:first] for recording, first in zip(made, firsts) if first is not None]
            if cut:
                return min(cut, key=measure)
        return None

    def cuts(self, best: Recording) -> Iterator[Recording]:
        """Pieces left out; the time that they took is left out too, or not."""
        size = len(best) // 2
        while size:
            for at in range(0, len(best), size):
                rest = best[at + size :]
                yield best[:at] + rest
                if at and rest:
                    gap = sum(step for step, _ in best[at : at + size]) + rest[0][0]
                    yield best[:at] + [(min(gap, GREATEST), rest[0][1])] + rest[1:]
            size //= 2

    def steps(self, best: Recording) -> Iterator[Recording]:
        yield [(1, value) for _, value in best]
        for at, (step, value) in enumerate(best):
            for other in [1, *smaller(step)] if at else [1]:
                if 1 <= other != step:
                    yield [*best[:at], (other, value), *best[at + 1 :]]

    def values(self, best: Recording) -> Iterator[Recording]:
        for value in {value.text: value for _, value in best}.values():
            for other in simpler(value.value, self.given):
                new = Value(other, shown(other))
                yield [(step, new if old.text == value.text else old) for step, old in best]
        for at, (step, value) in enumerate(best):
            others = [best[near][1].value for near in (at - 1, at + 1) if 0 <= near < len(best)]
            for other in others + simpler(value.value, self.given):
                if other != value.value:
                    yield [*best[:at], (step, Value(other, shown(other))), *best[at + 1 :]]


def measure(recording: Recording) -> tuple:
    """How far a recording is from a short and simple one."""
    counted = recording[1:]
    texts = [value.text for _, value in recording]
    return (
        len(recording),
        sum(len(str(step)) for step, _ in counted) + sum(map(len, texts)),
        sum(step for step, _ in counted) + sum(weight(value.value) for _, value in recording),
        sum(one != other for one, other in zip(texts, texts[1:])),
    )


def weight(value: Any) -> int:
    """How far a value is from the simplest of its type."""
    if isinstance(value, int):
        return 2 * abs(value) + (value < 0)
    if isinstance(value, tuple):
        return 1 + sum(map(weight, value[1:]))
    return int(value == "true")


def smaller(number: int) -> list[int]:
    """Some numbers that are simpler."""
    sign, size = (1 if number > 0 else -1), abs(number)
    digits = len(str(size))
    rounded = [size - size % 10**place for place in range(1, digits)] + [10 ** (digits - 1)]
    found = [0, 1, 10, 100, size // 2, size // 16, size * 7 // 8, size - 1, *rounded]
    return [sign * other for other in dict.fromkeys(found) if other < size] + ([size] if sign < 0 and size <= GREATEST else [])


def simplest(type_: Any) -> Any:
    if not isinstance(type_, tuple):
        return {"Int": 0, "Bool": "false", "Unit": "unit"}[type_]
    if is_form("Pair", type_):
        return ("pair", simplest(type_[1]), simplest(type_[2]))
    return "none" if is_form("Event", type_) else ("list",)


def simpler(value: Any, type_: Any) -> list:
    """Values that are simpler in one part."""
    if type_ == "Int":
        return smaller(value)
    if not isinstance(type_, tuple):
        return [simplest(type_)]
    if is_form("List", type_):
        found = [(*value[:at], *value[at + 1 :]) for at in range(1, len(value))]
        return found + [(*value[:at], part, *value[at + 1 :]) for at in range(1, len(value)) for part in simpler(value[at], type_[1])]
    if is_form("Event", type_):
        return ["none"] + ([("event", part) for part in simpler(value[1], type_[1])] if value != "none" else [])
    found = [simplest(type_)]
    for at in (1, 2):
        found += [(*value[:at], part, *value[at + 1 :]) for part in simpler(value[at], type_[at])]
    return found


def read_recording(samples: list) -> Recording:
    """Of samples as the model reads them."""
    return [(step, Value(value, shown(value))) for step, value in samples]
