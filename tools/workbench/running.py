"""Runs of a network with the signals of its parts: as few runs of the program as the limits of types let be."""
from __future__ import annotations

import io
import re
from bisect import bisect_left, bisect_right
from concurrent.futures import ThreadPoolExecutor
from contextlib import ExitStack
from dataclasses import dataclass, field
from itertools import islice
from typing import IO, Any, Iterable, Iterator, Optional

from model.texts import network_text
from model.trees import children, head, is_network
from workbench.ending import UNREADABLE, Refused
from workbench.instrument import Instrument
from workbench.outline import Network
from workbench.program import Run as Process
from workbench.program import Told, call, kept
from workbench.recording import lines_of
from workbench.signals import ABSENT, Pack, Position, Several, in_members, taken_out, values_of
from workbench.watching import told_by

Tree = Any

# How many types a pack is made of, at most: a network's type has at most 256, of which its wiring needs some.
PACKED = 180
# How often signals are put apart because of the limits, before it is left.
PATIENCE = 60
# How many samples of a run are held at a time.
PIECE = 1_000
# What a network is refused by that outputs too many signals at once.
OVER_LIMITS = re.compile(r"network: too |network: nesting|network: expression too deep|table full")


@dataclass
class Signal:
    """The values of a part at the samples, ABSENT where it doesn't run; of a part of members each is Several, one a member that
    runs."""

    position: Position
    type: Tree
    values: list
    members: bool = False


@dataclass
class Run:
    """A run of a network on a stream: the times, inputs and outputs of its samples, of those in a window of them, and what ended it, if
    a fault did."""

    times: list
    inputs: list
    outputs: list
    fault: str
    stream: bytes
    window: slice


def refused(told: Told) -> Refused:
    return Refused(told.fault() or f"the program ended with status {told.status}", told.status if told.status in (1, 2, 3) else UNREADABLE)


def run_of(net: str, stream: bytes, start: Optional[int] = None, stop: Optional[int] = None) -> Run:
    """The run of a network's file, from one time to another."""
    told = call(["run", net], stream)
    if told.status and not told.fault().startswith("stream: line"):
        raise refused(told)
    outputs = lines_of(told.output)
    times, inputs = Samples(io.BytesIO(stream)).taken(len(outputs))
    window = slice(0 if start is None else bisect_left(times, start), len(times) if stop is None else bisect_right(times, stop))
    return Run(times[window], values_of(inputs[window]), values_of(outputs[window]), told.fault(), stream, window)


class Samples:
    """The samples of a stream as they are read from a file, for lines that the program took."""

    def __init__(self, file: IO[bytes]):
        self.file, self.now, self.spelling = file, 0, None

    def taken(self, count: int) -> tuple:
        """The times and the spellings of the values of the next lines."""
        times, spellings = list[int](), list[bytes]()
        for line in islice(self.file, count):
            line = line.removesuffix(b"\n")
            if self.spelling is not None:
                step, _, line = line.partition(b" ")
                self.now += int(step)
            self.spelling = self.spelling if line == b"=" else line
            spellings.append(self.spelling)
            times.append(self.now)
        return times, spellings


def watchable(whole: Network) -> Iterator[Position]:
    """The positions of the networks whose signals can be had, but not of what watches a switch."""
    stack: list = [()]
    while stack:
        position = stack.pop()
        yield position
        tree = whole.at(position)
        parts = children(tree)
        unseen = len(parts) - 2 if head(tree) in ("kSwitch", "pSwitch") else None
        stack += [(*position, number) for number in reversed(range(len(parts))) if number != unseen and is_network(parts[number])]


def size(type_: Tree) -> int:
    """How many types a type is made of."""
    return 1 + sum(map(size, type_[1:])) if isinstance(type_, tuple) else 1


def groups(whole: Network, positions: Iterable) -> list:
    """The positions in order, as many together as one network may output."""
    found: list = [[]]
    room = PACKED
    for position in positions:
        cost = size(whole.output(position)) + 2
        if found[-1] and cost > room:
            found.append([])
            room = PACKED
        found[-1].append(position)
        room -= cost
    return found if found[0] else []


@dataclass
class Teller:
    """A network that outputs the signals of parts, its text, and how they are packed."""

    positions: list
    text: str
    pack: Pack

    def signals_in(self, whole: Network, values: list) -> dict:
        """The signals by their positions, from values of a run."""
        rows = [taken_out(self.pack, value, {}) for value in values]
        found, lists = {}, in_members(self.pack)
        for position in self.positions:
            column = [row.get(position, ABSENT) for row in rows]
            if position in lists:
                column = [value if value is ABSENT or isinstance(value, Several) else Several([value]) for value in column]
            found[position] = Signal(position, whole.output(position), column, position in lists)
        return found


@dataclass
class Tellers:
    """The networks that output the signals of parts; which part tells what another one outputs; and the parts that can't be watched
    within the limits, with the program's refusal."""

    whole: Network
    told: dict
    found: list = field(default_factory=list)
    missing: dict = field(default_factory=dict)
    refusals: int = 0

    def add(self, positions: list) -> None:
        """Adds a network for these positions, or more where one can't output them all."""
        made = Instrument(self.whole, set(positions)).made()
        text = network_text(self.whole.input, made.net)
        with kept(text) as name:
            told = call(["types", name])
        if not OVER_LIMITS.match(told.fault()):
            self.found.append(Teller(positions, text, made.signals))
            return
        self.refusals += 1
        if len(positions) == 1 or self.refusals > PATIENCE:
            self.missing |= dict.fromkeys(positions, told.fault())
        else:
            middle = len(positions) // 2
            self.add(positions[:middle])
            self.add(positions[middle:])

    def by_position(self, signals: dict) -> dict:
        """The signals of all parts, of which several may share one."""
        return {position: signals[by] for position, by in self.told.items() if by in signals}


def tellers_of(whole: Network, positions: Iterable) -> Tellers:
    """Networks that output the signals of parts, as few as the limits of types let be."""
    made = Tellers(whole, {position: told_by(whole, position) for position in positions})
    for group in groups(whole, dict.fromkeys(made.told.values())):
        made.add(group)
    return made


@dataclass
class Watched:
    """The signals of parts in a run, and what told them."""

    signals: dict
    tellers: Tellers


def signals_of(whole: Network, run: Run, positions: Iterable) -> Watched:
    """The signals of parts by their positions; parts that output the same share one."""
    tellers = tellers_of(whole, positions)
    signals = dict[Position, Signal]()
    with ThreadPoolExecutor(4) as pool:
        for found in pool.map(lambda teller: told_in(whole, run, teller), tellers.found):
            signals |= found
    return Watched(tellers.by_position(signals), tellers)


def told_in(whole: Network, run: Run, teller: Teller) -> dict:
    with kept(teller.text) as name:
        told = call(["run", name], run.stream)
    if told.status and told.fault() != run.fault:
        raise refused(told)
    return teller.signals_in(whole, values_of(lines_of(told.output)[run.window]))


# ---- piece by piece


@dataclass
class Piece:
    """Samples of a run that follow one another, and the signals of parts in them."""

    times: list
    inputs: list
    outputs: list
    signals: dict


class Pieces:
    """A run and its signals, piece by piece in order, in memory that doesn't grow with the stream: the program runs the network beside
    those that tell its signals. Behind the last piece there is the `fault` that ended the run, if one did."""

    def __init__(self, net: str, tellers: Tellers, stream: str):
        self.net, self.tellers, self.stream, self.fault = net, tellers, stream, ""

    def __iter__(self) -> Iterator[Piece]:
        with ExitStack() as stack:

            def run(name: str) -> Process:
                return stack.enter_context(Process(["run", name], stack.enter_context(open(self.stream, "rb"))))

            main, samples = run(self.net), Samples(stack.enter_context(open(self.stream, "rb")))
            others = [(teller, run(stack.enter_context(kept(teller.text)))) for teller in self.tellers.found]
            while outputs := next_values(main):
                times, inputs = samples.taken(len(outputs))
                signals = dict[Position, Signal]()
                for teller, process in others:
                    values = next_values(process)
                    if len(values) < len(outputs):
                        raise refused(process.told())
                    signals |= teller.signals_in(self.tellers.whole, values)
                yield Piece(times, values_of(inputs), outputs, self.tellers.by_position(signals))
            told = main.told()
        if told.status and not told.fault().startswith("stream: line"):
            raise refused(told)
        self.fault = told.fault()


def next_values(process: Process) -> list:
    lines = [line.removesuffix(b"\n") for line in islice(process.process.stdout, PIECE)]
    return values_of(lines) if lines else []
