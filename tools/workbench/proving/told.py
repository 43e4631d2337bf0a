"""What a way to answer a question is given, and what it tells."""
import time
from dataclasses import dataclass, field
from typing import Any, Callable

from workbench.proving.question import Question

Tree = Any
Path = tuple[str, ...]


@dataclass(frozen=True)
class Cell:
    """A leaf of the state that a sample doesn't show: what of a network it is, in words and by its position, and the parts of the
    network that output the same, each with the way to it there."""

    owner: str
    word: str
    position: tuple
    cell: str
    way: Path
    outputs: tuple[tuple[tuple, Path], ...] = ()


@dataclass(frozen=True)
class Foreign:
    """What z3 says and the language has no word for: the word of SMT-LIB, and what it is said of."""

    word: str
    parts: tuple


@dataclass
class Holds:
    """The goal holds: by which way, on which recordings, with which invariants, and who says so. It is bounded where that was only
    found of recordings that aren't too long. The obligations are what z3 found to have no solution, each with what it says."""

    by: str
    recordings: str
    bounded: bool = False
    invariants: list[Tree] = field(default_factory=list)
    rests: str = "so say z3 and an encoding of the network, of which this project proves nothing"
    obligations: list[tuple[str, str]] = field(default_factory=list)

    def told(self) -> str:
        count = len(self.invariants)
        return self.by + (f", with {count} invariant{'s' * (count != 1)}" if count else "")


@dataclass
class Wrong:
    """A recording on which the goal is false, by an encoding: the program must confirm it."""

    recording: bytes


@dataclass
class Searched:
    """What was searched so far, in words; each takes the place of the one before of the same kind."""

    kind: str
    told: str


@dataclass
class Tried:
    """How many random streams a way has tried."""

    streams: int


@dataclass
class Unfair:
    """No recording of more samples than these keeps to what is assumed."""

    samples: int


@dataclass
class Hindered:
    """Why a way can't take the networks."""

    why: str


@dataclass
class Search:
    """A question, how long and how deep it is looked at, whether the program confirms a stream, whether what a proof rests on is written
    down, and whom to tell."""

    question: Question
    until: float
    depth: int
    confirmed: Callable[[bytes], bool]
    obliged: bool = False
    tell: Callable[[Any], None] = print

    def left(self) -> float:
        return self.until - time.monotonic()

    def by(self, share: float) -> float:
        """The time at which a share of what is left is over."""
        return time.monotonic() + max(0.0, self.left()) * share
