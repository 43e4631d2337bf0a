"""The words of the tools that look into what networks do, and the files that they name."""
import math
from argparse import ArgumentParser, ArgumentTypeError, Namespace
from typing import Any, Callable, NamedTuple, Optional

from model.texts import read_network
from model.trees import GREATEST, shown
from workbench.ending import WRONG_WORDS, Refused, read
from workbench.program import again, answered
from workbench.proving.deciding import Limits
from workbench.proving.question import SAMPLES, TOTAL, Pace
from workbench.recording import types_of

SAMPLES_TOLD = """at most N samples, or `any` number; by default any, and where steps don't matter, else the million that `run` takes"""


class Loaded(NamedTuple):
    """A file's network, its types, and a name under which it can be read again."""

    name: str
    given: Any
    output: Any
    net: Any


def seconds(text: str) -> float:
    try:
        found = float(text)
    except ValueError:
        found = math.nan
    if not (math.isfinite(found) and found > 0):
        raise ArgumentTypeError(f"{text} is no number of seconds above 0")
    return found


def whole(least: int, most: int = GREATEST) -> Callable[[str], int]:
    """Reads a number from the least on."""

    def number(text: str) -> int:
        if not text.isdecimal() or not text.isascii() or len(text) > 20 or not least <= int(text) <= most:
            raise ArgumentTypeError(f"{text} is no whole number from {least} to {most}")
        return int(text)

    return number


def numbers(text: str) -> tuple[int, ...]:
    """Reads steps, as 1,5."""
    return tuple(sorted({whole(1)(part) for part in text.split(",")}))


def span(text: str) -> tuple[int, int]:
    """Reads two numbers, as -5..20."""
    least, dots, most = text.partition("..")
    if not dots or not all(part.removeprefix("-").isdecimal() and part.isascii() and len(part) <= 20 for part in (least, most)):
        raise ArgumentTypeError(f"{text} is no span of numbers, such as -5..20")
    if not -GREATEST - 1 <= int(least) <= int(most) <= GREATEST:
        raise ArgumentTypeError(f"{text} is no span of numbers of 64 bits, the least first")
    return int(least), int(most)


def samples(text: str) -> tuple[Optional[int], Optional[int]]:
    """Reads how many samples recordings have at most, or `any`; and how many where nothing is known of all."""
    return (None, None) if text == "any" else (whole(1)(text), None)


def with_assumptions(words: ArgumentParser) -> None:
    words.add_argument("--assume", metavar="NET", action="append", default=[], help="looks only at recordings on which this observer holds so far")


def with_paces(words: ArgumentParser, total: Optional[int] = TOTAL) -> None:
    words.add_argument("--step", type=whole(1), metavar="N", help="all steps are N")
    words.add_argument("--steps", type=numbers, metavar="N,N", help="all steps are among these")
    words.add_argument("--most-step", type=whole(1), metavar="N", help="steps are at most N")
    told = "; 2^62 by default" if total else ""
    words.add_argument("--total", type=whole(1), default=total, metavar="N", help=f"all steps together are at most N{told}")
    words.add_argument("--lists", type=whole(0, 64), default=4, metavar="N", help="lists have at most N elements; 4 by default")
    words.add_argument("--samples", type=samples, default=(None, SAMPLES), metavar="N", help=SAMPLES_TOLD)
    words.add_argument("--ints", type=span, metavar="A..B", help="numbers of the input are from A to B")


def with_limits(words: ArgumentParser, wait: float) -> None:
    words.add_argument("--depth", type=whole(1, 100_000), default=2048, metavar="N", help="z3 looks at the first N samples; 2048 by default")
    words.add_argument("--seconds", type=seconds, default=wait, metavar="S", help=f"how long it looks; {wait:g} by default")
    words.add_argument("-o", metavar="FILE", dest="to", help="writes the recording there")


def pace_of(words: Namespace) -> Pace:
    """What recordings are asked for; bounds that none can keep are refused."""
    steps = (words.step,) if words.step else words.steps
    if words.step and words.steps:
        raise Refused("--step and --steps both say which steps there are", WRONG_WORDS)
    most = words.most_step
    if steps and most:
        steps, most = tuple(step for step in steps if step <= most), None
        if not steps:
            raise Refused("no step keeps to --most-step: it is less than all that are asked for", WRONG_WORDS)
    alone = steps[0] if steps and len(steps) == 1 else None
    return Pace(alone, most, words.total, words.lists, None if alone else steps, words.ints, *words.samples)


def limits_of(words: Namespace) -> Limits:
    return Limits(words.seconds, words.depth)


def loaded(name: str) -> Loaded:
    """The network of a file that the program accepts, and runs."""
    file = again(name)
    given, output = types_of(file)
    answered(["run", file])
    return Loaded(file, given, output, read_network(read(file))[1])


def observing(name: str, given: Any, what: str) -> Any:
    """The network of a file of this input that outputs Bool."""
    found = loaded(name)
    if found.given != given:
        raise Refused(f"{name}: its input is {shown(found.given)}, and what {what} takes {shown(given)}")
    if found.output != "Bool":
        raise Refused(f"{name}: it outputs {shown(found.output)}, and what {what} outputs Bool")
    return found.net


def assumed(names: list[str], given: Any) -> tuple:
    return tuple(observing(name, given, "is assumed") for name in names)
