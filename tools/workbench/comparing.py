"""The first sample at which two networks differ on a stream."""
import contextlib
import sys
import tempfile
from collections.abc import Iterator
from itertools import zip_longest

from front.spell import shape_of, spelt
from model.trees import shown
from workbench.ending import REFUSED, UNREADABLE, Refused, Words, pieces
from workbench.program import Run, Told, again
from workbench.recording import lines_of, types_of
from workbench.signals import values_of

COMPARE = """Prints the first sample of the stream on standard input at which two networks differ, with both
outputs, and whether one of them stops there. The status is 1 if they differ, else 0. If one of them
can't run, or both stop at a line of the stream, that is printed, with status 1 or 3: then they are not
compared, or only on the samples before it."""


def first_difference(first: bytes, second: bytes) -> tuple[int, bytes | None, bytes | None] | None:
    """The number of the first line at which two outputs differ, with both lines, None where there is none; or None."""
    return difference(lines_of(first), lines_of(second))[1]


def difference(first, second):
    """How many lines are the same, and the number of the first that differs, with both lines, or None."""
    number = 0
    for number, (mine, other) in enumerate(zip_longest(first, second), 1):
        if mine != other:
            return number - 1, (number, mine, other)
    return number, None


def said(line: bytes | None, type_) -> str:
    """An output of this type, in the words of its file where that has some."""
    if line is None:
        return "nothing"
    shape = shape_of(type_)
    return spelt(values_of([line])[0], shape) if shape is not None else line.decode(errors="replace")


def same_types(source: str, target: str) -> tuple:
    """The types of two networks, which are the same."""
    types, others = types_of(source), types_of(target)
    if types != others:
        raise Refused("the two networks have other types: " + " and ".join(" -> ".join(map(shown, pair)) for pair in (types, others)))
    return types


def refuse_hindered(name: str, told: Told) -> None:
    """Refuses what hindered a run, but for a line of the stream."""
    if told.status and not told.line().startswith("stream: line"):
        raise Refused(f"{name}: {told.fault()}", told.status if told.status in (1, 2, 3) else UNREADABLE)


@contextlib.contextmanager
def copied_stream() -> Iterator[str]:
    """The name of a file with the stream on standard input, as much of it as the program can take."""
    with tempfile.NamedTemporaryFile(prefix="yampa-") as file:
        file.writelines(pieces(0, "-"))
        file.flush()
        yield file.name


@contextlib.contextmanager
def run_on(path: str, stream: str) -> Iterator[Run]:
    """A run of the network in a file on the stream in another."""
    with open(stream, "rb") as lines, Run(["run", path], lines) as run:
        yield run


def outputs(run: Run) -> Iterator[bytes]:
    """The lines of a run's output as they come, without their ends."""
    return (line.removesuffix(b"\n") for line in run.process.stdout)


def compared(names: list[str], paths: list[str]) -> tuple[int, tuple | None, str]:
    """How many outputs of two networks are the same, the first that differs, and the line of the stream that ends both runs, if any."""
    with copied_stream() as stream, run_on(paths[0], stream) as first, run_on(paths[1], stream) as second:
        same, found = difference(outputs(first), outputs(second))
        lines = found[1:] if found else (None, None)
        ended_runs = [(name, run.told()) for name, run, line in zip(names, (first, second), lines) if line is None]
    for name, told in ended_runs:
        refuse_hindered(name, told)
    return same, found, "" if found else ended_runs[0][1].fault()


def compare_main() -> None:
    words = Words("compare", COMPARE)
    words.add_argument("source", metavar="SRC")
    words.add_argument("target", metavar="TGT")
    given = words.parse_args()
    names = [given.source, given.target]
    paths = [again(name) for name in names]
    _, output = same_types(*paths)
    same, found, fault = compared(names, paths)
    if found:
        number, mine, other = found
        print(f"line {number}: {said(mine, output)} and {said(other, output)}")
        sys.exit(REFUSED)
    if fault:
        raise Refused(f"the same on {same} samples, and then {fault}")
    print(f"the same on {same} samples")
