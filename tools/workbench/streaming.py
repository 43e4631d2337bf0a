"""Streams that pass through line by line, or are kept in files, and outputs with their steps."""
import contextlib
import os
import re
import select
import stat
import subprocess
import tempfile
from collections import deque
from collections.abc import Callable, Iterator

from workbench.ending import PIECE, Refused, Words, called, opened, pieces, unreadable, writing
from workbench.program import Run, again

MOST_LINE = 1 << 20
# A byte order mark.
MARK = b"\xef\xbb\xbf"

TIMED = """Runs NET on the stream on standard input, and prints each output with the step of its sample: so the
output of one network is a stream for the next one. It prints outputs as they come.

  yampa timed NET < STREAM | yampa run NEXT"""


@contextlib.contextmanager
def stream_file(name: str) -> Iterator[str]:
    """The name of a file that holds a stream and can be read more than once: of a pipe, a copy of what the program can take of it."""
    with opened(name) as file:
        if name != "-" and stat.S_ISREG(os.fstat(file).st_mode):
            yield name
            return
        with tempfile.NamedTemporaryFile("wb", prefix="yampa-") as copy:
            copy.writelines(pieces(file, name))
            copy.flush()
            yield copy.name


def piece_of_input() -> bytes:
    """What comes next on standard input, nothing at its end."""
    try:
        return os.read(0, PIECE)
    except OSError as error:
        raise unreadable(called("-"), error) from None


def lines(before: Callable[[], None]) -> Iterator[bytes]:
    """The lines on standard input without their ends, as they come; what is to be done before more is read is done then."""
    rest, number = b"", 0
    while True:
        before()
        piece = piece_of_input()
        if not piece:
            break
        *whole, rest = (rest + piece).split(b"\n")
        yield from whole
        number += len(whole)
        if len(rest) > MOST_LINE:
            raise Refused(f"line {number + 1}: it has over {MOST_LINE:,} bytes")
    if rest:
        yield rest


# ---- outputs with their steps


def exchanged(process: subprocess.Popen) -> Iterator[tuple[bytes, bytes]]:
    """What standard input has for the program, and what it answers, piece by piece as they come: one of the two is empty."""
    into, out = process.stdin.fileno(), process.stdout.fileno()
    os.set_blocking(into, False)
    has_more, held = True, b""
    while True:
        wanted = [out, 0] if has_more and not held else [out]
        ready, free, _ = select.select(wanted, [into] if held else [], [])
        if out in ready:
            answer = os.read(out, PIECE)
            if not answer:
                return
            yield b"", answer
        if 0 in ready:
            held = piece_of_input()
            has_more = bool(held)
            yield held, b""
        if free:
            held = handed_on(into, held)
            has_more = held is not None
        if not has_more:
            process.stdin.close()


def handed_on(into: int, held: bytes) -> bytes | None:
    """What is left when the program took what it could; None where it reads no more."""
    try:
        return held[os.write(into, held) :]
    except BrokenPipeError:
        return None


def timed(process: subprocess.Popen) -> Iterator[bytes]:
    """The program's outputs, each with its sample's step, as they come."""
    steps: deque[bytes] = deque()
    line = output = b""
    for fed, answer in exchanged(process):
        *whole, line = (line + fed).split(b"\n")
        steps.extend(map(step_in, whole))
        *outputs, output = (output + answer).split(b"\n")
        yield b"".join((steps.popleft() if steps else step_in(line)) + one + b"\n" for one in outputs)


def step_in(line: bytes) -> bytes:
    """The step that a line begins with, as it stands there."""
    found = re.match(rb"\+[0-9]+ ", line)
    return found.group() if found else b""


def timed_main() -> None:
    words = Words("timed", TIMED)
    words.add_argument("net", metavar="NET")
    given = words.parse_args()
    with Run(["run", again(given.net)], subprocess.PIPE) as run, writing(None) as out:
        for made in timed(run.process):
            out.write(made)
            out.flush()
        told = run.told()
    if told.status:
        raise Refused(told.refusal(), told.status)
