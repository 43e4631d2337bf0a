"""How a tool ends: with one line on standard error and a status; and files that are read within limits, and written whole or not at all."""
import argparse
import contextlib
import os
import re
import signal
import stat
import sys
import tempfile
import traceback
from collections.abc import Callable, Iterator
from pathlib import Path
from types import FrameType
from typing import IO, NoReturn

REFUSED, WRONG_WORDS, UNREADABLE = 1, 2, 3
# As other filters end whose reader is gone.
CLOSED_PIPE = 128 + signal.SIGPIPE
INTERRUPTED = 128 + signal.SIGINT
# The program reads one byte more than a file may have.
MOST_BYTES = 1_048_577
# What a stream may have: more of it is not read, and what was read is refused for it.
MOST_LINES, LONGEST_LINE = 1_000_001, 65_536
PIECE = 1 << 16
LONGEST_TOLD = 1000


class Refused(Exception):
    """What a tool can't take, in one line, and the status with it."""

    def __init__(self, line: str, status: int = REFUSED):
        super().__init__(line)
        self.status = status


def unreadable(name: object, error: BaseException) -> Refused:
    """A file that can't be read or written."""
    return Refused(f"{name}: {str(getattr(error, 'strerror', None) or error).lower()}", UNREADABLE)


# ---- reading


def read(name: str) -> bytes:
    """The bytes of a file, as many of them as the program reads; `-` is standard input."""
    try:
        if name == "-":
            return sys.stdin.buffer.read(MOST_BYTES)
        with open(name, "rb") as file:
            return file.read(MOST_BYTES)
    except OSError as error:
        raise unreadable(called(name), error) from None


def stream_bytes(name: str) -> bytes:
    """The bytes of a stream, as many of them as the program can take; `-` is standard input."""
    with opened(name) as file:
        return b"".join(pieces(file, name))


def called(name: str) -> str:
    return "standard input" if name == "-" else name


@contextlib.contextmanager
def opened(name: str) -> Iterator[int]:
    """The number under which a file is open; that of `-` is 0."""
    try:
        file = 0 if name == "-" else os.open(name, os.O_RDONLY)
    except OSError as error:
        raise unreadable(name, error) from None
    try:
        yield file
    finally:
        if file:
            os.close(file)


def pieces(file: int, name: str) -> Iterator[bytes]:
    """The bytes of a stream as they come: up to the first line that is too long, or one line too many."""
    lines = since = 0
    while lines < MOST_LINES and since <= LONGEST_LINE + PIECE:
        try:
            piece = os.read(file, PIECE)
        except OSError as error:
            raise unreadable(called(name), error) from None
        if not piece:
            return
        lines += piece.count(b"\n")
        since = len(piece) - 1 - piece.rfind(b"\n") if b"\n" in piece else since + len(piece)
        yield piece


def text_of(name: str) -> str:
    """The text of a file in UTF-8."""
    try:
        return read(name).decode()
    except UnicodeDecodeError as error:
        raise Refused(f"{called(name)}: byte {error.start} is no UTF-8") from None


# ---- writing


def write(name: str | None, text: str | bytes) -> None:
    """Writes the text, or the bytes, as `writing` does."""
    with writing(name) as file:
        file.write(text.encode("utf-8", "surrogateescape") if isinstance(text, str) else text)


@contextlib.contextmanager
def writing(name: str | None) -> Iterator[IO[bytes]]:
    """What is written stands in a file beside the one of this name, and takes its place, with its mode, when all is there. A device or a
    pipe is written at once, and standard output where no name is given, or `-`."""
    if name is None or name == "-":
        yield sys.stdout.buffer
        sys.stdout.buffer.flush()
        return
    path = Path(name)
    try:
        if path.exists() and not path.is_file():
            with open(path, "wb") as file:
                yield file
            return
        with beside(path.resolve()) as file:
            yield file
    except BrokenPipeError:
        raise
    except OSError as error:
        raise unreadable(name, error) from None


@contextlib.contextmanager
def beside(path: Path) -> Iterator[IO[bytes]]:
    """A file beside this one, which takes its place at the end."""
    handle, name = tempfile.mkstemp(dir=path.parent, prefix=f".{path.name}.")
    try:
        with os.fdopen(handle, "wb") as file:
            yield file
        os.chmod(name, mode_of(path))
        os.replace(name, path)
    except BaseException:
        with contextlib.suppress(OSError):
            os.unlink(name)
        raise


def mode_of(path: Path) -> int:
    """The mode of a file, or the one that a new file has."""
    if path.exists():
        return stat.S_IMODE(path.stat().st_mode)
    mask = os.umask(0)
    os.umask(mask)
    return 0o666 & ~mask


# ---- the call


class Words(argparse.ArgumentParser):
    """The words of a tool's call; its `--help` shows the tool's text as it is written."""

    def __init__(self, name: str, about: str):
        super().__init__(
            prog=f"yampa {name}",
            description=about,
            formatter_class=argparse.RawDescriptionHelpFormatter,
            allow_abbrev=False,
        )
        # A span such as -5..20 is a value, as a negative number is.
        self._negative_number_matcher = re.compile(r"^-\d+(\.\.-?\d+)?$")


def ended(name: str, work: Callable[[], None]) -> None:
    """Does the work of a tool, from its words on; what hinders it is told in one line. Nothing else ends a tool."""
    interrupts = listen()
    make_ready()
    try:
        try:
            work()
        finally:
            sys.stdout.flush()
    except Refused as refused:
        end(name, str(refused), refused.status)
    except BrokenPipeError:
        end(name, None, CLOSED_PIPE)
    except KeyboardInterrupt:
        end(name, None, INTERRUPTED)
    except OSError as error:
        told = unreadable(error.filename or "standard output", error)
        end(name, str(told), UNREADABLE)
    except MemoryError:
        end(name, "memory", UNREADABLE)
    except RecursionError:
        end(name, "what it was given stands too deep in itself")
    except Exception as error:  # pylint: disable=broad-exception-caught
        end(name, defect(error), UNREADABLE)
    if interrupts:
        end(name, None, INTERRUPTED)


def listen() -> list[int]:
    """Lets the keyboard and other programs stop the tool, so that it clears up. Answers the interrupts, as they come: what hears one
    may keep it to itself."""
    interrupts: list[int] = []

    def interrupt(number: int, _: FrameType | None) -> NoReturn:
        interrupts.append(number)
        raise KeyboardInterrupt

    def stop(number: int, _: FrameType | None) -> NoReturn:
        sys.exit(128 + number)

    signal.signal(signal.SIGINT, interrupt)
    for number in (signal.SIGTERM, signal.SIGHUP):
        signal.signal(number, stop)
    return interrupts


def make_ready() -> None:
    """Lifts Python's own limits, opens what was closed of the standard streams, so that each use of it fails by name, and writes UTF-8."""
    sys.setrecursionlimit(20_000)
    sys.set_int_max_str_digits(0)
    for number in range(3):
        try:
            os.fstat(number)
        except OSError:
            os.open(os.devnull, os.O_RDONLY if number == 1 else os.O_WRONLY)
    sys.stdin = sys.stdin or open(0, encoding="utf-8", closefd=False)
    sys.stdout = sys.stdout or open(1, "w", encoding="utf-8", closefd=False)
    sys.stderr = sys.stderr or open(2, "w", encoding="utf-8", closefd=False)
    for file in (sys.stdout, sys.stderr):
        file.reconfigure(encoding="utf-8", errors="surrogateescape")  # type: ignore[union-attr]


def end(name: str, line: str | None, status: int = REFUSED) -> NoReturn:
    """Ends the tool with this line and status. What standard output still holds goes before it, or nowhere."""
    try:
        sys.stdout.flush()
    except OSError:
        os.dup2(os.open(os.devnull, os.O_WRONLY), 1)
    with contextlib.suppress(OSError):
        if line is not None:
            print(f"yampa {name}: {line if len(line) <= LONGEST_TOLD else line[:LONGEST_TOLD] + '..'}", file=sys.stderr, flush=True)
    sys.exit(status)


def defect(error: Exception) -> str:
    """What a fault of the tool itself is told as: with the place, and on one line."""
    place = traceback.extract_tb(error.__traceback__)[-1]
    what = " ".join(f"{type(error).__name__}: {error}".split())[:200]
    return f"this is a defect of the tool, not of what it was given: {what} ({Path(place.filename).name}, line {place.lineno})"


def missing(package: str, error: ImportError) -> Refused:
    """A library that isn't on this machine."""
    return Refused(f"the library {error.name} is missing: install {package} (Debian: apt-get install {package})", UNREADABLE)
