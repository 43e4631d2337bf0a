"""Calls of the program `yampa`, which alone says what is accepted and what a network outputs."""
import atexit
import contextlib
import functools
import os
import resource
import subprocess
import sys
import tempfile
from collections.abc import Callable
from pathlib import Path
from typing import IO

from workbench.advising import as_called
from workbench.ending import UNREADABLE, Refused, called, read, unreadable
from workbench.origin import network_path

TOP = Path(__file__).resolve().parents[2]
SECONDS = 600
# The commands that searches beside the program answer, by its word.
SEARCHES = ("improve", "certify")
# The variable by which `improve` is asked to say what it has gained.
GAIN = "YAMPA_GAIN"
# The names of what was copied, by the paths of the copies.
COPIES: dict[str, str] = {}
UNPROVED = "yampa: unproved, with run-time checks; ./yampa --prove proves it"


def path() -> str:
    """The program: the one that YAMPA names, else one of the sources that are there, which is built where there is none. Of one that
    isn't proved that is told, once."""
    if not os.environ.get("YAMPA"):
        made = subprocess.run([TOP / "tools/trial"], stdout=subprocess.PIPE, check=False)
        if made.returncode:
            sys.exit(made.returncode)
        os.environ["YAMPA"] = os.fsdecode(made.stdout).rstrip("\n")
        if os.environ["YAMPA"] != str(TOP / "crates/yampa/out/yampa"):
            os.environ["YAMPA_UNPROVED"] = "1"
    if os.environ.pop("YAMPA_UNPROVED", None) and not os.environ.get("YAMPA_TOLD"):
        print(UNPROVED, file=sys.stderr, flush=True)
    return os.environ["YAMPA"]


def answering(words):
    """Who answers these words: the searches beside the program, or the program."""
    return str(TOP / "tools/search") if words and words[0] in SEARCHES else path()


@functools.cache
def has_sanitizer(program: str) -> bool:
    """Whether AddressSanitizer is in a program, as in an unproved build that couldn't do without: it takes addresses without end."""
    with contextlib.suppress(OSError):
        return b"AddressSanitizer" in Path(program).read_bytes()
    return False


def with_room() -> Callable[[], None] | None:
    """What a program does before it begins that has the sanitizer, where the memory of this process is bounded: it lifts the bound."""
    soft, hard = resource.getrlimit(resource.RLIMIT_AS)
    if soft == hard or not has_sanitizer(path()):
        return None
    return lambda: resource.setrlimit(resource.RLIMIT_AS, (hard, hard))


class Told:
    """What a call of the program with these words printed, and its status."""

    def __init__(self, words, status, output, error):
        self.words, self.status, self.output, self.error = words, status, output, error

    def fault(self):
        """The one line of a refusal; of a network of Haskell in its words and lines."""
        from workbench.speaking import spoken  # pylint: disable=import-outside-toplevel  # it calls the program itself

        return spoken(self.words, self.line())

    def refusal(self):
        """The one line of a refusal behind the name of the file that it tells of."""
        from workbench.speaking import files_in  # pylint: disable=import-outside-toplevel  # it calls the program itself

        fault, line = self.fault(), self.line()
        name = files_in(self.words).names.get(line.partition(": ")[0])
        return f"{COPIES.get(name, name)}: {line}" if name and fault == line else fault

    def refused_with(self):
        """The status of a refusal: the program's, or that of an error where it told nothing of its own, as one that can't start."""
        return self.status if self.line()[:1] not in ("", "=") and self.status in (1, 2, 3) else UNREADABLE

    def line(self):
        """The one line of a refusal as the program tells it; what the wrapper says besides is left out."""
        lines = [line for line in self.error.splitlines() if line and not line.startswith("yampa: ")]
        return lines[-1] if lines else ""


def call(words, stream=b""):
    """What the program tells of these words and of the stream on standard input."""
    try:
        ran = subprocess.run([answering(words), *words], input=stream, capture_output=True, timeout=SECONDS, preexec_fn=with_room())
    except OSError as error:
        raise unreadable(path(), error) from None
    except subprocess.TimeoutExpired:
        raise Refused(f"the program took over {SECONDS} seconds", UNREADABLE) from None
    return Told(words, ran.returncode, ran.stdout, ran.stderr.decode(errors="replace"))


class Run:
    """A run of the program that is under way; it is stopped where it isn't needed to its end."""

    def __init__(self, words: list[str], stream: int | IO[bytes]):
        self.words, self.error = words, tempfile.TemporaryFile()
        try:
            self.process = subprocess.Popen([answering(words), *words], stdin=stream, stdout=subprocess.PIPE, stderr=self.error, preexec_fn=with_room())
        except OSError as error:
            raise unreadable(path(), error) from None

    def __enter__(self) -> "Run":
        return self

    def __exit__(self, *_: object) -> None:
        self.process.kill()
        self.process.wait()

    def told(self) -> Told:
        """What it told besides its output, which was read to its end."""
        status = self.process.wait()
        self.error.seek(0)
        return Told(self.words, status, b"", self.error.read().decode(errors="replace"))


def answered(words, stream=b""):
    """What the program prints where it accepts; else its own line is the refusal."""
    told = call(words, stream)
    if told.status:
        raise Refused(told.refusal() or f"the program ended with status {told.status}", told.refused_with())
    return told.output


@contextlib.contextmanager
def kept(text):
    """The name of a file that holds the text while it is needed."""
    with tempfile.NamedTemporaryFile("wb", prefix="yampa-") as file:
        file.write(text if isinstance(text, bytes) else text.encode())
        file.flush()
        yield file.name


def again(name, reading=read):
    """A name under which the file can be read more than once, by the program too: of a pipe, and of a number under which a file is open
    here alone, that of a copy; of a network of Haskell that of what it means."""
    if os.path.isfile(name) and not name.startswith(("/dev/", "/proc/")):
        return network_path(name, name)
    stack = contextlib.ExitStack()
    atexit.register(stack.close)
    copy = stack.enter_context(kept(reading(name)))
    COPIES[copy] = called(as_called(name))
    return network_path(copy, as_called(name))
