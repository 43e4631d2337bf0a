"""Many recordings through one network: each one's output, or whether it is what was expected."""
import contextlib
import itertools
import os
import subprocess
import sys
import tempfile
import time
import zlib
from collections import Counter
from collections.abc import Iterable, Iterator
from concurrent.futures import ThreadPoolExecutor
from dataclasses import dataclass
from pathlib import Path
from typing import Any

from workbench import remote
from workbench.cluster import IN_FLIGHT, RETRIES, connected, in_order, last_line, program_bytes, result_of, sent
from workbench.ending import REFUSED, UNREADABLE, WRONG_WORDS, Refused, Words, read, unreadable
from workbench.native import c_of, make_room, program_of, room_of
from workbench.program import again, answered, path

# How many recordings are one task of a cluster, at most, and how many bytes of them are enough for one.
MOST_TOGETHER, SHORT = 50, 1 << 18
RIGHT, REFUSED_ROW, DIFFERENT, UNREAD = "as expected", "refused", "different", "unreadable"


@dataclass(frozen=True)
class Recording:
    """A timed stream: its file, and the name that its output and what is expected have in their folders."""

    name: str
    file: Path


@dataclass(frozen=True)
class Ran:
    """How a run ended: its status, its output in a file, the line that it told, and its seconds."""

    status: int
    output: Path
    fault: str
    seconds: float


@dataclass(frozen=True)
class Row:
    """What is told of a recording: the samples that were answered, the status, the seconds, and how it went."""

    name: str
    samples: int
    status: int
    seconds: float
    kind: str
    told: str

    def line(self) -> str:
        return "\t".join([self.name, f"{self.samples} samples", f"status {self.status}", f"{self.seconds:.2f} s", self.told])


# ---- recordings


def recordings_of(names: list[str]) -> list[Recording]:
    """The files that are named, and all below the folders that are, in order; each has a name of its own."""
    found = [one for name in names for one in recordings_in(Path(name))]
    twice = [name for name, count in Counter(one.name for one in found).items() if count > 1]
    if twice:
        raise Refused(f"two recordings are called {twice[0]}", WRONG_WORDS)
    return found


def recordings_in(file: Path) -> Iterator[Recording]:
    if not file.is_dir():
        yield Recording(file.name, file)
        return
    try:
        below = sorted(path for path in file.rglob("*") if path.is_file())
    except OSError as error:
        raise unreadable(str(file), error) from None
    yield from (Recording(str(path.relative_to(file)), path) for path in below)


@dataclass(frozen=True)
class Command:
    """What runs a recording: its words, in which numbers stand for files, and the bytes of stack that it takes, if it tells them."""

    words: list[int | str]
    files: list[str]
    stack: int = 0

    def here(self) -> list[str]:
        return [self.files[word] if isinstance(word, int) else word for word in self.words]


def interpreted(net: str) -> Command:
    return Command([0, "run", 1], [path(), net])


@contextlib.contextmanager
def compiled(net: str, most: str | None) -> Iterator[Command]:
    """A network's own program."""
    with program_of(c_of(net, most)) as (program, stack):
        yield Command([0], [program], room_of(stack))


# ---- here


def run_here(command: Command, recording: Recording, folder: Path) -> Ran:
    """A run on this machine, whose output goes into a file of that folder."""
    output, began = folder / recording.name.replace("/", "\x1f"), time.perf_counter()
    try:
        with open(recording.file, "rb") as stream, open(output, "wb") as file:
            ran = subprocess.run(command.here(), stdin=stream, stdout=file, stderr=subprocess.PIPE, check=False)
    except OSError as error:
        output.touch()
        return Ran(UNREADABLE, output, str(unreadable(str(recording.file), error)), 0.0)
    return Ran(ran.returncode, output, last_line(ran.stderr.decode(errors="replace")), time.perf_counter() - began)


def all_here(command: Command, recordings: list[Recording], folder: Path, jobs: int) -> Iterator[Ran]:
    """The runs in their order, so many at once."""
    make_room(command.stack)
    with ThreadPoolExecutor(jobs) as pool:
        try:
            yield from pool.map(lambda one: run_here(command, one, folder), recordings)
        except BaseException:
            pool.shutdown(wait=False, cancel_futures=True)
            raise


def confirm(command: Command, net: str, recordings: list[Recording], folder: Path) -> None:
    """Looks whether `run` tells of the first recording what the compiled network does."""
    make_room(command.stack)
    for one in recordings[:1]:
        wanted, found = ((ran, ran.output.read_bytes()) for ran in (run_here(how, one, folder) for how in (interpreted(net), command)))
        if (wanted[0].status, wanted[0].fault, wanted[1]) != (found[0].status, found[0].fault, found[1]):
            raise Refused(f"the compiled network doesn't do on {one.name} what `run` does", UNREADABLE)


# ---- on a cluster


def all_there(address: str, command: Command, recordings: list[Recording], folder: Path) -> Iterator[Ran]:
    """The runs in their order, on the workers of a Dask scheduler: many short ones are one task."""
    files = [sent(program_bytes() if file == path() else read(file)) for file in command.files]
    with connected(address) as client:
        held = [client.submit(remote.held, file) for file in files]
        fair = len(recordings) // (IN_FLIGHT * max(1, sum(client.nthreads().values())))
        tasks = map(task_of, groups(recordings, min(max(fair, 1), MOST_TOGETHER)))

        def begin(task: Task) -> Any:
            return client.submit(remote.runs_there, command.words, command.stack, task.streams, *held, pure=False, retries=RETRIES)

        for runs in in_order(client, tasks, begin, lambda task, future: come_back(task, future, folder)):
            yield from runs


def groups(recordings: list[Recording], most: int) -> Iterator[list[Recording]]:
    """At most so many of them together, as long as they are short."""
    group: list[Recording] = []
    size = 0
    for one in recordings:
        with contextlib.suppress(OSError):
            size += one.file.stat().st_size
        group.append(one)
        if len(group) == most or size > SHORT:
            yield group
            group, size = [], 0
    if group:
        yield group


@dataclass(frozen=True)
class Task:
    """Recordings that are run together: for each why it can't be read, or None; and what the others hold, squeezed."""

    recordings: list[Recording]
    faults: list[Refused | None]
    streams: list[bytes]


def task_of(group: list[Recording]) -> Task:
    task = Task(group, [], [])
    for one in group:
        try:
            task.streams.append(zlib.compress(one.file.read_bytes(), 1))
            task.faults.append(None)
        except OSError as error:
            task.faults.append(unreadable(str(one.file), error))
    return task


def come_back(task: Task, future: Any, folder: Path) -> list[Ran]:
    """The runs of a task, whose outputs go into files of that folder."""
    faults = task.faults
    try:
        answers = iter(result_of(future))
    except Refused as refused:
        faults = [fault or refused for fault in faults]
    outputs = [folder / one.name.replace("/", "\x1f") for one in task.recordings]
    return [ran_there(output, fault, () if fault else next(answers)) for output, fault in zip(outputs, faults)]


def ran_there(output: Path, fault: Refused | None, answer: tuple) -> Ran:
    if fault:
        output.touch()
        return Ran(UNREADABLE, output, str(fault), 0.0)
    status, squeezed, told, seconds = answer
    output.write_bytes(zlib.decompress(squeezed))
    return Ran(status, output, last_line(told), seconds)


# ---- rows


def row_of(recording: Recording, ran: Ran, expected: Path | None) -> Row:
    samples, difference = compared(ran.output, expected / recording.name if expected else None)
    if ran.status == UNREADABLE or ran.status not in (0, REFUSED):
        return Row(recording.name, samples, ran.status, ran.seconds, UNREAD, ran.fault or f"the program ended with status {ran.status}")
    if ran.status:
        return Row(recording.name, samples, ran.status, ran.seconds, REFUSED_ROW, ran.fault)
    if difference:
        return Row(recording.name, samples, REFUSED, ran.seconds, DIFFERENT, difference)
    return Row(recording.name, samples, 0, ran.seconds, RIGHT, RIGHT if expected else "")


def compared(output: Path, expected: Path | None) -> tuple[int, str]:
    """How many lines an output has, and the first at which it isn't what was expected."""
    try:
        with open(output, "rb") as ours, open(expected or os.devnull, "rb") as theirs:
            return difference_of(ours, theirs if expected else None)
    except OSError as error:
        return 0, f"nothing to compare with: {unreadable(str(expected), error)}"


def difference_of(ours: Iterable[bytes], theirs: Iterable[bytes] | None) -> tuple[int, str]:
    lines, told = 0, ""
    for number, (mine, other) in enumerate(itertools.zip_longest(ours, theirs if theirs is not None else []), 1):
        lines += mine is not None
        if theirs is not None and mine != other and not told:
            told = f"line {number}: {shown(mine)} where {shown(other)} is expected"
    return lines, told


def shown(line: bytes | None) -> str:
    return "nothing" if line is None else line.decode(errors="replace").rstrip("\n")


def keep(ran: Ran, to: Path) -> None:
    """Puts an output into its place, whole."""
    try:
        to.parent.mkdir(parents=True, exist_ok=True)
        os.replace(ran.output, to)
    except OSError as error:
        raise unreadable(str(to), error) from None


def told_rows(rows: Iterable[Row], count: int) -> Counter:
    """Prints the rows; on a terminal it says how far it is."""
    tally: Counter = Counter()
    shows = sys.stderr.isatty()
    for number, row in enumerate(rows, 1):
        if shows:
            print("\r\033[K", end="", file=sys.stderr, flush=True)
        print(row.line(), flush=True)
        tally[row.kind] += 1
        if shows and number < count:
            print(f"{number} of {count}", end="", file=sys.stderr, flush=True)
    return tally


ABOUT = """Runs many recordings through one network, on all processors of this machine or on a Dask cluster. With --native it is
compiled once, as `yampa native` does, and that program runs them: of the first recording it must tell what `run` does.

It prints one row for each, with tabs between: the recording's name, the number of samples answered, the status, the
seconds, and a remark: the error, or with --expect whether the output is as expected, else the first difference. The last
line counts them. The status is 0 if all went well, 1 if a recording is rejected or differs, 3 if something can't be read
or written. All files of a folder are recordings."""


def arguments():
    words = Words("batch", ABOUT)
    words.add_argument("net", metavar="NET")
    words.add_argument("recordings", metavar="FOLDER|FILE", nargs="+")
    words.add_argument("--out", metavar="FOLDER", type=Path, help="writes each output there, under the recording's name")
    words.add_argument("--expect", metavar="FOLDER", type=Path, help="compares each output with the file of that name there")
    words.add_argument("--jobs", metavar="N", type=int, default=len(os.sched_getaffinity(0)), help="how many run at once, each on a processor")
    words.add_argument("--native", action="store_true", help="runs the network as a compiled program")
    words.add_argument("--most", metavar="N", help="how many elements a list of a recording may have there (32765)")
    words.add_argument("--cluster", metavar="ADDRESS", help="the Dask scheduler whose workers run them, such as 127.0.0.1:8786")
    given = words.parse_args()
    if given.jobs < 1:
        words.error("--jobs: at least 1 is wanted")
    if given.most is not None and not given.native:
        words.error("--most: for --native alone")
    return given


def main() -> None:
    given = arguments()
    recordings, net = recordings_of(given.recordings), again(given.net)
    answered(["types", net])
    how = compiled(net, given.most) if given.native else contextlib.nullcontext(interpreted(net))
    with how as command, tempfile.TemporaryDirectory(prefix=".yampa-batch-", dir=made(given.out)) as name:
        folder = Path(name)
        if given.native:
            confirm(command, net, recordings, folder)
        runs = all_there(given.cluster, command, recordings, folder) if given.cluster else all_here(command, recordings, folder, given.jobs)
        tally = told_rows(rows_of(recordings, runs, given), len(recordings))
    counts = ", ".join(f"{count} {kind}" for kind, count in sorted(tally.items()) if given.expect or kind != RIGHT)
    print(f"{len(recordings)} recordings" + (f": {counts}" if counts else ""))
    sys.exit(UNREADABLE if tally[UNREAD] else REFUSED if tally[REFUSED_ROW] or tally[DIFFERENT] else 0)


def rows_of(recordings: list[Recording], runs: Iterator[Ran], given) -> Iterator[Row]:
    for one, ran in zip(recordings, runs):
        row = row_of(one, ran, given.expect)
        if given.out:
            keep(ran, given.out / one.name)
        else:
            ran.output.unlink()
        yield row


def made(folder: Path | None) -> Path | None:
    """The folder of outputs, which is made where it isn't there."""
    try:
        if folder:
            folder.mkdir(parents=True, exist_ok=True)
    except OSError as error:
        raise unreadable(str(folder), error) from None
    return folder
