"""`improve`, `falsify` and `prove` of many networks, or with many seeds, on the workers of a Dask scheduler."""
import io
import os
import sys
import tarfile
import zlib
from argparse import Namespace
from collections import Counter
from dataclasses import dataclass
from pathlib import Path
from typing import Any

from workbench import remote
from workbench.batch import made
from workbench.cluster import RETRIES, connected, in_order, last_line, program_bytes, result_of, sent
from workbench.ending import REFUSED, UNREADABLE, WRONG_WORDS, Refused, Words, read, write
from workbench.origin import program_from
from workbench.proposing import searcher
from workbench.translated import is_haskell

TOOLS = Path(__file__).resolve().parents[1]
# What `falsify` and `prove` take that has a value; those of FILES name a file.
PACES = ["--step", "--steps", "--most-step", "--total", "--lists", "--samples", "--ints"]
ASKED = ["--assume", "--depth", "--seconds", *PACES]
OPTIONS = {
    "improve": [],
    "falsify": [*ASKED, "--from", "--length", "--seed"],
    "prove": [*ASKED, "--invariant", "--goal"],
}
FILES = ["--assume", "--invariant", "--from"]
# What stands in the statuses of several, the worst first: 4 is that something isn't known.
WORST = [UNREADABLE, WRONG_WORDS, REFUSED, 4]

ABOUT = """Hands many networks, or one with many seeds, to the workers of a Dask cluster, with the program and the tools.

  yampa improve --cluster ADDRESS --out FOLDER NET..     the networks that they are improved to, in FOLDER
  yampa prove --cluster ADDRESS OBSERVER..               --seconds, --assume and all that prove takes may stand there too
  yampa falsify --cluster ADDRESS --seeds 8 NET..        each with the seeds from 1 to 8

What each says stands behind its name, in their order, with its seconds. A recording that is found is put beside its
network, or into --out FOLDER, as NET.false; with seeds as NET.false.SEED. A worker that dies loses nothing. The status is
the worst of all. Workers need Debian's python3, and for falsify and prove its python3-z3."""


@dataclass(frozen=True)
class Task:
    """What is asked of a network, by its name: the files that this takes, by their places below the folder that holds them all, the place
    of the network's own, the options, and a seed."""

    name: str
    files: dict[str, bytes]
    own: str
    options: list[str]
    seed: int | None

    def label(self) -> str:
        return self.name if self.seed is None else f"{self.name} seed {self.seed}"


@dataclass(frozen=True)
class Done:
    """What came of a task: the status, what was printed and told, the files that were made, by name, and the seconds."""

    status: int
    output: str
    error: str
    made: dict[str, bytes]
    seconds: float


# ---- what is sent


def tasks_of(command: str, given: Namespace) -> list[Task]:
    """All tasks; what is wrong with a file is refused before anything is sent."""
    seeds = list(range(1, given.seeds + 1)) if given.seeds else [None]
    return [task_of(command, name, given.options, seed) for name in given.nets for seed in seeds]


def task_of(command: str, name: str, options: list[tuple[str, str]], seed: int | None) -> Task:
    named = [value for flag, value in options if flag in FILES] + [name]
    files = {path: data for one in named for path, data in files_of(one).items()}
    if command == "improve":
        # The program takes what a file of Haskell means.
        files = {os.path.realpath(name): program_from(name, read(name)).text}
    top = os.path.commonpath([os.path.dirname(path) for path in files])

    def place(one: str) -> str:
        return os.path.relpath(os.path.realpath(one), top)

    words = [word for flag, value in options for word in (flag, place(value) if flag in FILES else value)]
    return Task(name, {os.path.relpath(path, top): data for path, data in files.items()}, place(name), words, seed)


def files_of(name: str) -> dict[str, bytes]:
    """The files that a network is made of, or the one that a recording is, by their paths."""
    data = read(name)
    besides = program_from(name, data).read_besides() if is_haskell(name, data) else {}
    return {os.path.realpath(path): held for path, held in {name: data, **besides}.items()}


def packed_tools(command: str) -> bytes:
    """The tools that a command wants, as one file."""
    packed = io.BytesIO()
    with tarfile.open(fileobj=packed, mode="w") as file:
        for name in ("tool", "search", "list", "front", "model", "workbench"):
            file.add(TOOLS / name, name, filter=lambda info: None if "__pycache__" in info.name else info)
        if command == "improve":
            file.add(searcher(), "yampa-search")
    return zlib.compress(packed.getvalue())


def begun(client: Any, held: list, command: str, task: Task):
    """What is under way on a worker."""
    words = [command, *task.options, *(["--seed", str(task.seed)] if task.seed else []), task.own]
    return client.submit(remote.work_there, *held, words, task.files, pure=False, retries=RETRIES)


def come_back(task: Task, future: Any) -> tuple[Task, Done]:
    try:
        return task, Done(*result_of(future))
    except Refused as refused:
        return task, Done(UNREADABLE, "", str(refused), {}, 0.0)


# ---- what is told


def told(command: str, task: Task, done: Done, out: Path | None) -> str:
    """The lines on a task, whose files are put into their places."""
    lines = done.output.splitlines() if command == "prove" else []
    lines = lines or [last_line(done.error).removeprefix(f"yampa {command}: ") or f"status {done.status}"]
    if command == "improve" and not done.status and out is not None:
        to = str(out / made_name(command, task.name))
        write(to, done.output.encode())
        lines = [f"improved: {to}"]
    if command == "falsify" and done.output:
        lines = [f"{lines[0]}: {kept(task, '.false', done.output.encode(), out)}"]
    for name, data in done.made.items():
        to = kept(task, name.removeprefix(task.own), data, out)
        lines = [line.replace(name, to) for line in lines]
    return "".join(f"{task.label()}\t{done.seconds:.1f} s\t{line}\n" for line in lines)


def kept(task: Task, ending: str, data: bytes, out: Path | None) -> str:
    """Puts what was made into the folder that is asked for, or beside the network; its place."""
    beside = Path(task.name) if out is None else out / Path(task.name).name
    to = f"{beside}{ending}" + (f".{task.seed}" if task.seed else "")
    write(to, data)
    return to


def made_name(command: str, net: str) -> str:
    """What is made of a network is called as that; but what `improve` makes of a file of Haskell is a core network."""
    name = Path(net).name
    return name.removesuffix(".hs") if command == "improve" else name


# ---- the call


def arguments(command: str) -> Namespace:
    words = Words(command, ABOUT)
    words.add_argument("--cluster", metavar="ADDRESS", required=True, help="the Dask scheduler, as 127.0.0.1:8786")
    words.add_argument("--out", metavar="FOLDER", type=Path, required=command == "improve", help="puts there what is made")
    if command == "falsify":
        words.add_argument("--seeds", metavar="N", type=int, help="tries each with the seeds from 1 to N")
    for flag in OPTIONS[command]:
        words.add_argument(flag, dest="options", metavar="V", action="append", type=lambda value, flag=flag: (flag, value), help=f"as `yampa {command}` takes it")
    words.add_argument("nets", metavar="NET", nargs="+")
    words.set_defaults(seeds=0, options=[])
    given = words.parse_args()
    twice = [name for name, count in Counter(made_name(command, net) for net in given.nets).items() if count > 1]
    if given.out and twice:
        words.error(f"two networks are called {twice[0]}, and what is made goes into one folder")
    return given


def main(command: str) -> None:
    given = arguments(command)
    tasks, statuses = tasks_of(command, given), set()
    if given.out:
        made(given.out)
    program, tools = program_bytes(), packed_tools(command)
    with connected(given.cluster) as client:
        held = [client.submit(remote.held, sent(data)) for data in (program, tools)]
        for task, done in in_order(client, tasks, lambda one: begun(client, held, command, one), come_back):
            print(told(command, task, done, given.out), end="", flush=True)
            statuses.add(done.status)
    sys.exit(next((status for status in WORST if status in statuses), UNREADABLE if statuses - {0} else 0))
