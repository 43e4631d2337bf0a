"""Certificates that the searches of `search/` propose, and the proved program accepts.

The searches are a program of their own in Rust, of which nothing is proved. So a certificate is printed only after the program's `check` or
`apply` accepted it, read from the file that is printed. A search that answers nonsense, crashes or runs past its work costs an answer.
"""
import fcntl
import hashlib
import os
import random
import re
import resource
import shutil
import signal
import subprocess
import sys
import tempfile
import time
from collections.abc import Iterator
from pathlib import Path
from typing import NoReturn

from workbench.ending import REFUSED, UNREADABLE, WRONG_WORDS, Refused, Words, unreadable
from workbench.outline import read_type
from workbench.program import GAIN, TOP, again, path
from workbench.streams import Recording, Streams, Wishes, stream_text

SOURCES = TOP / "search"
LAWS = TOP / "tools/workbench/laws.tsv"
BUILT = SOURCES / "out"
NAME = "yampa-search"
COMPILED = ["--edition", "2021", "-O", "-C", "debuginfo=0"]
# What a search may take beyond its own count of work: processor seconds, and bytes of memory and of output.
MOST_SECONDS, MOST_MEMORY, MOST_PRINTED = 300, 3 << 30, 4 << 20
# How many times as long it may last by the clock.
WAITS = 4
# What a search tells where it finds none: why.
WIRE = rb"the first wire that differs: .+\n"
WHY = re.compile(rb"((gave up: \d+ nodes visited\n)?\(at( \d+)*\)\n- .+\n\+ .+\n(" + WIRE + rb")?|too long: \d+ steps, \d+ bytes\n)?")
APART = b"the normal forms differ here; `./yampa differ` tells whether the networks do\n"
NONE_FOUND, NOT_IMPROVED = "certificate: none found", "network: not improved"
DIFFERENT = "certificate: ends elsewhere"
# How many random samples two networks are run on first, in recordings of at most so many, and for how many seconds at most.
SAMPLES, LONGEST, SAMPLING = 1_000, 600, 20

IMPROVE = """Rewrites a network by more laws than `optimise`, and prints the result.

It tries more laws than `optimise`, in both directions, and estimates the cost of a sample. It takes at
most 10,000 steps. If it finds nothing cheaper, it prints the network as it is, and no step. What it
prints was accepted by the proved program, so both networks output the same on every stream. The result
is meant to be faster, but that isn't promised.

  $ yampa improve --certificate net > steps
  $ yampa apply net steps
  yampa 1
  input (Pair Int Int)
  (arr (add (fst x) 1))"""
CERTIFY = """Looks for a certificate that leads from one network to another.

Both are run on 1,000 random samples first. If an output differs, the recording up to there is printed,
and a line on standard error. Else both networks are rewritten until they are the same, in the end to a
normal form. Then it prints the steps of SRC, and after them those of TGT undone, which the proved
program accepted: both output the same on every stream. With MID it finds the steps from SRC to MID, and
from there to TGT. If it finds none, both may still output the same. It prints

  the normal forms differ here; ..     and the first position, what SRC's has there, and TGT's:
  (at 0)
  - (mul x 2)
  + (add x x)
  the first wire that differs: ..      which part of the output, or of the loop's state, it is;
  too long: 10120 steps, 902115 bytes  that there are steps, but over a certificate's limits;
  gave up: 15000000 nodes visited      or that it found no steps to a normal form, then the first
                                       position at which SRC and TGT differ, and what they have there.

Long trees are cut as by `yampa laws`."""


def main() -> None:
    """Does what the words ask for."""
    match sys.argv.pop(1) if len(sys.argv) > 1 else "":
        case "--build":
            searcher()
        case "certify":
            certify_main()
        case "improve":
            improve_main()
        case _:
            raise Refused("improve or certify is wanted", WRONG_WORDS)


def improve_main() -> None:
    words = Words("improve", IMPROVE)
    words.add_argument("net", metavar="NET")
    words.add_argument("--certificate", action="store_true", help="prints the certificate instead of the network")
    given = words.parse_args()
    improve(kept_once(given.net), given.certificate)


def certify_main() -> None:
    words = Words("certify", CERTIFY)
    words.add_argument("source", metavar="SRC")
    words.add_argument("between", metavar="MID", nargs="?", help="a network between")
    words.add_argument("target", metavar="TGT")
    given = words.parse_args()
    certify([kept_once(name) for name in (given.source, given.between, given.target) if name is not None])


def kept_once(name: str) -> str:
    """The name of a file, which is read more than once: of a pipe that of a copy."""
    return again(name) if os.path.exists(name) and not os.path.isfile(name) and not os.path.isdir(name) else name


# ---- the searches' program


def searcher() -> str:
    """The searches' program, built where it isn't built of the sources that are there; YAMPA_SEARCH names another one."""
    if named := os.environ.get("YAMPA_SEARCH"):
        return named
    if (TOP / "installed").exists():
        return str(BUILT / NAME)
    built = BUILT / f"{NAME}-{sum_of_sources()}"
    if not built.exists():
        build(built)
    return str(built)


def is_built() -> bool:
    """Whether a call of the searches doesn't build them first."""
    return "YAMPA_SEARCH" in os.environ or (TOP / "installed").exists() or (BUILT / f"{NAME}-{sum_of_sources()}").exists()


def sum_of_sources() -> str:
    """The sum of all that the searches are made of."""
    total = hashlib.sha256()
    for source in [LAWS, *sorted((SOURCES / "src").glob("*.rs"))]:
        total.update(repr((source.name, source.read_bytes())).encode())
    return total.hexdigest()[:16]


def found_compiler() -> str | None:
    return shutil.which("rustc") or shutil.which("rustc", path=str(Path.home() / ".cargo/bin"))


def build(built: Path) -> None:
    """Compiles the searches, in some seconds, in place of what was built of other sources; of calls at once the first one does."""
    if os.environ.get("CI") == "true" and found_compiler() is None:
        subprocess.run("apt-get update -q && apt-get install -y -q --no-install-recommends rustc", shell=True, capture_output=True, stdin=subprocess.DEVNULL)
    compiler = found_compiler()
    if compiler is None:
        raise Refused("there is no rustc, which builds the searches: Debian's package rustc brings it", UNREADABLE)
    BUILT.mkdir(exist_ok=True)
    with open(BUILT / "lock", "w", encoding="ascii") as lock, tempfile.TemporaryDirectory(dir=BUILT) as folder:
        fcntl.flock(lock, fcntl.LOCK_EX)
        if built.exists():
            return
        made = Path(folder) / NAME
        # The compiler holds the lock too: if this call is stopped, the next one doesn't begin beside it.
        ran = subprocess.run([compiler, *COMPILED, "-o", made, SOURCES / "src/main.rs"], capture_output=True, text=True, pass_fds=[lock.fileno()])
        if ran.returncode:
            told = next((line for line in ran.stderr.splitlines() if line.startswith("error")), ran.stderr[-200:])
            raise Refused(f"the searches can't be built: {told}", UNREADABLE)
        for older in BUILT.glob(f"{NAME}-*"):
            older.unlink(missing_ok=True)
        made.replace(built)


def seconds_left() -> int:
    return int(os.environ.get("YAMPA_SEARCH_SECONDS") or MOST_SECONDS)


def limit() -> None:
    """What a search may take, so that one that doesn't end is ended."""
    resource.setrlimit(resource.RLIMIT_CPU, (seconds_left(), seconds_left()))
    resource.setrlimit(resource.RLIMIT_FSIZE, (MOST_PRINTED, MOST_PRINTED))
    resource.setrlimit(resource.RLIMIT_CORE, (0, 0))
    _, most = resource.getrlimit(resource.RLIMIT_AS)
    memory = MOST_MEMORY if most == resource.RLIM_INFINITY else min(MOST_MEMORY, most)
    resource.setrlimit(resource.RLIMIT_AS, (memory, memory))


def proposed(output: Path, *words: str) -> int:
    """The status of a search, which prints into a file; one that waits longer than it may work is ended too."""
    how = {"stderr": subprocess.DEVNULL, "stdin": subprocess.DEVNULL, "preexec_fn": limit, "close_fds": False}
    with open(output, "wb") as file:
        try:
            return subprocess.run([searcher(), *words], stdout=file, timeout=WAITS * seconds_left(), **how).returncode
        except subprocess.TimeoutExpired:
            return -signal.SIGKILL
        except OSError as error:
            raise unreadable(searcher(), error) from None


# ---- the program's word


def told_by(*words: str | Path) -> tuple[int, bytes, str]:
    """What the program tells of these words: status, output and line."""
    ran = subprocess.run([path(), *map(str, words)], stdin=subprocess.DEVNULL, capture_output=True, close_fds=False)
    return ran.returncode, ran.stdout, ran.stderr.decode(errors="replace").strip()


def end(line: str, status: int) -> NoReturn:
    """Ends with a line as the program tells it."""
    print(line, file=sys.stderr)
    sys.exit(status)


def broken(nothing: str, status: int) -> NoReturn:
    """Ends where a search gave no answer that may be given."""
    how = f"was ended by signal {-status}" if status < 0 else f"ended with status {status}"
    end(f"{nothing}: the search {how}", UNREADABLE)


def rejected(nothing: str, line: str) -> NoReturn:
    """Ends where a search proposed what the program doesn't accept."""
    end(f"{nothing}: the program rejects what the search proposed: {line.splitlines()[-1] if line else 'no answer'}", REFUSED)


def certify(nets: list[str]) -> None:
    """Prints a certificate from the first network to the last one, by way of the one between them, which the program accepts, or why there
    is none."""
    with tempfile.TemporaryDirectory(prefix="yampa-") as folder:
        steps = Path(folder) / "steps"
        found = [led(source, target, steps, named(number, len(nets))) for number, (source, target) in enumerate(zip(nets, nets[1:]))]
        steps.write_bytes(joined(found))
        status, _, line = told_by("check", nets[0], nets[-1], steps)
        if status:
            rejected(NONE_FOUND, line)
        write(steps.read_bytes())


def named(number: int, count: int) -> tuple[str, str]:
    """What the networks are called between which steps are looked for."""
    return ("source", "target") if count == 2 else (("source", "between"), ("between", "target"))[number]


def joined(certificates: list[bytes]) -> bytes:
    """One certificate after the other, as one of the least version that has all laws."""
    header = max(one[: len("laws N")] for one in certificates)
    return header + b"".join(one[len(header) :] for one in certificates)


def led(source: str, target: str, steps: Path, names: tuple[str, str]) -> bytes:
    """What a search says is a certificate from the one network to the other; where it finds none that is told."""
    steps.write_text("laws 1\n")
    status, _, line = told_by("check", source, target, steps)
    if status and line != DIFFERENT:
        role, _, fault = line.partition(": ")
        end(f"{dict(zip(('source', 'target'), names)).get(role, role)}: {fault}", status)
    if not status:
        return steps.read_bytes()
    how_many, which = same_samples(source, target, names), "" if names == ("source", "target") else f"{names[0]} and {names[1]}: "
    status = proposed(steps, "certify", source, target)
    said = steps.read_bytes()
    if status == REFUSED and WHY.fullmatch(said):
        write((APART if said.startswith(b"(at") else b"") + said)
        end(f"{which}equal on {how_many:,} samples; no certificate found", REFUSED)
    if status:
        broken(NONE_FOUND, status)
    return said


# ---- random samples


def same_samples(source: str, target: str, names: tuple[str, str]) -> int:
    """On how many random samples two networks output the same; where an output differs that is told."""
    same, until = 0, time.monotonic() + SAMPLING
    for recording in recordings(source, target):
        stream = stream_text(recording)
        outputs = [lines_of_run(net, stream, until) for net in (source, target)]
        for number, (mine, other) in enumerate(zip(*outputs), 1):
            if mine != other:
                write(stream_text(recording[:number]))
                who = "they differ" if names == ("source", "target") else f"{names[0]} and {names[1]} differ"
                end(f"{who} on this recording: line {number}: {mine.decode()} and {other.decode()}", REFUSED)
        same += min(map(len, outputs))
        if min(map(len, outputs)) < len(recording):
            break
    return same


def recordings(source: str, target: str) -> Iterator[Recording]:
    """Random recordings, in which stand the networks' numbers."""
    given = read_type(told_by("types", source)[1].decode().split(" -> ")[0])
    texts = [Path(net).read_bytes() for net in (source, target)]
    numbers = {int(number) for text in texts for number in re.findall(rb"(?<![\w-])-?\d+", text)}
    streams, left = Streams(given, sorted(numbers), random.Random(1), Wishes(length=LONGEST)), SAMPLES
    while left:
        recording = streams.recording()[:left]
        left -= len(recording)
        yield recording


def lines_of_run(net: str, stream: bytes, until: float) -> list[bytes]:
    """The lines that a run outputs, as long as there is time."""
    left = until - time.monotonic()
    if left <= 0:
        return []
    try:
        ran = subprocess.run([path(), "run", net], input=stream, stdout=subprocess.PIPE, stderr=subprocess.DEVNULL, timeout=left, close_fds=False)
    except subprocess.TimeoutExpired as ended:
        return (ended.stdout or b"").split(b"\n")[:-1]
    return ran.stdout.split(b"\n")[:-1]


def improve(net: str, is_certificate: bool) -> None:
    """Prints what a certificate makes of the network that the program accepts, or the certificate."""
    with tempfile.TemporaryDirectory(prefix="yampa-") as folder:
        steps = Path(folder) / "steps"
        status, _, line = told_by("types", net)
        if status:
            end(line, status)
        status = proposed(steps, "improve", net)
        if status:
            broken(NOT_IMPROVED, status)
        status, output, line = told_by("apply", net, steps)
        if status:
            rejected(NOT_IMPROVED, line)
        write(steps.read_bytes() if is_certificate else output)
        if os.environ.get(GAIN):
            made = Path(folder) / "made"
            made.write_bytes(output)
            before, after = cost(net), cost(str(made))
            print(f"yampa improve: by the searches' cost {before} instructions a sample before, {after} after", file=sys.stderr)


def cost(net: str) -> str:
    """About how many instructions a sample of a network takes, by what the searches know of it."""
    found = subprocess.run([searcher(), "cost", net], capture_output=True, text=True, preexec_fn=limit, close_fds=False, check=False)
    return f"{int(found.stdout):,}" if found.returncode == 0 else "unknown"


def write(data: bytes) -> None:
    try:
        sys.stdout.buffer.write(data)
        sys.stdout.buffer.flush()
    except OSError:
        end("output: cannot be written", UNREADABLE)
