"""Many recordings run at once, here and on a Dask cluster of two workers on the loopback address, one of which is killed."""
import contextlib
import random
import socket
import subprocess
import sys
import time
from collections.abc import Iterator
from pathlib import Path

from workbench.program import again, call

from tooling.common import NUMBERS, in_files, leave_out, own_folder, there, tool, want

MANY = 1_000
# Of a recording the sum of its numbers so far, reckoned here; the network is a loop.
SUMS = NUMBERS + "(loopPre 0 (arr (then (add (fst x) (snd x)) (pair x x))))"


def recordings(folder: Path, count: int) -> None:
    """Recordings of random numbers, and what is expected of each."""
    for number in range(count):
        rng = random.Random(number)
        values = [rng.randint(-99, 99) for _ in range(rng.randint(1, 20))]
        sums = [sum(values[: place + 1]) for place in range(len(values))]
        lines = [str(values[0]), *[f"+{rng.randint(1, 5)} {value}" for value in values[1:]]]
        for place, texts in [("given", lines), ("wanted", sums)]:
            (folder / place).mkdir(exist_ok=True)
            (folder / place / f"r{number:04}").write_text("".join(f"{text}\n" for text in texts))


def runs_are_counted(folder: Path) -> None:
    (net,) = in_files(folder, net=SUMS)
    recordings(folder, 20)
    words = [net, folder / "given", "--expect", folder / "wanted", "--out", folder / "out"]
    status, told, _ = tool("batch", *words)
    want("batch", status == 0 and told.endswith("20 recordings: 20 as expected\n") and told.count("\n") == 21, told)
    same = all((folder / "out" / path.name).read_bytes() == path.read_bytes() for path in (folder / "wanted").iterdir())
    want("batch --out", same)
    (folder / "wanted/r0003").write_text("1\n")
    (folder / "given/r0005").write_text("1\n+0 2\n")
    (folder / "given/r0007").write_bytes(b"\xff")
    status, told, _ = tool("batch", *words)
    rows = {line.split("\t")[0]: line for line in told.splitlines()}
    want("batch, another output", "where 1 is expected" in rows["r0003"] and status == 1, told)
    want("batch, a faulty line", rows["r0005"].endswith("stream: line 2: step") and "\t1 samples\tstatus 1\t" in rows["r0005"], told)
    want("batch, counted", told.endswith("20 recordings: 17 as expected, 1 different, 2 refused\n"), told)


def compiled_runs_are_counted(folder: Path) -> None:
    """The compiled network runs them; a compiler whose programs do otherwise is found out by the first of them."""
    (net,) = in_files(folder, net=SUMS)
    recordings(folder, 20)
    cache = {"XDG_CACHE_HOME": str(folder / "cache")}
    words = ["batch", "--native", net, folder / "given", "--expect", folder / "wanted", "--out", folder / "out"]
    status, told, _ = tool(*words, **cache)
    want("batch --native", status == 0 and told.endswith("20 recordings: 20 as expected\n") and told.count("\n") == 21, told)
    same = all((folder / "out" / path.name).read_bytes() == path.read_bytes() for path in (folder / "wanted").iterdir())
    want("batch --native --out", same)
    (folder / "given/r0005").write_text("1\n+0 2\n")
    told = tool(*words, **cache)
    want("batch --native, a faulty line", told[0] == 1 and "r0005\t1 samples\tstatus 1\t" in told[1] and "stream: line 2: step" in told[1], told)
    other = folder / "other"
    other.write_text('#!/bin/sh\nwhile [ "$1" != -o ]; do shift; done\nprintf "#!/bin/sh\\nexec cat\\n" > "$2"\nchmod +x "$2"\n')
    other.chmod(0o755)
    lists_of_lists(folder, cache)
    told = tool("batch", "--native", net, folder / "given", CC=str(other), **cache)
    want("batch --native, another program", told == (3, "", "yampa batch: the compiled network doesn't do on r0000 what `run` does\n"), told)
    told = tool("batch", "--native", net, folder / "given", CC="none", XDG_CACHE_HOME=str(folder / "empty"))
    want("batch --native, no compiler", told[0] == 3 and told[1] == "" and "there is no C compiler none" in told[2], told)


def lists_of_lists(folder: Path, cache: dict[str, str]) -> None:
    """Of which a compiled network has room only where it is said how long they are."""
    net, short, long = in_files(folder, lists="yampa 1 input (List (List Int)) (iPre (list (List Int)))", short="(list (list 1 2))\n+1 =\n", long="(list)\n+1 (list (list 1 2 3))\n")
    told = tool("batch", "--native", net, short, **cache)
    want("batch --native, lists of lists", told == (1, "", "network: state too large at (at): give --most\n"), told)
    told = tool("batch", "--native", "--most", 2, net, short, long, **cache)
    rows = told[1].splitlines()
    want("batch --native --most", told[0] == 1 and rows[0].startswith("short\t2 samples\tstatus 0\t") and rows[1].endswith("\tstream: line 2: too many elements at 16"), told)
    told = tool("batch", "--most", 2, net, short, **cache)
    want("batch --most alone", told[0] == 2 and told[2].splitlines()[-1].endswith("--most: for --native alone"), told)


def faults_are_told(folder: Path) -> None:
    (net,) = in_files(folder, net=SUMS)
    recordings(folder, 2)
    one = folder / "given/r0001"
    for what, words, status, line in [
        ("a file twice", [net, one, one], 2, "yampa batch: two recordings are called r0001\n"),
        ("no jobs", [net, one, "--jobs", 0], 2, "--jobs: at least 1 is wanted"),
        ("no network", [folder / "none", one], 3, "none: no such file or directory"),
        ("no scheduler", [net, one, "--cluster", "127.0.0.1:1"], 3, "no scheduler answers" if there("distributed") else "python3-distributed"),
    ]:
        told = tool("batch", *words)
        want(f"batch, {what}", told[0] == status and line in told[2] and told[1] == "", told)
    status, told, _ = tool("batch", net, one, folder / "none")
    want("batch, a recording that isn't there", status == 3 and told.endswith("2 recordings: 1 unreadable\n"), told)


# ---- a cluster


@contextlib.contextmanager
def cluster(folder: Path) -> Iterator[tuple[str, list[subprocess.Popen]]]:
    """The address of a scheduler with two workers, and the workers."""
    with socket.socket() as free:
        free.bind(("127.0.0.1", 0))
        port = free.getsockname()[1]
    address, quiet = f"127.0.0.1:{port}", {"stdout": subprocess.DEVNULL, "stderr": subprocess.DEVNULL, "cwd": folder}
    python = "/usr/bin/python3" if Path("/usr/bin/python3").exists() else sys.executable
    begin = [python, "-m"]
    started = [subprocess.Popen([*begin, "distributed.cli.dask_scheduler", "--host", "127.0.0.1", "--port", str(port), "--no-dashboard"], **quiet)]
    for name in ["one", "two"]:
        own = ["--host", "127.0.0.1", "--nthreads", "1", "--no-nanny", "--no-dashboard", "--local-directory", str(folder / name)]
        started.append(subprocess.Popen([*begin, "distributed.cli.dask_worker", address, *own], **quiet))
    try:
        yield address, started[1:]
    finally:
        for process in started:
            process.kill()
            process.wait()


def cluster_answers(folder: Path) -> None:
    """A thousand recordings, of which each has its output, in order, though a worker dies in the middle."""
    (net,) = in_files(folder, net=SUMS)
    recordings(folder, MANY)
    with cluster(folder) as (address, workers):
        time.sleep(5)
        words = ["batch", net, folder / "given", "--expect", folder / "wanted", "--cluster", address]
        with subprocess.Popen([tool_path(), *map(str, words)], stdout=subprocess.PIPE, text=True) as batch:
            lines = []
            for line in batch.stdout or []:
                lines.append(line)
                if len(lines) == MANY // 4:
                    workers[0].kill()
        want("batch --cluster", batch.returncode == 0 and lines[-1] == f"{MANY} recordings: {MANY} as expected\n", lines[-3:])
        names = [line.split("\t")[0] for line in lines[:-1]]
        want("batch --cluster, in order", names == sorted(names) and len(names) == MANY, names[:5])
        (folder / "given/r0005").unlink()
        (folder / "given/r0005").symlink_to("nowhere")
        for more in ([], ["--native"]):
            status, told, _ = tool("batch", net, folder / "given/r0005", *words[2:], *more)
            wanted = f"\n{MANY} recordings: {MANY - 1} as expected, 1 unreadable\n"
            want(f"batch --cluster {more}, one that isn't there", status == 3 and told.endswith(wanted), told[-300:])
        networks_are_spread(folder, address)


SMALL = "module Small where\nimport Yampa.Whole\nimport Limits\nsmall :: SF Int Bool\nsmall = arr (< limit)\n"
LIMITS = "module Limits where\nlimit :: Int\nlimit = 7\n"


def networks_are_spread(folder: Path, address: str) -> None:
    """`improve`, `falsify` and `prove` of several networks, one of them of two files, on the worker that is left."""
    texts = {"sum": NUMBERS + "(>>> (arr (add x 1)) (arr (mul x 2)))", "Small.hs": SMALL, "Limits.hs": LIMITS}
    sums, small, _, holds = in_files(folder, **texts, holds=NUMBERS + "(arr (equal x x))")
    to = ["--cluster", address]
    status, told, error = tool("improve", *to, "--out", folder / "made", sums, small)
    rows = [line.split("\t") for line in told.splitlines()]
    made = [tool("differ", net, folder / "made" / net.stem, "--seconds", "20")[0] for net in (sums, small)]
    want("improve --cluster", status == 0 and [row[0] for row in rows] == [str(sums), str(small)] and made == [0, 0], told + error)
    status, told, error = tool("falsify", *to, "--seeds", 2, "--seconds", 5, small, holds)
    wanted = [f"{small} seed 1", f"{small} seed 2", f"{holds} seed 1", f"{holds} seed 2"]
    want("falsify --cluster", status == 1 and [line.split("\t")[0] for line in told.splitlines()] == wanted, told + error)
    false = [call(["run", again(str(small))], (folder / f"Small.hs.false.{seed}").read_bytes()).output for seed in (1, 2)]
    want("falsify --cluster, recordings", all(output.endswith(b"false\n") for output in false), false)
    status, told, error = tool("prove", "--cluster", address, "--seconds", 20, "--assume", holds, holds, small)
    want("prove --cluster", status == 1 and f"false at sample 1: {small}.false" in told and f"{holds}\t" in told and "holds on every" in told, told + error)
    for words, wanted in [(["improve", *to, "--out", folder, sums, sums], 2), (["improve", *to, sums], 2), (["prove", *to, folder / "none"], 3)]:
        status, told, error = tool(*words)
        want(f"{words} refused", status == wanted and not told and "Traceback" not in error, error)


def tool_path() -> str:
    return str(Path(__file__).resolve().parents[2] / "tools/tool")


def try_all() -> None:
    for work in [runs_are_counted, compiled_runs_are_counted, faults_are_told]:
        with own_folder() as folder:
            work(folder)
    if not there("distributed"):
        leave_out("since python3-distributed isn't here: batch --cluster")
        return
    with own_folder() as folder:
        cluster_answers(folder)
