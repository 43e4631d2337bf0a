"""Ways to look for one answer, side by side, each in a process of its own, until one has it or the time is over."""
import contextlib
import multiprocessing
import os
import resource
import signal
import sys
import tempfile
import time
from multiprocessing.connection import Connection, wait
from pathlib import Path
from typing import Any, Callable, Container, Iterator

from workbench.proving.told import Hindered

MEMORY, HEAD_START, GLANCE, TICK, NICE = 4 << 30, 1.0, 0.05, 0.5, 5
Tell = Callable[[Any], None]


class Race:
    """The ways that run, by the pipes through which they tell. What files they make are in the folder."""

    def __init__(self, folder: str) -> None:
        self.folder = folder
        self.running: dict[Connection, str] = {}
        self.children: dict[str, Any] = {}

    def start(self, name: str, way: Callable[[Tell], None], nice: int) -> None:
        context = multiprocessing.get_context("fork")
        ours, theirs = context.Pipe(duplex=False)
        child = context.Process(target=alone, args=(way, theirs, nice, self.folder), daemon=True)
        child.start()
        theirs.close()
        self.children[name] = child
        self.running[ours] = name

    def told(self, until: float) -> Iterator[tuple[str, Any]]:
        """What they tell until then, or until all have ended; that one ended before it was done is told for it. Where nothing is told
        for a while, it is told that time has passed."""
        while self.running and (left := until - time.monotonic()) > 0:
            ready = wait(list(self.running), min(left, TICK))
            if not ready:
                yield "", None
            for pipe in ready:
                try:
                    yield self.running[pipe], pipe.recv()
                except EOFError:
                    name = self.running.pop(pipe)
                    if why := self.failure(name):
                        yield name, Hindered(why)

    def failure(self, name: str) -> str:
        """Why a way whose pipe is closed ended before it was done, or nothing."""
        child = self.children[name]
        child.join(1)
        if not child.exitcode:
            return ""
        return f"a search was stopped by signal {-child.exitcode}" if child.exitcode < 0 else "a search ended before it was done"

    def busiest(self) -> float:
        """How many seconds of a processor the one has had that has had most."""
        return max((processor_seconds(child.pid) for child in self.children.values() if child.is_alive()), default=0.0)

    def stop(self) -> None:
        """Ends what still runs, with all that it has started."""
        for child in self.children.values():
            if child.is_alive():
                child.kill()
                with contextlib.suppress(ProcessLookupError):
                    os.killpg(child.pid, signal.SIGKILL)
            child.join()


def raced(ways: dict[str, Callable[[Tell], None]], first: Container[str], seconds: float) -> Iterator[tuple[str, Any]]:
    """What the ways tell, each with the way's name, until all have ended, the time is over or nobody asks on. The first ones have a
    head start, which a busy machine makes no shorter, and more of the processors."""
    begun = time.monotonic()
    sys.stdout.flush()
    with tempfile.TemporaryDirectory(prefix="yampa-", ignore_cleanup_errors=True) as folder:
        race = Race(folder)
        try:
            for name in ways:
                if name in first:
                    race.start(name, ways[name], 0)
            while race.running and race.busiest() < HEAD_START and time.monotonic() < begun + seconds / 2:
                yield from race.told(time.monotonic() + GLANCE)
            for name in ways:
                if name not in first:
                    race.start(name, ways[name], NICE)
            yield from race.told(begun + seconds)
        finally:
            race.stop()


def processor_seconds(process: int) -> float:
    try:
        fields = Path(f"/proc/{process}/stat").read_text(encoding="ascii", errors="replace").rpartition(")")[2].split()
    except OSError:
        return 0.0
    return (int(fields[11]) + int(fields[12])) / os.sysconf("SC_CLK_TCK")


def limit_memory() -> None:
    """Holds this process to MEMORY, or to less where less is allowed already; the hard limit stays."""
    soft, hard = resource.getrlimit(resource.RLIMIT_AS)
    most = min(limit for limit in (MEMORY, soft, hard) if limit != resource.RLIM_INFINITY)
    resource.setrlimit(resource.RLIMIT_AS, (most, hard))


def alone(way: Callable[[Tell], None], pipe: Connection, nice: int, folder: str) -> None:
    """Runs a way in its process, in a group with all that it starts, with their files in the folder, which outlives them; one that fails
    tells nothing more, nor does a library whose threads can't start."""
    os.setpgid(0, 0)
    os.nice(nice)
    with open(os.devnull, "wb") as nowhere:
        os.dup2(nowhere.fileno(), 2)
    tempfile.tempdir = os.environ["TMPDIR"] = folder
    signal.signal(signal.SIGINT, signal.SIG_IGN)
    for number in (signal.SIGTERM, signal.SIGHUP):
        signal.signal(number, signal.SIG_DFL)
    limit_memory()
    way(pipe.send)
