"""Files and streams that are no text, never end, can't be read or written: each tool tells it in a line, and leaves nothing behind."""
import contextlib
import os
import subprocess
import tempfile
from pathlib import Path
from typing import IO

from tooling.common import NUMBERS, SECONDS, TOOLS, TOP, each, in_files, own_folder, want

INCREMENT = NUMBERS + "(>>> (arr (add x 1)) (iPre 0))"
OBSERVER = NUMBERS + "(arr (equal x x))"
# What each tool is called with; those that read a stream do it from standard input, or from the file `stream`.
CALLS = {
    "batch": ["net", "stream"],
    "certify": ["net", "net"],
    "compare": ["net", "net"],
    "coverage": ["net", "stream"],
    "csv": ["net", "-o", "out"],
    "differ": ["net", "net", "--seconds", "1", "-o", "out"],
    "draw": ["net", "-o", "out"],
    "expand": ["net", "-o", "out"],
    "explain": ["net", "stream"],
    "falsify": ["net", "--seconds", "1", "-o", "out"],
    "fmt": ["net"],
    "haskell": ["net", "-o", "out"],
    "improve": ["net"],
    "live": ["net", "-o", "out"],
    "native": ["net"],
    "plot": ["net", "-o", "out"],
    "prove": ["net", "--seconds", "2"],
    "report": ["net", "stream", "-o", "out"],
    "step": ["net", "stream", "-o", "out"],
    "tidy": ["-o", "out"],
    "timed": ["net"],
    "watch": ["net", "--at", "0", "-o", "out"],
    "waves": ["net", "stream", "-o", "out"],
}
# What is no text of a network, or of a stream, and goes on for long.
BYTES = bytes(range(256))
FILES = {
    "empty": b"",
    "binary": BYTES * 40,
    "marked": b"\xef\xbb\xbf" + INCREMENT.encode(),
    "long": (NUMBERS + "(arr x)" + " " * 3_000_000).encode(),
    "zeros": Path("/dev/zero"),
    "unreadable": Path("/proc/self/mem"),
    "folder": Path("/"),
}
STREAMS = {
    "empty": b"",
    "binary": BYTES * 40,
    "marked": b"\xef\xbb\xbf5\n+1 6\n",
    "returned": b"5\r\n+1 6\r\n",
    "zeros": Path("/dev/zero"),
    "unreadable": Path("/proc/self/mem"),
}
# What those use that let a stream pass through, in bytes.
MOST_MEMORY = 60_000_000
# Runs a command, and tells behind what that says on standard error how many kilobytes it took. A process counts what the one took that it
# was forked off, so it's a small one that does this.
MEASURED = """import resource, subprocess, sys
status = subprocess.run(sys.argv[1:]).returncode
sys.stderr.write(f"\\n{resource.getrusage(resource.RUSAGE_CHILDREN).ru_maxrss}")
sys.exit(status)"""


def contents(file: IO[bytes]) -> str:
    file.seek(0)
    return file.read().decode(errors="replace")


def without_note(error: str) -> str:
    """Standard error without the line that a library is missing, which isn't the end."""
    return "".join(line for line in error.splitlines(keepends=True) if not line.endswith("so at random alone\n"))


class Ended:
    """How a tool ended: its status, and what it printed."""

    def __init__(self, words: list[str], folder: Path, stream: Path | None, output: str | None = None):
        with contextlib.ExitStack() as files:
            out, error = (files.enter_context(tempfile.TemporaryFile()) for _ in range(2))
            given = os.open(stream or os.devnull, os.O_RDONLY)
            files.callback(os.close, given)
            to = files.enter_context(open(output, "wb")) if output else out
            run = subprocess.Popen(["timeout", str(SECONDS), TOP / "tools/tool", *words], cwd=folder, stdin=given, stdout=to, stderr=error)
            self.status = run.wait()
            self.output, self.error = contents(out), without_note(contents(error))

    def is_told(self) -> bool:
        """Whether the end is one line, with a status that says so, and no fault of the tool's own."""
        lines = self.error.count("\n")
        return self.status in (0, 1, 3, 4) and lines <= (1 if self.status else 9) and "Traceback" not in self.error and "defect" not in self.error

    def __str__(self) -> str:
        return f"{self.status} {self.error[-300:]} {self.output[:200]}"


def placed(folder: Path, name: str, held: bytes | Path) -> Path:
    """A file with these bytes, or a link to where they are."""
    path = folder / name
    if isinstance(held, Path):
        path.symlink_to(held)
    else:
        path.write_bytes(held)
    return path


def tried(case: tuple[str, bytes | Path, bytes | Path]) -> tuple[Ended, list[str]]:
    """How a tool ends of this network and this stream, and what stands in its folder behind it."""
    name, net, stream = case
    with own_folder() as folder:
        placed(folder, "net", net)
        given = placed(folder, "stream", stream)
        in_files(folder, out="before")
        found = Ended([name, *CALLS[name]], folder, given)
        # What these show of a run up to a fault, they write.
        kept = ["changed"] if found.status and name not in ("plot", "step") and (folder / "out").read_text() != "before" else []
        return found, kept + [path for path in os.listdir(folder) if path not in ("net", "stream", "out")]


def network_for(name: str) -> str:
    """A network that the tool takes."""
    return OBSERVER if name in ("falsify", "prove") else INCREMENT


def files_are_told() -> None:
    cases = [(kind, (name, held, b"5\n+1 6\n")) for name in CALLS if name != "tidy" for kind, held in FILES.items()]
    good = {name: network_for(name) for name in CALLS}
    cases += [(f"stream {kind}", (name, good[name].encode(), held)) for name in CALLS for kind, held in STREAMS.items()]
    for (kind, case), (found, left) in each(lambda case: tried(case[1]), cases):
        want(f"{case[0]}: {kind}", found.is_told() and not left, f"{found} {left}")


def outputs_are_told() -> None:
    """A full disk, and a standard stream that is closed, are told; a pipe that nobody reads is not."""
    for name, words in CALLS.items():
        with own_folder() as folder:
            in_files(folder, net=network_for(name), stream="time,x\n0,5\n" if name == "csv" else "5\n+1 6\n")
            plain = words[: words.index("-o")] if "-o" in words else words
            found = Ended([name, *plain], folder, folder / "stream", "/dev/full")
            want(f"{name} on a full disk", found.is_told() and found.status in (0, 3, 4), found)
            if "-o" in words:
                found = Ended([name, *plain, "-o", "/dev/full"], folder, folder / "stream")
                want(f"{name} into a full disk", found.is_told() and found.status in (0, 3, 4), found)
            for closed in ("<&-", ">&-", "2>&-"):
                line = f'exec "$@" {closed}'
                ran = subprocess.run(["bash", "-c", line, "bash", TOP / "tools/tool", name, *plain], cwd=folder, input=b"5\n", capture_output=True, timeout=SECONDS, check=False)
                told = ran.stderr.decode()
                want(f"{name} {closed}", ran.returncode in (0, 1, 3, 4) and told.count("\n") <= 2 and "Traceback" not in told and "defect" not in told, ran)
            line = '"$@" < stream | true; echo ${PIPESTATUS[0]}'
            ran = subprocess.run(["bash", "-c", line, "bash", TOP / "tools/tool", name, *plain], cwd=folder, capture_output=True, timeout=SECONDS, check=False)
            want(f"{name} | true", ran.stdout in (b"141\n", b"0\n", b"1\n", b"3\n", b"4\n") and without_note(ran.stderr.decode()).count("\n") <= 1, ran)


def streams_pass_through() -> None:
    """In little memory, however long they are."""
    with own_folder() as folder:
        in_files(folder, net=INCREMENT, stream="5\n" + "+1 6\n" * 400_000, table="time,x\n" + "".join(f"{k},6\n" for k in range(200_000)))
        calls = {"timed": ["net"], "tidy": [], "csv": ["net"], "csv --back": ["--input", "net"], "compare": ["net", "net"]}
        for name, words in calls.items():
            command = ["/usr/bin/python3", "-S", "-c", MEASURED, TOP / "tools/tool", *name.split(), *words]
            with (folder / ("table" if name == "csv" else "stream")).open("rb") as given:
                ran = subprocess.run(command, cwd=folder, stdin=given, stdout=subprocess.DEVNULL, stderr=subprocess.PIPE, timeout=SECONDS, check=False)
            memory = int(ran.stderr.split()[-1]) * 1024
            want(f"{name} of a long stream", ran.returncode == 0 and memory < MOST_MEMORY, ran.stderr)


def files_keep_their_modes() -> None:
    with own_folder() as folder:
        for mode in (0o600, 0o755):
            (net,) = in_files(folder, net=INCREMENT)
            net.chmod(mode)
            Ended(["fmt", "--write", "net"], folder, None)
            want(f"the mode {mode:o}", net.stat().st_mode & 0o777 == mode, oct(net.stat().st_mode))


def try_all() -> None:
    want("each tool has its call", {*TOOLS} == {*CALLS, "tour"}, {*TOOLS} ^ {*CALLS})
    files_are_told()
    outputs_are_told()
    streams_pass_through()
    files_keep_their_modes()
