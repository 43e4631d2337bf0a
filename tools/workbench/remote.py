"""Calls of the program and of the tools on a worker of a Dask cluster. This is sent there as it stands, so it names nothing of the workbench."""
import contextlib
import io
import os
import resource
import shutil
import subprocess
import tarfile
import tempfile
import time
import zlib
from collections.abc import Callable
from pathlib import Path


# What is sent along: its sum, which is reckoned once where it comes from, and its bytes.
Sent = tuple[str, bytes]


def held(sent: Sent) -> Sent:
    """What is sent along once, and made anew where the worker that had it dies."""
    return sent


def runs_there(words: list[int | str], stack: int, streams: list[bytes], *sent: Sent) -> list[tuple[int, bytes, str, float]]:
    """The status, the output, squeezed, what was told, and the seconds of a run on each of these streams. In the words numbers stand for
    what was sent; the stack may become as large as is said."""
    command = [str(kept_file(sent[word])) if isinstance(word, int) else word for word in words]
    return [run_there(command, stack, stream) for stream in streams]


def run_there(command: list[str], stack: int, stream: bytes) -> tuple[int, bytes, str, float]:
    began = time.perf_counter()
    ran = subprocess.run(command, input=zlib.decompress(stream), capture_output=True, check=False, preexec_fn=room_for(stack) if stack else None)
    return ran.returncode, zlib.compress(ran.stdout, 1), ran.stderr.decode(errors="replace"), time.perf_counter() - began


def room_for(stack: int) -> Callable[[], None]:
    """Lets the stack become as large as this, or as is allowed."""
    soft, hard = resource.getrlimit(resource.RLIMIT_STACK)
    if soft != resource.RLIM_INFINITY:
        soft = max(soft, stack if hard == resource.RLIM_INFINITY else min(stack, hard))
    return lambda: resource.setrlimit(resource.RLIMIT_STACK, (soft, hard))


def work_there(program: Sent, tools: Sent, words: list, files: dict) -> tuple[int, str, str, dict, float]:
    """The status, what was printed and told, the files that were made, and the seconds of a command of the program, or of a tool, in a
    folder with these files."""
    began, own = time.perf_counter(), kept_file(program)
    folder = kept_folder(tools)
    command = folder / ("search" if words[0] == "improve" else "tool")
    env = {**os.environ, "YAMPA": str(own), "YAMPA_SEARCH": str(folder / "yampa-search")}
    with tempfile.TemporaryDirectory(prefix="yampa-") as room:
        for name, data in files.items():
            path = Path(room, name)
            path.parent.mkdir(parents=True, exist_ok=True)
            path.write_bytes(data)
        ran = subprocess.run([command, *words], cwd=room, stdin=subprocess.DEVNULL, capture_output=True, env=env, check=False)
        found = {str(path.relative_to(room)): path for path in Path(room).rglob("*") if path.is_file()}
        made = {name: path.read_bytes() for name, path in found.items() if name not in files}
    return ran.returncode, ran.stdout.decode(errors="replace"), ran.stderr.decode(errors="replace"), made, time.perf_counter() - began


def kept_folder(sent: Sent) -> Path:
    """A folder of one's own with the files of an archive, by its sum; it is put there whole."""
    path, packed = own_folder() / sent[0], sent[1]
    if not path.exists():
        beside = tempfile.mkdtemp(dir=own_folder())
        with tarfile.open(fileobj=io.BytesIO(zlib.decompress(packed))) as files:
            files.extractall(beside)
        # Where another call was quicker, its folder stays.
        with contextlib.suppress(OSError):
            os.rename(beside, path)
        shutil.rmtree(beside, ignore_errors=True)
    return path


def own_folder() -> Path:
    """Where a worker of this user keeps what was sent to it."""
    folder = Path(tempfile.gettempdir()) / f"yampa-worker-{os.getuid()}"
    folder.mkdir(mode=0o700, exist_ok=True)
    if folder.stat().st_uid != os.getuid():
        raise PermissionError(f"{folder} belongs to somebody else")
    return folder


def kept_file(sent: Sent) -> Path:
    """A file of one's own with the bytes that were sent, by their sum; it is put there whole."""
    path = own_folder() / sent[0]
    if not path.exists():
        handle, beside = tempfile.mkstemp(dir=path.parent)
        with os.fdopen(handle, "wb") as file:
            file.write(sent[1])
        os.chmod(beside, 0o700)
        os.replace(beside, path)
    return path
