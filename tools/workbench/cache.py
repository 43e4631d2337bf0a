"""What is kept in the user's cache folder: the core networks of files that the program can't read itself, and what else is dear to make.

A front end makes a core network of a file, such as one of Haskell. `keep_core` keeps it, so that the next call needs no front end:

    SUM.made      SUM is the sum of the file's bytes (SHA-256, in hexadecimal digits): a list of sums and paths as `sha256sum` prints it
    KEY.core      the network that the program reads

The lines of SUM.made are the core network; each file of the front end, below `@`, the folder of the tools; and each file that was read
besides, by its path from the file's folder, behind `./`. The core network is the right one as long as all
lines hold: `core_of` looks. The wrapper `yampa` looks in the same way, by `sha256sum` and without Python (`core_of` there). KEY is the
sum of the file and of what was made of it, and SUM.made takes its place last; so it makes no difference who else reads or keeps.
"""
import atexit
import contextlib
import hashlib
import os
import sys
import tempfile
from collections.abc import Iterable
from pathlib import Path

from workbench.ending import Refused, write

TOOLS = Path(__file__).resolve().parents[1]
MOST_KEPT = 500
# `sha256sum` writes paths with these in another way.
UNLISTED = (b"\\", b"\r")


def cache_folder() -> Path:
    given = os.environ.get("XDG_CACHE_HOME") or os.path.join(os.path.expanduser("~"), ".cache")
    return Path(given) / "yampa"


def keep(path: Path, data: bytes) -> None:
    """Puts what was made into the cache folder, where that can be, and takes out what was used longest ago."""
    path.parent.mkdir(parents=True, exist_ok=True)
    write(str(path), data)
    used = {}
    for one in path.parent.iterdir():
        # Another call may take out the same.
        with contextlib.suppress(FileNotFoundError):
            if one.is_file():
                used[one] = one.stat().st_mtime
    for one in sorted(used, key=lambda one: used[one])[:-MOST_KEPT]:
        one.unlink(missing_ok=True)


def kept_beside(data: bytes) -> str:
    """A file that holds what was made until this program ends, where there is no cache."""
    stack = contextlib.ExitStack()
    atexit.register(stack.close)
    file = stack.enter_context(tempfile.NamedTemporaryFile(prefix="yampa-"))
    file.write(data)
    file.flush()
    return file.name


def sum_of(data: bytes) -> str:
    return hashlib.sha256(data).hexdigest()


# ---- core networks


def made_file(data: bytes, made: bytes) -> Path:
    """A file of the cache folder that holds the core network that was made of a file with these bytes."""
    path = cache_folder() / f"{sum_of(sum_of(data).encode() + made)}.core"
    if path.is_file() and path.read_bytes() == made:
        path.touch()
    else:
        keep(path, made)
    return path


def core_file(data: bytes, core: bytes) -> str:
    """A file that holds the core network of a file with these bytes, and can be read more than once."""
    try:
        return str(made_file(data, core))
    except (OSError, Refused):
        return kept_beside(core)


def keep_core(name: str, data: bytes, core: bytes, read: dict[str, bytes]) -> None:
    """Keeps the core network that is made of a file with this name and these bytes, for which the files `read` were read too: by their
    paths, with what they held. Where that can't be, nothing is kept."""
    folder = os.path.dirname(name) or "."
    with contextlib.suppress(OSError, Refused):
        lines = [line_of(core, os.fsencode(made_file(data, core)))]
        lines += [line_of(path.read_bytes(), b"@/" + os.fsencode(path.relative_to(TOOLS))) for path in front_end()]
        lines += [line_of(held, b"./" + os.fsencode(os.path.relpath(path, folder))) for path, held in read.items()]
        listed = b"".join(lines)
        if listed.count(b"\n") == len(lines) and not any(byte in listed for byte in UNLISTED):
            keep(cache_folder() / f"{sum_of(data)}.made", listed)


def line_of(held: bytes, path: bytes) -> bytes:
    return sum_of(held).encode() + b"  " + path + b"\n"


def front_end() -> Iterable[Path]:
    """The files of the tools that made what this program made."""
    files = {Path(file).resolve() for module in list(sys.modules.values()) if (file := getattr(module, "__file__", None))}
    return sorted(file for file in files if TOOLS in file.parents)


def core_of(name: str, data: bytes) -> str | None:
    """The path of the core network that is kept of a file with this name and these bytes, or None."""
    folder = os.path.dirname(name) or "."
    try:
        lines = (cache_folder() / f"{sum_of(data)}.made").read_bytes().splitlines()
        held = [bytes_at(line[66:], folder) for line in lines]
    except OSError:
        return None
    if not lines or any(sum_of(one).encode() != line[:64] for one, line in zip(held, lines)):
        return None
    return os.fsdecode(lines[0][66:])


def bytes_at(path: bytes, folder: str) -> bytes:
    """What the file of a line holds."""
    whole = os.fsencode(TOOLS) + path[1:] if path.startswith(b"@/") else os.path.join(os.fsencode(folder), path)
    with open(whole, "rb") as file:
        return file.read()
