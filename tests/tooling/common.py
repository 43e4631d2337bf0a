"""What the modules beside this one try the tools with.

A module is a topic: the runner, `tests/tools`, finds it and calls its `try_all`. A module may say what it `NEEDS` of PACKAGES, without
which it is left out, and that it runs `ALONE`, where others beside it would spoil what it finds.
"""
import contextlib
import os
import shlex
import shutil
import subprocess
import sys
import tempfile
import xml.dom.minidom
from collections.abc import Callable, Iterable, Iterator
from concurrent.futures import ThreadPoolExecutor
from pathlib import Path
from typing import Any

TOP = Path(__file__).resolve().parents[2]
sys.path.insert(0, str(TOP / "tools"))
sys.setrecursionlimit(20_000)

# pylint: disable=wrong-import-position
from model.trees import is_network  # noqa: E402

# What is tried with more than Python, and the Debian packages that bring it.
PACKAGES = {"dot": "graphviz", "matplotlib": "python3-matplotlib", "chromium": "chromium"}
PACKAGES |= {"cvc5": "cvc5", "clang": "clang", "wasm-ld": "lld", "node": "nodejs"}
PACKAGES |= {"jinja2": "python3-jinja2", "distributed": "python3-distributed", "z3": "python3-z3"}
PROGRAMS = ["dot", "chromium", "cvc5", "clang", "wasm-ld", "node"]
TOOLS = [line.split()[0] for line in (TOP / "tools/list").read_text().splitlines() if not line.startswith("#")]
EXAMPLES = sorted(path.parent for path in (TOP / "examples").glob("*/net"))
WHOLE = [example for example in EXAMPLES if not (example / "error").exists()]
# Each example's file of Haskell, of those that have one.
HASKELL = sorted(path for path in (TOP / "examples").glob("*/*.hs") if path.stem.lower() == path.parent.name)
NUMBERS = "yampa 1\ninput Int\n"
SECONDS = 120


class Tally:
    """Counts what passed, and tells what failed and what was left out."""

    def __init__(self) -> None:
        self.passed, self.failed = 0, 0
        self.left_out: list[str] = []

    def want(self, name: str, holds: object, found: object = "") -> None:
        if holds:
            self.passed += 1
        else:
            self.failed += 1
            print(f"FAILED {name}: {str(found)[:600]}", flush=True)

    def leave_out(self, what: str) -> None:
        self.left_out.append(what)


TALLY = Tally()
want = TALLY.want
leave_out = TALLY.leave_out


def there(name: str) -> bool:
    """Whether a library or a program is on this machine."""
    if name in PROGRAMS:
        return shutil.which(name) is not None
    return subprocess.run(["/usr/bin/python3", "-c", f"import {name}"], capture_output=True, check=False).returncode == 0


def tool(name: str, *words: object, stream: str | bytes = b"", folder: Path | None = None, **settings: str) -> tuple[int, str, str]:
    """A tool's status, and what it prints."""
    data = stream.encode() if isinstance(stream, str) else stream
    command, env = [TOP / "tools/tool", name, *patient(map(str, words))], {**os.environ, **settings}
    most = SECONDS * (3 if os.environ.get("DEAR") else 1) * patience()
    ran = subprocess.run(command, input=data, capture_output=True, cwd=folder, env=env, timeout=most, check=False)
    return ran.returncode, ran.stdout.decode(errors="replace"), ran.stderr.decode(errors="replace")


def patience() -> int:
    """How many times the usual seconds all may take."""
    return int(os.environ.get("PATIENCE", "1"))


def patient(words: Iterable[str]) -> Iterator[str]:
    """The words, with as many more seconds."""
    before = ""
    for word in words:
        yield str(patience() * int(word)) if before == "--seconds" and word.isdecimal() else word
        before = word


def each(run: Callable[[Any], Any], items: Iterable[Any], at_once: int | None = None) -> list[tuple[Any, Any]]:
    """Each item, as an example, with what comes of it; several are run at once, or as many as is told."""
    items = list(items)
    with ThreadPoolExecutor(at_once or len(os.sched_getaffinity(0))) as pool:
        return list(zip(items, pool.map(run, items)))


def stream_of(example: Path) -> bytes:
    return (example / "stream").read_bytes()


@contextlib.contextmanager
def own_folder() -> Iterator[Path]:
    """A folder for files, which is removed behind the use."""
    with tempfile.TemporaryDirectory(prefix="tools-") as folder:
        yield Path(folder)


def in_folder(words: Iterable[object], **texts: str | bytes) -> tuple[int, str, str]:
    """What a tool says of files with these texts, in a folder of their own."""
    with own_folder() as folder:
        in_files(folder, **texts)
        return tool(*words, folder=folder)  # type: ignore[arg-type]


def in_files(folder: Path, **texts: str | bytes) -> list[Path]:
    """Files with these texts; their paths in the same order."""
    paths = []
    for name, text in texts.items():
        path = folder / name
        path.write_bytes(text if isinstance(text, bytes) else text.encode())
        paths.append(path)
    return paths


# The program with the tools beside it, as the wrapper calls them.
WITH_TOOLS = """#!/bin/bash
export YAMPA={program}
if grep -q "^$1 " {top}/tools/list; then exec {top}/tools/tool "$@"; fi
for word; do
    case $word in *.hs) exec {top}/tools/sourced "$YAMPA" "$@" ;; esac
done
exec "$YAMPA" "$@"
"""


def with_tools(folder: Path, program: str) -> Path:
    """`yampa` in that folder, which calls the program and the tools beside it."""
    return written(folder / "yampa", WITH_TOOLS.format(top=shlex.quote(str(TOP)), program=shlex.quote(program)))


def written(path: Path, text: str) -> Path:
    """A program that holds this text."""
    path.parent.mkdir(parents=True, exist_ok=True)
    path.write_text(text)
    path.chmod(0o755)
    return path


def networks_in(whole):
    """The positions at which networks stand."""
    return [position for position in whole.rows if is_network(whole.at(position))]


def some(items, most):
    """At most about so many of the items, from all of their length."""
    return items[:: 1 + len(items) // most]


def texts_of(svg: str) -> set[str]:
    """The texts that stand in a drawing."""
    return {"".join(part.data for part in node.childNodes) for node in xml.dom.minidom.parseString(svg).getElementsByTagName("text")}


def is_xml(text: str) -> bool:
    try:
        xml.dom.minidom.parseString(text)
        return True
    except xml.parsers.expat.ExpatError:
        return False
