"""What the program is made of: its sources, their sum, and the programs that were built of them.

A proved program is `yampa` in crates/yampa/out, with its sum in `yampa.sources`; an unproved build is `yampa` in a folder of
crates/yampa/out/unproved that is called by its sum. A program has the date at which its sources were read: whatever was written, came or
went since then is newer, so that the wrapper `yampa` sees in a moment whether a program is of the sources that are there. Proofs
aren't in the sum: what was proved stays so where a proof changes.
"""
from __future__ import annotations

import contextlib
import hashlib
import os
from pathlib import Path

TOP = Path(__file__).resolve().parent.parent
PROGRAM = "yampa"
OUT = TOP / "crates" / PROGRAM / "out"
PROVED = OUT / PROGRAM
UNPROVED = OUT / "unproved"
PARTS = ["src", "specs"]
# The clocks of file systems are late, some by seconds.
LATE = 2_000_000_000


def rows(top: Path = TOP) -> dict[str, tuple[str, list[str]]]:
    """The lines of crates.txt by the names of their crates, and of each crate those that it names."""
    found = {}
    for line in (top / "crates.txt").read_text().split("\n"):
        name, colon, named = line.partition("#")[0].partition(":")
        if colon:
            found[name.strip()] = (line, named.split())
    return found


def crates_of_program(top: Path = TOP) -> list[str]:
    """The crates that the program stands on, and its own, lowest first."""
    listed, found = rows(top), dict[str, None]()

    def visit(name: str) -> None:
        if name in listed and name not in found:
            for other in listed[name][1]:
                visit(other)
            found[name] = None

    visit(PROGRAM)
    return list(found)


def sum_of_sources(top: Path = TOP) -> str:
    """The sum of all that the program is made of."""
    total, listed = hashlib.sha256(), rows(top)
    for name in crates_of_program(top):
        folder = top / "crates" / name
        total.update(listed[name][0].encode())
        for path in sorted(path for part in PARTS for path in (folder / part).rglob("*") if path.is_file()):
            total.update(repr((str(path.relative_to(top)), path.read_bytes())).encode())
    return total.hexdigest()


# ---- programs


def program_of(total: str, began: int) -> Path | None:
    """The program of the sources of this sum, the proved one where there is both; it is dated at this time, at which the sum was begun."""
    with contextlib.suppress(OSError):
        if PROVED.is_file() and noted().read_text().strip() == total:
            note(total, began)
            return PROVED
    kept = UNPROVED / total / PROGRAM
    if not kept.is_file():
        return None
    with contextlib.suppress(OSError):
        date(kept, began)
    return kept


def noted() -> Path:
    """The file in which the proved program's sum stands."""
    return PROVED.with_name(f"{PROGRAM}.sources")


def note(total: str, began: int) -> None:
    """Dates the proved program, and then notes its sum: it is newer than the program alone where both belong together."""
    date(PROVED, began)
    beside = PROVED.with_name(f"{PROGRAM}.sources.{os.getpid()}")
    beside.write_text(total + "\n")
    beside.replace(noted())


def date(program: Path, began: int) -> None:
    os.utime(program, ns=(began - LATE, began - LATE))
