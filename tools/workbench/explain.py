"""Explains each fault: the place in the file, what is wanted and what is found, and how to mend it."""
import os
import sys
from collections.abc import Callable
from typing import NoReturn

from workbench.ending import REFUSED, UNREADABLE, Refused, Words, read, stream_bytes
from workbench.faults import Files, explained, unread
from workbench.program import again, call
from workbench.telling import Told

ABOUT = """Runs the program on the files, and explains the error that it prints, if any.

  yampa explain NET                 a network
  yampa explain NET STREAM          a run of it on a recorded stream
  yampa explain SRC TGT CERT        a certificate
  yampa explain --line LINE FILE .. an error line that was printed before, for these files

The types that it shows are the program's. If nothing is rejected, the tool says so, and the status is 0;
else it is 1, or 3 if a file can't be read."""


def roles_of(names: list) -> tuple:
    """The files by role, and the stream, as their number says."""
    if len(names) == 3:
        return dict(zip(("source", "target", "certificate"), names)), None
    return {"network": names[0]}, names[1] if len(names) == 2 else None


def fault_of(files: Files, stream) -> str:
    """The fault line that the program tells of the files, or an empty one."""
    if len(files.paths) == 3:
        return call(["check", *files.paths.values()]).line()
    if stream is None:
        return call(["types", files.paths["network"]]).line()
    return call(["run", files.paths["network"]], stream[1]).line()


def main():
    words = Words("explain", ABOUT)
    words.add_argument("--line", help="the error line")
    words.add_argument("files", nargs="+", metavar="FILE")
    given = words.parse_args()
    if len(given.files) > 3:
        words.error("at most three files")
    names, stream_name = roles_of(given.files)
    files = Files(names, {role: path_of(name) for role, name in names.items()})
    stream = (stream_name, stream_bytes(path_of(stream_name, stream_bytes))) if stream_name else None
    line = given.line or fault_of(files, stream)
    if not line:
        print("nothing is refused")
        sys.exit(0)
    print(line)
    tell(explained(line, files, stream))


def tell(told: Told, status: int = REFUSED) -> NoReturn:
    print(told.text(), end="")
    sys.exit(status)


def path_of(name: str, reading: Callable[[str], bytes] = read) -> str:
    """A name under which the file can be read more than once; why it can't be read, or what is wrong in Haskell, is told."""
    try:
        path = again(name, reading)
        with open(path, "rb"):
            return path
    except (Refused, OSError) as refused:
        told = Told(str(refused)) if name == "-" or os.path.isfile(name) else unread(name)
        return tell(told, getattr(refused, "status", UNREADABLE))
