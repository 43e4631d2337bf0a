"""Who waits at a terminal for `improve` or `certify` is told how long it takes; what is printed stays as it is."""
import os
import pty
import re
import shutil
import subprocess
from pathlib import Path

from tooling.common import TOP, own_folder, want

# What stands in the place of the program: it ends once the file `go` is there, and answers as its words say.
PROGRAM = """#!/bin/bash
until [ -e go ]; do sleep 0.1; done
printf 'laws 1\\n'
if [ "$2" = refused ]; then echo 'certificate: none found' >&2; exit 1; fi
"""
TOLD = rb"\ryampa \w+: \d+ s"


def install(folder: Path) -> None:
    """Puts the wrapper there, as it is installed, round a program that waits."""
    place = folder / "crates/yampa/out/yampa"
    place.parent.mkdir(parents=True)
    place.write_text(PROGRAM)
    place.chmod(0o755)
    for name in ("net", "refused", "installed"):
        (folder / name).write_text("")
    (folder / "tools").symlink_to(TOP / "tools")
    shutil.copy(TOP / "yampa", folder)


def around(folder: Path) -> dict[str, str]:
    """What a call finds: the search beside the program is what stands in its place, too."""
    return {**os.environ, "YAMPA_SEARCH": str(folder / "crates/yampa/out/yampa")}


def read_all(end: int) -> bytes:
    """What can still be read of a terminal or a pipe."""
    found = b""
    try:
        while piece := os.read(end, 65_536):
            found += piece
    except OSError:  # how a terminal ends
        pass
    os.close(end)
    return found


def on_terminal(folder: Path, *words: str, printed: bool, soon: bool = False) -> tuple[int, bytes, bytes]:
    """The status of a call that ends once it has told of its time, or soon, what its terminal shows, and what it prints elsewhere: the
    terminal is standard error, and where `printed` standard output too."""
    ours, theirs = pty.openpty()
    out, into = os.pipe()
    (folder / "go").unlink(missing_ok=True)
    if soon:
        (folder / "go").write_text("")
    child = subprocess.Popen([folder / "yampa", *words], cwd=folder, env=around(folder), stdin=subprocess.DEVNULL, stdout=theirs if printed else into, stderr=theirs)
    os.close(theirs)
    os.close(into)
    shown = b""
    while not soon and not re.search(TOLD, shown):
        shown += os.read(ours, 65_536)
    (folder / "go").write_text("")
    shown += read_all(ours)
    return child.wait(60), shown, read_all(out)


def seconds_are_told(folder: Path) -> None:
    for words, printed in [(("certify", "net", "net"), True), (("certify", "net", "net"), False), (("improve", "net", "--certificate"), True)]:
        status, shown, elsewhere = on_terminal(folder, *words, printed=printed)
        answer = b"laws 1\r\n" if printed else b""
        want(f"{words[0]} at a terminal", re.fullmatch(rb"(%b)+\r +\r%b" % (TOLD, answer), shown), shown)
        want(f"{words[0]} prints what it does", (status, elsewhere) == (0, b"" if printed else b"laws 1\n"), (status, elsewhere))
    status, shown, _ = on_terminal(folder, "certify", "refused", "net", printed=True)
    want("certify refused at a terminal", status == 1 and shown.endswith(b"\rcertificate: none found\r\n"), shown)
    status, shown, _ = on_terminal(folder, "certify", "net", "net", printed=True, soon=True)
    want("certify soon at a terminal", status == 0 and re.fullmatch(rb"((%b)+\r +\r)?laws 1\r\n" % TOLD, shown), shown)


def nothing_is_told_elsewhere(folder: Path) -> None:
    """Where standard error is a pipe, nothing is added."""
    (folder / "go").unlink(missing_ok=True)
    words = [folder / "yampa", "certify", "net", "net"]
    with subprocess.Popen(words, cwd=folder, env=around(folder), stdin=subprocess.DEVNULL, stdout=subprocess.PIPE, stderr=subprocess.PIPE) as child:
        try:
            child.wait(2.5)
        except subprocess.TimeoutExpired:
            (folder / "go").write_text("")
        told = child.communicate(timeout=60)
    want("certify without a terminal", (child.returncode, told) == (0, (b"laws 1\n", b"")), told)


def try_all() -> None:
    with own_folder() as folder:
        install(folder)
        seconds_are_told(folder)
        nothing_is_told_elsewhere(folder)
