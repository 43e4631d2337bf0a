"""The tour of the README: its commands, each with what it answers."""
import os
import re
import shlex
import subprocess
import sys

from workbench.ending import Words, text_of
from workbench.program import TOP, path

TOUR = """Runs the commands of the README in order, and prints each with its answer as it comes. If the program
isn't built yet, it is built first, unproved, in some three minutes."""


def blocks_of(page: str) -> list[list[str]]:
    """The commands of each block of a page; those of a block are of one shell."""
    return [re.findall(r"^\$ (.*)$", block, re.M) for block in re.findall(r"```console\n(.*?)```", page, re.S)]


def main() -> None:
    Words("tour", TOUR).parse_args()
    path()
    for number, commands in enumerate(blocks_of(text_of(str(TOP / "README.md")))):
        script = "".join(f"printf '%s\\n' {shlex.quote('$ ' + command)}\n{command}\n" for command in commands)
        print("\n" * bool(number), end="", flush=True)
        subprocess.run(["bash", "-c", script], cwd=TOP, env={**os.environ, "YAMPA_TOLD": "1"}, stdin=subprocess.DEVNULL, stderr=subprocess.STDOUT, check=False)
    sys.stdout.flush()
