"""What a device's gcc makes of the C: the stack and the code of the table in docs/C.md."""
import re
import shutil
import subprocess
from pathlib import Path

from compiling.making import Differs
from workbench.native import STRING_H
from workbench.stacks import deepest

TOP = Path(__file__).resolve().parents[2]
TABLE = re.compile(r"^ *\| `([^`|]+)` ([\d.]+) \|(.*)\|\n *\|[-|]*\|\n((?: *\|.*\|\n)+)", re.M)
SIZES = "arm-none-eabi-size"


def table():
    """The compiler with its flags, its version, and for each network and level the bytes of stack and of code that the page tells."""
    command, version, levels, rows = TABLE.search((TOP / "docs/C.md").read_text()).groups()
    found = {}
    for row in rows.splitlines():
        name, *cells = [cell.strip() for cell in row.strip(" |").split("|")]
        told = [tuple(int(number.replace(",", "")) for number in cell.split(", ")) for cell in cells]
        found[re.search("`([^`]+)`", name)[1]] = dict(zip(re.findall("`([^`]+)`", levels), told))
    return command.split(), version, found


def is_here():
    """Whether the compiler of the page is here, in its version."""
    (name, *_), version, _ = table()
    if not shutil.which(name) or not shutil.which(SIZES):
        return False
    return subprocess.run([name, "-dumpversion"], capture_output=True, text=True, check=False).stdout.startswith(version)


def sizes(bench):
    """The page tells what that compiler makes, which needs no C library."""
    command, _, rows = table()
    bench.file("string.h", STRING_H)
    for words, levels in rows.items() if is_here() else ():
        name, *options = words.split()
        source = bench.source("device.c", "--no-main", *options, TOP / "examples" / name / "net")
        for level, wanted in levels.items():
            found = measured(bench, [*command, level], source)
            if found != wanted:
                raise Differs(f"{words} by {level} takes {found} bytes of stack and code, docs/C.md tells {wanted}")
            bench.tally["sizes of a device"] += 1


def measured(bench, command, source):
    """The bytes of stack that a step takes, and those of code."""
    bench.built("device.o", [source], command, "-c", "-idirafter", bench.folder, "-fcallgraph-info=su")
    stacks = deepest((bench.folder / "device.ci").read_text())
    step = next(size for name, size in stacks.items() if "_step_" in name)
    return step, int(bench.ran([SIZES, "device.o"]).output.decode().splitlines()[-1].split()[0])


CASES = [sizes]
