"""What the gate spends on each crate, as tools/prove.times notes it, and the longest way through crates.txt."""
from __future__ import annotations

import fcntl
import re
import subprocess
from dataclasses import dataclass
from pathlib import Path

TOP = Path(__file__).resolve().parent.parent
TIMES = TOP / "tools/prove.times"


@dataclass
class Cost:
    """A crate's functions; the processor seconds of its proof, of its tests' proof and of its must-fail edits; and the kit."""

    name: str
    functions: int
    proof: float
    tests: float
    edits: float
    kit: str

    def whole(self) -> float:
        return self.proof + self.tests + self.edits

    def line(self) -> str:
        return f"{self.name} {self.functions} {self.proof:.0f} {self.tests:.0f} {self.edits:.0f} {self.kit}"


def kit() -> str:
    """The kit at hand, as 13b."""
    told = subprocess.run(["rt", "version"], stdout=subprocess.PIPE, stderr=subprocess.DEVNULL, cwd=TOP, text=True).stdout
    found = re.match(r"rattle-kit-(\w+)", told)
    return found[1] if found else "?"


def cost_in(line: str) -> Cost:
    name, functions, proof, tests, edits, kit = line.split()
    return Cost(name, int(functions), float(proof), float(tests), float(edits), kit)


def costs(path: Path = TIMES) -> dict[str, Cost]:
    """The costs that a file notes, by crate; where it notes one twice, the last."""
    lines = path.read_text().splitlines() if path.exists() else []
    return {cost.name: cost for cost in map(cost_in, (line for line in lines if len(line.split()) == 6 and line[0] != "#"))}


def cost_of(name: str) -> Cost:
    """What is noted of a crate; of one that nobody has measured, nothing."""
    return costs().get(name, Cost(name, 0, 0, 0, 0, ""))


def note(found: list[Cost]) -> None:
    """Notes these costs in tools/prove.times, in the order of crates.txt; a crate that is no longer there has none."""
    with open(TIMES, "r+") as file:
        fcntl.flock(file, fcntl.LOCK_EX)
        head = [line for line in file if line.startswith("#")]
        noted = {**costs(), **{cost.name: cost for cost in found}}
        file.seek(0)
        file.truncate()
        file.writelines([*head, *(noted[name].line() + "\n" for name in named() if name in noted)])


def named() -> dict[str, list[str]]:
    """The crates of crates.txt, in its order, and of each the libraries that it names."""
    lines = (line.partition("#")[0].partition(":") for line in (TOP / "crates.txt").read_text().splitlines())
    return {name.strip(): libraries.split() for name, colon, libraries in lines if colon}


def longest_way() -> tuple[float, list[str]]:
    """The seconds of the gate's longest chain of crates, and its crates: the proofs of each below the last, and of the last its
    proof or its tests' proof, which run side by side, and then its edits."""
    ways, ends = {}, []
    for name, libraries in named().items():
        cost = cost_of(name)
        below, way = max((ways[library] for library in libraries if library in ways), default=(0.0, []))
        ways[name] = (below + cost.proof, [*way, name])
        ends.append((below + max(cost.proof, cost.tests) + cost.edits, [*way, name]))
    return max(ends)
