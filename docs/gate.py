#!/usr/bin/env python3
"""Prints what docs/GATE.md has of tools/prove.times: what the gate spends on each crate, and its longest chain of crates.

    docs/gate.py            prints it
    docs/gate.py --write    replaces it in docs/GATE.md
    docs/gate.py --check    says whether docs/GATE.md has something else
"""
from __future__ import annotations

import sys
from pathlib import Path

TOP = Path(__file__).resolve().parent.parent
PAGE = TOP / "docs/GATE.md"
sys.dont_write_bytecode = True
sys.path.insert(0, str(TOP / "tools"))

from costs import Cost, cost_of, longest_way, named

FIRST, LAST = "```costs\n", "## Two rings of edits"
HEAD = ("", "functions", "proof", "tests", "edits")


def row(cells: tuple) -> str:
    name, *numbers = (f"{cell:.0f}" if isinstance(cell, float) else str(cell) for cell in cells)
    return f"{name:13}" + "".join(f"{'' if number == '0' else number:>10}" for number in numbers)


def cells_of(cost: Cost) -> tuple:
    return (cost.name, cost.functions, cost.proof, cost.tests, cost.edits)


def told() -> str:
    """The table, and the line behind it."""
    spent = [cost_of(name) for name in named()]
    whole = Cost("all", *(sum(getattr(cost, part) for cost in spent) for part in ("functions", "proof", "tests", "edits")), "")
    seconds, way = longest_way()
    chain = f"The longest chain has {seconds / 60:.0f} of {whole.whole() / 60:.0f} minutes: {', '.join(f'`{name}`' for name in way)}."
    return FIRST + "\n".join([*map(str.rstrip, (row(HEAD), *map(row, map(cells_of, [*spent, whole])))), "```", "", chain]) + "\n"


def parted(page: str) -> tuple[str, str, str]:
    """The page's text before the table, the table with the line behind it, and the text behind."""
    first, last = page.index(FIRST), page.index(LAST)
    return page[:first], page[first:last].rstrip("\n") + "\n", "\n" + page[last:]


def main(words: list[str]) -> int:
    if words not in ([], ["--write"], ["--check"]):
        print(__doc__.strip())
        return 0 if words in (["-h"], ["--help"]) else 2
    if not words:
        print(told(), end="")
        return 0
    before, table, behind = parted(PAGE.read_text())
    if words == ["--write"]:
        PAGE.write_text(before + told() + behind)
    elif table != told():
        other = next(line for line in [*table.splitlines(), "less"] if line not in told().splitlines())
        print(f"docs/GATE.md: docs/gate.py prints another table; the page has: {other}")
        return 1
    return 0


if __name__ == "__main__":
    sys.exit(main(sys.argv[1:]))
