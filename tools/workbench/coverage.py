"""Which parts of a network some recordings reach: its branches, what switches start, its members, each counted by samples."""
from __future__ import annotations

import sys
from typing import TYPE_CHECKING

from workbench.ending import REFUSED, Words
from workbench.origin import Place, read_source
from workbench.program import answered

if TYPE_CHECKING:
    from workbench.counting import Position, Run

# Of a longer line the columns are told, and nothing is underlined.
WIDEST = 200


def reached(run: Run) -> dict[tuple, tuple[Place, int]]:
    """Each piece of a file in which a part is written, and how often one that is written there was run."""
    found: dict[tuple, tuple[Place, int]] = {}
    for network in run.networks():
        keys: dict[Position, tuple] = {}
        for position, count in network.totals().items():
            place = network.program.place_of(position)
            keys[position] = key = (place.text.name, place.start, place.end)
            # What a shorter way means stands where that does, and is counted once.
            if not position or keys[position[:-1]] != key:
                found[key] = (place, found.get(key, (place, 0))[1] + count)
    return found


def never_reached(places: dict[tuple, tuple[Place, int]]) -> list[Place]:
    """What was never run, but what stands in such a part itself."""
    found: list[Place] = []
    for (name, start, end), (place, count) in sorted(places.items(), key=lambda item: (item[0][0], item[0][1], -item[0][2])):
        inside = any(one.text.name == name and one.start <= start and end <= one.end for one in found)
        if not count and not inside:
            found.append(place)
    return found


def listing(name: str, data: bytes, places: list[tuple[Place, int]], never: list[Place]) -> list[str]:
    """The lines of a file, each with the greatest count of a part that begins in it; what was never run is underlined."""
    lines, begun, start = [f"{name}:"], 0, 0
    for number, line in enumerate(data.decode(errors="replace").splitlines(), 1):
        begun, start = start, start + len(line.encode()) + 1
        counts = [count for place, count in places if begun <= place.start < start]
        lines.append(f"{max(counts) if counts else '':>9} {number:>5}  {line}".rstrip())
        for place in (place for place in never if begun <= place.start < start):
            before = len(data[begun : place.start].decode(errors="replace"))
            length = min(len(data[place.start : place.end].decode(errors="replace").split("\n")[0]), len(line) - before)
            part = line[before : before + length]
            shown = " " * before + "^" * max(length, 1) if len(line) <= WIDEST else f"column {before + 1}: {part if length <= 60 else part[:58] + '..'}"
            lines.append(f"{'never':>9} {'':>5}  {shown}")
    return lines


ABOUT = """Counts how often some recordings run each part of NET: its branches, what its switches start, its members; and of what a
file of Haskell says should hold.

It prints the lines of the network's file, or of the files of Haskell that it is made of, each after the number of runs of
the part that begins there. What was never run is underlined. The last line has the totals. With --all the status is 1 if a
part was never run. The counts come from a run in Python, over as many samples as the program answers; they are not proved.
Needs Debian's package python3-z3, whose numbers are replaced by plain ones here."""


def main() -> None:
    words = Words("coverage", ABOUT)
    words.add_argument("net", metavar="NET")
    words.add_argument("recordings", metavar="FILE", nargs="+", help="timed streams; - is standard input")
    words.add_argument("--all", action="store_true", help="status 1 if a part was never run")
    given = words.parse_args()
    from workbench.counting import Run  # behind the words, so that help needs no library

    program = read_source(given.net)
    answered(["types", program.path()])
    run = Run(program)
    faults = [fault for fault in map(run.hear, given.recordings) if fault]
    places = reached(run)
    never = never_reached(places)
    for name in dict.fromkeys(place.text.name for place, _ in places.values()):
        own = [(place, count) for place, count in places.values() if place.text.name == name]
        print("\n".join(listing(name, own[0][0].text.data, own, [place for place in never if place.text.name == name])))
    count = sum(bool(times) for _, times in places.values())
    print(f"{count} of {len(places)} parts were run" + "".join(f"\nnever: {place}" for place in never))
    for fault in faults:
        print(fault, file=sys.stderr)
    sys.exit(REFUSED if faults or given.all and never else 0)
