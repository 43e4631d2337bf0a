"""Runs as waves: value change dumps, which GTKWave and other viewers show."""
from __future__ import annotations

import os
import re
import shutil
import tempfile
from typing import IO, Any, Iterator

from front.spell import is_told
from model.trees import is_form
from workbench.ending import Refused, Words, write, writing
from workbench.parts import Look, Looks, Track, add_choice, tell_rest, tracks
from workbench.signals import ABSENT, Several, spelt
from workbench.streaming import stream_file
from workbench.watching import add_position

ABOUT = """Writes a run of NET on STREAM as a value change dump (VCD), which GTKWave shows: input, output, and the output of
each part, by its name in a file of Haskell, else by its form and position.

  yampa waves NET STREAM -o FILE.vcd
  yampa waves NET STREAM -o FILE.vcd --save FILE.gtkw    also what GTKWave shows: all rows, numbers as steps

An Int is an integer of 64 bits, a Bool a wire, a name of a file of Haskell a text, a pair or a record a scope,
an event a scope with a wire `valid` and its value, a list one with its length and its first 64 elements; for a
part of an rpSwitchB there is an element for each member. A part that doesn't run has the value x. One run of the program gives all signals, or as few runs as the limits of types allow."""

LETTERS = [chr(code) for code in range(33, 127)]
ELEMENTS = 64
# What a variable has in the place of bits whose values are texts.
TEXT = 0
# How GTKWave shows what stands below, and makes room: as it is, as signed numbers in steps of their own scale, and lines without a name.
PLAIN, STEPS, ROOM = "@28", "@88420", "@20000"
Tree = Any


class Wave:
    """A variable of the dump in a piece of a run: where it stands, how many bits it has, or TEXT, and its values as the dump has them."""

    def __init__(self, path: tuple, bits: int, values: list):
        self.path, self.bits, self.values = path, bits, values


class Waves:
    """The variables of columns, piece by piece: a list has at least as many as it had before."""

    def __init__(self) -> None:
        self.longest: dict[tuple, int] = {}

    def of_track(self, track: Track) -> Iterator[Wave]:
        if track.members:
            values = [value if value is ABSENT or isinstance(value, Several) else [value] for value in track.values]
            return self.elements(track.path, track.type, values)
        return self.of_column(track.path, track.type, track.values)

    def of_column(self, path: tuple, type_: Tree, values: list) -> Iterator[Wave]:
        if is_told(type_):
            yield Wave(path, TEXT, ["s-" if value is ABSENT else f"s{plain(spelt(value, type_))}" for value in values])
        elif type_ == "Int":
            yield Wave(path, 64, ["bx" if value is ABSENT else f"b{value & (2**64 - 1):b}" for value in values])
        elif type_ in ("Bool", "Unit"):
            yield wire(path, [value if value is ABSENT else value is not False for value in values])
        elif is_form("Event", type_):
            yield wire((*path, "valid"), [value if value is ABSENT else value is not None for value in values])
            yield from self.of_column((*path, "value"), type_[1], [value[0] if value and value is not ABSENT else ABSENT for value in values])
        elif is_form("Pair", type_):
            for column in tracks(path, type_, values):
                yield from self.of_column(column.path, column.type, column.values)
        else:
            yield from self.elements(path, type_[1], values)

    def elements(self, path: tuple, type_: Tree, values: list) -> Iterator[Wave]:
        """The variables of a list: its length and its elements."""
        lengths = [value if value is ABSENT else len(value) for value in values]
        yield from self.of_column((*path, "length"), "Int", lengths)
        longest = max((length for length in lengths if length is not ABSENT), default=0)
        self.longest[path] = max(min(longest, ELEMENTS), self.longest.get(path, 0))
        for place in range(self.longest[path]):
            there = [value[place] if value is not ABSENT and place < len(value) else ABSENT for value in values]
            yield from self.of_column((*path, str(place)), type_, there)


def wire(path: tuple, values: list) -> Wave:
    return Wave(path, 1, ["x" if value is ABSENT else "1" if value else "0" for value in values])


def short_name(number: int) -> str:
    """The name of a variable in the dump."""
    name = LETTERS[number % len(LETTERS)]
    while number >= len(LETTERS):
        number = number // len(LETTERS) - 1
        name += LETTERS[number % len(LETTERS)]
    return name


def plain(name: str) -> str:
    """A name without what a dump's reader takes for its own."""
    return re.sub(r"[^A-Za-z0-9_#-]+", "_", name.replace("(at", "")).strip("_") or "part"


class Dump:
    """What is written of a run, piece by piece: its changes, in a file, and then the variables that it has."""

    def __init__(self) -> None:
        self.changes, self.waves, self.variables = tempfile.TemporaryFile(), Waves(), list[Wave]()
        self.names: dict[tuple, str] = {}
        self.before: dict[tuple, str] = {}
        self.end: int | None = None

    def add(self, look: Look) -> None:
        """Writes the changes of a piece."""
        self.variables = [wave for track in look.tracks for wave in self.waves.of_track(track)]
        columns = [(wave.path, self.written(wave), wave.values) for wave in self.variables]
        lines, before = list[str](), self.before
        for sample, time in enumerate(look.run.times):
            lines.append(f"#{time}")
            for path, name, values in columns:
                value = values[sample]
                if value != before.get(path):
                    lines.append(value + name)
                    before[path] = value
        self.changes.write("".join(f"{line}\n" for line in lines).encode())
        self.end = look.run.times[-1] + 1

    def written(self, wave: Wave) -> str:
        """What stands behind a value of the variable."""
        name = self.names.setdefault(wave.path, short_name(len(self.names)))
        return name if wave.bits == 1 else f" {name}"

    def declared(self) -> Iterator[str]:
        """The lines that declare the variables, in their scopes."""
        open_scopes: tuple = ()
        for wave in self.variables:
            path = full_path(wave)
            scopes = path[:-1]
            common = next((depth for depth, pair in enumerate(zip(open_scopes, scopes)) if pair[0] != pair[1]), min(len(open_scopes), len(scopes)))
            yield from ["$upscope $end"] * (len(open_scopes) - common)
            yield from [f"$scope module {scope} $end" for scope in scopes[common:]]
            open_scopes = scopes
            kind = {1: "wire 1", TEXT: "string 1"}.get(wave.bits, "integer 64")
            yield f"$var {kind} {self.names[wave.path]} {path[-1]}{range_of(wave)} $end"
        yield from ["$upscope $end"] * len(open_scopes)

    def write(self, out: IO[bytes], timescale: str) -> None:
        lines = ["$comment yampa waves $end", f"$timescale {timescale} $end", *self.declared(), "$enddefinitions $end"]
        out.write("".join(f"{line}\n" for line in lines).encode())
        self.changes.seek(0)
        shutil.copyfileobj(self.changes, out)
        out.write(f"#{self.end}\n".encode())

    def rows(self, dump: str) -> str:
        """What GTKWave shows of this file: all variables by their whole names, numbers as steps. It finds an integer by its name alone."""
        lines = ["[*] yampa waves", f'[dumpfile] "{dump}"', "[timestart] 0", "[size] 1400 900", "[signals_width] 200"]
        for wave in self.variables:
            path = full_path(wave)
            name = f"+{{{' '.join(path[1:])}}} {'.'.join(path)}"
            lines += [STEPS, name, ROOM, "-", "-"] if wave.bits > 1 else [PLAIN, name]
        return "".join(f"{line}\n" for line in lines)


def full_path(wave: Wave) -> tuple:
    return tuple(map(plain, ("yampa", *wave.path)))


def range_of(wave: Wave) -> str:
    return " [63:0]" if wave.bits > 1 else ""


def main() -> None:
    words = Words("waves", ABOUT)
    words.add_argument("net", metavar="NET")
    words.add_argument("stream", metavar="STREAM")
    words.add_argument("--timescale", default="1 ms", metavar="TIME", help="the length of a step of 1: 1, 10 or 100, and s, ms, us, ns, ps or fs")
    add_choice(words)
    add_position(words, "only what stands at this position and below", default=[])
    words.add_argument("-o", metavar="FILE", dest="to", help="writes the dump there")
    words.add_argument("--save", metavar="FILE.gtkw", help="writes there what GTKWave shows of it: `gtkwave FILE.gtkw`; wants -o")
    given = words.parse_args()
    found = re.fullmatch(r"(1|10|100) ?(s|ms|us|ns|ps|fs)", given.timescale)
    if not found:
        words.error("--timescale: 1, 10 or 100, and s, ms, us, ns, ps or fs, as 1ms")
    if given.save and given.to in (None, "-"):
        words.error("--save: it names the dump, which -o FILE writes")
    with stream_file(given.stream) as stream:
        looks, dump = Looks(given.net, stream, given.everything, given.at), Dump()
        for look in looks:
            dump.add(look)
    if dump.end is None:
        raise Refused(looks.fault or "the stream has no samples")
    with writing(given.to) as out:
        dump.write(out, " ".join(found.groups()))
    if given.save:
        write(given.save, dump.rows(os.path.relpath(given.to, os.path.dirname(given.save) or ".")))
    tell_rest("waves", looks.notes, looks.fault)
