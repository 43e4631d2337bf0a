"""A run looked at sample by sample, in a terminal or as lines."""
from __future__ import annotations

import functools
import json
import shutil
import sys
import tempfile
from typing import Callable, Iterable, Iterator

from workbench.ending import Refused, Words, writing
from workbench.parts import Look, Looks, Track, add_choice, tell_rest
from workbench.running import PIECE
from workbench.signals import ABSENT, spelt, told
from workbench.streaming import stream_file
from workbench.watching import add_position

ABOUT = """Shows a run of NET on STREAM sample by sample: input, output, and the output of each part, by its name in a
file of Haskell, else by its form and position. In a terminal:

  Enter or n   the next sample        p        the one before
  12           sample 12              /name    the next signal with that in its name
  + and -      further signals        q        ends

A part that runs is bold, and * marks a value that has changed; a part that doesn't run has -. If standard
output is no terminal, or with --lines, each value is a line: sample, time, name and value, with tabs
between. One run of the program gives all signals, or as few runs as the limits of types allow. For a part of
an rpSwitchB the value has an element for each member that runs."""

BOLD, DIM, PLAIN, CLEAR = "\033[1m", "\033[2m", "\033[0m", "\033[2J\033[H"
HELP = "Enter next, p back, a number, /name, + -, q: "


def text_at(track: Track, number: int) -> str:
    """The value of a column at a sample, counted from 0."""
    return told(track.values[number], track.type)


def lines_of(look: Look, before: int) -> Iterator[bytes]:
    """The lines of a piece of a run, behind so many samples."""
    for number, time in enumerate(look.run.times):
        for track in look.tracks:
            yield f"{before + number + 1}\t{time}\t{track.name}\t{text_at(track, number)}\n".encode()


class Samples:
    """The texts of a run's samples, which are kept in a file, piece by piece."""

    def __init__(self, looks: Iterable[Look]):
        self.file, self.starts, self.count, self.names = tempfile.TemporaryFile(), list[int](), 0, list[str]()
        for look in looks:
            self.names, times = [track.name for track in look.tracks], look.run.times
            rows = [(time, [text_at(track, number) for track in look.tracks]) for number, time in enumerate(times)]
            self.starts.append(self.file.tell())
            self.file.write(json.dumps(rows).encode() + b"\n")
            self.count += len(times)
        self.piece = functools.lru_cache(2)(self.read)

    def read(self, number: int) -> list:
        self.file.seek(self.starts[number])
        return json.loads(self.file.readline())

    def at(self, number: int) -> tuple:
        """The time of a sample, counted from 0, and the texts of its signals."""
        return self.piece(number // PIECE)[number % PIECE]


class View:
    """What is on the screen: a sample, and the signals from one of them on."""

    def __init__(self, samples: Samples, notes: list, fault: str):
        self.samples, self.sample, self.top, self.found = samples, 0, 0, None
        self.said = "; ".join([*notes, *([f"the run ends: {fault}"] if fault else [])])

    def lines(self, columns: int, rows: int) -> list:
        """The lines of the screen, but the last."""
        names, (time, texts) = self.samples.names, self.samples.at(self.sample)
        before = self.samples.at(self.sample - 1)[1] if self.sample else texts
        shown = range(self.top, min(self.top + self.room(rows), len(names)))
        wide = min(max((len(names[number]) for number in shown), default=0), columns // 2)
        title = f"sample {self.sample + 1} of {self.samples.count}, time {time}"
        more = f", signals {self.top + 1} to {self.top + len(shown)} of {len(names)}" if len(shown) < len(names) else ""
        lines = [(title + more)[:columns]]
        lines += [self.line(number, wide, columns, texts[number], texts[number] != before[number]) for number in shown]
        return [*lines, self.said[:columns]]

    def line(self, number: int, wide: int, columns: int, text: str, changed: bool) -> str:
        mark = (">" if number == self.found else " ") + ("*" if changed else " ")
        line = f"{mark} {cut(self.samples.names[number], wide).ljust(wide)}  {text}"
        return (DIM if text == spelt(ABSENT, "Int") else BOLD) + cut(line, columns) + PLAIN

    @staticmethod
    def room(rows: int) -> int:
        return max(1, rows - 4)

    def told(self, command: str, rows: int) -> bool:
        """Takes a command, and answers whether the view goes on."""
        self.said = ""
        last, pages = self.samples.count - 1, {"+": self.room(rows), "-": -self.room(rows)}
        if command in ("q", "quit"):
            return False
        if command in ("", "n", "p"):
            self.go(self.sample + (-1 if command == "p" else 1), last)
        elif command in pages:
            self.top = max(0, min(self.top + pages[command], len(self.samples.names) - self.room(rows)))
        elif command.isascii() and command.isdigit():
            self.go(int(command[:18]) - 1, last)
        elif command.startswith("/"):
            self.find(command[1:], rows)
        else:
            self.said = f"{command[:40]} is no command"
        return True

    def go(self, sample: int, last: int) -> None:
        if not 0 <= sample <= last:
            self.said = f"there are samples 1 to {last + 1}"
        self.sample = max(0, min(sample, last))

    def find(self, text: str, rows: int) -> None:
        """Goes to the next signal with the text in its name."""
        names = self.samples.names
        start = 0 if self.found is None else self.found + 1
        behind = [*range(start, len(names)), *range(start)]
        self.found = next((number for number in behind if text.lower() in names[number].lower()), None)
        if self.found is None:
            self.said = f"no signal has {text} in its name"
        elif not self.top <= self.found < self.top + self.room(rows):
            self.top = min(self.found, max(0, len(names) - self.room(rows)))


def cut(text: str, wide: int) -> str:
    return text if len(text) <= wide else text[: max(0, wide - 2)] + ".."


def looked_through(view: View, asked: Callable[[str], str]) -> None:
    """Shows samples until that is enough."""
    goes_on = True
    while goes_on:
        columns, rows = shutil.get_terminal_size()
        print(CLEAR + "\n".join(view.lines(columns, rows)))
        try:
            goes_on = view.told(asked(HELP).strip(), rows)
        except EOFError:
            goes_on = False


def main() -> None:
    words = Words("step", ABOUT)
    words.add_argument("net", metavar="NET")
    words.add_argument("stream", metavar="STREAM")
    words.add_argument("--lines", action="store_true", help="lines for a script, also in a terminal")
    add_choice(words)
    add_position(words, "only what stands at this position and below", default=[])
    words.add_argument("-o", metavar="FILE", dest="to", help="writes the lines there")
    given = words.parse_args()
    with stream_file(given.stream) as stream:
        looks = Looks(given.net, stream, given.everything, given.at)
        if given.lines or given.to or not (sys.stdin and sys.stdin.isatty() and sys.stdout and sys.stdout.isatty()):
            with writing(given.to) as out:
                for number, look in enumerate(looks):
                    out.writelines(lines_of(look, number * PIECE))
            tell_rest("step", looks.notes, looks.fault)
            return
        samples = Samples(looks)
    if not samples.count:
        raise Refused(looks.fault or "the stream has no samples")
    looked_through(View(samples, looks.notes, looks.fault), input)
