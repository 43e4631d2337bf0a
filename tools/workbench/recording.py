"""Streams from tables, and tables from streams, row by row."""
import csv
import re
from collections.abc import Iterable, Iterator
from dataclasses import dataclass
from typing import IO, Any

from model.texts import ValueFault, read_value, step_of
from front import spell
from front.spell import columns, parts_of
from model.trees import is_form, shown
from workbench.ending import Refused, Words, writing
from workbench.program import again
from workbench.speaking import named_types
from workbench.streaming import MARK, MOST_LINE, lines
from workbench.times import Times, number_in

CSV = """Makes a stream of NET's input from a table, or a table from a stream, row by row as they come.

  yampa csv NET < TABLE > STREAM          each row is a sample
  yampa csv --back NET < OUTPUT > TABLE   of NET's output with its steps, as `yampa timed NET` prints it
  yampa csv --back --input NET < STREAM > TABLE

The table's first row names its columns: `time`, and one for each part of the type. For an Int that is
`x`; for (Pair Int Bool) `x.fst` and `x.snd`, and so on inside; for a record the names of its fields,
and for a record in it names such as `place.along`. Other columns are ignored. With --columns a column
has another name in the table: `--columns time=seconds,x.fst=speed`.
A cell holds the value as a stream has it: 5, true, unit, (list 1 2); for an event nothing if there is
none, else its value. Of a file of Haskell it is in Haskell's words: On, Event 3, (1, True). A list may have a column for each element instead, `x.0`, `x.1` and so on,
empty after its end: a table's first row shows that, and going back --lists says how many.
Times are decimal and rise; a step is the time since the row before in ticks. A tick is one unit of
time, or --ticks says how many are in one: `--ticks 1000` for times in seconds and steps in
milliseconds. Going back, the first time is 0, or the one that --start gives."""


def types_of(net: str) -> tuple:
    """The input type and the output type of a network's file, as the program tells them, in the words of one of Haskell."""
    return named_types(net)


def lines_of(data: bytes) -> list[bytes]:
    found = data.split(b"\n")
    return found[:-1] if found[-1] == b"" else found


# ---- columns


@dataclass(frozen=True)
class Column:
    """A part of the type that is no pair, with its name; a list has a column for each of so many elements, where that is given."""

    name: str
    type: Any
    elements: int | None = None

    def names(self) -> list[str]:
        """The names of its columns."""
        return [self.name] if self.elements is None else [name for k in range(self.elements) for name in self.element_names(k)]

    def element_names(self, number: int) -> list[str]:
        return [name for name, _ in columns(self.type[1], f"{self.name}.{number}")]

    def is_spread(self) -> bool:
        """Whether it is a list that can have a column for each element: an element that is there has a cell that isn't empty."""
        return is_form("List", self.type) and not all(is_form("Event", of) for _, of in columns(self.type[1]))

    def cells(self, value) -> list[str]:
        """The cells of a value."""
        if self.elements is None:
            return [cell_of(value, self.type)]
        if len(value) - 1 > self.elements:
            raise Refused(f"the list {self.name} has {len(value) - 1} elements: say --lists {len(value) - 1}")
        found = [cell_of(part, of) for element in value[1:] for part, of in parts(element, self.type[1])]
        return found + [""] * (len(self.names()) - len(found))

    def text(self, cells: list[str]) -> str:
        """The text of the value that has these cells."""
        if self.elements is None:
            return text_in(cells[0], self.type, self.name)
        width = len(self.element_names(0))
        groups = [cells[at : at + width] for at in range(0, len(cells), width)]
        while groups and not any(groups[-1]):
            groups.pop()
        elements = []
        for number, group in enumerate(groups):
            texts = (text_in(cell, of, name) for cell, (name, of) in zip(group, columns(self.type[1], f"{self.name}.{number}")))
            elements.append(joined(texts, self.type[1]))
        return f"({' '.join(['list', *elements])})"


def columns_of(type_, spread: int | None = None) -> list[Column]:
    """The columns of a type; lists have a column for each of so many elements, where that is given."""
    plain = [Column(name, of) for name, of in columns(type_)]
    return [Column(column.name, column.type, spread) if column.is_spread() else column for column in plain]


def parts(value, type_) -> list[tuple]:
    """The parts of a value that have columns of their own, each with its type."""
    inner = parts_of(type_)
    if not inner:
        return [(value, type_)]
    return [found for part, (_, of) in zip(spell.parts_in(value, len(inner)), inner) for found in parts(part, of)]


def cell_of(value, type_) -> str:
    if is_form("Event", type_):
        return "" if value == "none" else told(value[1], type_[1])
    return told(value, type_)


def told(value, type_) -> str:
    """A value as a cell has it: as a stream does, or in the program's words."""
    shape = spell.shape_of(type_)
    return shown(value) if shape is None else spell.spelt(spell.in_json(value), shape)


def text_in(cell: str, type_, name: str) -> str:
    """The text of the value that a cell of this column holds."""
    is_event = is_form("Event", type_)
    if is_event and not cell:
        return "none"
    of = type_[1] if is_event else type_
    found = spelling(cell, of, f"column {name}")
    return f"(event {found})" if is_event else found


def spelling(text: str, type_, where: str) -> str:
    """How a stream spells the value of a text."""
    shape, why = spell.shape_of(type_), ""
    try:
        if shape is not None:
            return spell.read(text, shape)
        read_value(text.encode(), type_)
        return text
    except spell.Misspelt as misspelt:
        why = f": {misspelt}"
    except ValueFault:
        pass
    brief = text if len(text) <= 60 else text[:60] + ".."
    raise Refused(f"{where}: {brief or 'nothing'} is no {spell.shown_type(type_)}{why}")


def joined(texts: Iterator[str], type_) -> str:
    """The text of the value whose parts these are, in order."""
    inner = parts_of(type_)
    return spell.nested([joined(texts, of) for _, of in inner]) if inner else next(texts)


def is_column(name: str, type_) -> bool:
    """Whether a column of this type may have this name."""
    for column in columns_of(type_):
        element = re.match(re.escape(column.name) + r"\.(0|[1-9]\d{0,8})(?!\d)", name)
        if name == column.name or element and column.is_spread() and name in column.element_names(int(element[1])):
            return True
    return name == "time"


def names_in(texts: list[str], type_) -> dict[str, str]:
    """The names in the table of the columns that --columns names."""
    found = {}
    for pair in (pair for text in texts for pair in text.split(",")):
        name, equal, named = (part.strip() for part in pair.partition("="))
        if not equal or not is_column(name, type_):
            what = f"there is no column {name}" if equal else f"{pair} has no ="
            raise Refused(f"--columns: {what}; the columns are {listed(type_)}", 2)
        found[name] = named
    return found


def listed(type_) -> str:
    return ", ".join(["time", *(column.name for column in columns_of(type_))])


# ---- from a table


def from_table(rows: Iterable[list[str]], type_, times: Times, named: dict[str, str]) -> Iterator[bytes]:
    """The lines of the stream that a table's rows make."""
    rows = iter(rows)
    first = [name.strip() for name in next(rows, [])]
    if not first:
        raise Refused("the table is empty: its first row names its columns")
    found = columns_in(first, type_, named)
    places = [[place_of(named.get(name, name), first, type_) for name in column.names()] for column in found]
    at = place_of(named.get("time", "time"), first, type_)
    for number, row in enumerate(rows, 2):
        if not row:
            continue
        if len(row) != len(first):
            raise Refused(f"row {number}: it has {len(row)} cells, and the first row {len(first)}")
        try:
            step = times.step(row[at].strip())
            texts = [column.text([row[place].strip() for place in own]) for column, own in zip(found, places)]
        except Refused as refused:
            raise Refused(f"row {number}, {refused}") from None
        yield (f"+{step} " if step else "").encode() + joined(iter(texts), type_).encode() + b"\n"


def columns_in(first: list[str], type_, named: dict[str, str]) -> list[Column]:
    """The columns of the type as the table's first row has them: a list in one column, or with one for each element."""
    found = []
    for column in columns_of(type_):
        count = 0
        while column.is_spread() and named.get(column.name, column.name) not in first:
            if not all(named.get(name, name) in first for name in column.element_names(count)):
                break
            count += 1
        for name in first:
            further = re.match(re.escape(column.name) + r"\.(\d{1,9})(?!\d)", name)
            if count and further and int(further[1]) > count:
                raise Refused(f"row 1: the column {column.name}.{count} is missing, and {name} stands there")
        found.append(Column(column.name, column.type, count) if count else column)
    return found


def place_of(name: str, first: list[str], type_) -> int:
    """The place of a column in the first row."""
    if first.count(name) != 1:
        what = "is missing" if name not in first else "stands twice"
        raise Refused(f"row 1: the column {name} {what}; the columns are {listed(type_)}")
    return first.index(name)


def rows_in(raw: Iterable[bytes]) -> Iterator[list[str]]:
    """The rows of a table."""
    csv.field_size_limit(MOST_LINE)
    reader = csv.reader(decoded(raw))
    number = 0
    while True:
        number += 1
        try:
            yield next(reader)
        except StopIteration:
            return
        except csv.Error as error:
            raise Refused(f"row {number}: {str(error).partition(' - ')[0]}") from None


def decoded(raw: Iterable[bytes]) -> Iterator[str]:
    for number, line in enumerate(raw, 1):
        try:
            yield (line.removeprefix(MARK) if number == 1 else line).decode() + "\n"
        except UnicodeDecodeError:
            raise Refused(f"line {number}: the table isn't in UTF-8") from None


# ---- to a table


class Encoded:
    """What csv writes its rows to."""

    def __init__(self, file: IO[bytes]):
        self.file = file

    def write(self, text: str) -> int:
        return self.file.write(text.encode())


def to_table(raw: Iterable[bytes], type_, times: Times, found: list[Column], named: dict[str, str], file: IO[bytes]) -> None:
    """Writes the table of a stream of this type."""
    table = csv.writer(Encoded(file), lineterminator="\n")
    table.writerow(named.get(name, name) for name in ["time", *(name for column in found for name in column.names())])
    value = None
    for number, line in enumerate(raw, 1):
        try:
            step, value = sample(line, number, value, type_)
            cells = [cell for column, (part, _) in zip(found, parts(value, type_)) for cell in column.cells(part)]
        except Refused as refused:
            raise Refused(f"line {number}: {refused}") from None
        table.writerow([times.time(step), *cells])


def sample(line: bytes, number: int, before, type_) -> tuple:
    """The step and the value of a line; the first has no step."""
    step, rest = (0, line) if number == 1 else step_of(line) or (None, b"")
    if step is None:
        raise Refused("step" if line.startswith(b"+") else "a step is missing: `yampa timed NET` prints a run's outputs with their steps")
    if rest == b"=" and before is not None:
        return step, before
    try:
        return step, read_value(rest, type_)
    except ValueFault as fault:
        raise Refused(str(fault)) from None


# ---- the call


def csv_main() -> None:
    words = Words("csv", CSV)
    words.add_argument("net", metavar="NET")
    words.add_argument("--back", action="store_true", help="from a stream to a table")
    words.add_argument("--input", action="store_true", help="with --back: the stream is of the input's type")
    words.add_argument("--columns", metavar="NAME=COLUMN,..", action="append", default=[], help="other names of columns in the table")
    words.add_argument("--lists", metavar="N", type=number_in(1, 4096), help="with --back: each list has a column for each of N elements")
    words.add_argument("--ticks", metavar="N", type=number_in(1, 10**18), default=1, help="ticks in a unit of the table's times")
    words.add_argument("--start", metavar="TIME", default="0", help="with --back: the first time")
    words.add_argument("-o", metavar="FILE", dest="to", help="writes there")
    given = words.parse_args()
    into, output = types_of(again(given.net))
    times = Times(given.ticks, given.start)
    type_ = output if given.back and not given.input else into
    named = names_in(given.columns, type_)
    with writing(given.to) as out:
        if given.back:
            to_table(lines(out.flush), type_, times, columns_of(type_, given.lists), named, out)
        else:
            out.writelines(from_table(rows_in(lines(out.flush)), type_, times, named))
