"""Networks as the program reads them, and where their parts are written: in a network's file, or in one of Haskell.

`read_source(name)` answers the `Program` of either. It has

- `text`: the network's file that it means, as bytes; `file`: that text read; `path()`: a file that holds it
- `place_of(position)`: where the part at a position is written, and the name of the wire that it is, or None
- `signals`: the networks that have the names of wires: each with a name of its own and its position, in the order of positions
- `spelt(position)`: the part at a position as it is written
- `input`, `named_type(type)`, `output_type(type)`: types, which of a file of Haskell are in its own words (`front.spell`)
- `columns(type)` of `front.spell`: the names of the parts of such a type, as columns of tables, plots and drawings have them

What a file of Haskell means is kept in the user's cache folder (`cache`). `program_of(path)` answers the program of a path that
`network_path` has answered, so that a tool which is handed a path needs no more than that.
"""
import os
from dataclasses import dataclass
from functools import cached_property

from model.trees import at, shown
from workbench.cache import core_file, core_of, keep_core
from workbench.ending import read, unreadable
from workbench.layout import flat
from workbench.source import File, read_file
from workbench.translated import OF, HaskellParts, is_haskell
from workbench.written import Text, place


@dataclass(frozen=True)
class Place:
    """A piece of a file, and the name that stands there, where one does."""

    text: Text
    start: int
    end: int
    name: str | None = None

    def __str__(self) -> str:
        line, column = place(self.text.data, self.start)
        return f"{self.text.name}:{line}:{column}" + (f" {self.name}" if self.name else "")


class Program:
    """A network, and where its parts are written: in its file."""

    is_haskell = False

    def __init__(self, name: str, data: bytes):
        self.name, self.data = name, data

    @cached_property
    def text(self) -> bytes:
        return self.data

    @cached_property
    def file(self) -> File:
        return read_file(self.name, self.data)

    def path(self) -> str:
        """A file that holds what the program reads, and can be read more than once."""
        path = core_file(self.data, self.text)
        PROGRAMS[path] = self
        return path

    # ---- where its parts are written

    def place_of(self, position: tuple) -> Place:
        """Where the part at a position is written; in what a shorter way means, where that stands."""
        while position not in self.file.origins:
            position = position[:-1]
        node = self.file.origins[position]
        return Place(Text(self.name, self.data), node.start, node.end)

    def meant_at(self, position: tuple):
        """What was written for just the part at a position, or None: inside of what a shorter way means nothing is."""
        node = self.file.origins.get(position)
        return None if position and self.file.origins.get(position[:-1]) is node else node

    def spelt(self, position: tuple) -> str:
        """The part at a position as it is written."""
        meant = self.meant_at(position)
        return flat(meant) if meant is not None else shown(at(self.file.tree, position))

    @cached_property
    def signals(self) -> list:
        """The networks that have a name; of a network's file there are none."""
        return []

    # ---- types

    @cached_property
    def input(self):
        return self.file.input

    def output_type(self, type_):
        """The output type that the program tells, in the file's own words."""
        return type_

    def named_type(self, type_):
        """A type in the file's own words."""
        return type_

    def is_wire(self, _position: tuple, _type) -> bool:
        """Whether the part at a position, of this output type, is just what its name says."""
        return True

    def signal_type(self, _position: tuple, type_):
        """The type of what the part at a position outputs, in the file's own words."""
        return type_


class Haskell(HaskellParts, Program):  # type: ignore[misc]
    """A program of Haskell."""

    is_haskell = True

    def __init__(self, name: str, data: bytes):
        super().__init__(name, data)
        _ = self.translation

    def path(self) -> str:
        """The same; what a file means by its own name is kept for later calls."""
        if os.environ.get(OF):
            return super().path()
        kept = core_of(self.name, self.data)
        if kept is None:
            keep_core(self.name, self.data, self.text, self.read_besides())
            return super().path()
        PROGRAMS[kept] = self
        return kept

    def read_besides(self) -> dict[str, bytes]:
        """The files that were read besides."""
        return {file: self.text_of(file) for file in self.translation.files if file != self.name}

    def place_of(self, position: tuple) -> Place:
        return Place(*self.span(position))


# ---- the programs of files


PROGRAMS = {}
HEAD_BYTES = 65_536


def read_source(name: str) -> Program:
    """The program of a file's name. What is wrong in one of Haskell is refused."""
    return program_from(name, read(name))


def program_from(name: str, data: bytes) -> Program:
    return Haskell(name, data) if is_haskell(name, data) else Program(name, data)


def program_of(path: str) -> Program:
    """The program of a path: of one that `network_path` has answered, the one that it was answered for."""
    if path not in PROGRAMS:
        PROGRAMS[path] = read_source(path)
    return PROGRAMS[path]


def network_path(path: str, name: str) -> str:
    """The file that the program reads in the place of one of Haskell, which it was called; of another file its own path."""
    try:
        with open(path, "rb") as file:
            if not is_haskell(name, file.read(HEAD_BYTES)):
                return path
        return Haskell(name, read(path)).path()
    except OSError as error:
        raise unreadable(name, error) from None
