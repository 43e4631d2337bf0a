"""What the program's `outline` tells of a network: a row for each part, with its place, its word, its type and its weight."""
import re
from dataclasses import dataclass
from functools import lru_cache

from model.trees import at, children, head
from workbench.ending import Refused
from workbench.origin import Program, program_of
from workbench.program import again, answered
from workbench.source import tree_of
from workbench.written import SyntaxFault


@dataclass(frozen=True)
class Row:
    """The word that a part begins with, its type (of a network that of its output), and the weight of a network."""

    word: str
    type: object
    weight: str = ""


@lru_cache(maxsize=10_000)
def read_type(text):
    """The type that is spelt so."""
    return tree_of(text, "T")


def position_in(text: str) -> tuple:
    """The position that is spelt first in a text."""
    found = re.search(r"\(at([ \d]*)\)", text)
    assert found is not None
    return tuple(map(int, found[1].split()))


def rows_of(output):
    """The rows of an outline, by their positions, in order."""
    rows = {}
    for line in output.decode().splitlines():
        position, word, type_, *weight = line.split("\t")
        rows[position_in(position)] = Row(word, read_type(type_), *weight)
    return rows


@dataclass
class Network:
    """A network that the program accepts: what is written in its file, and the rows of its outline."""

    program: Program
    rows: dict

    @property
    def input(self):
        return self.program.file.input

    @property
    def tree(self):
        return self.program.file.tree

    def at(self, position):
        return at(self.tree, position)

    def output(self, position):
        return self.rows[position].type

    def given(self, position):
        """The type of what goes into the network at a position."""
        if not position:
            return self.input
        above, number = position[:-1], position[-1]
        word, given = head(self.at(above)), self.given(above)
        match word, number:
            case ">>>", 1:
                return self.output((*above, 0))
            case ("first" | "rSwitch" | "drSwitch" | "rpSwitchB"), _:
                return given[1]
            case ("loopPre" | "kSwitch"), 1:
                return ("Pair", given, self.output((*above, 0)))
            case "pSwitch", _ if number < len(children(self.at(above))) - 2:
                return self.output((*above, 0))
            case "pSwitch", _ if number == len(children(self.at(above))) - 2:
                return ("Pair", given, ("List", self.output((*above, 1))))
        return given


def network_of(name):
    """The network of a file that the program accepts."""
    path = again(name)
    rows, program = rows_of(answered(["outline", path])), program_of(path)
    try:
        _ = program.file
    except SyntaxFault as fault:
        raise Refused(fault.line(name, program.data)) from None
    return Network(program, rows)


# ---- switches

# In the last part of these there is one parameter more.
SWITCHES = ["switch", "dSwitch", "rSwitch", "drSwitch", "kSwitch", "pSwitch", "rpSwitchB"]


def scope_of(tree, position):
    """How many parameters there are at a position, and where the frozen networks stand that there are."""
    params, frozen = 0, []
    for depth, number in enumerate(position):
        here = at(tree, position[:depth])
        last = len(children(here)) - 1
        if head(here) not in SWITCHES or number != last:
            continue
        params += 1
        numbers = {"kSwitch": [0], "pSwitch": range(1, last - 1)}.get(head(here), [])
        frozen += [(*position[:depth], number) for number in numbers]
    return params, frozen
