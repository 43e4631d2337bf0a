"""The parts of a network that a person looks at in a run: what they are called, and their values column by column."""
from __future__ import annotations

import sys
from dataclasses import dataclass
from typing import Any, Callable, Iterable, Iterator

from model.trees import SWAP, at_text, head
from workbench.ending import Refused, Words
from workbench.outline import Network, network_of
from workbench.program import again
from front.spell import parts_of
from workbench.running import Piece, Pieces, Run, Tellers, run_of, signals_of, tellers_of, watchable
from workbench.shorter import shortened
from workbench.signals import ABSENT, Position
from workbench.watching import position_in

Tree = Any

# What only leads a value to where it is wanted.
WIRES = (("arr", "x"), ("arr", SWAP), ("arr", ("pair", "x", "x")))


def is_wiring(tree: Tree) -> bool:
    return tree in WIRES or head(tree) in (">>>", "first")


@dataclass
class Track:
    """A column of a signal: its name, part by part, its type, and its values, ABSENT where the part doesn't run; of a part of members
    each is Several. The position is that of the part, but of inputs and outputs."""

    path: tuple
    type: Tree
    values: list
    members: bool = False
    position: Position | None = None

    @property
    def name(self) -> str:
        return ".".join(self.path)


def columns(type_: Tree, path: tuple = (), way: tuple = ()) -> Iterator[tuple]:
    """The names, the type and the way of each part of nested pairs, called by a record's fields where the type has them. A way is made
    of 0 and 1, for the first and the second part of a pair."""
    parts = parts_of(type_)
    if not parts:
        yield path, type_, way
    for number, (name, part_type) in enumerate(parts):
        last = number == len(parts) - 1
        yield from columns(part_type, (*path, name), (*way, *[1] * number, *([] if last else [0])))


def tracks(path: tuple, type_: Tree, values: list, position: Position | None = None) -> Iterator[Track]:
    """A column for each part of nested pairs."""
    for names, part_type, way in columns(type_):
        yield Track((*path, *names), part_type, reached(values, way), position=position)


def reached(values: list, way: tuple) -> list:
    """That part of each value."""
    for half in way:
        values = [value if value is ABSENT else value[half] for value in values]
    return values


@dataclass
class Look:
    """A run, or a piece of one, with the columns of its inputs, its outputs and its parts, and lines on what is not among them."""

    whole: Network
    run: Run | Piece
    ends: list
    inside: list
    notes: list

    @property
    def tracks(self) -> list:
        return [*self.ends, *self.inside]


def named(whole: Network) -> dict:
    """The names that stand for networks, by their positions."""
    return {position: name for name, position in whole.program.signals if whole.program.is_wire(position, whole.output(position))}


def chosen(whole: Network, everything: bool, below: Position = ()) -> list:
    """The positions of the parts to look at: where names stand for networks these, else those that aren't wiring; or all."""
    names = named(whole)
    found = [position for position in watchable(whole) if position[: len(below)] == below and position]
    if everything:
        return found
    if names:
        return [position for position in found if position in names]
    return [position for position in found if not is_wiring(whole.at(position))]


def named_parts(whole: Network) -> list:
    """The positions of the parts that have names."""
    names = named(whole)
    return [position for position in chosen(whole, False) if position in names]


def looked_at(net: str, stream: bytes, choose: Callable, start: int | None = None, stop: int | None = None) -> Look:
    """The run of a network from one time to another with the signals of the parts that are chosen of it."""
    path = again(net)
    whole = network_of(path)
    run = run_of(path, stream, start, stop)
    watched = signals_of(whole, run, choose(whole))
    return look_of(whole, run, watched.signals, names_of(whole, watched.signals), list(notes_on(watched.tellers)))


def look_of(whole: Network, run: Run | Piece, signals: dict, names: dict, notes: list) -> Look:
    ends = list(tracks(("input",), whole.program.input, run.inputs))
    ends += tracks(("output",), whole.program.output_type(whole.output(())), run.outputs)
    inside = list[Track]()
    for position, signal in signals.items():
        name, type_ = (names[position],), whole.program.signal_type(position, signal.type)
        inside += [Track(name, type_, signal.values, True, position)] if signal.members else tracks(name, type_, signal.values, position)
    return Look(whole, run, ends, inside, notes)


class Looks:
    """A run with all parts that a person looks at, from those on that the words of `--at` name, piece by piece."""

    def __init__(self, net: str, stream: str, everything: bool, below: list):
        path = again(net)
        self.whole = network_of(path)
        tellers = tellers_of(self.whole, chosen(self.whole, everything, position_in(self.whole, below)))
        self.pieces, self.names = Pieces(path, tellers, stream), names_of(self.whole, tellers.told)
        self.notes = [*notes_on(tellers), *unseen(self.whole)]

    def __iter__(self) -> Iterator[Look]:
        for piece in self.pieces:
            yield look_of(self.whole, piece, piece.signals, self.names, self.notes)

    @property
    def fault(self) -> str:
        """What ended the run, behind its last piece."""
        return self.pieces.fault


def names_of(whole: Network, positions: Iterable[Position]) -> dict:
    """What parts are called, by their positions: by their names, or their forms and where they stand."""
    names = named(whole)
    return {position: names.get(position) or f"{word_of(whole, position)} {at_text(position)}" for position in positions}


def word_of(whole: Network, position: Position) -> str:
    """The word of a part, as one writes it."""
    tree = whole.at(position)
    return str(head(tree)) if head(tree) in (">>>", "parB", "pSwitch", "rpSwitchB") else str(head(shortened(tree)))


def notes_on(tellers: Tellers) -> Iterator[str]:
    """What is to be said of signals that take several runs, and of those that are missing."""
    if len(tellers.found) > 1:
        yield f"{len(tellers.told)} signals don't fit into one run of the program: {len(tellers.found)} runs"
    if tellers.missing:
        position, fault = next(iter(tellers.missing.items()))
        others = f" and {len(tellers.missing) - 1} other parts" if len(tellers.missing) > 1 else ""
        yield f"{at_text(position)}{others} can't be watched within the limits ({fault})"


def unseen(whole: Network) -> Iterator[str]:
    """That what watches a switch isn't among the signals."""
    seen = set(watchable(whole))
    left = [position for position, row in whole.rows.items() if row.weight and position not in seen and position[:-1] in seen]
    if left:
        yield f"what watches a switch can't be watched itself: {', '.join(map(at_text, left[:8]))}{' ..' * (len(left) > 8)}"


def tell_rest(tool: str, notes: list, fault: str) -> None:
    """Says on standard error what isn't among the signals, and refuses a run that a fault has ended."""
    for note in notes:
        print(f"yampa {tool}: {note}", file=sys.stderr)
    if fault:
        raise Refused(fault)


def add_choice(words: Words) -> None:
    words.add_argument("--all", action="store_true", dest="everything", help="all parts that can be watched, also wires and those without a name")
