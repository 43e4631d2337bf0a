"""What a network looks like: boxes, chains, forks, loops and switches, as one thinks of them."""
from __future__ import annotations

import re
from dataclasses import dataclass, field
from typing import Any, Optional

from model.trees import SWAP, at_text, children, head, shown
from workbench.layout import laid_out
from workbench.outline import SWITCHES, Network, scope_of
from front.spell import shown_type
from workbench.shorter import EDGE, shortened
from workbench.signals import Position
from workbench.watching import node_of

Tree = Any

FORKED = ("arr", ("pair", "x", "x"))
SWAPPED = ("arr", SWAP)


@dataclass
class Box:
    """A part that is drawn as one box: its text, what is told where one points at it, its position where that is shown, and whether it
    stands for a name that has a drawing of its own (`name`), for what is left out (`cut`), or for a `constant`."""

    text: str
    hover: str = ""
    place: str = ""
    kind: str = "part"


@dataclass
class Wire:
    """What goes on as it is."""


@dataclass
class Chain:
    """Parts behind one another; on the arrow to each but the first stands a type, where types are shown."""

    parts: list
    types: list = field(default_factory=list)


@dataclass
class Fork:
    """Parts below one another: each gets the whole input, or of a `split` one its part of a pair; their outputs make a pair, or a
    list."""

    parts: list
    split: bool = False
    joins: str = "pair"


@dataclass
class Loop:
    """A part whose second output comes back as its second input, through a constant."""

    body: Any
    constant: Box


@dataclass
class Frame:
    """A part in a frame with a label."""

    label: str
    inner: Any
    dashed: bool = False
    hover: str = ""


@dataclass
class Switch:
    """What runs up to an event, what tells of the event where that isn't what runs, and what takes over then. The event comes from
    what runs (`run`), from what watches its input and output (`watch`), or from the input (`input`)."""

    label: str
    source: str
    runs: Frame
    watch: Any
    takes: Frame


@dataclass
class Diagram:
    """Makes the picture of a network from a position on; deeper than `depth` parts are boxes."""

    whole: Network
    folds: bool = True
    depth: int = 1_000_000
    positions: bool = False
    types: bool = False
    counts: Optional[dict] = None

    def __post_init__(self) -> None:
        self.known = {position: re.sub(r"#\d+$", "", name) for name, position in self.whole.program.signals}
        self.names = dict(self.known) if self.folds else {}

    def picture(self, position: Position = ()) -> Chain:
        """The picture of what stands at a position, itself unfolded."""
        self.names.pop(position, None)
        return self.chain(self.stages(position, self.whole.at(position)), self.depth)

    # ---- texts

    def place(self, position: Position) -> str:
        """The position, and how often what stands there was run, where these are shown."""
        shown_here = [at_text(position)] if self.positions else []
        if self.counts is not None and position in self.counts:
            shown_here.append(f"{self.counts[position]} times" if self.counts[position] else "never")
        return ", ".join(shown_here)

    def label(self, position: Position, text: str) -> str:
        return f"{text} {self.place(position)}".rstrip()

    def written(self, position: Position) -> str:
        """The part at a position as it is written, or as one writes it; of what a name stands for that."""
        program, tree = self.whole.program, self.whole.at(position)
        if program.meant_at(position) is not None and position not in self.known:
            return program.spelt(position)
        return shown(shortened(tree)) if self.whole.rows[position].weight else shown(tree)

    def box(self, position: Position, text: str = "", kind: str = "part") -> Box:
        written = self.written(position)
        return Box(text or written, written, self.place(position), self.kind(position) if kind == "part" else kind)

    def kind(self, position: Position) -> str:
        """How the box of a part looks: one that was never run is marked, where that is counted."""
        return "never" if self.counts is not None and self.counts.get(position) == 0 else "part"

    def type(self, type_: Tree) -> str:
        return shown_type(self.whole.program.named_type(type_)) if self.types else ""

    # ---- chains

    def stages(self, position: Position, tree: Tree) -> list:
        """The parts of a chain with their positions."""
        if head(tree) != ">>>" or tree == EDGE or position in self.names:
            return [(position, tree)]
        return self.stages((*position, 0), tree[1]) + self.stages((*position, 1), tree[2])

    def part(self, position: Position, tree: Tree, depth: int) -> Any:
        return self.chain(self.stages(position, tree), depth)

    def chain(self, stages: list, depth: int) -> Chain:
        """The chain of stages, those that only wire forks and splits drawn as these."""
        parts, types, at = [], [], 0
        while at < len(stages):
            length, part = self.wired(stages[at : at + 5], depth)
            parts.append(part)
            at += length
            types.append(self.type(self.whole.output(stages[at - 1][0])))
        kept = [number for number, part in enumerate(parts) if not isinstance(part, Wire)]
        return Chain([parts[number] for number in kept] or [Wire()], [types[number] for number in kept])

    def wired(self, stages: list, depth: int) -> tuple:
        """How many stages make the first part, and that part."""
        trees = [tree for _, tree in stages]
        forks = trees[0] == FORKED and len(trees) > 1 and head(trees[1]) == "first" and stages[1][0] not in self.names
        rest = stages[1:] if forks else stages
        trees = trees[1:] if forks else trees
        if head(trees[0]) == "first" and rest[0][0] not in self.names:
            second = trees[1:4] if len(trees) > 3 and is_second(trees[1:4]) else None
            left = self.branch((*rest[0][0], 0), depth)
            right = self.branch((*rest[2][0], 0), depth) if second else Wire()
            return forks + (4 if second else 1), fork([left, right], not forks)
        if len(trees) > 2 and is_second(trees[:3]):
            return 3, fork([Wire(), self.branch((*rest[1][0], 0), depth)], True)
        if len(trees) > 1 and head(trees[0]) == "accumBy" and trees[1] == ("hold", trees[0][2]):
            return 2, self.accumulator(rest[0][0], rest[1][0])
        return 1, self.single(stages[0][0], stages[0][1], depth)

    def accumulator(self, first: Position, second: Position) -> Box:
        """The box of `accumHoldBy`, which is a chain of two."""
        _, told, start = self.whole.at(first)
        whole = first[:-1] if first[:-1] == second[:-1] and first[-1:] == (0,) else None
        text = self.written(whole) if whole is not None and self.whole.program.meant_at(whole) else shown(("accumHoldBy", told, start))
        return Box(text, text, self.place(first))

    def branch(self, position: Position, depth: int) -> Any:
        part = self.deeper(position, depth)
        return Wire() if isinstance(part, Chain) and len(part.parts) == 1 and isinstance(part.parts[0], Wire) else part

    def deeper(self, position: Position, depth: int) -> Any:
        """What stands at a position one deeper; where that is too deep a box."""
        tree = self.whole.at(position)
        weight = int(self.whole.rows[position].weight)
        if depth > 0 or weight == 1 or position in self.names:
            return self.part(position, tree, depth - 1)
        return Box(f"{head(shortened(tree))} .. (weight {weight})", self.written(position), self.place(position), "cut")

    # ---- single parts

    def single(self, position: Position, tree: Tree, depth: int) -> Any:
        if position in self.names:
            text = self.names[position] + "\n" + "\n".join(laid_out(node_of(shortened(tree))))
            return Box(self.names[position], text, self.place(position), "name")
        word = head(tree)
        if tree == ("arr", "x"):
            return Wire()
        if word == "parB":
            return Fork([self.branch((*position, number), depth) for number in range(len(children(tree)))], False, "list")
        if word == "loopPre":
            return Loop(self.deeper((*position, 1), depth), self.constant(position, "at first "))
        if word == "-->":
            return Chain([self.deeper((*position, 1), depth), self.constant(position, "first output ")])
        if word == ">--":
            return Chain([self.constant(position, "first input "), self.deeper((*position, 1), depth)])
        if word in SWITCHES:
            return self.switch(position, tree, depth)
        if word == "arr" and head(shortened(tree)) == "arr":
            return Box(self.written((*position, 0)), self.written(position), self.place(position), self.kind(position))
        return self.box(position)

    def constant(self, position: Position, behind: str) -> Box:
        inner = (*position, 0)
        return self.box(inner, behind + self.written(inner), "constant")

    def frame(self, position: Position, label: str, depth: int, dashed: bool = False) -> Frame:
        return Frame(self.label(position, label), self.deeper(position, depth), dashed)

    def switch(self, position: Position, tree: Tree, depth: int) -> Switch:
        word, last = head(tree), len(children(tree)) - 1
        level, frozen = scope_of(self.whole.tree, position)
        numbers = self.frozen_numbers(word, last, len(frozen))
        takes = self.frame((*position, last), f"from the event on, its value (p {level}){numbers}", depth, True)
        label = self.label(position, word)
        if word == "kSwitch":
            runs, watch = self.frame((*position, 0), f"runs, then is (old {len(frozen)})", depth), self.frame((*position, 1), "watches", depth)
            return Switch(label, "watch", runs, watch, takes)
        if word == "pSwitch":
            members = self.members(position, range(1, last - 1), depth, len(frozen))
            routes = self.box((*position, 0), f"routes by {self.written((*position, 0))}", "constant")
            watch = self.frame((*position, last - 1), "watches", depth)
            return Switch(label, "watch", Frame("runs", Chain([routes, members])), watch, takes)
        if word == "rpSwitchB":
            members = self.members(position, range(last - 1), depth)
            chooses = self.box((*position, last - 1), f"chooses by {self.written((*position, last - 1))}", "constant")
            return Switch(label, "input", Frame("runs", Chain([members])), chooses, takes)
        source = "run" if word in ("switch", "dSwitch") else "input"
        return Switch(label, source, self.frame((*position, 0), "runs", depth), None, takes)

    @staticmethod
    def frozen_numbers(word: str, last: int, first: int) -> str:
        if word == "kSwitch":
            return f", resumes (old {first})"
        return f", resumes (old {first}) to (old {first + last - 3})" if word == "pSwitch" else ""

    def members(self, position: Position, numbers: range, depth: int, frozen: Optional[int] = None) -> Fork:
        """The members in their order, each in a frame with its number."""
        labels = [f"member {count}" + ("" if frozen is None else f", then is (old {frozen + count})") for count in range(len(numbers))]
        frames = [self.frame((*position, number), label, depth) for number, label in zip(numbers, labels)]
        return Fork(frames, False, "list")


def is_second(trees: list) -> bool:
    return trees[0] == trees[2] == SWAPPED and head(trees[1]) == "first"


def fork(parts: list, split: bool) -> Fork:
    """Two branches; where the second is a fork of the same kind alone, all of them side by side."""
    last = parts[1]
    if isinstance(last, Chain) and len(last.parts) == 1:
        last = last.parts[0]
    if isinstance(last, Fork) and last.split == split and last.joins == "pair":
        return Fork([parts[0], *last.parts], split)
    return Fork(parts, split)
