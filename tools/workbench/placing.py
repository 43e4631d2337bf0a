"""Where the parts of a picture stand: chains go from left to right and on in a further row, forks from top to bottom.

Each part is measured for a width, and then put down at a place, its upper left corner. A part has a point at its left edge at which
its input comes, and one at its right edge for its output, each so far below its upper edge as `enters` and `leaves` say.
"""
from __future__ import annotations

import textwrap
from dataclasses import dataclass, field
from typing import Any

from workbench.diagram import Box, Chain, Fork, Frame, Loop, Switch, Wire

LETTER, LINE = 6.1, 12.0
LONGEST, MOST_LINES, LONGEST_TYPE = 44, 8, 22
GAP, ROW, BUS, PAD, LANE, BAR = 24.0, 20.0, 14.0, 8.0, 24.0, 5.0


@dataclass
class Node:
    """A box, a bar, a dot, a frame or a text, by its middle."""

    kind: str
    x: float
    y: float
    wide: float
    high: float
    text: str = ""
    hover: str = ""
    link: str = ""


@dataclass
class Line:
    """A line through points, from a node to a node, with an arrow at its end where it leads into a box."""

    points: list
    ends: tuple
    style: str = "solid"
    arrow: bool = True


@dataclass
class Canvas:
    """What is put down: frames stand before what is in them."""

    nodes: list = field(default_factory=list)
    lines: list = field(default_factory=list)
    links: dict = field(default_factory=dict)

    def node(self, kind: str, x: float, y: float, wide: float, high: float, text: str = "", hover: str = "") -> int:
        self.nodes.append(Node(kind, x, y, wide, high, text, hover, self.links.get(text.split("\n")[0], "") if kind == "name" else ""))
        return len(self.nodes) - 1

    def dot(self, x: float, y: float, kind: str = "dot") -> int:
        return self.node(kind, x, y, 4, 4)

    def text(self, x: float, y: float, text: str, hover: str = "") -> None:
        """A text that begins at x."""
        wide = len(text) * LETTER
        self.node("text", x + wide / 2, y, wide, LINE, text, hover)

    def line(self, points: list, start: int, end: int, style: str = "solid", arrow: bool = True) -> None:
        self.lines.append(Line(points, (start, end), style, arrow))


def placed(part: Any, types: bool = False) -> Any:
    """The part with what it takes to place it."""
    return PLACES[type(part)](part, types)


class Place:
    """A part that is measured, and put down."""

    arrow = False
    wide = high = enters = leaves = 0.0

    def __init__(self, part: Any, types: bool):
        self.part, self.types = part, types

    def measure(self, width: float) -> None:
        raise NotImplementedError

    def put(self, canvas: Canvas, x: float, y: float) -> tuple:
        """Puts the part down, and answers the nodes at which it begins and ends."""
        raise NotImplementedError


def in_lines(text: str) -> list:
    """A text in lines; where it is too long it ends in `..`."""
    lines = textwrap.wrap(text[: LONGEST * (MOST_LINES + 2)], LONGEST, break_on_hyphens=False) or [""]
    return lines if len(lines) <= MOST_LINES else [*lines[: MOST_LINES - 1], ".. (point here for all)"]


def in_brief(type_: str) -> str:
    return type_ if len(type_) <= LONGEST_TYPE else type_[: LONGEST_TYPE - 2] + ".."


class PlacedBox(Place):
    arrow = True

    def measure(self, width: float) -> None:
        self.lines = in_lines(self.part.text) + [self.part.place] * bool(self.part.place)
        room = 8 if self.part.kind == "name" else 0
        self.wide = (max(map(len, self.lines)) + (len(self.lines) > 1)) * LETTER + 14 + room
        self.high = len(self.lines) * LINE + 10 + room
        self.enters = self.leaves = self.high / 2

    def put(self, canvas: Canvas, x: float, y: float) -> tuple:
        text = "\n".join(self.lines)
        node = canvas.node(self.part.kind, x + self.wide / 2, y + self.high / 2, self.wide, self.high, text, self.part.hover)
        return node, node


class PlacedWire(Place):
    def measure(self, width: float) -> None:
        self.wide, self.high, self.enters, self.leaves = 20.0, 14.0, 7.0, 7.0

    def put(self, canvas: Canvas, x: float, y: float) -> tuple:
        start, end = canvas.dot(x, y + 7, "joint"), canvas.dot(x + self.wide, y + 7, "joint")
        canvas.line([(x, y + 7), (x + self.wide, y + 7)], start, end, arrow=False)
        return start, end


class PlacedChain(Place):
    """Rows of parts; the output of the last part of a row goes on to the first of the next."""

    def __init__(self, part: Chain, types: bool):
        super().__init__(part, types)
        self.parts = [placed(one, types) for one in part.parts]
        self.arrow = self.parts[0].arrow

    def gap(self, number: int) -> float:
        """The room before a part, for its arrow and the type on it."""
        return max(GAP, len(self.type_text(number)) * LETTER + 14)

    def type_text(self, number: int) -> str:
        if not self.types or number == 0 or not self.part.types:
            return ""
        return in_brief(self.part.types[number - 1])

    def measure(self, width: float) -> None:
        self.rows: list = []
        at = width + 1.0
        for number, part in enumerate(self.parts):
            part.measure(width - (2 * BUS if len(self.parts) > 1 else 0))
            if at + self.gap(number) + part.wide > width - BUS or not self.rows:
                self.rows.append([])
                at = -self.gap(number) if len(self.rows) == 1 else BUS
            at += self.gap(number)
            self.rows[-1].append((number, at))
            at += part.wide
        self.offsets: list = []
        self.bottoms: list = []
        top = 0.0
        for row in self.rows:
            top = self.measure_row(row, top) + ROW
        self.high = top - ROW
        self.wide = max(at + self.parts[number].wide for row in self.rows for number, at in row) + (BUS if len(self.rows) > 1 else 0)
        self.enters = self.offsets[0] + self.parts[0].enters
        self.leaves = self.offsets[-1] + self.parts[-1].leaves

    def measure_row(self, row: list, top: float) -> float:
        """Puts the parts of a row so that their lines are straight, and answers where the row ends."""
        level, offsets = 0.0, list[float]()
        for number, _ in row:
            part = self.parts[number]
            offsets.append(level - part.enters)
            level += part.leaves - part.enters
        shift = top - min(offsets)
        self.offsets += [offset + shift for offset in offsets]
        bottom = max(offset + shift + self.parts[number].high for offset, (number, _) in zip(offsets, row))
        self.bottoms.append(bottom)
        return bottom

    def put(self, canvas: Canvas, x: float, y: float) -> tuple:
        first: Any = None
        before: Any = None
        left = (x, y)
        for at_row, row in enumerate(self.rows):
            for place, (number, at) in enumerate(row):
                part = self.parts[number]
                start, end = part.put(canvas, x + at, y + self.offsets[number])
                into = (x + at, y + self.offsets[number] + part.enters)
                if before is not None:
                    points = [left, into] if place else self.turned(left, into, x, y + self.bottoms[at_row - 1] + ROW / 2)
                    canvas.line(points, before, start, arrow=part.arrow)
                    self.put_type(canvas, number, into)
                first = start if first is None else first
                before, left = end, (x + at + part.wide, y + self.offsets[number] + part.leaves)
        if left[0] < x + self.wide:
            end = canvas.dot(x + self.wide, left[1], "joint")
            canvas.line([left, (x + self.wide, left[1])], before, end, arrow=False)
            before = end
        return first, before

    def put_type(self, canvas: Canvas, number: int, into: tuple) -> None:
        text = self.type_text(number)
        if text:
            canvas.text(into[0] - len(text) * LETTER - 9, into[1] - 7, text, self.part.types[number - 1])

    def turned(self, left: tuple, into: tuple, x: float, lane: float) -> list:
        """The way from the end of a row to the beginning of the next."""
        right = max(left[0] + BUS / 2, x + self.wide - BUS / 2)
        return [left, (right, left[1]), (right, lane), (x + BUS / 2, lane), (x + BUS / 2, into[1]), into]


class PlacedFork(Place):
    """Branches below one another between two buses: at the left a dot, or of a split a bar; at the right a bar."""

    def __init__(self, part: Fork, types: bool):
        super().__init__(part, types)
        self.parts = [placed(one, types) for one in part.parts]

    def measure(self, width: float) -> None:
        for part in self.parts:
            part.measure(width - 4 * BUS)
        self.tops, top = [], 0.0
        for part in self.parts:
            self.tops.append(top)
            top += part.high + 10
        self.high = top - 10
        self.wide = max(part.wide for part in self.parts) + 4 * BUS
        ins = [top + part.enters for top, part in zip(self.tops, self.parts)]
        outs = [top + part.leaves for top, part in zip(self.tops, self.parts)]
        self.span = (min(ins[0], outs[0]) - 6, max(ins[-1], outs[-1]) + 6)
        self.enters = self.leaves = (ins[0] + ins[-1]) / 2

    def put(self, canvas: Canvas, x: float, y: float) -> tuple:
        middle, high = y + sum(self.span) / 2, self.span[1] - self.span[0]
        level = y + self.enters
        right = x + self.wide - BUS
        if self.part.split:
            start = canvas.node("split", x + BUS, middle, BAR, high, "", "a pair: its first part above")
        else:
            start = canvas.dot(x + BUS, level)
        end = canvas.node("bar", right, middle, BAR, high, "", f"{self.part.joins} of what comes here, from above")
        for top, part in zip(self.tops, self.parts):
            first, last = part.put(canvas, x + 2 * BUS, y + top)
            enters, leaves = y + top + part.enters, y + top + part.leaves
            canvas.line([(x + BUS, level), (x + BUS, enters), (x + 2 * BUS, enters)][self.part.split :], start, first, arrow=part.arrow)
            canvas.line([(x + 2 * BUS + part.wide, leaves), (right - BAR / 2, leaves)], last, end, arrow=False)
        begin = canvas.dot(x, level, "joint")
        canvas.line([(x, level), (x + BUS - (BAR / 2 if self.part.split else 0), level)], begin, start, arrow=False)
        out = canvas.dot(x + self.wide, level, "joint")
        canvas.line([(right + BAR / 2, level), (x + self.wide, level)], end, out, arrow=False)
        return begin, out


class PlacedLoop(Place):
    """Between two bars; what is fed back goes back below, through its constant."""

    def __init__(self, part: Loop, types: bool):
        super().__init__(part, types)
        self.body, self.constant = placed(part.body, types), placed(part.constant, types)

    def measure(self, width: float) -> None:
        self.body.measure(width - 2 * (GAP + BUS))
        self.constant.measure(width - 2 * (GAP + BUS))
        inside = max(self.body.wide, self.constant.wide)
        self.wide = inside + 2 * (GAP + BUS)
        self.high = self.body.high + 12 + self.constant.high
        self.enters, self.leaves = self.body.enters, self.body.leaves
        self.level = self.body.high + 12 + self.constant.high / 2

    def put(self, canvas: Canvas, x: float, y: float) -> tuple:
        left, right, level = x + BUS, x + self.wide - BUS, y + self.level
        enters, leaves = y + self.enters, y + self.leaves
        start = canvas.node("bar", left, enters, BAR, 20, "", "the pair of the input and what is fed back")
        end = canvas.node("split", right, leaves, BAR, 20, "", "a pair: its first part goes on, its second one back")
        first, last = self.body.put(canvas, left + GAP, y)
        canvas.line([(left + BAR / 2, enters), (left + GAP, enters)], start, first, arrow=self.body.arrow)
        canvas.line([(left + GAP + self.body.wide, leaves), (right - BAR / 2, leaves)], last, end, arrow=False)
        at = (left + right - self.constant.wide) / 2
        back, _ = self.constant.put(canvas, at, y + self.body.high + 12)
        canvas.line([(right, leaves + 10), (right, level), (at + self.constant.wide, level)], end, back)
        canvas.line([(at, level), (left, level), (left, enters + 10)], back, start)
        begin, out = canvas.dot(x, enters, "joint"), canvas.dot(x + self.wide, leaves, "joint")
        canvas.line([(x, enters), (left - BAR / 2, enters)], begin, start, arrow=False)
        canvas.line([(right + BAR / 2, leaves), (x + self.wide, leaves)], end, out, arrow=False)
        return begin, out


class PlacedFrame(Place):
    arrow = True

    def __init__(self, part: Frame, types: bool):
        super().__init__(part, types)
        self.inner = placed(part.inner, types)

    def measure(self, width: float) -> None:
        self.inner.measure(width - 2 * GAP)
        self.wide = max(self.inner.wide + 2 * GAP, len(self.part.label) * LETTER + 2 * PAD)
        self.high = self.inner.high + 2 * PAD + LINE
        self.enters, self.leaves = self.inner.enters + PAD + LINE, self.inner.leaves + PAD + LINE

    def put(self, canvas: Canvas, x: float, y: float) -> tuple:
        kind = "dashed" if self.part.dashed else "frame"
        frame = canvas.node(kind, x + self.wide / 2, y + self.high / 2, self.wide, self.high, "", self.part.hover)
        canvas.text(x + PAD, y + 8, self.part.label)
        first, last = self.inner.put(canvas, x + GAP, y + PAD + LINE)
        enters, leaves = y + self.enters, y + self.leaves
        canvas.line([(x, enters), (x + GAP, enters)], frame, first, arrow=self.inner.arrow)
        canvas.line([(x + GAP + self.inner.wide, leaves), (x + self.wide, leaves)], last, frame, arrow=False)
        return frame, frame


class PlacedSwitch(Place):
    """A frame with what runs, below it what tells of the event, and below that what takes over."""

    arrow = True

    def __init__(self, part: Switch, types: bool):
        super().__init__(part, types)
        self.runs, self.takes = placed(part.runs, types), placed(part.takes, types)
        self.watch = placed(part.watch, types) if part.watch else None

    def measure(self, width: float) -> None:
        inner = width - 2 * self.side - BAR
        rows = [one for one in (self.runs, self.watch, self.takes) if one]
        for one in rows:
            one.measure(inner - (GAP if one is self.watch else 0))
        top, self.tops = PAD + LINE, []
        for one in rows:
            self.tops.append(top)
            top += one.high + LANE
        self.high = top - LANE + PAD
        self.wide = max(max(one.wide + (GAP if one is self.watch else 0) for one in rows) + 2 * self.side, len(self.part.label) * LETTER + 2 * PAD)
        self.enters = self.leaves = self.tops[0] + self.runs.enters
        self.leaves = self.tops[0] + self.runs.leaves

    side = 2 * GAP

    def put(self, canvas: Canvas, x: float, y: float) -> tuple:
        self.x, self.y = x, y
        frame = canvas.node("frame", x + self.wide / 2, y + self.high / 2, self.wide, self.high)
        canvas.text(x + PAD, y + 8, self.part.label)
        runs, _ = self.runs.put(canvas, x + self.side, y + self.tops[0])
        takes, _ = self.takes.put(canvas, x + self.side, y + self.tops[-1])
        self.put_inputs(canvas, frame, runs, takes)
        self.put_outputs(canvas, frame, runs, takes)
        getattr(self, f"put_event_of_{self.part.source}")(canvas, frame, runs, takes)
        return frame, frame

    # Lines: the input's bus is at the left, the output's at the right, and what goes back goes between the rows.

    def level(self, row: int, place: Place, leaves: bool = False) -> float:
        return self.y + self.tops[row] + (place.leaves if leaves else place.enters)

    def put_inputs(self, canvas: Canvas, frame: int, runs: int, takes: int) -> None:
        left, bus = self.x + self.side, self.x + BUS
        enters, below = self.y + self.enters, self.level(-1, self.takes)
        start = canvas.node("split", bus, enters, BAR, 20, "", "a pair: its first part is the input, its second one the event") if self.part.source == "input" else canvas.dot(bus, enters)
        canvas.line([(self.x, enters), (bus, enters)], frame, start, arrow=False)
        canvas.line([(bus, enters), (left, enters)], start, runs)
        corner = bus + PAD if self.part.source == "input" else bus
        canvas.line([(corner, enters), (corner, below), (left, below)], start, takes)
        self.start = start

    def put_outputs(self, canvas: Canvas, frame: int, runs: int, takes: int) -> None:
        left, bus, right = self.x + self.side, self.x + self.wide - BUS, self.x + self.wide
        leaves, below = self.y + self.leaves, self.level(-1, self.takes, True)
        end = canvas.dot(bus, leaves)
        canvas.line([(left + self.runs.wide, leaves), (bus, leaves)], runs, end, arrow=False)
        canvas.line([(left + self.takes.wide, below), (bus, below), (bus, leaves)], takes, end, arrow=False)
        canvas.line([(bus, leaves), (right, leaves)], end, frame, arrow=False)

    def into_takes(self, points: list) -> list:
        """The way of an event on to the frame of what takes over, in the lane above it."""
        top = self.y + self.tops[-1]
        lane, at = top - LANE / 2, self.x + self.side + min(self.takes.wide, self.runs.wide) / 2
        return [*points, (points[-1][0], lane), (at, lane), (at, top)]

    def event_text(self, canvas: Canvas) -> None:
        at = self.x + self.side + min(self.takes.wide, self.runs.wide) / 2
        canvas.text(at + 4, self.y + self.tops[-1] - 6, "event")

    def put_event_of_run(self, canvas: Canvas, _frame: int, _runs: int, takes: int) -> None:
        right, leaves = self.x + self.side + self.runs.wide + PAD, self.y + self.leaves
        split = canvas.node("split", right, leaves, BAR, 20, "", "a pair: its first part is the output, its second one the event")
        canvas.line(self.into_takes([(right, leaves + 10)]), split, takes, "dashed")
        self.event_text(canvas)

    def put_event_of_input(self, canvas: Canvas, _frame: int, _runs: int, takes: int) -> None:
        bus, enters = self.x + BUS, self.y + self.enters
        if self.watch is None:
            canvas.line(self.into_takes([(bus, enters + 10)]), self.start, takes, "dashed")
        else:
            watch, _ = self.watch.put(canvas, self.x + self.side + GAP, self.y + self.tops[1])
            level = self.level(1, self.watch)
            canvas.line([(bus, enters + 10), (bus, level), (self.x + self.side + GAP, level)], self.start, watch, "dashed")
            self.put_event_of_chosen(canvas, watch, takes)
        self.event_text(canvas)

    def put_event_of_chosen(self, canvas: Canvas, watch: int, takes: int) -> None:
        right = self.x + self.side + GAP + self.watch.wide
        level = self.level(1, self.watch, True)
        canvas.line(self.into_takes([(right, level), (right + PAD, level)]), watch, takes, "dashed")

    def put_event_of_watch(self, canvas: Canvas, _frame: int, runs: int, takes: int) -> None:
        """It sees the pair of the input and of what runs outputs."""
        left, bus = self.x + self.side, self.x + BUS
        watch, _ = self.watch.put(canvas, left + GAP, self.y + self.tops[1])
        level, leaves = self.level(1, self.watch), self.y + self.leaves
        lane = self.y + self.tops[1] - LANE / 2
        pair = canvas.node("bar", left, level, BAR, 20, "", "the pair of the input and the output")
        canvas.line([(bus, level), (left - BAR / 2, level)], self.start, pair, arrow=False)
        right = left + self.runs.wide + PAD
        canvas.dot(right, leaves)
        canvas.line([(right, leaves), (right, lane), (left, lane), (left, level - 10)], runs, pair)
        canvas.line([(left + BAR / 2, level), (left + GAP, level)], pair, watch)
        self.put_event_of_chosen(canvas, watch, takes)
        self.event_text(canvas)


PLACES = {Box: PlacedBox, Wire: PlacedWire, Chain: PlacedChain, Fork: PlacedFork, Loop: PlacedLoop, Frame: PlacedFrame, Switch: PlacedSwitch}
