"""Lays out trees in lines of at most 100 columns, with their comments, in time linear in what is printed.

A form stands in one line where there is room for it; else its parts stand below one another, behind its word where each of them
has room there, else two columns from its parenthesis. How wide a part must be is known from its own parts, so one walk up and one
walk down lay out all.
"""
from dataclasses import dataclass
from typing import Any

WIDTH = 100
# A form that is no longer than this isn't broken where that can be helped.
SHORT = 40
SIDE_BY_SIDE = ("delay", "after", "repeatedly", "loopPre", "list", "none", "-->", ">--", "add", "sub", "mul", "less", "equal")
# Parts that stand two columns deeper than their form stand no deeper than this, so that what is printed is no longer than its lines.
DEEPEST = 72
NEVER = float("inf")


def is_form(node):
    return bool(node.parts) or node.word in ("parB", "col")


def flat(node) -> str:
    """The text of a node in one line."""
    pieces: list[str] = []
    write_flat(node, pieces)
    return "".join(pieces)


def write_flat(node, pieces: list) -> None:
    if not is_form(node):
        pieces.append(str(node.word))
        return
    pieces.append(f"({node.word}")
    for part in node.parts:
        pieces.append(" ")
        write_flat(part, pieces)
    pieces.append(")")


# ---- how wide


@dataclass
class Box:
    """A tree that is to be laid out: what stands before its parts and behind them; how many characters follow its last one; and
    how wide it is in one line, with its parts behind its word, and at least."""

    node: Any
    opening: str
    parts: list
    closing: str
    behind: int
    flat: float
    hanging: float
    least: float


def box_of(node, behind: int = 0) -> Box:
    """The box of a node behind whose last character so many others stand."""
    if not is_form(node):
        width = len(str(node.word))
        return Box(node, str(node.word), [], "", behind, width, NEVER, width + behind)
    opening, rest = f"({node.word}", node.parts
    if opening[1:] in SIDE_BY_SIDE and len(rest) > 1 and stands_alone(rest[0]) and not node.opened:
        opening, rest = f"{opening} {rest[0].word}", rest[1:]
    last = len(rest) - 1
    return form_box(node, opening, [box_of(part, behind + 1 if number == last else 0) for number, part in enumerate(rest)], behind)


def stands_alone(node) -> bool:
    """Whether a node is a word with no comment."""
    return not is_form(node) and not node.comments and not node.trailing


def form_box(node, opening: str, parts: list, behind: int) -> Box:
    whole = len(opening) + 1 + sum(1 + part.flat for part in parts)
    if node.opened or node.closing or any(part.node.comments or part.node.trailing for part in parts):
        whole = NEVER
    widest = max((part.least for part in parts), default=0)
    hanging = len(opening) + 1 + widest if parts else NEVER
    low = max(len(opening), 2 + widest)
    least = whole + behind if whole <= SHORT else min(whole + behind, hanging, low)
    return Box(node, opening, parts, ")", behind, whole, hanging, least)


# ---- lines


class Lines:
    """Lines as they are written, one behind the other."""

    def __init__(self):
        self.done: list[str] = []
        self.pieces: list[str] = []
        self.commented = False

    def put(self, text: str, indent: int) -> None:
        """Puts text behind the last, or in a new line where that one ends in a comment."""
        if self.commented:
            self.end()
            self.pieces.append(" " * indent)
        self.pieces.append(text)

    def end(self) -> None:
        if self.pieces:
            self.done.append("".join(self.pieces))
        self.pieces, self.commented = [], False

    def start(self, indent: int) -> None:
        """Begins a new line."""
        self.end()
        self.pieces.append(" " * indent)

    def comment_behind(self, text: str, indent: int) -> None:
        self.put(("" if self.commented else "  ") + text, indent)
        self.commented = True

    def comments_of_their_own(self, texts: list, indent: int) -> None:
        """Comments in lines of their own, before a line that is begun behind them."""
        self.end()
        self.done += [" " * indent + text for text in texts]


def laid_out(node, indent: int = 0) -> list:
    """The lines of a node whose first word stands at that column. The first line has no indentation."""
    lines = Lines()
    lay(box_of(node), indent, lines)
    lines.end()
    return lines.done


def lay(box: Box, indent: int, lines: Lines) -> None:
    """Writes a box whose first character stands at that column of the last line."""
    if indent + box.flat + box.behind <= WIDTH or not box.parts and not box.node.closing and not box.node.opened:
        lay_flat(box, lines, indent)
    else:
        lay_parts(box, indent, lines)
    for comment in box.node.trailing:
        lines.comment_behind(comment, indent)


def lay_flat(box: Box, lines: Lines, indent: int) -> None:
    pieces: list[str] = []
    write_box(box, pieces)
    lines.put("".join(pieces), indent)


def write_box(box: Box, pieces: list) -> None:
    pieces.append(box.opening)
    for part in box.parts:
        pieces.append(" ")
        write_box(part, pieces)
    pieces.append(box.closing)


def lay_parts(box: Box, indent: int, lines: Lines) -> None:
    """A form's parts below one another, behind its word where there is room for that, else below it."""
    hangs = indent + box.hanging <= WIDTH
    inner = indent + len(box.opening) + 1 if hangs else min(indent + 2, DEEPEST)
    lines.put(box.opening, indent)
    for comment in box.node.opened:
        lines.comment_behind(comment, indent)
    for number, part in enumerate(box.parts):
        if part.node.comments:
            lines.comments_of_their_own(part.node.comments, inner)
        if number == 0 and hangs and not part.node.comments and not box.node.opened:
            lines.put(" ", indent)
        else:
            lines.start(inner)
        lay(part, inner, lines)
    if box.node.closing:
        lines.comments_of_their_own(box.node.closing, inner)
        lines.start(indent)
    lines.put(box.closing, indent)
