"""Networks as pictures of boxes and arrows, which graphviz draws."""
from __future__ import annotations

import os
import re
import shutil
import subprocess
from typing import Optional

from workbench.diagram import Chain, Diagram
from workbench.ending import UNREADABLE, Refused, Words, write
from workbench.outline import Network, network_of
from workbench.placing import LETTER, Canvas, Line, Node, in_brief, placed
from workbench.signals import Position
from workbench.watching import add_position, position_in

ABOUT = """Draws NET as boxes and arrows, from left to right; a chain that is too long continues in the next row.

  yampa draw NET -o FILE.svg        or FILE.png, FILE.pdf, FILE.dot
  yampa draw NET --types --positions > FILE.svg

A dot forks: all branches get the same. A hollow bar splits a pair, its first part above; a full one joins
a pair or a list, from above. Feedback runs back below, through its constant. A switch is a frame: what
runs, what watches it, and dashed what takes over at the event. Each wire that a file of Haskell names is a
box with a double edge; --at draws its inside, --open all in one picture. A browser shows the whole text of
the box under the pointer.

Needs graphviz (Debian's package `graphviz`)."""

SECONDS = 20
WIDTH = 1000
LONGEST_SIDE = {"png": 24_000}
ENDINGS = ("svg", "png", "pdf", "dot")
NEW_LINE = "\\n"
# graphviz reads texts of at most 16,384 bytes, in which an ampersand takes five.
LONGEST_TEXT = 12_000
MARGIN, ARROW = 12.0, 20.0

STYLE = """digraph network {
layout=neato; bgcolor="#ffffff"; outputorder=nodesfirst; splines=line; pad=0; dpi=DPI; notranslate=true;
node [fontname="monospace", fontsize=10, shape=box, fixedsize=true, style=filled, fillcolor="#f4f4f4", color="#444444", fontcolor="#111111", penwidth=0.8, label="", margin=0];
edge [color="#333333", arrowsize=0.6, penwidth=0.9];
"""
KINDS = {
    "part": 'style="rounded,filled"',
    "name": 'style=filled, fillcolor="#e6eef8", peripheries=2',
    "cut": 'style="filled,dashed", fillcolor="#eeeeee"',
    "never": 'style="rounded,filled,dashed", fillcolor="#f6e0e0"',
    "constant": 'style=filled, fillcolor="#fff4dd"',
    "frame": 'style="rounded", color="#888888"',
    "dashed": 'style="rounded,dashed", color="#666666"',
    "bar": 'style=filled, fillcolor="#333333", color="#333333"',
    "split": 'style=filled, fillcolor="#ffffff", color="#333333"',
    "dot": 'shape=point, fillcolor="#333333", color="#333333"',
    "joint": "shape=point, style=invis",
    "text": "shape=plaintext, style=solid",
}


def quoted(text: str, line_end: str) -> str:
    """A text in quotes; a backslash and an ampersand are graphviz's own."""
    text = text if len(text) <= LONGEST_TEXT else text[:LONGEST_TEXT] + " .."
    safe = re.sub(r"[\x00-\x09\x0b-\x1f]", "?", text)
    return '"' + safe.replace("\\", "\\\\").replace('"', '\\"').replace("&", "&amp;").replace("\n", line_end) + '"'


def label_of(text: str) -> str:
    """The text in a box; several lines begin below one another."""
    return quoted("".join(f" {line}\n" for line in text.split("\n")), "\\l") if "\n" in text else quoted(text, "")


def dot_of(canvas: Canvas, wide: float, high: float, dpi: int) -> str:
    """The text that graphviz draws, in which each place is fixed."""
    lines = [STYLE.replace("DPI", str(dpi))]
    lines += [node_text(number, node, high) for number, node in enumerate(canvas.nodes)]
    lines += [line_text(line, high) for line in canvas.lines]
    corners = [(0, 0), (wide, high)]
    lines += [f'c{number} [shape=point, style=invis, width=0, height=0, pos="{x:.1f},{y:.1f}!"];' for number, (x, y) in enumerate(corners)]
    return "\n".join(lines) + "\n}\n"


def node_text(number: int, node: Node, high: float) -> str:
    less = 8 if node.kind == "name" else 0
    words = [f'pos="{node.x:.1f},{high - node.y:.1f}!", width={(node.wide - less) / 72:.4f}, height={(node.high - less) / 72:.4f}', KINDS[node.kind]]
    if node.text:
        words.append(f"label={label_of(node.text)}")
    words.append(f"tooltip={quoted(node.hover or ' ', NEW_LINE)}")
    if node.link:
        words.append(f"URL={quoted(node.link, '')}")
    return f"n{number} [{', '.join(words)}];"


def line_text(line: Line, high: float) -> str:
    """A line as the curves that graphviz takes, each of which is straight."""
    points = [(x, high - y) for x, y in line.points]
    end = ""
    if line.arrow:
        (x0, y0), (x1, y1) = points[-2:]
        length = max(abs(x1 - x0) + abs(y1 - y0), 0.1)
        end = f"e,{x1:.1f},{y1:.1f} "
        points[-1] = (x1 - 6 * (x1 - x0) / length, y1 - 6 * (y1 - y0) / length)
    curve = [points[0]]
    for before, after in zip(points, points[1:]):
        curve += [before, after, after]
    text = " ".join(f"{x:.1f},{y:.1f}" for x, y in curve)
    start, stop = line.ends
    return f'n{start} -> n{stop} [pos="{end}{text}", style={line.style}, arrowhead={"normal" if line.arrow else "none"}];'


def drawn(picture: Chain, width: float, types: bool, ends: tuple, links: Optional[dict] = None) -> tuple:
    """What is put down of a picture between its input and its output, and how wide and high it is."""
    canvas = Canvas(links=links or {})
    place = placed(picture, types)
    left, right = (len(text) * LETTER + MARGIN for text in ends)
    place.measure(width - left - right - 2 * ARROW)
    x, y = left + ARROW, MARGIN
    first, last = place.put(canvas, x, y)
    enters, leaves = y + place.enters, y + place.leaves
    start = canvas.node("text", (left + MARGIN) / 2, enters, left - MARGIN, 12, ends[0])
    stop = canvas.node("text", x + place.wide + ARROW + (right - MARGIN) / 2 + 3, leaves, right - MARGIN, 12, ends[1])
    canvas.line([(left + 3, enters), (x, enters)], start, first, arrow=place.arrow)
    canvas.line([(x + place.wide, leaves), (x + place.wide + ARROW, leaves)], last, stop)
    return canvas, x + place.wide + ARROW + right + 3, place.high + 2 * MARGIN


def rendered(canvas: Canvas, wide: float, high: float, ending: str) -> bytes:
    """The picture as a file of that ending."""
    text = dot_of(canvas, wide, high, 96 if ending == "png" else 72)
    if ending == "dot":
        return text.encode()
    if not shutil.which("neato"):
        raise Refused("graphviz is missing: install graphviz (Debian: apt-get install graphviz)", UNREADABLE)
    if max(wide, high) > LONGEST_SIDE.get(ending, wide + high):
        raise Refused(f"the drawing is {wide:,.0f} by {high:,.0f} points, too large for a {ending}: {SMALLER}, or an svg")
    try:
        ran = subprocess.run(["neato", "-n2", f"-T{ending}"], input=text.encode(), capture_output=True, timeout=SECONDS)
    except subprocess.TimeoutExpired:
        raise Refused(f"graphviz takes over {SECONDS} seconds for the {len(canvas.nodes):,} parts of the drawing: {SMALLER}") from None
    if ran.returncode:
        told = ran.stderr.decode(errors="replace").strip().split("\n")[0]
        raise Refused(f"graphviz: {told or f'ended with status {ran.returncode}'}", UNREADABLE)
    return hovering(ran.stdout) if ending == "svg" else ran.stdout


def hovering(svg: bytes) -> bytes:
    """The drawing with what is told of a box as its title, and no other titles. The space before a label's line stays in browsers too."""
    bare = re.sub(rb"<title>[^<]*</title>\n?", b"", svg)
    bare = re.sub(rb"<text ([^>]*)> ", rb'<text xml:space="preserve" \1> ', bare)
    return re.sub(rb'(<a [^>]*?) ?xlink:title="([^"]*)"([^>]*>)', rb"\1\3<title>\2</title>", bare)


SMALLER = "draw less of it by --depth 2 or --at"


def picture_of(whole: Network, diagram: Diagram, position: Position, width: float, ending: str, links: Optional[dict] = None) -> bytes:
    """The drawing of what stands at a position."""
    ends = ("in", "out")
    if diagram.types:
        ends = (f"in {in_brief(diagram.type(whole.given(position)))}", f"out {in_brief(diagram.type(whole.output(position)))}")
    canvas, wide, high = drawn(diagram.picture(position), width, diagram.types, ends, links)
    return rendered(canvas, wide, high, ending)


def run_counts(whole: Network, recordings: list) -> dict:
    """How often recordings run each network."""
    from workbench.counting import counts_of

    return counts_of(whole.program, recordings)


def ending_of(name: Optional[str], endings: tuple, words: Words) -> str:
    """What kind of file is wanted, by the ending of its name; where it has none, an svg."""
    ending = os.path.splitext(name or "")[1].lower()
    if ending and ending[1:] not in endings:
        words.error(f"-o {name}: it ends in {', '.join('.' + one for one in endings)}")
    return ending[1:] or "svg"


def main() -> None:
    words = Words("draw", ABOUT)
    words.add_argument("net", metavar="NET")
    words.add_argument("--types", action="store_true", help="types on the arrows")
    words.add_argument("--positions", action="store_true", help="positions in the boxes")
    words.add_argument("--width", type=int, default=WIDTH, metavar="N", help=f"the greatest width in points, unless a box is wider: {WIDTH}")
    words.add_argument("--depth", type=int, default=1_000_000, metavar="N", help="what is deeper is a box")
    words.add_argument("--open", action="store_true", dest="opened", help="draws the insides of all names")
    add_position(words, "draws what stands at this position", default=[])
    words.add_argument("--coverage", metavar="FILE", action="append", default=[], help="shows how often this recording runs each part; may be given again")
    words.add_argument("-o", metavar="FILE", dest="to", help="writes the drawing there: .svg, .png, .pdf or .dot")
    given = words.parse_args()
    if not 200 <= given.width <= 100_000:
        words.error("--width: from 200 to 100000 points")
    if given.depth < 0:
        words.error("--depth: a number from 0")
    ending = ending_of(given.to, ENDINGS, words)
    whole = network_of(given.net)
    position = position_in(whole, given.at)
    row = whole.rows.get(position)
    if row is None or not row.weight:
        raise Refused(f"(at{''.join(f' {number}' for number in position)}): no network stands there")
    counts = run_counts(whole, given.coverage) if given.coverage else None
    diagram = Diagram(whole, not given.opened, given.depth, given.positions, given.types, counts)
    write(given.to, picture_of(whole, diagram, position, given.width, ending))
