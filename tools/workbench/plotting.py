"""Inputs, outputs and signals of a run over time, as a picture or as a page that can be asked."""
from __future__ import annotations

import json
from html import escape
from pathlib import Path
from string import Template
from typing import Any

from workbench.drawing import ending_of
from workbench.ending import Refused, Words, stream_bytes, write
from workbench.panels import data_of, panels_of, picture
from workbench.parts import Look, looked_at, tell_rest
from workbench.watching import add_position, position_in, seen

ABOUT = """Plots a run of NET on the stream on standard input: its inputs and its outputs over time, each part of
a pair in its own panel. Numbers are steps, truth values a band, events marks with their values as far as
these have room, lists of numbers dots for their first 16 elements, lists of pairs a panel for each part.

  yampa plot NET < STREAM -o FILE.svg             or FILE.png, FILE.pdf
  yampa plot NET < STREAM -o FILE.html            a page in which one zooms, and reads all panels at a sample
  yampa plot NET --at 0 1 < STREAM                also the output of the part at that position, or --at NAME
  yampa plot NET --from 1000 --to 2000 < STREAM   only that time

A part is drawn while it runs. If there are more samples than a panel has dots, each column shows the least
and the greatest value. Pictures need matplotlib (Debian's package `python3-matplotlib`), pages don't, and take 100,000 samples."""

ENDINGS = ("svg", "png", "pdf", "html")
SAMPLES = 100_000


def plot_of(look: Look, title: str, ending: str) -> bytes:
    """The panels of a run."""
    title += f", up to {look.run.fault}" if look.run.fault else ""
    return picture(look.run.times, look.tracks, title, ending)


def page_of(look: Look, title: str) -> bytes:
    """A page with the panels of a run."""
    title += f", up to {look.run.fault}" if look.run.fault else ""
    text = Template(beside("plot.html")).substitute(title=escape(title, False), style=beside("panels.css"), plot=panels_in_page(look))
    return text.encode("utf-8", "surrogateescape")


def panels_in_page(look: Look) -> str:
    """What stands in a page for the panels of a run: the data, and the script that draws them."""
    count = len(look.run.times)
    if count > SAMPLES:
        raise Refused(f"a page's plot takes {SAMPLES:,} samples, and the run has {count:,}: see `yampa plot --from --to`")
    data = {"times": look.run.times, "columns": [data_of(panel) for track in look.tracks for panel in panels_of(track)]}
    script = beside("panels.js")
    return f'<div id="plot"></div><script id="plot-data" type="application/json">{script_data(data)}</script><script>{script}startPanels("plot");</script>'


def script_data(data: Any) -> str:
    """What stands in a script as data: it ends that nowhere."""
    return json.dumps(data, separators=(",", ":")).replace("<", "\\u003c")


def beside(name: str) -> str:
    """The text of a file of these tools."""
    return (Path(__file__).parent / name).read_text(encoding="utf-8")


def main() -> None:
    words = Words("plot", ABOUT)
    words.add_argument("net", metavar="NET")
    add_position(words, action="append", default=[])
    words.add_argument("--from", type=int, dest="start", metavar="TIME", help="from that time on")
    words.add_argument("--to", type=int, dest="stop", metavar="TIME", help="up to that time")
    words.add_argument("-o", metavar="FILE", dest="to", help="writes the plot there: .svg, .png, .pdf or .html")
    given = words.parse_args()
    ending = ending_of(given.to, ENDINGS, words)
    look = looked_at(given.net, stream_bytes("-"), lambda whole: [seen(whole, position_in(whole, at)) for at in given.at], given.start, given.stop)
    write(given.to, page_of(look, given.net) if ending == "html" else plot_of(look, given.net, ending))
    if not look.run.times:
        raise Refused(look.run.fault or "there are no samples")
    tell_rest("plot", look.notes, look.run.fault)
