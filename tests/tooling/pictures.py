"""Networks are drawn, and runs plotted: what stands in a picture, how large it gets, and what is refused."""
import csv
import html
import io
import json
import os
import re
import stat
import time

from model.trees import at_text, children, head, is_form, is_network, shown
from workbench import panels
from workbench.outline import network_of
from workbench.parts import is_wiring, looked_at
from workbench.recording import lines_of
from workbench.shorter import EDGE, shortened
from workbench.signals import ABSENT, spelt

from tooling.common import EXAMPLES, NUMBERS, TOP, WHOLE, each, in_files, is_xml, leave_out, networks_in, own_folder, some, stream_of, texts_of, there, tool, want
from tooling.pages import browsed

NEEDS = ["dot", "matplotlib"]
GAME = "(kSwitch time (arr (if (less (fst x) 10) (none Unit) (event unit))) (>>> (old 0) (iPre 0)))"


def boxes_of(whole):
    """The positions that stand in a box: of networks without parts, but for wires, and for the second part of `accumHoldBy`."""
    found = [position for position in networks_in(whole) if not any(map(is_network, children(whole.at(position))))]
    held = {(*position, 1) for position in networks_in(whole) if head(whole.at(position)) == ">>>" and is_held(whole.at(position))}
    edges = {position for position in found if any(is_edge(whole.at(position[:depth])) for depth in range(len(position)))}
    return [position for position in found if not is_wiring(whole.at(position)) and position not in held and position not in edges]


def is_held(tree):
    return head(tree[1]) == "accumBy" and tree[2] == ("hold", tree[1][2])


def is_edge(tree):
    return tree == EDGE


def hover_of(whole, position):
    """What is told where one points at a box, without its blanks: all that is written there."""
    tree = whole.at(position)
    text = whole.program.spelt(position) if whole.program.meant_at(position) is not None else shown((*tree[1:],) if head(tree) == "accumBy" else shortened(tree))
    return re.sub(r"\s", "", text[:10_000]).strip("()")


def networks_are_drawn():
    for example, (status, output, error) in each(lambda example: tool("draw", "net", "--types", "--positions", folder=example), EXAMPLES):
        want(f"draw {example.name}", not status and is_xml(output), error)
        whole, texts = network_of(str(example / "net")), {text.strip() for text in texts_of(output)}
        boxes = boxes_of(whole)
        missing = [position for position in boxes if at_text(position) not in texts]
        want(f"boxes of {example.name}", (boxes or whole.tree == ("arr", "x")) and not missing, missing)
        hovered = re.sub(r"\s", "", html.unescape(" ".join(re.findall(r"<title>([^<]*)", output))))
        hidden = [position for position in boxes if hover_of(whole, position) not in hovered]
        want(f"hovers of {example.name}", not hidden, hidden[:3])


TOTALS = """{-# LANGUAGE Arrows #-}
module Totals where
import Yampa.Whole
totals :: SF Int (Int, Int)
totals = proc x -> do
  before <- iPre 0 -< x
  total <- integral -< before
  returnA -< (total, before)
"""


def drawings_tell(folder):
    """What a picture has to show of a switch, of members, of forks and of names."""
    texts = {text.strip() for text in texts_of(tool("draw", TOP / "examples/filters/net", "--positions")[1])}
    for text in ("watches (at 4)", "member 2, then is (old 2) (at 3)", "from the event on, its value (p 0), resumes (old 0) to (old 2) (at 5)", "event"):
        want(f"a frame has {text}", text in texts, texts)
    net, named = in_files(folder, net=NUMBERS + GAME, named=TOTALS)
    edges = edges_of(tool("draw", net, "-o", folder / "game.dot"), folder / "game.dot")
    want("the watcher sees input and output", edges("runs", "pair") and edges("in", "pair") and edges("pair", "watches"), edges.lines)
    want("the watcher's event goes to what takes over", edges("watches", "takes") and not edges("watches", "out"), edges.lines)
    for spelling in ("(&&& time (iPre 0))", "(>>> (arr (pair x x)) (>>> (first time) (>>> (arr (pair (snd x) (fst x))) (>>> (first (iPre 0)) (arr (pair (snd x) (fst x)))))))"):
        (net,) = in_files(folder, net=NUMBERS + spelling)
        boxes = {text.strip() for text in texts_of(tool("draw", net)[1])}
        want(f"a fork: {spelling}", boxes == {"in", "out", "time", "(iPre 0)"}, boxes)
    folded, opened = ([text.strip() for text in re.findall(r"<text[^>]*>([^<]*)", tool("draw", named, *words)[1])] for words in ((), ("--open",)))
    want("names are boxes", {"before", "total"} <= {*folded} and "integral" not in folded and {"(iPre 0)", "integral"} <= {*opened}, (folded, opened))
    want("a name's own drawing", {"in", "out", "integral"} == texts_of(tool("draw", named, "--at", "total")[1]))


class Edges:
    """The lines of a drawing of one `kSwitch`, by what stands at their ends."""

    def __init__(self, text):
        labels = dict(re.findall(r'^(n\d+) .*? label="([^"]*)"', text, re.M))
        tips = dict(re.findall(r'^(n\d+) .*? tooltip="([^"]*)"', text, re.M))
        frames = re.findall(r"^(n\d+) .*?style=\"rounded(?:,dashed)?\", color", text, re.M)
        self.names = dict(zip(frames, ["switch", "runs", "takes", "watches"]))
        self.names |= {node: name for node, name in labels.items() if name in ("in", "out")}
        self.names |= {node: "pair" for node, tip in tips.items() if tip == "the pair of the input and the output"}
        self.lines = re.findall(r"^(n\d+) -> (n\d+) ", text, re.M)

    def __call__(self, start, end):
        """Whether lines lead from the one to the other, through dots alone."""
        reached = {node for node, name in self.names.items() if name == start}
        through = {"switch"} if start == "in" else set()
        while True:
            more = {to for by, to in self.lines if by in reached and (to not in self.names or self.names[to] in (end, *through))} - reached
            if not more:
                return any(self.names.get(node) == end for node in reached)
            reached |= {node for node in more if node not in self.names or self.names[node] in (end, *through)}


def edges_of(told, path):
    return Edges(path.read_text() if told[0] == 0 else "")


def files_have_endings(folder):
    net, stream = in_files(folder, net=NUMBERS + "(>>> (iPre 0) (arr (less x 5)))", stream="5\n+1 6\n")
    for name, words in (("draw", ()), ("plot", ())):
        for ending, begins in ((".svg", b"<?xml"), (".png", b"\x89PNG"), (".pdf", b"%PDF"), ("", b"<?xml")):
            path = folder / f"{name}{ending}"
            told = tool(name, net, *words, "-o", path, stream=stream.read_bytes())
            want(f"{name} makes {ending}", told[0] == 0 and path.read_bytes().startswith(begins), told)
        status, _, error = tool(name, net, "-o", folder / "x.jpg", stream=stream.read_bytes())
        want(f"{name} refuses other endings", status == 2 and "x.jpg: it ends in .svg, .png, .pdf" in error and not (folder / "x.jpg").exists(), error)
    want("a dot file", tool("draw", net, "-o", folder / "x.dot")[0] == 0 and "digraph" in (folder / "x.dot").read_text())
    want("no such part", tool("draw", net, "--at", "7")[0] == 1 and tool("draw", net, "--at", "sum")[0] == 2)
    want("no such width", tool("draw", net, "--width", "9")[0] == 2)


def drawings_of_size(folder):
    """A large network is drawn in time and no wider than asked for, or a line says what is too large."""
    stages = " ".join(f"(>>> (arr (add x {number}))" for number in range(250)) + " time" + ")" * 250
    wide = f"(parB {' '.join(['(parB ' + ' '.join(['integral'] * 64) + ')'] * 60)})"
    for name, net in (("a chain", stages), ("many members", wide)):
        (file,) = in_files(folder, net=NUMBERS + net)
        began = time.time()
        status, output, error = tool("draw", file, "--width", "800")
        width = float(re.search(r'width="([\d.]+)pt"', output).group(1)) if not status else 0
        want(f"{name} fits", status == 0 and width <= 800 and time.time() - began < 60, error or width)
        status, _, error = tool("draw", file, "-o", folder / "x.png")
        want(f"{name} as png", status == 0 or "--depth" in error and error.count("\n") == 1, error)
    want("a shallow drawing", "parB .. (weight 65)" in tool("draw", file, "--depth", "0")[1])
    slow = folder / "neato"
    slow.write_text("#!/bin/sh\nexec sleep 60\n")
    slow.chmod(slow.stat().st_mode | stat.S_IXUSR)
    status, output, error = tool("draw", file, PATH=f"{folder}:{os.environ['PATH']}")
    want("graphviz takes too long", status == 1 and not output and "over 20 seconds" in error and error.count("\n") == 1, error)


# ---- plots


def cell_of(value, type_):
    """A value as a table has it."""
    return "" if value is None else spelt(value[0], type_[1]) if is_form("Event", type_) else spelt(value, type_)


def runs_are_plotted():
    for example, (status, output, error) in each(lambda example: tool("plot", "net", stream=stream_of(example), folder=example), EXAMPLES):
        told = f"yampa plot: {(example / 'error').read_text().splitlines()[0]}\n" if example not in WHOLE else ""
        want(f"plot {example.name}", status == bool(told) and error == told and is_xml(output) and told[12:-1] in output, error)
    for example in WHOLE:
        net, stream = str(example / "net"), stream_of(example)
        look = looked_at(net, stream, lambda whole: [])
        timed = tool("timed", "net", stream=stream, folder=example)[1]
        for name, lines, words in (("input", stream, ["--input"]), ("output", timed, [])):
            rows = list(csv.reader(io.StringIO(tool("csv", "--back", *words, net, stream=lines)[1])))
            plotted = [[cell_of(value, track.type) for value in track.values] for track in look.tracks if track.path[0] == name]
            cells = [[str(at), *row] for at, *row in zip(look.run.times, *plotted)]
            want(f"{name} in the plot of {example.name}", cells == rows[1:], rows[:3])
    boiler = TOP / "examples/boiler"
    parts = looked_at(str(boiler / "net"), stream_of(boiler), lambda whole: [(0,)]).inside
    want("a part's values", parts[0].name == ">>> (at 0).fst" and len(parts[0].values) == len(lines_of(stream_of(boiler))), parts[0].name)


def plots_show_all(folder):
    """What was hidden once: a last `true`, events and lists beside one another, dollars in names, gaps."""
    _, numpy = panels.libraries()
    times = numpy.array([0.0, 1000.0, 2000.0])
    want("a last true", panels.spans(numpy, times, numpy.array([True, False, True]), 2020.0) == [(0.0, 1000.0), (2000.0, 20.0)])
    many = numpy.arange(100_000.0)
    at, numbers = panels.thinned(numpy, many, numpy.where(many == 77_777, 5.0, many % 2))
    want("thinned out", len(at) < 7_000 and numbers.max() == 5 and numbers.min() == 0, len(at))
    net, other, dollar = in_files(
        folder,
        net="yampa 1 input (List (Pair Int Int)) (arr x)",
        other=NUMBERS + "(switch (arr (pair x (if (less 9 x) (event x) (none Int)))) integral)",
        **{"$\\foo$": NUMBERS + "time"},
    )
    texts = texts_of(tool("plot", net, stream="(list (pair 1 2))\n+1 (list)\n+1 (list (pair 1 2) (pair 3 4))\n")[1])
    want("panels of a list of pairs", {"input.fst", "input.snd", "output.fst", "each Int"} <= texts, texts)
    events = "".join(f"+1 (event {number})\n" if number else "(event 0)\n" for number in range(2_000))
    (event,) = in_files(folder, event="yampa 1 input (Event Int) (arr x)")
    labels = re.findall(r"<text[^>]*>(\d+)</text>", tool("plot", event, stream=events)[1])
    want("events have room", 20 < len(labels) < 200, len(labels))
    look = looked_at(str(other), b"1\n+1 20\n+1 3\n", lambda whole: [(1,)])
    want("gaps where a part doesn't run", look.inside[0].values == [ABSENT, 0, 20], look.inside[0].values)
    want("a name with dollars", tool("plot", dollar, stream="5\n")[0] == 0)
    status, output, error = tool("plot", dollar, stream="")
    want("nothing to plot", status == 1 and "there are no samples" in error and "there are no samples" in output, error)
    window = texts_of(tool("plot", event, "--from", "100", "--to", "104", stream=events)[1])
    # The last sample lasts to 105, where the axis ends.
    want("a window", {"100", "104"} <= window and "106" not in window and "99" not in window, window)


def plots_of_size(folder):
    """100,000 samples in a picture of moderate size; a million are counted before they are read."""
    (net,) = in_files(folder, net="yampa 1 input (Pair Int Bool) (arr x)")
    stream = "".join(f"+7 (pair {number % 977} {'true' if number % 3 else 'false'})\n" for number in range(1, 100_000))
    began = time.time()
    status, output, error = tool("plot", net, stream="(pair 0 true)\n" + stream)
    want("100,000 samples", status == 0 and len(output) < 3_000_000 and time.time() - began < 60, (error, len(output), time.time() - began))


# What is asked of a page with a plot: the values at sample 4, then samples 3 to 6 by dragging, then all again.
ASKED = """<script>
const stack = document.querySelector(".stack"), {left, width} = stack.getBoundingClientRect(), found = [];
const go = (kind, k) => stack.dispatchEvent(new PointerEvent(kind, {clientX: left + width * (k + 0.5) / 10}));
const tell = () => { const {from, to} = asked.window(); found.push(`${from} ${to} ${[...document.querySelectorAll(".at")].map(at => at.textContent)}`); };
go("pointermove", 3);
tell();
go("pointerdown", 2);
go("pointermove", 5);
go("pointerup", 5);
tell();
go("dblclick", 0);
tell();
document.body.append(element("pre", {id: "found", textContent: found.join("\\n")}));
</script></body>"""


def pages_are_asked(folder):
    """A plot as a page: its data, and in a browser the value under the cursor, and zoom."""
    stream = "".join(f"{'+1 ' if number else ''}(pair {number} (list {number} 7))\n" for number in range(10))
    (net,) = in_files(folder, net="yampa 1 input (Pair Int (List Int)) (arr (less 4 (fst x)))")
    page = folder / "page.html"
    status, _, error = tool("plot", net, "-o", page, stream=stream)
    text = page.read_text()
    data = json.loads(re.search(r'<script id="plot-data"[^>]*>(.*?)</script>', text, re.S)[1])
    want("a plot as a page", status == 0 and data["times"] == list(range(10)), error)
    found = [(column["name"], column["draw"], column["at"], column["texts"][-1]) for column in data["columns"]]
    numbers = list(range(10))
    want("its columns", found == [("input.fst", "steps", numbers, "9"), ("input.snd", "dots", numbers, "(list 9 7)"), ("output", "bands", [0, 5], "true")], found)
    if not there("chromium"):
        leave_out("since no browser runs here (Debian's chromium): plots that are asked")
        return
    page.write_text(text.replace('startPanels("plot")', 'globalThis.asked = startPanels("plot")').replace("</body>", ASKED))
    shown = browsed(page) or ""
    wanted = ["0 10 3,(list 3 7),false", "2 6 5,(list 5 7),true", "0 10 5,(list 5 7),true"]
    want("a plot that is asked", f'<pre id="found">{chr(10).join(wanted)}</pre>' in shown, shown[-400:])
    many = "".join(f"{'+1 ' if number else ''}5\n" for number in range(100_001))
    (net,) = in_files(folder, net=NUMBERS + "time")
    status, _, error = tool("plot", net, "-o", folder / "many.html", stream=many)
    want("a page of too many samples", status == 1 and "takes 100,000 samples, and the run has 100,001" in error, error)


def hostile_words(folder):
    """Digits without end, closed streams, full disks and names that aren't UTF-8: one line, and a status."""
    net, stream, digits = in_files(folder, net=NUMBERS + "time", stream="5\n", digits="5" * 5_000 + "\n")
    for name, words in (("plot", [net]), ("step", [net, "-"]), ("waves", [net, "-"])):
        status, _, error = tool(name, *words, stream=digits.read_bytes())
        want(f"{name} with many digits", status == 1 and error.count("\n") == 1 and "number range" in error, error)
        status, _, error = tool(name, *words, "--at", "9" * 5_000, stream=stream.read_bytes())
        want(f"{name} at no position", status == 2 and error.count("\n") == 1, error)
    for name in ("draw", "watch", "step", "waves", "report"):
        words = [net] if name in ("draw", "watch") else [net, stream]
        status, _, error = tool(name, *words, "-o", "/dev/full")
        want(f"{name} on a full disk", status == 3 and error.count("\n") == 1, error)
    strange = os.fsencode(folder) + b"/\xff"
    with open(strange, "wb") as file:
        file.write(net.read_bytes())
    for name, words in (("draw", []), ("watch", []), ("report", [stream]), ("step", [stream]), ("plot", [])):
        status, _, error = tool(name, os.fsdecode(strange), *words, stream="5\n")
        want(f"{name} of a strange name", status == 0 or status in (1, 2, 3) and error.count("\n") == 1 and "defect" not in error, error)


def parts_have_names():
    """Each position of an example is called by one name alone."""
    for example in some(WHOLE, 10):
        look = looked_at(str(example / "net"), stream_of(example), lambda whole: [()])
        want(f"columns of {example.name}", len({track.name for track in look.tracks}) == len(look.tracks))


def try_all() -> None:
    networks_are_drawn()
    runs_are_plotted()
    parts_have_names()
    for check in (drawings_tell, files_have_endings, drawings_of_size, plots_show_all, plots_of_size, pages_are_asked, hostile_words):
        with own_folder() as folder:
            check(folder)
