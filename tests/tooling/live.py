"""Pages in which networks are played: their script without a browser, by node, and all of them as a browser shows them."""
import html
import json
import re
import shutil
import subprocess
from pathlib import Path

from front.spell import is_told, shape_of, spelt
from workbench.outline import network_of
from workbench.parts import columns, named_parts, reached
from workbench.program import again, call
from workbench.running import run_of, signals_of
from workbench.signals import told, values_of
from workbench.speaking import named_types

from tooling.common import NUMBERS, TOP, each, in_files, in_folder, leave_out, own_folder, tool, want
from tooling.pages import browsed

PLAYING = Path(__file__).with_name("playing.js")
NEEDS = ["clang", "wasm-ld", "node"]
BROKEN = """module Broken where

import Yampa.Whole

broken :: SF Int Int
broken = arr (+ 1)

small :: Assume Int
small = arr (< 10)

below :: Guarantee Int Int
below = arr (\\(_, y) -> y < 8)
"""


def played(pages):
    """What node finds of pages, one after the other."""
    ran = subprocess.run(["node", PLAYING, *pages], capture_output=True, text=True, timeout=600, check=False)
    want("pages are played", ran.returncode == 0, ran.stderr)
    return [json.loads(line) for line in ran.stdout.splitlines()]


def file_of(example):
    return next(iter(sorted(example.glob("*.hs"))), example / "net")


def examples_are_played(folder):
    """Of each example the page's outputs are those of `run`, and what it has recorded is the stream; also where half is played by hand."""

    def written(example):
        picture = ["--picture", example / "picture.js"] if (example / "picture.js").exists() else []
        page = folder / f"{example.name}.html"
        return page, tool("live", file_of(example), example / "stream", *picture, "-o", page)

    made = each(written, sorted(path.parent for path in TOP.glob("examples/*/stream")), 2)
    for example, (page, (status, _, error)) in made:
        fault = (example / "error").read_text() if (example / "error").exists() else ""
        want(f"live {example.name}", (status, error) == ((1, f"yampa live: {fault}") if fault else (0, "")), error)
        text = page.read_text()
        want(f"{example.name}'s page stands alone", "src=" not in text and "href=" not in text and "fetch(" not in text)
    for (example, _), found in zip(made, played([page for _, (page, _) in made])):
        compared(example, found)


def compared(example, found):
    stream, output = (example / "stream").read_text(), (example / "output").read_text()
    lines = stream.splitlines(keepends=True)[: output.count("\n")]
    want(f"{example.name} is replayed", found["output"] == output, found["output"])
    want(f"{example.name} is recorded", found["stream"] == "".join(lines), found["stream"])
    want(f"{example.name} is played by hand", found["byHand"] == found["again"] == output, found["byHand"])
    ran = call(["run", again(str(file_of(example)))], found["handStream"].encode())
    want(f"{example.name} runs what was played by hand", ran.output.decode() == output, ran.error)
    want(f"{example.name} keeps to what it says", found["assumed"] and found["broken"] is None, found["broken"])
    type_ = named_types(again(str(file_of(example))))[1]
    words = [(of, way) for _, of, way in columns(type_) if is_told(of)]
    rows = [[spelt(reached([value], way)[0], shape_of(of)) for of, way in words] for value in values_of(output.encode().splitlines())]
    want(f"{example.name} is told in its words", found["told"] == rows, found["told"][:3])
    inside = signals_in(str(file_of(example)), "".join(lines).encode())
    want(f"{example.name} is told inside", [values for _, values in found["inside"]] == inside, found["inside"][:1])
    if example.name in ("arcade", "court"):
        want(f"{example.name} is drawn", len(found["drawn"]) == len(lines) and all(one["boxes"] for one in found["drawn"]), found["drawn"][:1])


def signals_in(name, stream):
    """The texts of the signals that have names, sample by sample, by runs of the program."""
    whole = network_of(name)
    signals = signals_of(whole, run_of(again(name), stream), named_parts(whole)).signals
    types = {position: whole.program.signal_type(position, signal.type) for position, signal in signals.items()}
    return [[told(value, types[position]) for value in signal.values] for position, signal in signals.items()]


def long_streams_are_replayed(folder):
    """100,000 samples of a controller in 5 processor seconds."""
    cruise = TOP / "examples/cruise"
    lines = (cruise / "stream").read_text().splitlines()
    (stream,) = in_files(folder, stream="\n".join([lines[0], *([f"+1 {line.partition(' ')[2]}" for line in lines[1:]] * 2_000)][:100_000]) + "\n")
    page = folder / "long.html"
    status, _, error = tool("live", file_of(cruise), stream, "-o", page)
    ran = subprocess.run(["node", PLAYING, "--replay", page], capture_output=True, text=True, timeout=600, check=False)
    found = json.loads(ran.stdout or "{}")
    want("100,000 samples", status == 0 and found.get("count") == 100_000 and found["seconds"] < 5, error or ran.stderr or found)


def faults_are_told(folder):
    net, broken, stream, keys, picture = in_files(
        folder, net=NUMBERS + "(arr (add x 1))\n", broken=BROKEN, stream="5\n+1 6\n+2 7\n+1 3\n", keys="yampa 1 input (List Int) (arr (len x))\n", picture="function draw() {}\n"
    )
    page, other = folder / "page.html", folder / "other.html"
    want("live of a guarantee", tool("live", broken, stream, "--of", "broken", "-o", page)[0] == 0)
    want("live with a key", tool("live", net, stream, "--key", "left=x:-1", "--picture", picture, "-o", other)[0] == 0)
    first, second = played([page, other])
    want("the first sample at which a guarantee is false", first["broken"] == {"name": "below", "sample": 3}, first["broken"])
    wanted = [f"{why} at {at}" for why, at in [("no value", 0), ("no value", 0), ("other type", 0), ("number range", 0), ("no value", 1)]]
    want("values that are refused", second["refused"][:5] == wanted and second["refused"][-1] == "true", second["refused"])
    want("a picture without its function", second["drawn"] is None, second["drawn"])
    want("steps and rates that are refused", all(second["refused"][5:13]), second["refused"])
    lists = folder / "lists.html"
    status, _, error = tool("live", keys, in_files(folder, long="(list 1 2)\n+1 (list 1 2 3)\n")[0], "--most", 2, "-o", lists)
    found = played([lists])[0]
    want("a list that is too long", status == 0 and found["output"] == "2\n" and found["fault"] == "stream: line 2: too many elements at 10", (error, found["fault"]))
    for words, why in [
        (["--key", "left=x"], "x is Int"), (["--key", "left=y:1"], "the inputs are x"), (["--key", "left=x:true"], "true is no value of x"),
        (["--rate", "0"], "0 is no whole number"), (["--most", "-1"], "-1"), (["--picture", folder / "absent"], "no such file"),
    ]:
        status, _, error = tool("live", net, *words, "-o", other)
        want(f"live {words}", status in (2, 3) and why in error, error)
    want("live of no network", in_folder(["live", "net", "-o", "page"], net="yampa 1 input Int (arr y)")[0] == 1)
    status, _, error = tool("live", net, "-o", other, PATH="/nowhere", XDG_CACHE_HOME=str(folder / "cache"))
    want("live without clang", status == 3 and "apt-get install clang" in error and error.count("\n") == 1, error)


# What is tried of pages in a browser: each saves what it has played, and tells that to the page around it.
SAVED = """<script>
const saved = [];
URL.createObjectURL = blob => { saved.push(blob.text()); return "#"; };
HTMLAnchorElement.prototype.click = () => {};
const changed = (node, kind) => node.dispatchEvent(new Event(kind));
const key = (kind, name) => document.dispatchEvent(new KeyboardEvent(kind, {key: name, cancelable: true}));
started.then(async view => {
  const inputs = [...document.querySelectorAll(".input")], said = [];
  const refused = (node, text) => { node.value = text; changed(node, "change"); said.push(`${byId("told").textContent} / ${view.session.recording.length}`); };
  CLICKS
  byId("save").click();
  byId("saveOutput").click();
  const [stream, output] = await Promise.all(saved), values = Object.fromEntries([...byId("values").rows].map(row => [row.cells[0].textContent, row.cells[1].textContent]));
  parent.postMessage(JSON.stringify({name: "NAME", stream, output, said, values}), "*");
});
</script></body>"""
REPLAY = 'while (view.session.replayed()) byId("once").click();'
AROUND = """<html><body><pre id=found></pre><script>
addEventListener("message", event => { document.getElementById("found").append(event.data + "\\n"); });
</script>FRAMES</body></html>"""
KINDS = """module Kinds where

import Yampa.Whole

data Mode = Off | On | Auto
data In = In { flag :: Bool, go :: Event (), amount :: Event Int, level :: Int, items :: [Int], mode :: Mode, change :: Event Mode }

kinds :: SF In In
kinds = arr (\\x -> x)
"""
# Each kind of input is clicked; then comes what is refused, which leaves all as it was; and a sample more.
CLICKED = """
  const [flag, go, amount, level, items, mode, change] = inputs, of = (row, tag) => row.querySelector(tag);
  of(flag, "input").click();
  of(go, "button").click();
  of(amount, "input").value = "5";
  of(amount, "button").click();
  of(level, "input[type=range]").value = "7";
  changed(of(level, "input[type=range]"), "input");
  of(items, "input").value = "(list 1 2)";
  changed(of(items, "input"), "change");
  of(mode, "select").value = "2";
  changed(of(mode, "select"), "change");
  of(change, "select").value = "1";
  of(change, "button").click();
  byId("once").click();
  refused(of(items, "input"), "(list 1 true)");
  refused(of(items, "input"), "(list 1 2 3 4)");
  refused(of(level, "input"), "9223372036854775808");
  refused(byId("dt"), "0");
  refused(byId("rate"), "0");
  byId("dt").value = "3";
  changed(byId("dt"), "change");
  byId("once").click();
"""
FIRST = "(pair true (pair (event unit) (pair (event 5) (pair 7 (pair (list 1 2) (pair 2 (event 1)))))))"
SECOND = "(pair true (pair none (pair none (pair 7 (pair (list 1 2) (pair 2 none))))))"
SAID = ["other type at 8", "too many elements at 12", "number range at 0", "a step is a whole number of at least 1", "samples a second are a number above 0, and at most 100,000"]
# A game by keys: the ship goes from side to side and fires, 120 samples long.
GAME = """
  for (let k = 0; k < 120; k += 1) {
    const way = k % 24 < 12 ? "ArrowLeft" : "ArrowRight";
    key("keydown", way);
    if (k % 2) key("keydown", " ");
    byId("once").click();
    key("keyup", way);
    key("keyup", " ");
  }
"""


def browsed_pages(folder):
    """Each example's page replays its stream in a browser, each kind of input is clicked, and a game is played by keys."""
    (kinds,) = in_files(folder, **{"Kinds.hs": KINDS})
    made = [tool("live", kinds, "--most", 3, "-o", folder / "kinds.html"), tool("live", TOP / "examples/arcade/Arcade.hs", *ARCADE, "-o", folder / "keys.html")]
    want("pages to be clicked", all(status == 0 for status, _, _ in made), made)
    scripts = {"kinds": CLICKED, "keys": GAME} | {path.parent.name: REPLAY for path in TOP.glob("examples/*/stream")}
    frames = []
    for name, clicks in scripts.items():
        page = folder / f"browsed-{name}.html"
        page.write_text((folder / f"{name}.html").read_text().replace("</body>", SAVED.replace("CLICKS", clicks).replace("NAME", name)))
        frames.append(f'<iframe src="{page.as_uri()}"></iframe>')
    around = in_files(folder, **{"around.html": AROUND.replace("FRAMES", "".join(frames))})[0]
    shown = browsed(around)
    if shown is None:
        leave_out("since no browser runs here (Debian's chromium): pages in which networks are played")
        return
    lines = html.unescape(re.search(r"<pre[^>]*>(.*?)</pre>", shown, re.S)[1]).splitlines()
    found = {one["name"]: one for one in map(json.loads, lines)}
    for path in TOP.glob("examples/*/stream"):
        one, example = found.get(path.parent.name, {}), path.parent
        output = (example / "output").read_text()
        stream = "".join(path.read_text().splitlines(keepends=True)[: output.count("\n")])
        want(f"{example.name} in a browser", (one.get("stream"), one.get("output")) == (stream, output), one)
    clicked = found.get("kinds", {})
    want("inputs are clicked", clicked.get("stream") == f"{FIRST}\n+3 {SECOND}\n" == clicked.get("output", "").replace("\n(", "\n+3 ("), clicked)
    want("what is refused in a browser", clicked.get("said") == [f"{why} / 1" for why in SAID], clicked.get("said"))
    game = found.get("keys", {})
    ran = call(["run", str(TOP / "examples/arcade/net")], game.get("stream", "").encode()).output.decode()
    score = re.search(r"\(pair (\d+) -?\d+\)\)\)\)$", ran)
    want("a game is recorded", ran == game.get("output") and ran.count("\n") == 120, game)
    want("a game's score", score and game["values"]["score"] == score[1] and int(score[1]) > 0, (score, game.get("values")))


ARCADE = ["--picture", TOP / "examples/arcade/picture.js", "--key", "left=move:-1", "--key", "right=move:1", "--key", "space=fire", "--key", "enter=again"]


def try_all() -> None:
    with own_folder() as folder:
        examples_are_played(folder)
        faults_are_told(folder)
        long_streams_are_replayed(folder)
        if shutil.which("chromium"):
            browsed_pages(folder)
        else:
            leave_out("since chromium isn't here: pages in which networks are played, in a browser")
