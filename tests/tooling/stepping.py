"""Runs looked at sample by sample, and as waves: all signals of one run."""
import os
import pty
import random
import re
import subprocess
import sys
import time

from model.texts import network_text
from model.trees import expanded, shown
from model.typed import WEIGHT, weight
from workbench.instrument import Instrument
from workbench.outline import network_of
from workbench.program import call, kept
from workbench.recording import lines_of
from workbench.running import groups, run_of, signals_of, watchable
from workbench.signals import ABSENT, values_of
from workbench.watching import told_by
from workbench.wiring import Scope, arr, seq

from tooling.common import EXAMPLES, HASKELL, NUMBERS, TOP, WHOLE, each, in_files, own_folder, stream_of, tool, want

sys.path.insert(0, str(TOP / "tests"))
from generator.making import Maker  # noqa: E402

# A network, a stream, and the lines of what is looked at, worked by hand.
SUM = "(loopPre 0 (arr (then (add (fst x) (snd x)) (pair x x))))"
STEPPED = [
    (
        f"yampa 1 input Int (>>> {SUM} (arr (mul x 10)))",
        "1\n+2 4\n",
        """1 0 input 1
1 0 output 10
1 0 loopPre (at 0) 1
1 0 arr (at 0 1).fst 1
1 0 arr (at 0 1).snd 1
1 0 arr (at 1) 10
2 2 input 4
2 2 output 50
2 2 loopPre (at 0) 5
2 2 arr (at 0 1).fst 5
2 2 arr (at 0 1).snd 5
2 2 arr (at 1) 50
""",
    ),
    (
        "yampa 1 input Int (switch (arr (pair x (if (less 9 x) (event x) (none Int)))) (arr (add x (p 0))))",
        "1\n+1 20\n+1 3\n",
        """1 0 input 1
1 0 output 1
1 0 arr (at 0).fst 1
1 0 arr (at 0).snd none
1 0 arr (at 1) -
2 1 input 20
2 1 output 40
2 1 arr (at 0).fst 20
2 1 arr (at 0).snd (event 20)
2 1 arr (at 1) 40
3 2 input 3
3 2 output 23
3 2 arr (at 0).fst -
3 2 arr (at 0).snd -
3 2 arr (at 1) 23
""",
    ),
    (
        "module Car where\nimport Yampa.Whole\ndata Car = Car { speed :: Int, stops :: Bool }\ncar :: SF Car Car\ncar = arr (\\c -> c { speed = speed c + 1 })\n",
        "(pair 4 true)\n",
        """1 0 input.speed 4
1 0 input.stops True
1 0 output.speed 5
1 0 output.stops True
""",
    ),
    (
        "{-# LANGUAGE Arrows #-}\nmodule Sums where\nimport Yampa.Whole\nsums :: SF Int Int\nsums = proc x -> do\n  before <- iPre 0 -< x\n"
        "  total <- integral -< x\n  returnA -< before + total + 1\n",
        "4\n+1 5\n",
        "1 0 input 4\n1 0 output 1\n1 0 before 0\n1 0 total 0\n2 1 input 5\n2 1 output 9\n2 1 before 4\n2 1 total 4\n",
    ),
]

WAVES = """$timescale 10 us $end
$scope module yampa $end
$var integer 64 ! input [63:0] $end
$scope module output $end
$var wire 1 " valid $end
$var integer 64 # value [63:0] $end
$upscope $end
$upscope $end
$enddefinitions $end
#0
b1 !
0"
bx #
#2
b1111111111111111111111111111111111111111111111111111111111111110 !
1"
b1111111111111111111111111111111111111111111111111111111111111110 #
#3
"""


def samples_are_told(folder):
    for text, stream, wanted in STEPPED:
        net, file = in_files(folder, net=text, stream=stream)
        status, output, error = tool("step", net, file)
        want(f"step {text}", (status, output.replace("\t", " ")) == (0, wanted), output + error)
    (net, file) = in_files(folder, net="yampa 1 input Int (arr (if (less x 0) (event x) (none Int)))", stream="1\n+2 -2\n")
    status, output, error = tool("waves", net, file, "--timescale", "10us")
    want("waves", status == 0 and output.split("\n", 1)[1] == WAVES, output + error)
    want("a wrong timescale", tool("waves", net, file, "--timescale", "7ms")[0] == 2)
    (file,) = in_files(folder, stream="1\n+0 5\n")
    status, output, error = tool("step", net, file)
    want("step up to a fault", status == 1 and output.count("\n") == 2 and error == "yampa step: stream: line 2: step\n", output + error)
    want("waves of nothing", tool("waves", net, os.devnull)[0] == 1)
    lists, file = in_files(folder, lists="yampa 1 input (List Int) (arr x)", stream="(list 7)\n" + "+1 =\n" * 1_500 + "+1 (list 1 2)\n+1 (list)\n")
    status, output, error = tool("waves", lists, file, "-o", folder / "w.vcd", "--save", folder / "w.gtkw")
    dump = (folder / "w.vcd").read_text()
    want("a list that gets longer later", status == 0 and is_dump(dump) and dump.count(" 1 [63:0]") == 2, dump[:900] + error)
    lines = dump.splitlines()
    longer, empty = (lines[lines.index(f"#{time}") + 1 : lines.index(f"#{time + 1}")] for time in (1_501, 1_502))
    want("its elements", sorted(line.split()[0] for line in longer) == ["b1", "b1", "b10", "b10", "b10", "b10"], longer)
    want("its missing elements", sorted(line.split()[0] for line in empty) == ["b0", "b0", "bx", "bx", "bx", "bx"], empty)
    rows = (folder / "w.gtkw").read_text().splitlines()
    want("what GTKWave shows", rows[1] == '[dumpfile] "w.vcd"' and "+{output 1} yampa.output.1" in rows and "@88420" in rows, rows)
    want("what GTKWave shows of no file", tool("waves", lists, file, "--save", folder / "x.gtkw")[0] == 2)


def streams_are_not_held(folder):
    """Ten times the samples take no more memory, as processes are told to have taken."""
    (net,) = in_files(folder, net=NUMBERS + "(>>> (arr (add x 1)) (iPre 0))")
    for words in (["step", "--lines"], ["waves"]):
        found = []
        for count in (10_000, 100_000):
            (file,) = in_files(folder, stream="1\n" + "+1 2\n" * (count - 1))
            ran = subprocess.Popen([TOP / "tools/tool", words[0], net, file, *words[1:], "-o", folder / "out"])
            _, status, used = os.wait4(ran.pid, 0)
            ran.returncode = status
            found.append(used.ru_maxrss)
        want(f"memory of {words[0]}", status == 0 and found[1] < found[0] + 4_000, found)


def examples_are_stepped():
    """What is output stands there, sample by sample, and each dump is one that can be read back."""

    def both(example):
        net = next((path.name for path in HASKELL if path.parent == example), "net")
        return tool("step", "net", "stream", "--all", folder=example), tool("waves", net, "stream", folder=example)

    for example, (stepped, waved) in each(both, EXAMPLES):
        count = len(lines_of((example / "output").read_bytes()))
        want(f"step {example.name}", len({line.split("\t")[0] for line in stepped[1].splitlines()}) == count, stepped[2])
        want(f"waves {example.name}", is_dump(waved[1]), waved[1][:300] + waved[2])


def is_dump(text):
    """Whether each variable of a dump is declared once, and scopes are closed, and times rise."""
    head, _, body = text.partition("$enddefinitions $end\n")
    names = re.findall(r"^\$var (?:wire|integer|string) \d+ (\S+) ", head, re.M)
    changes = {re.sub(r"^([bs]\S* |[01x])", "", line) for line in body.splitlines() if line[0] != "#"}
    times = [int(time) for time in re.findall(r"^#(\d+)$", body, re.M)]
    return names and len({*names}) == len(names) and changes <= {*names} and head.count("$scope") == head.count("$upscope") and times == sorted(times)


def all_signals_change_nothing(seed, seconds):
    """Of random networks: with all signals beside its output a network outputs what it did."""
    end, tried = time.time() + seconds, 0
    while time.time() < end:
        seed += 1
        rng = random.Random(seed)
        maker = Maker(rng, 2)
        given = maker.type()
        net = expanded(maker.network(given, maker.type(), size=rng.choice([5, 7, 9])))
        if weight(net) > WEIGHT // 50:
            continue
        values = [shown(maker.value(given)) for _ in range(10)]
        stream = "".join(f"+{rng.choice([1, 1, 2, 5])} {value}\n" if number else f"{value}\n" for number, value in enumerate(values)).encode()
        with kept(network_text(given, net)) as name:
            whole, run = network_of(name), run_of(name, stream)
        for group in groups(whole, dict.fromkeys(told_by(whole, position) for position in watchable(whole))):
            told = call_of(whole, group, stream)
            if not told.fault():
                tried += 1
                want(f"signals of network {seed}", values_of(lines_of(told.output)) == run.outputs, told.output)
    want("random networks with signals", tried > 5, tried)


def call_of(whole, group, stream):
    """What the network tells that outputs what it did, where these parts are watched in it."""
    seen = Instrument(whole, set(group)).part((), whole.tree, Scope(), True)
    with kept(network_text(whole.input, seq(seen.net, arr(seen.out())))) as name:
        return call(["run", name], stream)


def parts_say_the_same():
    """Of each example: the signal of what stands last in it is its output, of what runs always."""
    for example in WHOLE:
        whole = network_of(str(example / "net"))
        run = run_of(str(example / "net"), stream_of(example))
        signals = signals_of(whole, run, list(watchable(whole))).signals
        want(f"the whole of {example.name}", signals[()].values == run.outputs)
        want(f"parts that run in {example.name}", all(value is not ABSENT for value in signals[told_by(whole, ())].values))


def terminal_is_answered(folder):
    """What is typed in a terminal leads from sample to sample."""
    net, file = in_files(folder, net=NUMBERS + "(>>> (iPre 0) (arr (mul x 10)))", stream="5\n+1 6\n+3 7\n+1 8\n")
    ours, theirs = pty.openpty()
    child = subprocess.Popen([TOP / "tools/tool", "step", net, file], stdin=theirs, stdout=theirs, stderr=theirs, close_fds=True)
    os.close(theirs)
    found = b""
    for typed in (b"\n", b"n\n", b"p\n", b"4\n", b"/arr\n", b"/nothing\n", b"99\n", b"q\n"):
        os.write(ours, typed)
    while True:
        try:
            piece = os.read(ours, 65_536)
        except OSError:
            break
        if not piece:
            break
        found += piece
    os.close(ours)
    text = re.sub(r"\033\[[0-9;]*[mJH]", "", found.decode(errors="replace"))
    titles = re.findall(r"sample (\d+) of 4, time (\d+)", text)
    steps = ["1", "2", "3", "2", "4", "4", "4", "4"]
    want("step in a terminal", child.wait(30) == 0 and [number for number, _ in titles] == steps, text[:600])
    want("a signal is found", re.search(r">\S* *arr \(at 1\)", text), text[-900:])
    want("no signal is found", "no signal has nothing in its name" in text and "there are samples 1 to 4" in text, text[-900:])


def try_all() -> None:
    with own_folder() as folder:
        samples_are_told(folder)
        streams_are_not_held(folder)
        terminal_is_answered(folder)
    examples_are_stepped()
    parts_say_the_same()
    all_signals_change_nothing(4_000, 5)
