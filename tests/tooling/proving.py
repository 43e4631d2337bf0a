"""`yampa prove`: what holds, what is false with its recording, what isn't known; definitions of a file that say what is to hold."""
import os
import re
import time
from dataclasses import replace
from textwrap import dedent

from model.texts import read_network
from model.trees import GREATEST
from workbench.origin import program_of
from workbench.program import call
from workbench.proposing import searcher
from workbench.proving.contract import contract_of
from workbench.proving.intervals import ranges_of
from workbench.proving.question import Pace
from workbench.proving.words import loaded

from tooling.common import NUMBERS, TOP, each, in_files, in_folder, own_folder, patience, tool, want

NEEDS = ["z3"]
# The searches are held to the clock: no other module runs beside this one.
ALONE = True

CLICKS = "yampa 1\ninput (Event Unit)\n"
LISTS = "yampa 1\ninput (List Int)\n"
TRUTHS = "yampa 1\ninput Bool\n"
COUNTED = "(>>> (accumHoldBy (add (fst x) 1) 0) (arr {}))"
# Two counters, of 6 and of 10, that are never 5 apart: 30 states.
COUNTERS = "(loopPre {} (arr (then (if (less (snd x) {}) (add (snd x) 1) 0) (pair x x))))"
APART = f"(>>> (&&& {COUNTERS.format(0, 5)} {COUNTERS.format(1, 9)}) (arr (not (equal (sub (fst x) (snd x)) 4))))"
STEPS = "(>>> (loopPre 0 (arr (then (add (snd x) 1) (pair x x)))) (arr {}))"
# At most one event of a timer of 3 ticks.
EVENTS = "(>>> (>>> (repeatedly 3 unit) (accumHoldBy (add (fst x) 1) 0)) (arr (less x 2)))"
# Each event keeps the first member and starts another, on the other side of what the C keeps: 4 states, the start, one member that has
# false, and two that have true or false.
SIDES = "(>>> (arr (pair x (if x (event 5) (none Int)))) (>>> (rpSwitchB (col (iPre false)) (pair (list Int 0) (list Int 1)) (iPre true)) (arr (less (len x) 4))))"
CYCLE = "(>>> (loopPre 0 (arr (then (if (equal (snd x) 5) 0 (add 1 (snd x))) (pair x x)))) (arr (less x 9)))"

# An observer, more words, the status, and what is told.
ANSWERS = [
    (NUMBERS + "(arr (not (equal x 7319)))", [], 1, "false at sample 1: net.false"),
    (CLICKS + COUNTED.format("(less x 20)"), [], 1, "false at sample 20: net.false"),
    (CLICKS + COUNTED.format("(less -1 x)"), [], 0, "holds on every recording of at most 1,000,000 samples\nby "),
    (CLICKS + COUNTED.format("(less -1 x)"), ["--samples", "500"], 0, "holds on every recording of at most 500 samples\nby "),
    (CLICKS + COUNTED.format("(less -1 x)"), ["--samples", "any", "--seconds", "6"], 4, "not known: "),
    (NUMBERS + APART, [], 0, "holds on every recording\nby "),
    (TRUTHS + "(>>> (delay 3 false) (arr (or x (not x))))", ["--steps", "1,2"], 0, "holds on every recording of at most 2^62 ticks with steps of 1 or 2\nby "),
    (NUMBERS + "(>>> (iPre 0) (arr (less x 9)))", ["--ints", "-3..8"], 0, "holds on every recording with numbers from -3 to 8\nby "),
    (NUMBERS + "(>>> (iPre 0) (arr (less x 9)))", ["--ints", "-3..9"], 1, "false at sample 2: net.false"),
    (LISTS + "(arr (less (nth x 1 0) 9))", ["--ints", "0..8"], 0, "with lists of at most 4 elements with numbers from 0 to 8\nby "),
    (NUMBERS + STEPS.format("(less x 1000)"), [], 1, "false at sample 1000: net.false"),
    (NUMBERS + CYCLE, [], 0, "holds on every recording\nby "),
    (NUMBERS + "(>>> time (arr (less -1 x)))", [], 0, "holds on every recording of at most 2^62 ticks\nby "),
    (NUMBERS + "(>>> time (arr (less x 100)))", ["--total", "99"], 0, "holds on every recording of at most 99 ticks\nby "),
    (NUMBERS + "(>>> time (arr (less x 100)))", ["--step", "7"], 1, "false at sample 16: net.false"),
    (NUMBERS + "(>>> time (arr (less x 60)))", ["--samples", "9", "--most-step", "7"], 0, "of at most 9 samples with steps of at most 7\nby "),
    (NUMBERS + "(>>> time (arr (less x 60)))", ["--samples", "10", "--most-step", "7"], 1, "false at sample 10: net.false"),
    (NUMBERS + "(>>> (repeatedly 5 1) (arr (equal x (none Int))))", ["--most-step", "2"], 1, "false at sample 4: net.false"),
    (NUMBERS + "(>>> (iPre 0) (arr (less x 5)))", ["--step", "3"], 1, "false at sample 2: net.false"),
    (NUMBERS + STEPS.format("(less x 20)"), ["--total", "18"], 0, "holds on every recording of at most 18 ticks\nby "),
    (TRUTHS + STEPS.format("(less x 20)"), ["--steps", "5,7", "--total", "94"], 0, "holds on every recording of at most 94 ticks\nby "),
    (TRUTHS + STEPS.format("(less x 20)"), ["--steps", "5,7", "--total", "95"], 1, "false at sample 20: net.false"),
    (TRUTHS + STEPS.format("(less x 600)"), ["--samples", "599"], 0, "holds on every recording of at most 599 samples\nby "),
    (TRUTHS + STEPS.format("(less x 600)"), ["--samples", "600"], 1, "false at sample 600: net.false"),
    (NUMBERS + STEPS.format("(less x 3000)"), ["--depth", "4000"], 1, "false at sample 3000: net.false"),
    (LISTS + "(arr (less (len x) 3))", ["--lists", "2"], 0, "holds on every recording with lists of at most 2 elements"),
    (LISTS + "(arr (less (len x) 3))", [], 1, "false at sample 1: net.false"),
    (NUMBERS + "(>>> (delay 4096 0) (arr (less x 1)))", [], 1, "false at sample 2: net.false"),
    (NUMBERS + "(arr (equal (mul x x) (mul x x)))", [], 0, "by induction over 1 sample"),
    (
        "yampa 2\ninput (Pair Int (Event Int))\n(>>> (rpSwitchB (col integral) (pair (list Int 0 1 2 3) (list Int x)) (arr (p 0))) (arr (less (len x) 4)))",
        [],
        1,
        "false at sample 3: net.false",
    ),
    (NUMBERS + "(arr (equal (fst x) 1))", [], 1, "network: mismatch in (at 0)"),
    (NUMBERS + "(arr x)", [], 1, "net: it outputs Int, and an observer outputs Bool"),
    (NUMBERS + "(arr (less x 10))", ["--seconds", "nan"], 2, "nan is no number of seconds above 0"),
    (NUMBERS + "(arr (less x 10))", ["--seconds", "inf"], 2, "inf is no number of seconds above 0"),
    (NUMBERS + "(arr (less x 10))", ["--seconds", "-1"], 2, "-1 is no number of seconds above 0"),
    (NUMBERS + "(arr (less x 10))", ["--step", "0"], 2, "0 is no whole number from 1"),
    (NUMBERS + "(arr (less x 10))", ["--step", "7", "--most-step", "3"], 2, "no step keeps to --most-step"),
    (NUMBERS + "(arr (less x 10))", ["--total", str(2**63)], 2, f"{2**63} is no whole number from 1 to {GREATEST}"),
    (NUMBERS + "(arr (less x 10))", ["--ints", "5..1"], 2, "5..1 is no span of numbers of 64 bits, the least first"),
]

# An observer, what is assumed or used of it, the words, the status, and what is told.
HINTS = [
    ("(arr (less x 10))", "(arr (less x 9))", ["--assume", "hint"], 0, "holds on every recording that keeps to what is assumed"),
    ("(arr (less x 10))", "(arr (less x 11))", ["--assume", "hint"], 1, "false at sample 1"),
    ("(arr (less x 10))", "(arr false)", ["--assume", "hint"], 1, "no recording keeps to what is assumed"),
    ("(arr (equal x x))", "(>>> time (arr (less x 3)))", ["--assume", "hint"], 0, "no recording of more than 3 samples keeps to what is assumed"),
    ("(arr (equal x x))", STEPS.format("(less x 301)"), ["--assume", "hint"], 0, "no recording of more than 300 samples keeps to what is assumed"),
    (CYCLE, CYCLE.replace("9", "6"), ["--invariant", "hint"], 0, "holds on every recording"),
    (CYCLE, CYCLE.replace("9", "5"), ["--invariant", "hint"], 0, "invariant hint is left out: it is false at sample 5 of "),
    ("(arr (less x 0))", f"(arr (less (add x {GREATEST}) 0))", ["--assume", "hint"], 1, "false at sample 1"),
    ("(arr (less x 10))", f"(arr (equal (add x {GREATEST}) -5))", ["--assume", "hint"], 1, "false at sample 1"),
    ("(arr (less x 10))", "(arr x)", ["--assume", "hint"], 1, "hint: it outputs Int, and what is assumed outputs Bool"),
]

# Changes of the junction and of the cruise control, with the goal that each makes false.
JUNCTION = (TOP / "tests/proving/Junction.hs").read_text()
BUGS = [
    ("goes Clears True", "goes Walk False", "red"),
    ("(phase k == Walk)", "(phase k /= Drive)", "safe"),
]
EXAMPLES_GOALS = [("junction", ["parted"]), ("boiler", ["apart", "powers", "off", "warm"]), ("elevator", ["floors", "steps"])]
# A turnstile that holds up to 5 coins, and what is said of it; whether each is so.
TURNSTILE = """{-# LANGUAGE Arrows #-}
module Turnstile where

import Yampa.Whole

data Act = Coin | Push deriving (Eq)
data Door = Door { open :: Bool, coins :: Int }

turnstile :: SF Act Door
turnstile = proc act -> do
  rec let n = if act == Coin then min 5 (before + 1) else max 0 (before - 1)
      before <- iPre 0 -< n
  returnA -< Door { open = n > 0, coins = n }

few, fine, apart :: Guarantee Act Door
few = arr (\\(_, d) -> coins d < 3)
fine = arr (\\(_, d) -> coins d >= 0 && coins d < 6)
apart = arr (\\(_, d) -> open d || coins d == 0)

full, over, shut :: Cover Act Door
full = arr (\\(_, d) -> coins d == 5)
over = arr (\\(_, d) -> coins d > 5)
shut = arr (\\(act, d) -> act == Push && not (open d))
"""
# A counter from 0 to 5 that never is 7, for which it has to be known that it never is more.
COUNTER = """module Counter where

import Yampa.Whole

data Box = Box { coins :: Int, lid :: Bool }

counter :: SF Int Box
counter = loopPre 0 (arr (\\(x, before) -> let n = if x > 0 then min 5 (before + 1) else max 0 (before - 1) in (n, n))) >>> arr (\\n -> Box n (n > 0))

lucky :: Guarantee Int Box
lucky = arr (\\(_, b) -> coins b /= 7)
"""
# A count that never ends, and one to 5: that the first isn't negative is true of recordings that aren't too long, and only where the time
# isn't; the second needs no bound. Each with how many samples it is told of.
COUNTS = """module Counts where

import Yampa.Whole

counts :: SF Int (Int, Int)
counts = loopPre 0 (arr (\\(_, n) -> (n, n + 1))) &&& loopPre 0 (arr (\\(_, n) -> (n, if n < 5 then n + 1 else 0)))

"""
SMALL = "small :: Guarantee Int (Int, Int)\nsmall = arr (\\(_, (_, n)) -> n < 6)\n"
RISING = "rising :: Guarantee Int (Int, Int)\nrising = arr (\\(_, (n, _)) -> n >= 0)\n"
LATE = "late :: Guarantee Int (Int, Int)\nlate = time >>> arr (\\t -> t >= 0)\n"
FEW = "few :: Invariant Int (Int, Int)\nfew = arr (\\(_, (n, _)) -> n < 1000000)\n"
FEWER = "fewer :: Guarantee Int (Int, Int)\nfewer = (time &&& identity) >>> arr (\\(t, (_, (n, _))) -> t < 0 || n < 1000000)\n"
MILLION = "of at most 1,000,000 samples"
CLAIMS = [
    (SMALL + RISING, [rf"holds +rising .*, {MILLION} alone", r"holds +small (?!.*alone)", "0 false, 0 not known, 2 hold, on every recording: "]),
    (SMALL + LATE, ["0 false, 0 not known, 2 hold, on every recording of at most 2\\^62 ticks: "]),
    (FEW + FEWER, [rf"0 false, 0 not known, 1 holds, on every recording of at most 2\^62 ticks {MILLION}: "]),
]
# What stands in the place of z3 where its library can't be loaded.
UNLOADED = "print('Could not find libz3.so')\nraise Exception('libz3.so not found.')"
# An observer of an Int, and between which numbers those are that keep to it.
BOUNDS = [
    ("(or (equal x 1) (equal x 5))", (1, 5)),
    ("(if (less x 3) (less -2 x) false)", (-1, 2)),
    ("(if (less x 3) (less -2 x) (less x 9))", (-1, 8)),
    ("(not (and (not (equal x 1)) (not (equal 7 x))))", (1, 7)),
    ("(and (less 0 x) (or (less x 7) (equal x 9)))", (1, 9)),
]
TURNS = {"few": "false at sample 3", "fine": "holds", "apart": "holds", "full": "covered at sample 5", "over": "never", "shut": "covered at sample 1"}


def told_of(case):
    net, words, *_ = case
    return in_folder(("prove", "net", "--seconds", "60", *words), net=net)


def told_with(case):
    net, hint, words, *_ = case
    return in_folder(("prove", "net", "--seconds", "60", *words), net=NUMBERS + net, hint=NUMBERS + hint)


def answers_are_right():
    for cases, ask in ((ANSWERS, told_of), (HINTS, told_with)):
        for case, (status, output, error) in each(ask, cases):
            *_, wanted, line = case
            want(f"prove {case[0]} {case[-3]}", status == wanted and line in output + error and "Traceback" not in error, output + error)


def states_are_searched_without_z3(folder):
    """What has few inputs and states is decided by the compiled network alone; where there is no C compiler that is told."""
    no_z3, dying, _ = in_files(folder, **{"z3.py": "raise ImportError(name='z3')"}, dying=TRUTHS + STEPS.format("(less x 9)"), never=TRUTHS + "(arr false)")
    for net, words, wanted, line in (
        (APART, ["--step", "1"], 0, "by a search of all states: all 31 seen"),
        (APART.replace("equal (sub (fst x) (snd x)) 4", "equal (sub (fst x) (snd x)) 5"), ["--step", "1"], 1, "false at sample 29"),
        ("(>>> (&&& (delay 3 false) (>>> (delay 2 false) (delay 1 false))) (arr (equal (fst x) (snd x))))", ["--step", "1"], 0, "seen"),
        # One event in 6 ticks at most, and two if there is one more.
        (EVENTS, ["--total", "5"], 0, "holds on every recording of at most 5 ticks\nby a search of all states: "),
        (EVENTS, ["--total", "6"], 1, "false at sample 3"),
        (EVENTS, ["--total", "6", "--most-step", "2"], 1, "false at sample 4"),
        ("(arr (or x (not x)))", ["--assume", str(dying)], 0, "no recording of more than 8 samples keeps to what is assumed"),
        ("(arr (or x (not x)))", ["--assume", str(folder / "never")], 1, "no recording keeps to what is assumed"),
    ):
        (path,) = in_files(folder, net=TRUTHS + net)
        status, output, error = tool("prove", path, *words, "--seconds", "30", PYTHONPATH=str(no_z3.parent))
        want(f"states of {net} {words}", status == wanted and line in output + error and "install python3-z3" in error, output + error)
    searcher()
    (path,) = in_files(folder, net=TRUTHS + "(>>> (&&& time identity) (arr (or (snd x) (not (snd x)))))")
    status, output, error = tool("prove", path, "--seconds", "30", PYTHONPATH=str(no_z3.parent))
    want("time that nothing reads", status == 0 and "by a search of all states: all 2 seen" in output, output + error)
    (path,) = in_files(folder, net="yampa 2\ninput Bool\n" + SIDES)
    status, output, error = tool("prove", path, "--step", "1", "--seconds", "30", PYTHONPATH=str(no_z3.parent))
    want("members on either side", status == 0 and "by a search of all states: all 4 seen" in output, output + error)
    (path,) = in_files(folder, net=TRUTHS + "(>>> (&&& time identity) (arr (or (snd x) (not (snd x)))))")
    in_files(folder, **{"z3.py": UNLOADED})
    status, output, error = tool("prove", path, "--seconds", "30", PYTHONPATH=str(folder))
    want("a z3 that can't be loaded", status == 0 and output.startswith("holds ") and error.count("\n") == 1 and "so without z3" in error, output + error)
    (path,) = in_files(folder, net=TRUTHS + "(arr (or x (not x)))")
    status, output, error = tool("prove", path, "--step", "1", "--seconds", "3", PYTHONPATH=str(no_z3.parent), CC="no-such-compiler")
    want("states without a C compiler", status == 4 and "there is no C compiler no-such-compiler on the path" in output, output + error)


def bounds_are_read():
    for test, (least, most) in BOUNDS:
        (_, net) = read_network(f"{NUMBERS}(arr {test})".encode())
        want(f"bounds of {test}", ranges_of((net,), None).at(()) == (least, most), ranges_of((net,), None))


def no_more_is_claimed(folder):
    """Each goal of a file is told of as many samples as it holds for, and the last line speaks of recordings for which all of them do."""
    for goals, wanted in CLAIMS:
        (path,) = in_files(folder, **{"Counts.hs": COUNTS + goals})
        status, output, error = tool("prove", path, "--seconds", "60")
        want(f"claims of {goals}", status == 0 and all(re.search(f"^{line}", output, re.M) for line in wanted), output + error)


def what_lasts_is_not_called_short(folder):
    """An assumption that only steps of 1 break, and a bound of the ticks, leave recordings of any number of samples."""
    long = "(>>> time (>>> (&&& identity (iPre -5)) (arr (less 1 (sub (fst x) (snd x))))))"
    net, assumed = in_files(folder, net=NUMBERS + "(>>> time (arr (less -1 x)))", long=NUMBERS + long)
    for words in (["--total", "3"], []):
        status, output, error = tool("prove", net, "--assume", assumed, "--seconds", "30", *words)
        want(f"long steps {words}", status == 0 and "no recording" not in output + error, output + error)


def recordings_are_confirmed(folder):
    """What is told false is false by the program, at that very sample."""
    (net,) = in_files(folder, net=NUMBERS + "(>>> (&&& identity (iPre 0)) (arr (not (equal (add (fst x) (snd x)) 17))))")
    status, output, error = tool("prove", net, "--seconds", "60")
    stream = (folder / "net.false").read_bytes()
    lines = call(["run", str(net)], stream).output.split()
    want("a recording", status == 1 and lines == [b"true"] * (len(lines) - 1) + [b"false"] and f"sample {len(lines)}:" in output, output + error)
    want("a small recording", stream == b"17\n", stream)
    with open("/dev/null", "rb") as nothing:
        want("a pipe", tool("prove", "/dev/stdin", stream=NUMBERS + "(arr (less x 5))", folder=folder)[:2] == (1, "5\nfalse at sample 1\n"), nothing)


def seconds_are_held():
    begun = time.monotonic()
    status, output, error = in_folder(("prove", "net", "--seconds", "2"), net=CLICKS + COUNTED.format("(less x 100000)"))
    want("what isn't known", status == 4 and output.startswith("not known: none up to "), output + error)
    want("the seconds are held", time.monotonic() - begun < 15 * patience(), time.monotonic() - begun)
    begun = time.monotonic()
    status, output, error = in_folder(("prove", "net", "--seconds", "60"), net=NUMBERS + "(arr (less -1 (mul x x)))")
    want("what is found is told", status == 1 and time.monotonic() - begun < 30 * patience(), output + error)


def files_say_what_is_to_hold(folder):
    """A row for each goal; a bug is found by its goal; goals of the examples hold."""
    texts = {goal: JUNCTION.replace(old, new) for old, new, goal in BUGS}
    paths = in_files(folder, **texts)
    for path, (status, output, error) in each(lambda path: tool("prove", path, "--goal", path.name, "--seconds", "60"), paths):
        observed = re.search(rf"^false +{path.name} .*at sample \d+: (\S+)\n(?:  .*\n)+1 false, 0 not known, 0 hold$", output, re.M)
        want(f"the junction with {path.name} broken", status == 1 and observed and os.path.exists(observed.group(1)), output + error)
    for name, goals in EXAMPLES_GOALS:
        words = [word for goal in goals for word in ("--goal", goal)]
        status, output, error = tool("prove", TOP / "examples" / name / f"{name.capitalize()}.hs", "--seconds", "110", *words)
        count = f"0 false, 0 not known, {len(goals)} hold"
        want(f"prove {name}", status == 0 and count in output and output.count("\n") == len(goals) + 1, output + error)


def covers_come_about(folder):
    """Each property of a file has its row, and a cover a recording on which it is true at the sample that is told."""
    (path,) = in_files(folder, **{"Turnstile.hs": TURNSTILE})
    status, output, error = tool("prove", path, "--seconds", "60")
    rows = {name: f"{word} {at or ''}".strip() for word, name, at in re.findall(r"^(\w+) +(\w+) +[\d.]+ s  (?:(at sample \d+): )?", output, re.M)}
    want("rows of a turnstile", rows == TURNS and status == 1, output + error)
    want("counts of a turnstile", "\n1 false, 0 not known, 2 hold, on" in output and "\n2 covered, 1 never, 0 not known, on no recording that keeps to what is assumed: so say " in output, output)
    told = tool("timed", path, stream=(folder / "Turnstile.hs.covered.full").read_bytes())[1]
    want("what is covered comes about", told.count("\n") == 5 and told.endswith("(pair true 5)\n"), told)
    status, output, error = tool("prove", path, "--goal", "over", "--seconds", "60")
    want("what never comes about", status == 1 and output.startswith("never ") and "\n0 covered, 1 never, 0 not known, on no recording that keeps to what is assumed: so say " in output, output + error)
    status, output, error = tool("prove", path, "--goal", "full", "--seconds", "60")
    want("a cover alone", status == 0 and output.startswith("covered ") and output.endswith("\n1 covered, 0 never, 0 not known\n"), output + error)


def what_is_stated_is_typed():
    """What is stated in a file is a network of the input, or of the pair of the input and the output, that outputs a truth."""
    text = "module Few where\nimport Yampa.Whole\nfew :: SF Int Time\nfew = time\n"
    for stated, wanted in (
        ("g :: Guarantee Int Time\ng = identity", "Few.hs:6:5: "),
        ("g :: Guarantee Int Time\ng = arr (< 1)", "Few.hs:6:12: what stands right of < must be (Int, Int) here"),
        ("g :: Guarantee Int Time\ng = arr (\\(x, t) -> many < t)", "Few.hs:6:21: there is no many here"),
        ("g :: Guarantee Int Time", "Few.hs:5:1: g "),
        ("g :: Assume Int\ng = arr (\\(x, t) -> t < 5)", "Few.hs:6:11: a parameter of this function must be an Int here"),
        ("g :: Guarantee Bool Time\ng = arr fst", "Few.hs:5:1: "),
    ):
        status, output, error = in_folder(("prove", "Few.hs"), **{"Few.hs": f"{text}{stated}\n"})
        want(f"stated wrong: {stated}", status == 1 and not output and wanted in error and "Traceback" not in error, output + error)
    kept = text + "a :: Assume Int\na = arr (< 5)\ng :: Guarantee Int Time\ng = arr (\\(x, _) -> x < 6)\n"
    status, output, error = in_folder(("prove", "Few.hs"), **{"Few.hs": kept})
    want("what holds as assumed", status == 0 and re.match(r"holds +g ", output) and "that keeps to what is assumed" in output, output + error)


def invariants_can_be_pasted(folder):
    """What is printed of a proof is taken by the file that it is about, and the goal rests on it."""
    (path,) = in_files(folder, **{"Counter.hs": COUNTER})
    contract = contract_of(str(path), loaded(str(path)))
    printed = invariants_of(contract.question(contract.goals[0].net, Pace()), contract)
    want("printed invariants", printed and all(len(line) <= 100 for line in printed) and "coins v2 <= 5" in "\n".join(printed), printed)
    (path,) = in_files(folder, **{"Counter.hs": COUNTER + "\n" + dedent("\n".join(printed)) + "\n"})
    again = contract_of(str(path), loaded(str(path)))
    lemmas = tuple(one.net for one in again.invariants)
    want("pasted invariants", len(lemmas) == len([line for line in printed if "::" in line]), again.invariants)
    want("what rests on them", invariants_of(again.question(again.goals[0].net, Pace(), (), lemmas), again) is not None)


def invariants_are_hints(folder):
    """What is printed of a core network is taken by `--invariant`, and holds there; what says nothing of the network is refused."""
    from workbench.proving.hints import hinted, hints_in
    from workbench.proving.induction import kept
    from workbench.proving.system import System
    from workbench.proving.terms import Terms

    (net,) = in_files(folder, net=NUMBERS + "(>>> (loopPre 0 (arr (then (if (less 0 (fst x)) 5 (sub (snd x) 1)) (pair x x)))) (arr (less x 6)))")
    contract = contract_of(str(net), loaded(str(net)))
    question = contract.question(contract.goals[0].net, Pace(samples=100))
    printed = invariants_of(question, contract)
    want("invariants of a core network", printed is not None and all("(at 0)" in line or "samples" in line for line in printed), printed)
    (hints,) = in_files(folder, hints="\n".join(printed) + "\n  ; (mod (at 0) 3)\n")
    candidates = hinted(System(replace(question, hints=hints_in(str(hints))), Terms(None)))
    want("hints that hold", len(candidates) == len(printed) == len(kept(System(question, Terms(None)), candidates, time.monotonic() + 60)), candidates)
    for hint in ("(less (at 7) 3)", "(at 0)", "(less (p 0) 3)", "(less 3)", "(add 1 2)", "(mod (at 0) 3)", "(less (at 0) 3", "(less 0 1))"):
        (hints,) = in_files(folder, hints=hint)
        status, output, error = tool("prove", net, "--invariant", hints)
        want(f"no hint: {hint}", status == 1 and not output and error.startswith("yampa prove: ") and "hints:" in error and error.count("\n") == 1, output + error)
    (net,) = in_files(folder, net=NUMBERS + CYCLE)
    (hints,) = in_files(folder, hints="(and (less -1 (at 0)) (less (at 0) 6))")
    status, output, error = tool("prove", net, "--invariant", hints, "--seconds", "60")
    want("a hint", status == 0 and output.startswith("holds on every recording\n") and not error, output + error)


def what_is_foreign_is_told():
    """What Spacer says without a word of the language is tried too, and printed as a comment."""
    import z3
    from workbench.proving.integers import Lemma, said_by
    from workbench.proving.saying import plainer
    from workbench.proving.spelling import in_core
    from workbench.proving.terms import Terms

    one, other = z3.Var(0, z3.IntSort()), z3.Var(1, z3.IntSort())
    says = said_by(z3.Or(one % 3 == 2, other <= 4), 2)
    want("a rest in words", in_core([says]) == ["  ; (or (equal (mod (p 1) 3) 2) (not (less 4 (p 0))))"], in_core([says]))
    far = said_by(z3.Not(other >= 2**63), 2)
    want("a number of 65 bits", in_core([plainer(far)]) == [f"  ; (less (p 0) {2**63})"], in_core([plainer(far)]))
    less = plainer(said_by(other + -1 * one < 5, 2))
    want("a difference", less == ("less", ("sub", ("p", 0), ("p", 1)), 5), less)
    lemma = Lemma(says, term=z3.Or(one % 3 == 2, other <= 4))
    found = [z3.is_true(z3.simplify(lemma.of(Terms(None), leaves))) for leaves in ([9, 5], [9, 4], [4, 9])]
    want("a rest of numbers", found == [True, False, True], found)


def invariants_of(question, contract):
    """The lines of the invariants by which a question's goal holds, over integers; None if that isn't found."""
    from workbench.proving.search import PROVING
    from workbench.proving.spelling import spelt
    from workbench.proving.told import Holds, Search

    told = []
    PROVING["integers"](Search(question, time.monotonic() + 60 * patience(), 30, lambda stream: True, tell=told.append))
    loaded_ = contract.loaded
    return next((spelt(one.invariants, program_of(loaded_.name), loaded_.given, loaded_.output) for one in told if isinstance(one, Holds)), None)


def try_all() -> None:
    answers_are_right()
    seconds_are_held()
    what_is_stated_is_typed()
    bounds_are_read()
    what_is_foreign_is_told()
    for check in (
        recordings_are_confirmed,
        states_are_searched_without_z3,
        what_lasts_is_not_called_short,
        no_more_is_claimed,
        files_say_what_is_to_hold,
        covers_come_about,
        invariants_can_be_pasted,
        invariants_are_hints,
    ):
        with own_folder() as folder:
            check(folder)
