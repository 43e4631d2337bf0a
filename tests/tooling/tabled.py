"""Networks of every kind with what is to hold of them, and pairs that are equal or nearly so: what z3 makes of each. Those that take
long are tried where `tests/tools --dear` asks for it."""
import os
import re
import time
from unittest.mock import patch

from model.texts import network_text, read_network
from model.trees import expanded
from workbench.program import call
from workbench.proving.contract import contract_of
from workbench.proving.question import Pace
from workbench.proving.told import Holds, Search
from workbench.proving.words import loaded

from tooling.common import NUMBERS, TOP, each, in_files, in_folder, leave_out, own_folder, patience, tool, want

NEEDS = ["z3"]
# The searches are held to the clock: no other module runs beside this one.
ALONE = True

HERE = TOP / "tests/proving"
DEAR = bool(os.environ.get("DEAR"))
COUNTED = "yampa 1\ninput (Event Unit)\n(>>> (accumHoldBy (add (fst x) 1) 0) (arr (less x {})))"
FORGETS = ("goes Empties pushed", "goes Empties False")
HASTY, SHORT = ("lasted 3", "lasted 2"), ("lasted 10", "lasted 9")
# A hint, without which it isn't known that who asks walks soon.
PACED = ("soon :: Guarantee", (HERE / "junction.paced").read_text() + "soon :: Guarantee")
SANE = ["--assume", str(HERE / "sane")]
HOLDS, FALSE = "holds", "false"

# A network, what is changed in it, the words of the call, and of each goal the answer: that it holds, or is false, or at which sample.
GOALS = [
    ("alarm", None, [], {"loud": HOLDS}),
    ("boiler", None, [], {"apart": HOLDS}),
    ("debouncer", None, [], {"pressed": HOLDS, "long": HOLDS}),
    ("debouncer", None, ["--total", "1000000"], {"long": HOLDS}),
    ("handover", None, [], {"percent": HOLDS}),
    ("heartbeat", None, [], {"two": 4, "three": HOLDS}),
    ("motor", None, [], {"speeds": HOLDS}),
    ("tank", None, [], {"over": HOLDS}),
    ("thermostat", None, [], {"levels": HOLDS, "off": HOLDS}),
    ("vote", None, [], {"middle": HOLDS}),
    ("squash", None, [], {"few": FALSE}),
    ("junction", FORGETS, [], {"safe": HOLDS}),
    ("junction", FORGETS, ["--step", "1"], {"fair": FALSE}),
    ("cruise", None, [], {"modes": HOLDS, "wished": 1}),
    ("cruise", None, SANE, {"wished": HOLDS}),
]
DEAR_GOALS = [
    ("lift", None, [], {"floors": HOLDS}),
    ("junction", None, [], {"fair": HOLDS}),
    ("junction", FORGETS, [], {"fair": FALSE}),
    ("junction", HASTY, [], {"fair": HOLDS}),
    ("junction", SHORT, [], {"fair": HOLDS}),
    ("junction", FORGETS, ["--step", "1"], {"soon": FALSE}),
    ("junction", PACED, ["--step", "1"], {"soon": HOLDS}),
    ("cruise", None, SANE, {"throttled": HOLDS}),
]
SAMPLES = NUMBERS + "(>>> (loopPre 0 (arr (then (add (snd x) 1) (pair x x)))) (arr (less x 1000)))"
COUNTS = [*[(COUNTED.format(most), most) for most in (20, 30, 1000)], (SAMPLES, 1000), (NUMBERS + "(arr (not (equal x 7319)))", 1)]

# A network, and what is changed in it: `differ` tells them apart.
UNWOUND = ("if full then total k else total k + off", "total k + off")
LESS = ("aim k - 100", "aim k - 200")
MUTANTS = [("cruise", UNWOUND, []), ("cruise", UNWOUND, SANE), ("cruise", LESS, []), ("junction", FORGETS, [])]

# A network with a fault that `falsify` finds by a goal, or, where none is named, beside the network without it; and in how many seconds.
PLANTED = [("junction", FORGETS, "fair", []), ("junction", FORGETS, "soon", ["--steps", "1"]), ("cruise", UNWOUND, "", []), ("cruise", LESS, "", [])]
PLANTED += [("junction", change, "", []) for change in (FORGETS, HASTY, SHORT)]
SOON = 10

# A network, and what makes of it one that does the same: a file beside it, a command of the program, or what is changed in it.
LATER = ("clock - since k < d", "clock < d + since k")
TURNED = (
    "if phase k == Drive then Green else if phase k == Ends then Yellow else Red",
    "if phase k == Ends then Yellow else if phase k == Drive then Green else Red",
)
EQUAL = [("boiler", "fast"), ("marble", "fast"), ("junction", "optimise"), ("junction", LATER), ("junction", TURNED), ("cruise", "optimise")]
DEAR_EQUAL = [("boiler", "improved"), ("marble", "improved"), ("handover", "fast"), ("handover", "improved"), ("squash", "fast")]
DEAR_EQUAL += [("squash", "improved"), ("junction", "improve"), ("cruise", "improve"), ("sensors", "improve")]


def written_of(name):
    """The file of a network: one of Haskell here, or an example's."""
    path = HERE / f"{name.capitalize()}.hs"
    return path if path.exists() else TOP / "examples" / name / "net"


def text_of(name, change=None):
    """The file of a network with what is to hold of it; what stands in NAME.said is stated of an example's network in Haskell."""
    path, said = written_of(name), HERE / f"{name}.said"
    text = path.read_text()
    if said.exists():
        text = f"{{-# LANGUAGE Arrows #-}}\n{tool('haskell', path, '--name', name)[1]}\n{said.read_text()}"
    if change:
        assert change[0] in text, change
        text = text.replace(*change)
    return text


def flat(text):
    """The network's file that a text means."""
    return in_folder(("expand", "--flat", "file"), file=text)[1]


def flat_net(name):
    return flat(written_of(name).read_text())


def answer_of(case):
    name, change, words, goals = case
    asked = [word for goal in goals for word in ("--goal", goal)]
    return in_folder(("prove", "net", "--seconds", "110", *words, *asked), net=text_of(name, change))


def goals_are_decided():
    for case, (_, output, error) in each(answer_of, GOALS, 2) + each(answer_of, DEAR_GOALS * DEAR, 1):
        name, change, words, goals = case
        for goal, answer in goals.items():
            row = HOLDS if answer == HOLDS else rf"false .* at sample {answer if answer != FALSE else '[0-9]+'}:"
            found = re.search(rf"^(.*?) +{goal} .*$", output, re.M)
            want(f"{goal} of {name} {change[1][:60] if change else ''} {words[:2]}", found and re.match(row, found.group()), output + error)


def spacer_needs_no_luck():
    """Of the seeds that it is tried with all but one at most decide a goal alone, so that those in turn decide it."""
    from workbench.proving import search

    with own_folder() as folder:
        (path,) = in_files(folder, **{"Heartbeat.hs": with_goal(text_of("heartbeat"), "three")})
        contract = contract_of(str(path), loaded(str(path)))
        question = contract.question(contract.goals[0].net, Pace())
    decided = {}
    for seed in range(10 if DEAR else 3):
        told: list = []
        with patch.object(search, "SEEDS", (seed,)):
            search.PROVING["spacer"](Search(question, time.monotonic() + 60 * patience(), 30, lambda stream: True, tell=told.append))
        decided[seed] = any(isinstance(one, Holds) for one in told)
    want("Spacer by each seed, but one at most", sum(decided.values()) >= len(decided) - 1, decided)


def counts_are_found():
    for (net, most), (_, output, error) in each(lambda case: in_folder(("prove", "net", "--seconds", "60"), net=case[0]), COUNTS, 2):
        want(f"a count to {most}", output == f"false at sample {most}: net.false\n", output + error)


def mutants_are_told_apart():
    def told(case):
        name, change, words = case
        return in_folder(("differ", "source", "target", "--seconds", "60", *words), source=text_of(name), target=text_of(name, change))

    for (name, change, words), (status, output, error) in each(told, MUTANTS, 2):
        nets = [flat(text_of(name, one)) for one in (None, change)]
        with own_folder() as folder:
            files = [folder / "source", folder / "target"]
            for file, net in zip(files, nets):
                file.write_text(net)
            lines = [call(["run", str(file)], output.encode()).output for file in files]
        want(f"{name} with {change[1]} {words[:1]}", status == 1 and lines[0] != lines[1], output + error)


def other_of(name, how):
    """The network's file of one that does the same."""
    if isinstance(how, tuple):
        return flat(text_of(name, how))
    if (TOP / "examples" / name / how).exists():
        return (TOP / "examples" / name / how).read_text()
    with own_folder() as folder:
        (folder / "net").write_text(flat_net(name))
        return call([how, str(folder / "net")]).output.decode()


def both_of(name, text):
    """The file of an observer of whether a network does the same as another of which this is the file."""
    (given, net), (_, other) = (read_network(one.encode()) for one in (flat_net(name), text))
    return network_text(given, expanded((">>>", ("&&&", net, other), ("arr", ("equal", ("fst", "x"), ("snd", "x"))))))


def with_goal(text, goal):
    """The file with this guarantee alone."""
    found = [(part, re.search(r"^(\w+) :: Guarantee ", part, re.M)) for part in text.split("\n\n")]
    return "\n\n".join(part for part, guarantee in found if guarantee is None or guarantee[1] == goal)


def planted_faults_are_falsified():
    """Each in ten seconds of a machine that does nothing else."""
    most = SOON * len(os.sched_getaffinity(0))
    for name, change, goal, words in PLANTED * DEAR:
        text = text_of(name, change)
        net, before = with_goal(text, goal) if goal else both_of(name, flat(text)), sum(os.times()[2:4])
        status, output, error = in_folder(("falsify", "net", "--seconds", "60", *words), net=net)
        seconds = sum(os.times()[2:4]) - before
        want(f"falsify {name} with {change[1]} {goal}", status == 1 and seconds < most, f"{seconds} s of processors: {output}{error}")


def equal_ones_are_proved():
    """By z3 alone: of an observer that runs both."""

    def told(case):
        name, how = case
        return in_folder(("prove", "both", "--seconds", "110", "--lists", "5"), both=both_of(name, other_of(name, how)))

    for (name, how), (status, output, error) in each(told, EQUAL, 2) + each(told, DEAR_EQUAL * DEAR, 1):
        want(f"{name} does the same by {how}", status == 0 and output.startswith("holds on every recording"), output + error)


def try_all() -> None:
    goals_are_decided()
    spacer_needs_no_luck()
    counts_are_found()
    mutants_are_told_apart()
    planted_faults_are_falsified()
    equal_ones_are_proved()
    if not DEAR:
        leave_out("the properties and pairs that take long: `tests/tools --dear` tries them")
