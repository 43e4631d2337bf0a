"""The signals inside a network, and the types of its parts."""
from model.trees import shown
from workbench.asking import asked
from workbench.ending import Refused
from workbench.outline import network_of
from workbench.program import call
from workbench.watching import file_text, watched

from tooling.common import EXAMPLES, in_files, networks_in, own_folder, some, tool, want

UNTIL_TEN = "(arr (pair x (if (less 9 x) (event x) (none Int)))) (arr (add x (p 0)))"
RESTARTED = "(iPre 0) (iPre (p 0))"
EVENTS = "(pair 5 none) / +1 (pair 6 (event 9)) / +1 (pair 7 (event 8)) / +1 (pair 4 none)"
# Two members that change places, and members of which the first goes on twice.
CHANGING = """(pSwitch (nth (fst x) (snd x) 0) (col integral integral) (arr (if (less 9 (nth (fst x) 0 0)) (event unit) (none Unit)))
    (parB (>>> (arr (nth x 1 0)) (old 1)) (>>> (arr (nth x 0 0)) (old 0))))"""
COMING = "(rpSwitchB (col integral) (pair (list Int 0 0 5) (list Int x)) (iPre (p 0)))"
COMES = "(pair 2 none) / +3 (pair 4 (event 9)) / +1 (pair 5 none)"
# The input's type, a network, a position, a stream, and what the part there outputs, worked by hand.
WATCHED = [
    ("(Pair Int Bool)", "(first (>>> (arr (neg x)) (iPre 0)))", "0 0", "(pair 2 true) / +1 (pair 3 true)", "-2 / -3"),
    ("Int", "(parB time integral)", "1", "2 / +3 4", "0 / 6"),
    ("Int", "(loopPre 0 (arr (then (add (fst x) (snd x)) (pair x x))))", "1", "1 / +1 2 / +1 3", "(pair 1 1) / (pair 3 3) / (pair 6 6)"),
    ("Int", "(--> 7 time)", "1", "2 / +2 0 / +3 0", "0 / 2 / 5"),
    ("Int", "(>-- 9 (iPre 0))", "1", "1 / +1 2 / +1 3", "0 / 9 / 2"),
    ("Int", f"(switch {UNTIL_TEN})", "0", "1 / +1 20 / +1 3", "(event (pair 1 none)) / (event (pair 20 (event 20))) / none"),
    ("Int", f"(dSwitch {UNTIL_TEN})", "1", "1 / +1 20 / +1 3", "none / (event 40) / (event 23)"),
    ("(Pair Int (Event Int))", f"(rSwitch {RESTARTED})", "0", EVENTS, "(event 0) / none / none / none"),
    ("(Pair Int (Event Int))", f"(rSwitch {RESTARTED})", "1", EVENTS, "none / (event 9) / (event 8) / (event 7)"),
    ("(Pair Int (Event Int))", f"(drSwitch {RESTARTED})", "0", EVENTS, "(event 0) / (event 5) / none / none"),
    ("(Pair Int (Event Int))", f"(drSwitch {RESTARTED})", "1", EVENTS, "none / (event 9) / (event 8) / (event 7)"),
    ("Unit", "(kSwitch time (after 3 unit) (old 0))", "0", "unit / +2 = / +2 = / +5 =", "(event 0) / (event 2) / (event 4) / (event 9)"),
    ("Unit", "(kSwitch time (after 3 unit) (>>> (old 0) (arr x)))", "2 0", "unit / +2 = / +2 = / +5 =", "none / none / (event 4) / (event 9)"),
    ("(List Int)", CHANGING, "2", "(list 1 2) / +1 (list 3 4) / +1 (list 10 5) / +2 (list 1 1)", "(event 0) / (event 2) / (event 6) / (event 16)"),
    ("(Pair Int (Event Int))", COMING, "0", COMES, "(list (event 0)) / (list (event 6) (event 6) none) / (list (event 10) (event 10) none)"),
    ("(Pair Int (Event Int))", COMING, "2", COMES, "(list none) / (list none none (event 9)) / (list none none (event 4))"),
]

UNWATCHED = [
    ("(>>> time time)", "7", "(at 7): nothing stands there"),
    ("(arr (add x 1))", "0", "(at 0): an expression stands there"),
    ("(kSwitch time (after 3 unit) (old 0))", "1", "(at 1): what watches a kSwitch can't be watched itself"),
    ("(pSwitch (fst x) (col integral time) (never Int) (parB time))", "3", "(at 3): what watches a pSwitch can't be watched itself"),
]


def parts_are_watched(folder):
    """Each part that can be watched is accepted by the program with the types that it should have."""
    for example in EXAMPLES:
        whole = network_of(str(example / "net"))
        for position in some(networks_in(whole), 20):
            try:
                part = watched(whole, position)
            except Refused:
                continue
            (file,) = in_files(folder, part=file_text(whole.input, part.net))
            told = call(["types", str(file)])
            types = f"{shown(whole.input)} -> {shown(part.type)}"
            want(f"watch {example.name} {position}", told.output.decode().startswith(types + "\n"), told.error)
            of = whole.output(position)
            want(f"the type of {example.name} {position}", part.type in (of, ("Event", of), ("List", ("Event", of))), part.type)
    for type_, net, position, stream, wanted in WATCHED:
        (file,) = in_files(folder, net=f"yampa 2 input {type_} {net}")
        status, output, error = tool("watch", file, "--at", *position.split())
        (part,) = in_files(folder, part=output)
        told = call(["run", str(part)], stream.replace(" / ", "\n").encode() + b"\n")
        want(f"watch {net} {position}", told.output.decode() == wanted.replace(" / ", "\n") + "\n", error + told.error)
    for net, position, wanted in UNWATCHED:
        (file,) = in_files(folder, net=f"yampa 1 input Int {net}")
        status, output, error = tool("watch", file, "--at", *position.split())
        want(f"watch {net} {position}", status == 1 and not output and wanted in error and error.count("\n") == 1, error)


def parts_are_asked():
    """A part that is asked for by itself has the type that it has in the whole, and so has what goes into it."""
    for example in EXAMPLES:
        whole = network_of(str(example / "net"))
        for positions, part_at, wanted in (
            (some(list(whole.rows), 40), whole.at, whole.output),
            (some(networks_in(whole), 20), lambda _: ("arr", "x"), whole.given),
        ):
            types = asked(whole, [(position, part_at(position)) for position in positions])
            want(f"parts of {example.name}", types == list(map(wanted, positions)), types)


def try_all() -> None:
    with own_folder() as folder:
        parts_are_watched(folder)
    parts_are_asked()
