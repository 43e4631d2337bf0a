"""Streams that break a property, or tell two networks apart, are looked for."""
import os
import signal
import subprocess
import time
from itertools import product
from pathlib import Path

from model.texts import network_text
from workbench.outline import network_of
from workbench.program import call, path

from tooling.common import EXAMPLES, NUMBERS, TOP, each, in_files, in_folder, own_folder, patience, tool, want, written

NEEDS = ["z3"]
# The searches are held to the clock: no other module runs beside this one.
ALONE = True

# Pairs of networks, the second with a fault planted.
PLANTED = [
    ("(delay 3 0)", "(delay 4 0)"),
    ("(iPre 0)", "(iPre 1)"),
    ("(arr (less x 10))", "(arr (less x 11))"),
    ("(arr (add x 1))", "(arr (sub x -2))"),
    (
        "(switch (arr (pair x (if (less 9 x) (event x) (none Int)))) (arr (add x (p 0))))",
        "(dSwitch (arr (pair x (if (less 9 x) (event x) (none Int)))) (arr (add x (p 0))))",
    ),
    ("(repeatedly 3 unit)", "(repeatedly 4 unit)"),
    ("(after 5 unit)", "(after 6 unit)"),
    ("integral", "(>>> (iPre 0) integral)"),
    ("(loopPre 0 (arr (then (add (fst x) (snd x)) (pair x x))))", "(loopPre 1 (arr (then (add (fst x) (snd x)) (pair x x))))"),
    ("(parB time integral)", "(parB integral time)"),
    ("(arr (if (and (less 0 x) (less x 5)) 1 0))", "(arr (if (or (less 0 x) (less x 5)) 1 0))"),
    ("(>>> (arr (less x 5)) edge)", "(>>> (arr (less x 5)) (>>> (iPre false) edge))"),
]
OBSERVED = ("(delay 3 0)", "(after 5 unit)", "(parB time integral)")


def planted_faults_are_found(folder):
    """By a search for what tells the right network from the wrong one, and by an observer of both."""

    def found(pair):
        right, wrong = pair
        both = f"(>>> (&&& {right} {wrong}) (arr (equal (fst x) (snd x))))"
        texts = {"right": NUMBERS + right, "wrong": NUMBERS + wrong, "both": NUMBERS + both}
        return [in_folder((*words, "--seconds", "20"), **texts) for words in (("differ", "right", "wrong"), ("falsify", "both"))[: 1 + (right in OBSERVED)]]

    for (right, wrong), told in each(found, PLANTED):
        nets = in_files(folder, right=NUMBERS + right, wrong=NUMBERS + wrong)
        for name, (status, output, error) in zip(("differ", "falsify"), told):
            outputs = [call(["run", str(net)], output.encode()).output for net in nets]
            want(f"{name} of {right}", status == 1 and outputs[0] != outputs[1] and output.count("\n") <= 8, output + error)


def observers_are_falsified(folder):
    net = NUMBERS + "(>>> (&&& identity (iPre 0)) (arr (not (equal (add (fst x) (snd x)) 17))))"
    status, stream, error = in_folder(("falsify", "net", "--seconds", "20"), net=net)
    (file,) = in_files(folder, net=net)
    told_false = call(["run", str(file)], stream.encode()).output.endswith(b"false\n")
    want("falsify", status == 1 and "false at line" in error and told_false, stream + error)
    status, output, error = in_folder(("falsify", "net", "--seconds", "20"), net=NUMBERS + "(arr (equal x x))")
    told = "it holds on every recording" in error and "none found" not in error and "random stream" in error
    want("nothing to falsify", (status, output) == (0, "") and told, output + error)
    want("no observer", "an observer outputs Bool" in in_folder(("falsify", "net"), net=NUMBERS + "(arr x)")[2])


# What random streams alone find: numbers of the file, stretches of one value, a long stream, steps, a recording that is changed.
RANDOM = [
    ("Int", "(arr (not (equal x 7319)))", []),
    ("Int", "(>>> (loopPre 0 (arr (then (if (less 4 (fst x)) (add (snd x) 1) 0) (pair x x)))) (arr (less x 30)))", []),
    ("(Event Unit)", "(>>> (accumHoldBy (add (fst x) 1) 0) (arr (less x 900)))", ["--length", "5000"]),
    ("Bool", "(>>> (>>> (&&& time (>>> time (iPre 0))) (arr (sub (fst x) (snd x)))) (arr (not (equal x 77))))", ["--steps", "1,77"]),
    ("(Pair Int Int)", "(arr (not (and (equal (fst x) 4242) (less 600 (snd x)))))", ["--from", "recording"]),
]
RECORDING = "(pair 1 1)\n+1 (pair 4241 700)\n+1 (pair 5 5)\n"


def random_streams_find_them():
    """Without z3, which is told."""
    for given, net, words in RANDOM:
        with own_folder() as folder:
            in_files(folder, net=f"yampa 1\ninput {given}\n{net}", recording=RECORDING, **{"z3.py": "raise ImportError(name='z3')"})
            status, stream, error = tool("falsify", "net", "--seconds", "30", *words, folder=folder, PYTHONPATH=str(folder))
            lines = call(["run", str(folder / "net")], stream.encode()).output.split()
            want(f"random streams of {net}", status == 1 and lines[-1:] == [b"false"] and b"false" not in lines[:-1], stream[:300] + error)
            want(f"without z3: {net}", "install python3-z3" in error and "so without z3" in error, error)


def recordings_are_tried_as_they_are(folder):
    """Two networks differ only where 40 samples are just so; one such recording is given, and no z3."""
    source = HARD.replace("(arr (less x 100000))", "(arr (if (less x 40) 0 1))")
    right = "\n+1 ".join(str(7 * number) for number in range(45)) + "\n"
    in_files(folder, source=source, target=source.replace("40", "41"), right=right, **{"z3.py": "raise ImportError(name='z3')"})
    status, output, error = tool("differ", "source", "target", "--from", "right", "--seconds", "30", folder=folder, PYTHONPATH=str(folder))
    want("a recording that is given", status == 1 and "line 40: 1 and 0" in error and right.startswith(output.rstrip("\n")), output + error)


def nothing_is_passed_that_never_ran():
    """What the program refuses to run is told, and isn't passed."""
    rows = [" ".join(f"(arr (less x {64 * row + column}))" for column in range(64)) for row in range(64)]
    observer = NUMBERS + "(>>> (parB " + " ".join(f"(parB {row})" for row in rows) + ") (arr (equal x x)))"
    for words in (("falsify", "net"), ("differ", "net", "net"), ("prove", "net")):
        status, output, error = in_folder((*words, "--seconds", "5"), net=observer)
        want(f"{words[0]} of what has too many expressions", (status, output) == (1, "") and error == f"yampa {words[0]}: table full\n", output + error)


# What is false only where 100,000 samples are just so: nobody finds that in a minute.
HARD = NUMBERS + "(>>> (loopPre 0 (arr (then (if (equal (fst x) (mul 7 (snd x))) (add (snd x) 1) 0) (pair x x)))) (arr (less x 100000)))"


def what_fails_is_told():
    """A program that can't start, or that fails each run, is an error and no answer; few streams aren't enough to say that none was found."""
    with own_folder() as folder:
        (net,) = in_files(folder, net=HARD)
        dying = folder / "dying"
        dying.write_text(f'#!/bin/sh\ncase "$1 $2" in "run {folder}/"*) ;; "run "*) kill -9 $$ ;; esac\nexec "{path()}" "$@"\n')
        dying.chmod(0o755)
        status, output, error = tool("falsify", net, "--seconds", "5", YAMPA=str(dying))
        want("falsify by a program that dies", status == 3 and not output and "0 random streams" in error, error)
        for says in ("", "==1==ReserveShadowMemoryRange failed"):
            silent = written(folder / "silent", f"#!/bin/sh\necho '{says}' >&2\nexit 1\n")
            for words in (("falsify", net), ("prove", net), ("differ", net, net)):
                status, output, error = tool(*words, "--seconds", "5", YAMPA=str(silent))
                want(f"{words[0]} by a program that can't start", status == 3 and not output and error.count("\n") == 1, error)
        status, output, error = tool("falsify", net, "--seconds", "0.01")
        want("falsify without time", status in (3, 4) and "none found" not in error and "random stream" in error, error)
        (other,) = in_files(folder, other=HARD.replace("100000", "100001"))
        for words in (("prove", net), ("differ", net, other)):
            status, output, error = tool(*words, "--seconds", "20", YAMPA=str(dying))
            want(f"{words[0]} by a program that dies", status == 3 and "holds" not in output and "no recording was run" in error, output + error)


# A process's soft and hard limits of memory, and what a search makes of them.
LIMIT = """import resource
from workbench.proving.race import limit_memory
resource.setrlimit(resource.RLIMIT_AS, {})
limit_memory()
print(resource.getrlimit(resource.RLIMIT_AS))"""
GIB = 1 << 30
LIMITS = [((-1, -1), (4 * GIB, -1)), ((2 * GIB, -1), (2 * GIB, -1)), ((3 * GIB, 3 * GIB), (3 * GIB, 3 * GIB)), ((6 * GIB, 8 * GIB), (4 * GIB, 8 * GIB))]


def limits_of_memory_are_kept(folder):
    """No limit is raised, and under one there is an answer, or it is told that nothing ran."""
    for limit, wanted in LIMITS:
        ran = subprocess.run(["/usr/bin/python3", "-c", LIMIT.format(limit)], cwd=TOP / "tools", capture_output=True, text=True, check=False)
        want(f"the limit {limit}", ran.stdout == f"{wanted}\n", ran.stdout + ran.stderr)
    net, holds = in_files(folder, net=NUMBERS + "(arr (less x 4))", holds=NUMBERS + "(arr (equal x x))")
    for kibibytes, words, statuses in ((2_000_000, ("falsify", net), (1,)), (2_000_000, ("prove", holds), (0,)), (40_000, ("falsify", holds), (0, 3, 4)), (40_000, ("prove", holds), (3, 4))):
        call_of = f'ulimit -v {kibibytes} && exec "$0" "$@" --seconds {20 * patience()}'
        ran = subprocess.run(["bash", "-c", call_of, str(TOP / "tools/tool"), *map(str, words)], capture_output=True, text=True, check=False)
        told = ran.stdout + ran.stderr
        want(f"{words[0]} under {kibibytes} KiB", ran.returncode in statuses and "defect" not in told and "Traceback" not in told, told)
        want(f"what {words[0]} tells under {kibibytes} KiB", ran.returncode in (1, 3) or "random streams" in told or "holds on" in told, told)


def nothing_is_found(folder):
    """In what is equal: each example beside itself, or its faster form."""

    def observed(example):
        whole, file = network_of(str(example / "net")), folder / example.name
        file.write_text(network_text(whole.input, (">>>", whole.tree, ("arr", ("equal", "x", "x")))))
        return tool("falsify", file, "--seconds", "5")

    def compared(example):
        other = "fast" if (example / "fast").exists() else "net"
        return tool("differ", "net", other, "--seconds", "20", folder=example)

    for example, told in each(observed, EXAMPLES[::4]):
        want(f"falsify {example.name}", told[0] in (0, 4) and not told[1] and ("random streams" in told[2] or "it holds" in told[2]), told)
    for example, told in each(compared, EXAMPLES[::4]):
        want(f"differ {example.name}", told[0] == 0 and told[1].startswith("equal on every recording\nby a certificate"), told)


# Two networks that are one, for which `yampa certify` finds no certificate.
EQUAL = ("(loopPre 0 (arr (then (add (fst x) (snd x)) (pair x x))))", "(loopPre 5 (arr (then (add (fst x) (snd x)) (pair (sub x 5) x))))")


def nothing_is_left_behind(folder):
    """Of a search that is stopped by a signal."""
    net, other = in_files(folder, net=HARD, other=HARD.replace("100000", "100001"))
    for number, words in product((signal.SIGINT, signal.SIGTERM), (["falsify", net], ["prove", net], ["differ", net, other])):
        with own_folder() as place:
            command = [str(TOP / "tools/tool"), *map(str, words), "--seconds", "60"]
            child = subprocess.Popen(command, env={**os.environ, "TMPDIR": str(place)}, stdout=subprocess.DEVNULL, stderr=subprocess.DEVNULL)
            time.sleep(4 * patience())
            child.send_signal(number)
            child.wait(30 * patience())
            left = [path.name for path in place.iterdir()]
            want(f"what {words[0]} leaves behind by signal {int(number)}", not left and child.returncode == 128 + number, f"{left} {child.returncode}")


def what_was_started_is_ended(folder):
    """A search for a certificate, which is a program of its own, ends with who asked for it."""
    net, other = in_files(folder, net=HARD, other=HARD.replace("100000", "100001"))
    told = folder / "process"
    slow = written(folder / "slow", f"#!/bin/sh\necho $$ > {told}\nexec sleep 600\n")
    child = subprocess.Popen([str(TOP / "tools/tool"), "differ", net, other], env={**os.environ, "YAMPA_SEARCH": str(slow), "TMPDIR": str(folder)})
    until = time.monotonic() + 60 * patience()
    while not (told.exists() and told.read_text()) and time.monotonic() < until:
        time.sleep(0.1)
    child.terminate()
    child.wait(30 * patience())
    process = Path(f"/proc/{told.read_text().strip()}")
    until = time.monotonic() + 30 * patience()
    while process.exists() and time.monotonic() < until:
        time.sleep(0.1)
    left = [path.name for path in folder.iterdir() if path not in (net, other, slow, told)]
    want("what differ has started", not process.exists() and not left, f"{process} {process.exists()} {left}")


def equal_networks_are_told():
    source, target = EQUAL
    status, output, error = in_folder(("differ", "source", "target", "--seconds", "30"), source=NUMBERS + source, target=NUMBERS + target)
    want("equal by z3", status == 0 and output.startswith("equal on every recording\nby ") and "so say z3 and an encoding" in output, output + error)


def try_all() -> None:
    with own_folder() as folder:
        planted_faults_are_found(folder)
        random_streams_find_them()
        recordings_are_tried_as_they_are(folder)
        nothing_is_passed_that_never_ran()
        equal_networks_are_told()
        observers_are_falsified(folder)
        what_fails_is_told()
        limits_of_memory_are_kept(folder)
        nothing_is_left_behind(folder)
        nothing_is_found(folder)
    with own_folder() as folder:
        what_was_started_is_ended(folder)
