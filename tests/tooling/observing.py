"""`yampa prove` on observers of which it is known whether they hold: none is told wrong, and nearly all are decided; what it rests on that some
hold is checked by another solver."""
import os
import re
import shlex
import subprocess
import time

from tooling.common import NUMBERS, TOP, in_files, leave_out, own_folder, patience, there, tool, want

NEEDS = ["z3"]
ALONE = True

ROWS = TOP / "tests/proving/observers"
# For how long each is looked at, of so many one is, and how many of them may stay open.
SECONDS, EVERY, OPEN = 30, 5, 2
# These are always tried: each wants a guess of its own.
NAMED = ["fifo_sum", "lcm_true", "lock1000", "parity", "ums_speed_jump", "watchdog_timer"]
# Of these a certificate is written, which cvc5 checks.
CERTIFIED = ["antiwindup", "buffer100", "counter100", "cruise_modes", "gray3", "handshake", "hysteresis", "leaky", "microwave", "monotone"]
CERTIFIED += ["movsum4", "prodcell", "readwrite", "retime", "square", "switch", "ticket", "traffic_timed", "ums_speed", "voter_latch"]
STATUS = {"true": 0, "false": 1}


def observers():
    """Each one's name, with its truth, options, network and, of a false one, the first sample at which it can be."""
    found = {}
    for paragraph in ROWS.read_text().split("\n\n"):
        lines = [line for line in paragraph.splitlines() if not line.startswith(";")]
        if lines:
            name, truth, *options = shlex.split(lines[0])
            least = int(options.pop(0)) if truth == "false" else 0
            found[name] = truth, options, "\n".join(lines[1:]) + "\n", least
    return found


def asked(name, *words):
    """What `prove` says of an observer, in how many seconds, and the certificate where one was asked for."""
    every = observers()
    _, options, net, _ = every[name]
    with own_folder() as folder:
        in_files(folder, net=net, **{option: every[option][2] for option in options if option in every})
        begun = time.monotonic()
        status, output, error = tool("prove", "net", "--seconds", str(SECONDS), *options, *words, folder=folder)
        path = folder / "certificate"
        return status, output + error, time.monotonic() - begun, path.read_text() if path.exists() else ""


def truths_are_told():
    every = [name for name, (truth, *_) in observers().items() if truth in STATUS]
    some = every if os.environ.get("DEAR") else sorted({*every[::EVERY], *NAMED})
    open_ = []
    for name in some:
        status, told, seconds, _ = asked(name)
        if status == 4:
            open_.append(name)
            continue
        truth, *_, least = observers()[name]
        at = re.match(r"false at sample (\d+):", told)
        want(f"observer {name}", status == STATUS[truth] and (not least or at and int(at[1]) == least), f"{least} {told}")
        want(f"observer {name} in time", seconds < (SECONDS + 10) * patience(), seconds)
    want("observers that stay open", len(open_) <= OPEN, open_)


def checked_by_another(certificate):
    """What cvc5 answers to each question of a certificate."""
    ran = subprocess.run(["cvc5", "--lang", "smt2"], input=certificate, capture_output=True, text=True, timeout=300, check=False)
    return ran.stdout.split()


def equal_states_are_certified(folder):
    """That two parts of the state are always equal is asked of the other solver too."""
    count = "(loopPre 0 (arr (then (if (less (snd x) (fst x)) (add (snd x) 3) (snd x)) (pair x x))))"
    (net,) = in_files(folder, net=f"{NUMBERS}(>>> (&&& {count} {count}) (arr (equal (less 50 (fst x)) (less 50 (snd x)))))")
    status, output, error = tool("prove", net, "--seconds", "30", "--certificate", folder / "certificate")
    certificate = (folder / "certificate").read_text()
    want("a certificate of equal states", status == 0 and "if they held before it" in certificate, output + error + certificate)
    answers = checked_by_another(certificate)
    want("what is said of it", len(answers) == 4 and set(answers) == {"unsat"}, answers)


def certificates_are_checked():
    for name in CERTIFIED if os.environ.get("DEAR") else CERTIFIED[::EVERY]:
        status, told, _, certificate = asked(name, "--certificate", "certificate")
        answers = checked_by_another(certificate)
        want(f"certificate of {name}", status == 0 and len(answers) > 1 and set(answers) == {"unsat"}, told + " ".join(answers))


def conditions_are_looked_at(folder):
    count = "yampa 1\ninput Bool\n(>>> (loopPre 0 (arr (then (if (less (snd x) 10) (add (snd x) 1) 0) (pair x x)))) (arr (or (not (less {} x)) (less 3 x))))"
    for least, wanted in ((50, "but its condition never comes about"), (5, "")):
        (net,) = in_files(folder, net=count.format(least))
        status, output, error = tool("prove", net, "--seconds", "30")
        want(f"a condition {least}", status == 0 and ("condition" in output) == bool(wanted) and wanted in output, output + error)


def try_all() -> None:
    truths_are_told()
    if there("cvc5"):
        certificates_are_checked()
        with own_folder() as folder:
            equal_states_are_certified(folder)
    else:
        leave_out("since cvc5 isn't here: certificates by another solver")
    with own_folder() as folder:
        conditions_are_looked_at(folder)
