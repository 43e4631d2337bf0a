"""What the program must tell of files and a stream by the model, and whether it does."""
import os
import shlex
import signal
import subprocess
import tempfile
import time
from collections import Counter
from dataclasses import dataclass, field
from functools import lru_cache
from pathlib import Path

from model.laws import StepFault, applied, checked, optimised, traced
from model.meaning import Environment, Model, TooSlow
from model.texts import TextFault, certificate_text, network_text, read_certificate, read_network, read_stream, trace_text
from model.trees import at_text, children, is_network, shown
from model.typed import TypeFault, check_types
from model.viewing import outline_lines, possible_lines, possible_steps
from workbench.program import answering
from workbench.proposing import searcher

ROLES = {
    "types": ["network"],
    "run": ["network"],
    "optimise": ["network"],
    "check": ["source", "target", "certificate"],
    "run-checked": ["source", "target", "certificate"],
    "apply": ["source", "certificate"],
    "improve": ["network"],
    "outline": ["network"],
    "laws": ["network"],
    "certify": ["source", "target"],
}
MEMORY = Path("/dev/shm")
FILES = ["first", "second", "third"]
ABSENT = "absent"
LEAVES = 4_096
WALL_SECONDS = 60


@dataclass
class Told:
    """What a command prints, and its exit status; a negative one is the signal that ended it."""

    output: bytes = b""
    error: bytes = b""
    status: int = 0


@dataclass
class Command:
    """A command on files, each given by its bytes, and a stream; the stream is fed in pieces where there are some."""

    command: str
    files: list
    stream: bytes = b""
    pieces: list = field(default_factory=list)

    def words(self):
        """The command and its flags."""
        return shlex.split(self.command)


class Find(Exception):
    """The program tells something else than it must."""

    def __init__(self, command, why, told, wanted=None):
        super().__init__(why)
        self.command, self.why, self.told, self.wanted = command, why, told, wanted


class Refused(Exception):
    """A fault line."""


# ---- what is wanted


def wanted_of(command, tally):
    """What the model says of a command, nothing of what a search finds, or TooSlow."""
    try:
        files = read_files(command)
        return printed(command, files, tally)
    except Refused as fault:
        tally["faults", fault_kind(str(fault))] += 1
        return Told(b"", f"{fault}\n".encode(), 3 if str(fault).endswith("cannot be read") else 1)


def fault_kind(line):
    """A fault line without its places."""
    words = [word for word in line.replace("(", " ").replace(")", " ").replace(":", ": ").split() if not word.isdigit()]
    return " ".join(words).replace("source:", "network:").replace("target:", "network:")


def read_files(command):
    """What the files hold, each with its text before its types."""
    found = []
    for role, text in zip(ROLES[command.words()[0]], command.files):
        if text is None:
            raise Refused(f"{role}: cannot be read")
        try:
            found.append(read_certificate(text) if role == "certificate" else typed_of(text))
        except (TextFault, TypeFault) as fault:
            raise Refused(f"{role}: {fault}") from None
    return found


@lru_cache(maxsize=16)
def typed_of(text):
    return check_types(*read_network(text))


@lru_cache(maxsize=4)
def optimised_of(text):
    return optimised(typed_of(text))


def leaves_of(net):
    """The different expressions of a network, each with what it is typed under."""
    nodes = [place for place in net.places.values() if is_network(place.tree)]
    below = [net.places[(*node.position, at)] for node in nodes for at in range(len(children(node.tree)))]
    return {(leaf.tree, leaf.scope.params, leaf.input) for leaf in below if not is_network(leaf.tree)}


@lru_cache(maxsize=4)
def run_of(text, stream):
    """The samples of the stream, its fault or None, the outputs, and what fired."""
    net = typed_of(text)
    samples, fault = read_stream(stream, net.input)
    model = Model()
    return len(samples), fault, model.outputs(net.places[()].tree, Environment(), samples), model.fired


def printed(command, files, tally):
    word, *flags = command.words()
    if word in SEARCHES:
        return searched(files)
    if word in VIEWS:
        return Told(VIEWS[word](files[0], flags, tally).encode())
    if word == "optimise" and flags:
        return Told(certificate_text(counted(optimised_of(command.files[0])[1], tally)).encode())
    if word == "optimise":
        net, _ = optimised_of(command.files[0])
        return Told(network_text(net.input, net.places[()].tree).encode())
    if word == "run":
        return ran(command.files[0], command.stream, tally)
    if word == "apply":
        return applied_text(flags, *files)
    try:
        count = checked(*files)
    except StepFault as fault:
        raise Refused(f"certificate: {fault}") from None
    return Told(f"accepted {count}\n".encode()) if word == "check" else ran(command.files[1], command.stream, tally)


def searched(files):
    """Nothing, since the model doesn't know what a search finds; two networks must have one input type."""
    if any(net.input != files[0].input for net in files):
        raise Refused("certificate: inputs differ")


def types_text(net, _flags, _tally):
    return f"{shown(net.input)} -> {shown(net.output)}\nweight {net.weight}\nheight {net.height}\n"


def outline_text(net, _flags, _tally):
    return "".join(outline_lines(net))


def laws_text(net, flags, tally):
    """The steps that can be taken from the place that the flags name on."""
    top = tuple(map(int, flags[1].strip("(at )").split())) if flags else ()
    if top not in net.places:
        raise Refused(f"network: no position {at_text(top)}")
    found = list(possible_steps(net, top))
    for step, *_ in found:
        tally["laws listed", step.law] += 1
    return "".join(possible_lines(found))


SEARCHES = ["improve", "certify"]
VIEWS = {"types": types_text, "outline": outline_text, "laws": laws_text}


def applied_text(flags, source, steps):
    """The network that the steps lead to, or the lines on each."""
    if "--first" in flags:
        steps = steps[: int(flags[flags.index("--first") + 1])]
    if "--steps" not in flags:
        try:
            net = applied(source, steps)
        except StepFault as fault:
            raise Refused(f"certificate: {fault}") from None
        return Told(network_text(net.input, net.places[()].tree).encode())
    lines, fault = traced(source, steps)
    if fault and not lines:
        raise Refused(f"certificate: {fault}")
    text = trace_text(lines).encode()
    return Told(text, f"certificate: {fault}\n".encode(), 1) if fault else Told(text)


def counted(steps, tally):
    """The steps of the optimiser, of which the tally is told."""
    tally["counts", "steps of the optimiser"] += len(steps)
    for step in steps:
        tally["laws of the optimiser", step.law] += 1
    return steps


def ran(text, stream, tally):
    if len(leaves_of(typed_of(text))) > LEAVES:
        raise Refused("table full")
    samples, fault, values, fired = run_of(text, stream)
    for word, count in fired.items():
        tally["fired", word] += count
    tally["counts", "samples"] += samples
    output = "".join(shown(value) + "\n" for value in values).encode()
    if not fault:
        return Told(output)
    tally["faults", fault_kind(f"stream: {fault}")] += 1
    return Told(output, f"stream: {fault}\n".encode(), 1)


# ---- what is told


class Slot:
    """A file that is written anew for each run."""

    def __init__(self, path):
        self.file = open(path, "w+b", buffering=0)

    def hold(self, text):
        self.file.seek(0)
        self.file.truncate()
        self.file.write(text)
        self.file.seek(0)
        return self.file

    def text(self):
        self.file.seek(0)
        return self.file.read()


class Program:
    """The program, run in a folder of its own; it keeps a tally of what was met."""

    def __init__(self, path, longest, skipped):
        self.longest, self.skipped = longest, skipped
        os.environ["YAMPA"] = str(Path(path).resolve())
        self.folder = Path(tempfile.mkdtemp(prefix="generated-", dir=MEMORY if os.access(MEMORY, os.W_OK) else None))
        self.slots = {name: Slot(self.folder / name) for name in [*FILES, "stream", "output", "error"]}
        self.tally = Counter()

    def run(self, command):
        """Runs a command once."""
        words = [*command.words(), *self.named_files(command)]
        return self.start(words, command, answering(words))

    def searched(self, command):
        """What the searches alone tell of a command."""
        return self.start([*command.words(), *self.named_files(command)], command, searcher())

    def named_files(self, command):
        """The names of a command's files, which are written."""
        names = []
        for name, text in zip(FILES, command.files):
            names.append(ABSENT if text is None else name)
            if text is not None:
                self.slots[name].hold(text)
        return names

    def start(self, words, command, program):
        """Starts a program with these words; what it prints goes to files, so that it never waits for its reader."""
        self.tally["counts", "starts"] += 1
        stream = self.slots["stream"].hold(command.stream)
        source = subprocess.PIPE if command.pieces else stream
        output, error = (self.slots[name].hold(b"") for name in ("output", "error"))
        child = subprocess.Popen([program, *words], stdin=source, stdout=output, stderr=error, cwd=self.folder)
        if command.pieces:
            feed(child.stdin, command.pieces)
        status, seconds = ended(child)
        told = Told(self.slots["output"].text(), self.slots["error"].text(), status)
        self.judge(command, told, seconds)
        return told

    def judge(self, command, told, seconds):
        """What holds of every run, whatever the files and the stream."""
        self.tally["statuses", told.status] += 1
        if told.status not in (0, 1, 2, 3):
            raise Find(command, f"ended by a signal or with status {told.status}", told)
        if seconds > self.longest:
            raise Find(command, f"took {seconds:.2f} seconds of a processor", told)
        if told.status in (1, 3) and told.error.count(b"\n") != 1 or bool(told.status) != bool(told.error):
            raise Find(command, "no one line on standard error", told)

    def hold(self, command):
        """What a command tells, held to the model where that isn't too slow for it."""
        told = self.run(command)
        try:
            wanted = wanted_of(command, self.tally)
        except TooSlow:
            self.tally["counts", "too slow for the model"] += 1
            return told
        if wanted is not None and told != wanted:
            raise Find(command, "the model says something else", told, wanted)
        self.tally["commands", " ".join(word for word in command.words() if word[0] not in "(0123456789")] += 1
        return told


def feed(pipe, pieces):
    """Writes the pieces one by one, with a rest between some."""
    try:
        for number, piece in enumerate(pieces):
            pipe.write(piece)
            pipe.flush()
            if number < 8:
                time.sleep(0.001)
        pipe.close()
    except BrokenPipeError:
        pass


def ended(child):
    """The status of a child that has ended, and the seconds of a processor that it took."""
    signal.alarm(WALL_SECONDS)
    try:
        _, status, usage = os.wait4(child.pid, 0)
    except Overdue:
        child.kill()
        _, status, usage = os.wait4(child.pid, 0)
    finally:
        signal.alarm(0)
    child.returncode = os.waitstatus_to_exitcode(status)
    return child.returncode, usage.ru_utime + usage.ru_stime


class Overdue(Exception):
    """A child doesn't end."""


def overdue(_number, _frame):
    raise Overdue


signal.signal(signal.SIGALRM, overdue)
