"""A search of all states, without z3: the observer as C, compiled with a driver that goes breadth first over inputs and steps.

It works where a sample has few inputs: a type without numbers, or numbers between bounds that are asked for or assumed. A state is the
bytes of what the compiled observer keeps; if no new one comes, what is asked holds on every recording.
"""
import os
import re
import select
import subprocess
import tempfile
import time
from dataclasses import replace
from itertools import product
from pathlib import Path
from typing import Any, Iterator, Optional, Sequence

from model.texts import read_network
from model.trees import expanded, shown
from workbench.c_structs import SCALARS, Member, structs_in
from workbench.ending import Refused
from workbench.native import compiler
from workbench.program import call, kept
from workbench.proposing import is_built
from workbench.proving.intervals import Ranges, ranges_of
from workbench.proving.question import TIMED, Pace, Question, words_in
from workbench.proving.told import Holds, Search, Searched, Unfair, Wrong

MOST_INPUTS, MOST_STEPS, MOST_STATES = 4096, 1024, 2_000_000
# How many pairs of an input and a step are tried at each sample.
MOST_TRIED = 2**18
# The forms whose state may grow as long as time goes on.
GROWING = ("time", "integral")
DRIVER = Path(__file__).with_name("states.c")
RESTS = "so say the C that `compile` prints, the C compiler and a driver, of which this project proves the first alone"
FLAGS = ["-O1", "-w", "-std=gnu99"]


class TooMany(Exception):
    """There are too many inputs or steps to try them all."""


# ---- what is tried at each sample


def inputs_of(type_: Any, ranges: Ranges, lists: int, path: tuple = ()) -> list:
    """All values of a type whose numbers are between bounds."""
    match type_:
        case "Unit":
            return ["unit"]
        case "Bool":
            return ["false", "true"]
        case "Int":
            least, most = ranges.at(path)
            few(most - least + 1)
            return list(range(least, most + 1))
        case ("Pair", left, right):
            parts = inputs_of(left, ranges, lists, (*path, "fst")), inputs_of(right, ranges, lists, (*path, "snd"))
            few(len(parts[0]) * len(parts[1]))
            return [("pair", *both) for both in product(*parts)]
        case ("Event", part):
            return ["none", *[("event", value) for value in inputs_of(part, ranges, lists, (*path, "event"))]]
        case (_, part):
            values = inputs_of(part, ranges, lists, (*path, "element"))
            few(sum(len(values) ** size for size in range(lists + 1)))
            return [("list", *items) for size in range(lists + 1) for items in product(values, repeat=size)]
    raise TooMany


def few(count: int) -> None:
    if count > MOST_INPUTS:
        raise TooMany


def steps_of(pace: Pace, timed: bool, inputs: int) -> tuple[list[int], bool]:
    """The steps that are tried, and whether these are all that a recording may have; where steps don't matter the shortest is enough."""
    if not timed:
        return [min(pace.steps or [1])], True
    if pace.steps:
        return pace.steps, True
    most = min(filter(None, (pace.most, pace.total)), default=None)
    if most and most <= MOST_STEPS and most * inputs <= MOST_TRIED:
        return list(range(1, most + 1)), True
    return [1], False


def most_total(question: Question, steps: list[int]) -> int:
    """The bound of the steps' sum, where one of these may pass it before there is no room for more states; else 0."""
    total = question.pace.total
    return total if total and total < max(steps) * MOST_STATES else 0


# ---- as C


def as_c(value: Any, type_: Any) -> str:
    """A value as an initializer."""
    match type_:
        case "Unit":
            return "0"
        case "Bool":
            return str(value)
        case "Int":
            return f"INT64_C({value})" if value > -(2**63) else "INT64_MIN"
        case ("Pair", left, right):
            return f"{{{as_c(value[1], left)}, {as_c(value[2], right)}}}"
        case ("Event", part):
            return "{0}" if value == "none" else f"{{true, {as_c(value[1], part)}}}"
    items = ", ".join(as_c(item, type_[1]) for item in value[1:])
    return f"{{{len(value) - 1}, {{{items or 0}}}}}"


STATE = re.compile(r"^#define observed_state (\w+)", re.M)


def canonical(text: str) -> str:
    """C that gives states which go on alike the same bytes. Each struct has a function that copies it into zeros: what no value depends on
    isn't copied."""
    made = [copying(name, members) for name, members in structs_in(text).items()]
    state = STATE.search(text)[1]
    lines = ["static struct observed_state made;", "memset(&made, 0, sizeof made);", f"canonical_{state}(&made, state);", "memcpy(state, &made, sizeof made);"]
    return "".join([*made, function("static void canonical(struct observed_state *state)", lines)])


def function(head: str, lines: Sequence[str]) -> str:
    return f"{head}\n{{\n    " + "\n    ".join(lines) + "\n}\n"


def copying(name: str, members: list[Member]) -> str:
    """The function of a struct: of the ring of a `delay` its head comes first, and its times count from now on; of a collection those that
    run are on the first side; of a list the elements that it has are copied."""
    match [(member.type, len(member.counts)) for member in members]:
        case [("uint64_t", 0), (_, 0), ("uint32_t", 0), ("uint32_t", 0), ("uint64_t", 1), (_, 1)]:
            lines = ring(*members)
        case [("uint32_t", 0), ("uint32_t", 0), (_, 2)]:
            lines = collection(*members)
        case [("uint32_t", 0), (_, 1)]:
            lines = elements(*members)
        case _:
            lines = [line for member in members for line in each(member)]
    return function(f"static void canonical_{name}(struct {name} *to, const struct {name} *from)", lines)


def ring(now: Member, out: Member, head: Member, size: Member, times: Member, values: Member) -> list[str]:
    inner = copied(values, f"{values.name}[i]", f"{values.name}[j]")
    place = f"const uint32_t j = (from->{head.name} + i) % {values.counts[0]};"
    return [
        *each(out),
        f"to->{size.name} = from->{size.name};",
        f"for (uint32_t i = 0; i < from->{size.name}; i++) {{ {place} to->{times.name}[i] = from->{times.name}[j] - from->{now.name}; {inner} }}",
    ]


def collection(count: Member, side: Member, runs: Member) -> list[str]:
    inner = copied(runs, f"{runs.name}[0][i]", f"{runs.name}[from->{side.name}][i]")
    return [f"to->{count.name} = from->{count.name};", f"for (uint32_t i = 0; i < from->{count.name}; i++) {{ {inner} }}"]


def elements(count: Member, all_: Member) -> list[str]:
    inner = copied(all_, f"{all_.name}[i]", f"{all_.name}[i]")
    return [f"to->{count.name} = from->{count.name};", f"for (uint32_t i = 0; i < from->{count.name}; i++) {{ {inner} }}"]


def each(member: Member) -> list[str]:
    """A member that is copied whole."""
    place, line = member.name + "".join(f"[i{depth}]" for depth in range(len(member.counts))), ""
    for depth, count in enumerate(member.counts):
        line += f"for (uint32_t i{depth} = 0; i{depth} < {count}; i{depth}++) "
    return [line + copied(member, place, place)]


def copied(member: Member, to: str, of: str) -> str:
    """The statement that copies a value of a member's type."""
    return f"to->{to} = from->{of};" if member.type in SCALARS else f"canonical_{member.type}(&to->{to}, &from->{of});"


def samples_text(text: str, inputs: list, steps: list[int], question: Question) -> str:
    rows = ",\n    ".join(as_c(value, question.given) for value in inputs)
    return (
        f"#include <inttypes.h>\n#define MOST_STATES {MOST_STATES}\n"
        f"#define MOST_SAMPLES {question.pace.samples or 0}\n#define MOST_TOTAL UINT64_C({most_total(question, steps)})\n"
        f"enum {{ INPUT_COUNT = {len(inputs)}, STEP_COUNT = {len(steps)} }};\n"
        f"static const observed_input INPUTS[] = {{\n    {rows}\n}};\n"
        f"static const int64_t STEPS[] = {{{', '.join(f'INT64_C({step})' for step in steps)}}};\n" + canonical(text)
    )


def observer_of(question: Question) -> str:
    """The observer of a question, but for the samples, which the driver counts. Where time grows in it, or a sum of it, it is improved by
    steps that the program accepts, if the searches are built: what nothing reads is gone then."""
    text = replace(question, pace=replace(question.pace, samples=None)).observer()
    if not has(text, GROWING) or not is_built():
        return text
    with kept(text) as name:
        told = call(["improve", name])
    return text if told.status else told.output.decode()


def has(text: str, words: Sequence[str]) -> bool:
    """Whether one of these forms stands in a network."""
    return any(word in words for word in words_in(expanded(read_network(text.encode())[1])))


def compiled(search: Search, observer: str, inputs: list, steps: list[int], folder: Path) -> Optional[Path]:
    """The program that searches the states, or None where the time is over."""
    with kept(observer) as name:
        told = call(["compile", "--no-main", "--name", "observed", "--most", str(max(1, search.question.pace.lists)), name])
    if told.status:
        raise Refused(told.line())
    text = told.output.decode()
    (folder / "observed.c").write_text(text)
    (folder / "samples.h").write_text(samples_text(text, inputs, steps, search.question))
    command = [*compiler(), *FLAGS, "-I", str(folder), "-o", str(folder / "states"), str(DRIVER)]
    try:
        ran = subprocess.run(command, capture_output=True, timeout=max(0.1, search.left()), check=False)
    except subprocess.TimeoutExpired:
        return None
    except OSError as error:
        raise Refused(f"there is no C compiler {command[0]} on the path (Debian: apt-get install gcc)") from error
    if ran.returncode:
        raise Refused(f"{command[0]} doesn't compile the observer")
    return folder / "states"


# ---- the search


def by_states(search: Search) -> None:
    """All states, if few inputs are possible at each sample."""
    question = search.question
    try:
        ranges = ranges_of(question.observed, question.pace.ints)
        inputs = inputs_of(question.given, ranges, question.pace.lists)
    except TooMany:
        return
    observer = observer_of(question)
    steps, all_steps = steps_of(question.pace, has(observer, TIMED), len(inputs))
    with tempfile.TemporaryDirectory(prefix="yampa-") as place:
        program = compiled(search, observer, inputs, steps, Path(place))
        if program:
            follow(search, program, inputs, "" if all_steps else " with steps of 1")


def follow(search: Search, program: Path, inputs: list, told_steps: str) -> None:
    """Hears what the search of states says to its end, or to that of the time."""
    with subprocess.Popen([str(program)], stdout=subprocess.PIPE, stderr=subprocess.DEVNULL) as process:
        lines = lines_until(process, search.until)
        try:
            for line in lines:
                word, *numbers = line.split()
                if word == "false":
                    search.tell(Wrong(recording_of(list(lines), inputs)))
                elif word == "memory":
                    raise Refused("the search of states had no memory left")
                else:
                    hear(search, word, *map(int, numbers), told_steps=told_steps)
            if search.left() > 0 and process.wait():
                raise Refused(f"the search of states ended with status {process.returncode}")
        finally:
            process.kill()


def recording_of(rows: list[str], inputs: list) -> bytes:
    """The stream of rows of a step and the number of an input."""
    lines = []
    for row in rows:
        step, number = row.split()
        lines.append((f"+{step} " if lines else "") + shown(inputs[int(number)]))
    return "\n".join(lines).encode() + b"\n"


def hear(search: Search, word: str, samples: int, states: int, told_steps: str) -> None:
    if word == "all" and not told_steps:
        told = f"a search of all states: all {states:,} seen" if states > 1 else "a search of all states: one seen"
        search.tell(Holds(told, search.question.told(), rests=RESTS))
    elif word == "short" and not told_steps:
        search.tell(Unfair(samples))
    elif samples:
        search.tell(Searched("states", f"none up to {samples:,} sample{'s' * (samples != 1)}{told_steps}, of {states:,} states"))


def lines_until(process: subprocess.Popen, until: float) -> Iterator[str]:
    """The lines of a process as they come, until that time."""
    assert process.stdout
    rest = b""
    while (left := until - time.monotonic()) > 0 and select.select([process.stdout], [], [], left)[0]:
        piece = os.read(process.stdout.fileno(), 1 << 16)
        if not piece:
            return
        *lines, rest = (rest + piece).split(b"\n")
        for line in lines:
            yield line.decode()
