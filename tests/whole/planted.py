"""Faults planted in the front end: each must be found by what tests/haskell runs, but for those that change nothing that is output.

Each is put into a copy of the tools, which then translates the programs of features and random ones: the outputs of the program on what
comes of that are compared with the interpreter's, which the fault can't reach.
"""
from __future__ import annotations

import json
import shutil
import subprocess
import sys
import tempfile
from dataclasses import dataclass
from pathlib import Path

from whole.trying import TOP, Case, Outputs, difference, outputs_of

SECONDS = 300
# How many files are translated at once, and how many streams of each are run.
CHUNK, STREAMS = 12, 2
TRANSLATE = """
import json, sys
sys.path.insert(0, sys.argv[1])
from front.main import Refused, translated
for name in sys.argv[2:]:
    try:
        print(json.dumps(translated(name).network.text), flush=True)
    except Refused as refused:
        print(json.dumps(str(refused)), flush=True)
"""


@dataclass(frozen=True)
class Fault:
    """A text of a file of tools/front, which stands there once, and what is put in its place."""

    file: str
    old: str
    new: str
    is_silent: bool = False

    def __str__(self) -> str:
        return f"{self.file}: {self.new}"


FAULTS = [
    Fault("fixity.py", '"-": (6, "l")', '"-": (6, "r")'),
    Fault("fixity.py", 'PLAIN: Fixity = (9, "l")', 'PLAIN: Fixity = (9, "r")'),
    Fault("matching.py", "if of and len(fact) == of - 1:", "if of and len(fact) >= of - 2:"),
    Fault("matching.py", "with Known(value, fact | {wanted}):", "with Known(value, wanted):"),
    Fault("matching.py", "side = sides.index(constructors[maker.number])", "side = 0"),
    Fault("functions.py", "return if_(core.less(right, left), right, left)", "return if_(core.less(left, right), right, left)"),
    Fault("functions.py", "reversed(sifted(over))", "sifted(over)"),
    Fault("functions.py", 'define("rMerge", 2, lambda one, other: left_first(other, one))', 'define("rMerge", 2, left_first)'),
    Fault("functions.py", "found = both(op, found, own)", "found = own"),
    Fault("core.py", 'both("or", first, both("and", equal(fst(one), fst(other)), second))', 'both("or", first, second)'),
    Fault("core.py", 'op == "sub" and values[1] == 0', 'op == "sub" and values[0] == 0'),
    Fault("core.py", 'return both("and", condition, yes)', 'return both("or", condition, yes)'),
    Fault("combinators.py", 'names.env["edge"] = edge(constant(True))', 'names.env["edge"] = edge(constant(False))'),
    Fault("combinators.py", "total.into = out", "total.into = total.out"),
    Fault("switches.py", 'put_shape(shape, inner, (("p", graph.params), ()))', 'put_shape(shape, inner, (("p", 0), ()))'),
    Fault("switches.py", "self.old(graph.olds, first.output.ty)", "self.old(0, first.output.ty)"),
    Fault("switches.py", "self.old(graph.olds + at, element)", "self.old(graph.olds, element)"),
    Fault("elaborate.py", "tuple(part.id for part in args), frozenset(NOW.facts.items())", "tuple(part.id for part in args), None"),
    Fault("emit.py", 'put_leaf(pushed(env, "fst"), core.value_of(parts[0]), ("x", ("snd",)))', 'put_leaf(env, core.value_of(parts[0]), ("x", ("snd",)))'),
    Fault("values.py", "return absent() if NOW.facts[one] == \"none\" else present(core.value_of(one))", "return absent()"),
    Fault("combinators.py", "WIDE = 12", "WIDE = 1", True),
    Fault("emit.py", "HOISTED = 100", "HOISTED = 1", True),
]


def planted(fault: Fault, room: Path) -> str:
    """Copies the tools with the fault in them; why that can't be, or nothing."""
    shutil.copytree(TOP / "tools", room, ignore=shutil.ignore_patterns("__pycache__"))
    file = room / "front" / fault.file
    text = file.read_text(encoding="utf-8")
    if text.count(fault.old) != 1:
        return f"its text stands {text.count(fault.old)} times in the file"
    file.write_text(text.replace(fault.old, fault.new), encoding="utf-8")
    return ""


def texts(tools: Path, cases: list[Case]) -> list[str]:
    """What a copy of the tools makes of files, as far as it comes."""
    words = [sys.executable, "-B", "-c", TRANSLATE, str(tools), *[str(case.file) for case in cases]]
    try:
        ran = subprocess.run(words, capture_output=True, text=True, timeout=SECONDS, check=False)
    except subprocess.TimeoutExpired:
        return []
    return [json.loads(line) for line in ran.stdout.splitlines()]


def is_found(tools: Path, cases: list[Case], expected: list[list[str]], program: str) -> bool:
    """Whether the outputs of a case differ from those that are expected, or there are none."""
    for at in range(0, len(cases), CHUNK):
        some = cases[at : at + CHUNK]
        made = texts(tools, some)
        if len(made) < len(some):
            return True
        for case, text, wanted in zip(some, made, expected[at : at + CHUNK]):
            if difference(case, wanted, outputs_of(text, case, program), ""):
                return True
    return False


def tried(cases: list[Case], found: list[Outputs], program: str) -> list[tuple[str, list[str]]]:
    """A row for each fault, with what is wrong: that it isn't found, or is found and changes nothing."""
    rows = []
    expected = [one.interpreter[:STREAMS] for one in found]
    cases = [Case(case.file, case.streams[:STREAMS]) for case in cases]
    for fault in FAULTS:
        with tempfile.TemporaryDirectory(prefix="planted-") as name:
            tools = Path(name) / "tools"
            wrong = planted(fault, tools)
            if not wrong and is_found(tools, cases, expected, program) is fault.is_silent:
                wrong = "it changes an output" if fault.is_silent else "it isn't found"
        rows.append((f"planted in {fault}", [wrong] if wrong else []))
    return rows
