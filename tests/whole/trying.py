"""Files of Haskell run in three ways on the same streams: by GHC against `Yampa.Whole`, by the interpreter `front_model`, and by the
program, as the networks of the core that the front end makes of them."""
from __future__ import annotations

import multiprocessing
import random
import shutil
import subprocess
import sys
import tempfile
from dataclasses import dataclass, field
from pathlib import Path

from front.main import Refused, translated
from front.modules import loaded
from front_model.running import Interpreter
from front_model.values import Value
from front_model.written import random_value, read, spelt, tree_of
from whole import driver
from whole.chance import Maker

TOP = Path(__file__).resolve().parents[2]
DEEP = 100_000
SECONDS = 1_200
STEPS = [1, 1, 1, 2, 3, 7]
BETWEEN = "--\n"


@dataclass
class Case:
    """A file with streams, and the outputs that are known of some of them."""

    file: Path
    streams: list[str]
    known: dict[int, str] = field(default_factory=dict)

    @property
    def name(self) -> str:
        return self.file.stem


def random_stream(interpreter: Interpreter, name: str, rng: random.Random, count: int) -> str:
    """So many samples of the input's type, of which some are as the one before."""
    given, _ = interpreter.types.of_network(name)
    lines, value = list[str](), None
    for number in range(count):
        value = value if number and rng.random() < 0.3 else spelt(random_value(given, rng), given)
        lines.append((f"+{rng.choice(STEPS)} " if number else "") + value + "\n")
    return "".join(lines)


def random_streams(file: Path, count: int, length: int) -> list[str]:
    sys.setrecursionlimit(DEEP)
    program = loaded(str(file))
    interpreter, name = Interpreter(program.declarations), driver.network_of(program.module)
    return [random_stream(interpreter, name, random.Random(f"{file.stem} {seed}"), length) for seed in range(count)]


def of_example(file: Path) -> Case:
    folder = file.parent
    stream, output = (folder / "stream").read_text(), (folder / "output").read_text()
    good = "".join(stream.splitlines(keepends=True)[: output.count("\n")])
    return Case(file, [good, *random_streams(file, 20, 60)], {0: output})


def examples() -> list[Case]:
    """Each example's file of Haskell."""
    return [of_example(file) for file in sorted((TOP / "examples").glob("*/*.hs")) if file.stem.lower() == file.parent.name]


def features() -> list[Case]:
    """The programs of features."""
    return [Case(file, random_streams(file, 20, 60)) for file in sorted((TOP / "tests/whole/features").glob("*.hs"))]


def by_chance(room: Path, count: int, seed: int) -> list[Case]:
    """Random programs with a few streams each, in a folder."""
    cases = []
    for number in range(count):
        file = room / f"Chance{number}.hs"
        file.write_text(Maker(seed * 10_000 + number).module(file.stem))
        cases.append(Case(file, random_streams(file, 3, 40)))
    return cases


# ---- the three ways


def samples(stream: str, given) -> tuple[list[int], list[Value]]:
    """The steps and the inputs of a stream."""
    steps, inputs, text = list[int](), list[Value](), ""
    for line in stream.splitlines():
        step, _, value = line[1:].partition(" ") if line.startswith("+") else ("0", "", line)
        text = text if value == "=" else value
        steps.append(int(step))
        inputs.append(read(tree_of(text), given))
    return steps, inputs


def interpreted(case: Case) -> list[str]:
    """The outputs of the interpreter."""
    sys.setrecursionlimit(DEEP)
    program = loaded(str(case.file))
    interpreter, name = Interpreter(program.declarations), driver.network_of(program.module)
    given, output = interpreter.types.of_network(name)
    return ["".join(spelt(value, output) + "\n" for value in interpreter.outputs(name, *samples(stream, given))) for stream in case.streams]


def compiled(cases: list[Case], room: Path) -> str:
    """What GHC says against the programs, or nothing; it then ran them, each on the streams in `NAME.in`, into `NAME.out`."""
    programs = [loaded(str(case.file)) for case in cases]
    driver.written(programs, room)
    shutil.copy(TOP / "tests/whole/Wire.hs", room)
    for case in cases:
        (room / f"{case.name}.in").write_text(BETWEEN.join(case.streams))
    command = ["ghc", "-v0", "-w", "-O0", "-j2", f"-i{TOP / 'haskell'}", "-outputdir", "made", "Main.hs", "-o", "all"]
    for words in (command, ["./all"]):
        ran = subprocess.run(words, cwd=room, capture_output=True, text=True, timeout=SECONDS, check=False)
        if ran.returncode:
            return ran.stderr or ran.stdout or f"{words[0]} ended with status {ran.returncode}"
    return ""


def by_ghc(case: Case, room: Path) -> list[str]:
    """The outputs of a program that was compiled in a folder."""
    return (room / f"{case.name}.out").read_text().split(BETWEEN)[:-1]


def by_program(case: Case, program: str) -> list[str]:
    """The outputs of the program on what the front end makes of a file; or what one of the two says against it."""
    try:
        return outputs_of(translated(str(case.file)).network.text, case, program)
    except Refused as refused:
        return [str(refused)]


def outputs_of(text: str, case: Case, program: str) -> list[str]:
    """The outputs of a network on the streams of a case."""
    found = []
    with tempfile.NamedTemporaryFile("w", suffix=".net") as net:
        net.write(text)
        net.flush()
        for stream in case.streams:
            ran = subprocess.run([program, "run", net.name], input=stream, capture_output=True, text=True, timeout=SECONDS, check=False)
            found.append(ran.stdout + ran.stderr)
    return found


def difference(case: Case, wanted: list[str], found: list[str], way: str) -> str:
    """The first sample at which two ways differ, or nothing."""
    for number, stream in enumerate(case.streams):
        lines = stream.splitlines()
        left, right = (outputs[number].splitlines() if number < len(outputs) else [] for outputs in (wanted, found))
        for at, line in enumerate(lines):
            ours, theirs = (outputs[at] if at < len(outputs) else "nothing" for outputs in (left, right))
            if ours != theirs:
                return f"{way} differ at line {at + 1} of stream {number}, {line}: {ours} and {theirs}"
    return ""


def checked(case: Case, ghc: list[str], interpreter: list[str], program: list[str]) -> list[str]:
    """What is wrong with a case: that two ways differ, or that they don't output what is known."""
    known = [case.known.get(number, text) for number, text in enumerate(ghc)]
    wrong = [difference(case, ghc, interpreter, "GHC and the interpreter"), difference(case, known, ghc, "the example and GHC")]
    return [one for one in [*wrong, difference(case, interpreter, program, "the interpreter and the program")] if one]


@dataclass
class Outputs:
    """What the interpreter and the program output of a case."""

    interpreter: list[str]
    program: list[str]


def both_ways(case_and_program: tuple[Case, str]) -> Outputs:
    case, program = case_and_program
    return Outputs(interpreted(case), by_program(case, program))


def outputs_by_case(cases: list[Case], program: str) -> list[Outputs]:
    with multiprocessing.Pool(2) as pool:
        return pool.map(both_ways, [(case, program) for case in cases], chunksize=4)


def tried(cases: list[Case], found: list[Outputs], room: Path) -> list[tuple[str, list[str]]]:
    """A row for each case with what is wrong with it."""
    said = compiled(cases, room)
    if said:
        return [("all programs", [said])]
    return [(case.name, checked(case, by_ghc(case, room), outputs.interpreter, outputs.program)) for case, outputs in zip(cases, found)]
