"""`yampa expand --try`: whether the network that a file of Haskell means outputs what a slow interpreter of its syntax tree does."""
from __future__ import annotations

import random
import sys

from front.modules import loaded
from front.spell import named
from front_model.running import Interpreter
from front_model.values import Endless, Unfit, Value
from front_model.written import NoType, Type, random_value, spelt
from workbench.comparing import said
from workbench.ending import REFUSED, Refused
from workbench.origin import Haskell
from workbench.program import call
from workbench.recording import lines_of
from workbench.running import refused

SAMPLES, STREAMS = 1_000, 20
STEPS = [1, 1, 1, 2, 3, 7, 40]
SAME_AGAIN = 0.4
DEEP = 100_000


class Trial:
    """A program and the interpreter of its file, which output the same or not."""

    def __init__(self, program: Haskell):
        sys.setrecursionlimit(DEEP)
        self.program, self.name = program, program.translation.name
        self.interpreter = Interpreter(loaded(program.name, program.data).declarations)
        try:
            self.given, self.output = self.interpreter.types.of_network(self.name)
        except NoType as fault:
            raise Refused(f"{program.name}: {fault}") from None

    def recording(self, rng: random.Random, count: int) -> tuple[list[int], list[Value]]:
        """Steps and inputs, of which many are as the one before."""
        steps = [0, *rng.choices(STEPS, k=count - 1)]
        inputs: list[Value] = []
        for _ in steps:
            inputs.append(inputs[-1] if inputs and rng.random() < SAME_AGAIN else random_value(self.given, rng))
        return steps, inputs

    def interpreted(self, steps: list[int], inputs: list[Value]) -> list[bytes]:
        try:
            return [spelt(value, self.output).encode() for value in self.interpreter.outputs(self.name, steps, inputs)]
        except (Unfit, Endless, RecursionError) as fault:
            raise Refused(f"{self.program.name}: the interpreter can't go on: {fault or type(fault).__name__}") from None

    def differs(self, seed: int) -> bool:
        """Whether they differ on a random stream, which is then printed up to the first sample at which they do."""
        steps, inputs = self.recording(random.Random(seed), SAMPLES // STREAMS)
        stream = lines_of_stream(steps, inputs, self.given)
        told = call(["run", self.program.path()], b"".join(stream))
        if told.status:
            raise refused(told)
        ours, theirs = lines_of(told.output), self.interpreted(steps, inputs)
        number = next((number for number, (mine, other) in enumerate(zip(ours, theirs), 1) if mine != other), 0)
        if number:
            mine, other = (said(lines[number - 1], named(self.program.translation.output)) for lines in (ours, theirs))
            sys.stdout.buffer.write(b"".join(stream[:number]))
            print(f"yampa expand: line {number}: {mine} by the network, and {other} by the interpreter", file=sys.stderr)
        return bool(number)


def lines_of_stream(steps: list[int], inputs: list[Value], given: Type) -> list[bytes]:
    return [((f"+{step} " if number else "") + spelt(value, given) + "\n").encode() for number, (step, value) in enumerate(zip(steps, inputs))]


def tried(program: Haskell, seed: int) -> None:
    """Says that both output the same, or ends with status 1."""
    trial = Trial(program)
    for number in range(STREAMS):
        if trial.differs(seed * STREAMS + number):
            sys.exit(REFUSED)
    print(f"the same on {SAMPLES:,} samples")
