"""The steps of a certificate, as the program's `apply --steps` shows them."""
from dataclasses import dataclass

from workbench.program import call
from workbench.source import read_part


@dataclass
class Step:
    """A step's line, what stood at its place and what stands there then; of a refused one also where the tree that it gives leads."""

    line: str
    before: object = None
    after: object = None
    led: object = None


MARKS = {"- ": "before", "+ ": "after", "> ": "led"}


def steps_shown(source, certificate):
    """Each step up to the one that is refused, where one is."""
    steps = []
    for line in call(["apply", "--steps", source, certificate]).output.decode().splitlines():
        if line[:2] in MARKS:
            setattr(steps[-1], MARKS[line[:2]], read_part(line[2:]))
        else:
            steps.append(Step(line))
    return steps
