"""What is wrong in a file of Haskell: the place, what is wanted there, and who called for it; and how that is shown."""
from __future__ import annotations

import difflib
from collections.abc import Iterable
from dataclasses import dataclass, field
from typing import NamedTuple

LONGEST_LINE = 200


class Place(NamedTuple):
    """A piece of one line of a file: lines and columns count from 1."""

    file: str
    line: int
    column: int
    width: int = 1

    def __str__(self) -> str:
        return f"{self.file}:{self.line}:{self.column}"


NOWHERE = Place("", 0, 0)


@dataclass
class Fault(Exception):
    """Something that is wrong, and the calls through which that place was reached, the innermost first."""

    place: Place
    text: str
    calls: list[tuple[str, Place]] = field(default_factory=list)

    def key(self) -> tuple:
        return self.place, self.text


class WaitsForLength(Fault):
    """A list's length is wanted that isn't known in this definition by itself; where it is used, it may be."""


def near(word: str, known: Iterable[str]) -> str:
    """A name that may be meant, as the end of a sentence."""
    found = difflib.get_close_matches(word, sorted(set(known)), 1, 0.7)
    return f"; did you mean {found[0]}?" if found else ""


def in_order(faults: Iterable[Fault]) -> list[Fault]:
    """Each fault once, by file and line."""
    found = {fault.key(): fault for fault in reversed(list(faults))}
    return [found[key] for key in sorted(found)]


def shown(faults: Iterable[Fault], texts: dict[str, str]) -> str:
    """All faults, each with its line, a caret and the callers, with the texts of the files by their names."""
    return "\n".join(told(fault, texts) for fault in in_order(faults))


def told(fault: Fault, texts: dict[str, str]) -> str:
    place = fault.place
    lines = [f"{place}: {fault.text}"] if place.line else [fault.text]
    text = texts.get(place.file, "").split("\n")
    if 0 < place.line <= len(text) and len(text[place.line - 1]) <= LONGEST_LINE:
        line = text[place.line - 1]
        width = max(1, min(place.width, len(line) - place.column + 1))
        lines += [f"{place.line:5} | {line}", f"      | {' ' * (place.column - 1)}{'^' * width}"]
    for name, called in fault.calls:
        if called.line and called != place:
            lines.append(f"      in {name}, which {called} uses")
    return "\n".join(lines)
