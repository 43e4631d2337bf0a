"""Between which numbers those of an input are, by what is assumed of it: bounds that an `arr` without state states of its parts."""
from dataclasses import dataclass, field
from typing import Any, Optional

from model.trees import GREATEST

LEAST = -GREATEST - 1
Path = tuple[str, ...]


@dataclass
class Ranges:
    """Bounds of the numbers of an input by the way to each: `fst` and `snd` of a pair, `event` of an event, `element` of a list."""

    everywhere: tuple[int, int] = (LEAST, GREATEST)
    of: dict[Path, tuple[int, int]] = field(default_factory=dict)

    def at(self, path: Path) -> tuple[int, int]:
        least, most = self.of.get(path, self.everywhere)
        return max(least, self.everywhere[0]), min(most, self.everywhere[1])

    def narrow(self, path: Path, least: int, most: int) -> None:
        before = self.of.get(path, (LEAST, GREATEST))
        self.of[path] = max(before[0], least), min(before[1], most)


def ranges_of(assumed: tuple, everywhere: Optional[tuple[int, int]]) -> Ranges:
    """The bounds that these observers of the input state, where each is an `arr` of comparisons."""
    found = Ranges(everywhere or (LEAST, GREATEST))
    for net in assumed:
        if isinstance(net, tuple) and net[0] == "arr":
            narrow(found, net[1], ("at", ()), True)
    return found


def narrow(found: Ranges, test: Any, given: Any, truth: bool) -> None:
    """Takes in that a test of what is given has this truth."""
    match test:
        case ("not", part):
            narrow(found, part, given, not truth)
        case (("and" | "or"), left, right) if truth == (test[0] == "and"):
            narrow(found, left, given, truth)
            narrow(found, right, given, truth)
        case (("and" | "or"), left, right):
            narrow_by_one(found, [[(left, truth)], [(right, truth)]], given)
        case ("if", condition, left, right):
            narrow_by_one(found, [[(condition, True), (left, truth)], [(condition, False), (right, truth)]], given)
        case ("less", left, right):
            compared(found, seen(left, given), seen(right, given), truth)
        case ("equal", left, right) if truth:
            for one, other in ((left, right), (right, left)):
                place, number = seen(one, given), seen(other, given)
                if is_place(place) and isinstance(number, int):
                    found.narrow(place[1], number, number)
        case ("then", before, behind):
            narrow(found, behind, seen(before, given), truth)
        case ("on", event, ("true" | "false"), body) if truth == (test[2] == "true"):
            place = seen(event, given)
            if is_place(place):
                narrow(found, body, ("pair", given, ("at", (*place[1], "event"))), truth)


def narrow_by_one(found: Ranges, cases: list[list[tuple[Any, bool]]], given: Any) -> None:
    """Takes in that all tests of one of two cases have their truths: the bounds that both of them state, where both can be."""
    possible = [case for case in cases if ("false", True) not in case and ("true", False) not in case]
    sides = [Ranges() for _ in possible]
    for side, case in zip(sides, possible):
        for test, truth in case:
            narrow(side, test, given, truth)
    for path in set.intersection(*[{*side.of} for side in sides]) if sides else ():
        bounds = [side.of[path] for side in sides]
        found.narrow(path, min(least for least, _ in bounds), max(most for _, most in bounds))


def compared(found: Ranges, left: Any, right: Any, truth: bool) -> None:
    """Takes in that the left is less than the right, or that it isn't."""
    if is_place(left) and isinstance(right, int):
        found.narrow(left[1], *((LEAST, right - 1) if truth else (right, GREATEST)))
    if isinstance(left, int) and is_place(right):
        found.narrow(right[1], *((left + 1, GREATEST) if truth else (LEAST, left)))


def is_place(value: Any) -> bool:
    return isinstance(value, tuple) and value[0] == "at"


def seen(tree: Any, given: Any) -> Any:
    """What an expression is: a place of the input, a number, a pair of these, or None if it is something else."""
    match tree:
        case "x":
            return given
        case ("fst" | "snd" as word, part):
            pair = seen(part, given)
            if is_place(pair):
                return ("at", (*pair[1], word))
            return pair[1 + (word == "snd")] if isinstance(pair, tuple) else None
        case ("pair", left, right):
            return ("pair", seen(left, given), seen(right, given))
        case ("then", before, behind):
            return seen(behind, seen(before, given))
    return tree if isinstance(tree, int) else None
