"""What the leaves of a system's state are: parts of the input and the output at a sample, or outputs of parts, or cells that keep them."""
from typing import Any, Iterator

from workbench.proving.induction import Candidate
from workbench.proving.machines import Machine
from workbench.proving.saying import plainer, with_leaves
from workbench.proving.system import System
from workbench.proving.terms import Terms, is_known
from workbench.proving.told import Cell, Path
from workbench.proving.values import Tree, is_leaf


def viewed(system: System, candidates: list[Candidate]) -> list[Tree]:
    """What candidates say, of x, the pair of the input and the output at the sample that led to a state, and of cells."""
    named = named_leaves(System(system.question, Terms(system.terms.width), system.pace))
    return list(dict.fromkeys(plainer(with_leaves(one.says, named)) for one in candidates))


def named_leaves(system: System) -> list[Tree]:
    """What each leaf of the state is behind a sample: an expression of x, or a cell."""
    system.terms.outputs = {}
    state, _ = system.unknown("view")
    step, sample, _ = system.sample("view", False)
    frame = system.step(state, step, sample)
    shown: dict[int, Tree] = {}
    for way, leaf in ways(frame.seen):
        shown.setdefault(leaf.get_id(), seen_by(way))
    outputs: dict[int, list] = {}
    for machine in in_networks(system):
        for way, leaf in ways(system.terms.outputs.get(machine)):
            outputs.setdefault(leaf.get_id(), []).append((machine.position, way))
    behind, found = system.leaves(frame.state), []
    for leaf, cell in zip(behind, cells(system)):
        key = None if is_known(leaf) else leaf.get_id()
        found.append(shown.get(key) or Cell(*cell, tuple(outputs.get(key, ()))))
    return found


def in_networks(system: System) -> Iterator[Machine]:
    """The machines of what is asked about, but not of what is said of it."""
    left = list(system.machines[: len(system.question.nets)])
    while left:
        machine = left.pop()
        yield machine
        left += machine.parts


def ways(tree: Tree, way: Path = ()) -> Iterator[tuple[Path, Any]]:
    """The unknown leaves of a value with the way to each: `fst` and `snd` of a pair, `is` of an event."""
    if tree is None or is_leaf(tree):
        if tree is not None and not is_known(tree):
            yield way, tree
    elif tree[0] == "pair":
        yield from ways(tree[1], (*way, "fst"))
        yield from ways(tree[2], (*way, "snd"))
    elif tree[0] == "event":
        yield from ways(tree[1], (*way, "is"))


def seen_by(way: Path) -> Tree:
    """The expression of what is at the end of a way into x."""
    found: Tree = "x"
    for step in way:
        found = ("on", found, "false", "true") if step == "is" else (step, found)
    return found


def cells(system: System) -> list[tuple]:
    """What each leaf of the state is, as a cell has it."""
    owned = [(owner, *cell) for owner, machine, state in zip(system.owners(), system.machines, system.shape[1:]) for cell in cells_of(machine, state)]
    return [*owned, ("", "", (), "ticks" if system.timed else "samples", ())]


def cells_of(machine: Machine, state: Tree) -> Iterator[tuple]:
    """The word and the position of the machine that keeps it, what it is to that, and the way to it there."""
    own = len(machine.cells)
    for number, part in enumerate(state[1:]):
        if number < own or machine.word == "rpSwitchB":
            for way in ways_to_leaves(part):
                yield machine.word, machine.position, machine.cells[min(number, own - 1)], way
        else:
            yield from cells_of(machine.parts[number - own], part)


def ways_to_leaves(tree: Tree) -> list[Path]:
    if is_leaf(tree):
        return [()]
    if tree[0] == "list":
        rows = [("len", 0), *[(str(at), item) for at, item in enumerate(tree[2])]]
    else:
        words = {"pair": ("fst", "snd"), "event": ("is", "of")}.get(tree[0])
        rows = [(words[at] if words else str(at), part) for at, part in enumerate(tree[1:])]
    return [(way, *rest) for way, part in rows for rest in ways_to_leaves(part)]
