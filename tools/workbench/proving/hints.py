"""Invariants as `--show` prints them of a core network, of x and of cells: those that a file gives are tried as those that are guessed."""
from typing import Any, Optional

from model.texts import TextFault, read_network
from model.trees import expanded, shown
from model.typed import TypeFault, check_types
from workbench.ending import Refused, read
from workbench.grammar import Reader
from workbench.proving.induction import Candidate
from workbench.proving.question import Question, words_in
from workbench.proving.saying import leaf_at, with_leaves
from workbench.proving.spelling import form_of
from workbench.proving.system import System
from workbench.proving.terms import Terms
from workbench.proving.told import Cell
from workbench.proving.views import named_leaves
from workbench.written import SyntaxFault

Tree = Any


def hints_in(name: str) -> tuple[Tree, ...]:
    """The trees of a file, one behind the other."""
    data = read(name)
    reader, found = Reader(data), []
    try:
        while not reader.ended():
            found.append(reader.any_tree("a truth"))
    except SyntaxFault as fault:
        raise Refused(fault.line(name, data)) from None
    return tuple(found)


def hinted(system: System) -> list[Candidate]:
    """What a question's hints say of its states."""
    places = places_of(system)
    return [Candidate(says) for hint in system.question.hints if (says := said_of(hint, places, system.truths)) is not None]


def refuse_others(name: str, question: Question) -> None:
    """Refuses hints that are no truths about the states."""
    system = System(question, Terms())
    places = places_of(system)
    for hint in question.hints:
        if said_of(hint, places, system.truths) is None:
            raise Refused(f"{name}: {shown(hint)} is no truth about what the network keeps, as `prove --show` prints it")


def places_of(system: System) -> dict[str, int]:
    """The place of each leaf of the state, by how it is printed."""
    if not system.question.hints:
        return {}
    named = named_leaves(System(system.question, Terms(system.terms.width), system.pace))
    return {shown(form_of(leaf) if isinstance(leaf, Cell) else leaf): place for place, leaf in enumerate(named)}


def said_of(hint: Tree, places: dict[str, int], truths: list[bool]) -> Optional[Tree]:
    """What a hint says of the leaves, or None where that is no truth."""
    says = None if "p" in words_in(hint) else placed(hint, places)
    given: Any = "Unit"
    ways: dict[int, Tree] = {}
    path: Tree = "x"
    for place in sorted(leaves_in(says)):
        ways[place], path = ("fst", path), ("snd", path)
    for place in reversed(ways):
        given = ("Pair", "Bool" if truths[place] else "Int", given)
    try:
        net = expanded(read_network(f"yampa 2\ninput {shown(given)}\n(arr {shown(with_leaves(says, ways))})".encode())[1])
        output = check_types(given, net).output
    except (TextFault, TypeFault):
        return None
    return placed(net[1], {shown(way): place for place, way in ways.items()}) if output == "Bool" else None


def placed(tree: Tree, places: dict[str, int]) -> Tree:
    """The tree with the leaves that are printed so."""
    place = places.get(shown(tree))
    if place is not None:
        return leaf_at(place)
    return tuple(placed(part, places) for part in tree) if isinstance(tree, tuple) else tree


def leaves_in(tree: Tree) -> set[int]:
    """The places of the leaves that a tree speaks of."""
    if not isinstance(tree, tuple):
        return set()
    return {tree[1]} if tree[:1] == ("p",) else {place for part in tree for place in leaves_in(part)}
