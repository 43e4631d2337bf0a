"""What is said of a network: by lines of its file, or by other files."""
from dataclasses import dataclass
from typing import Any

from model.texts import read_network
from model.trees import expanded, shown
from workbench.ending import Refused
from workbench.origin import Program, program_of
from workbench.proving.question import OUTPUT, Pace, Question
from workbench.proving.words import Loaded
from workbench.proving.worded import keeping_to


@dataclass(frozen=True)
class Said:
    """A property's name, and the network that observes it."""

    name: str
    net: Any


@dataclass(frozen=True)
class Contract:
    """What is assumed of the input, what is to hold of the pair of the input and the output, and what is to be true of it at some sample;
    of a file that says nothing of its network the one goal is that this outputs true."""

    loaded: Loaded
    assumed: tuple[Said, ...]
    invariants: tuple[Said, ...]
    goals: tuple[Said, ...]
    covers: tuple[Said, ...] = ()

    def question(self, goal: Any, pace: Pace, assumed: tuple = (), lemmas: tuple = ()) -> Question:
        assuming = (*keeping_to(self.loaded.given), *[one.net for one in self.assumed], *assumed)
        return Question(self.loaded.given, (self.loaded.net,), goal, assuming, lemmas, pace)


def contract_of(name: str, loaded: Loaded) -> Contract:
    """What a file says of its network."""
    said = said_of(program_of(loaded.name))
    goals, covers = said["guarantee"], said["cover"]
    if not goals and not covers:
        if loaded.output != "Bool":
            wanted = "and an observer outputs Bool, or its file has definitions of the type `Guarantee A B`"
            raise Refused(f"{name}: it outputs {shown(loaded.output)}, {wanted}")
        goals = [Said("", OUTPUT)]
    return Contract(loaded, tuple(said["assume"]), tuple(said["invariant"]), tuple(goals), tuple(covers))


def joined(goals: list) -> Any:
    """The network that outputs whether all of these hold."""
    found = goals[0]
    for goal in goals[1:]:
        found = expanded((">>>", ("&&&", found, goal), ("arr", ("and", ("fst", "x"), ("snd", "x")))))
    return found


def said_of(program: Program) -> dict[str, list[Said]]:
    """What is assumed of the input, and of the pair of the input and the output what helps to prove, what is guaranteed, and what is to
    come about."""
    said: dict[str, list[Said]] = {"assume": [], "invariant": [], "guarantee": [], "cover": []}
    for stated in program.translation.stated if program.is_haskell else []:
        said[stated.kind].append(Said(stated.name, read_network(stated.network.text.encode())[1]))
    return said
