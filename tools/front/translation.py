"""What a file of Haskell means, as the tools take it: `translate` of `main` answers this, and keeps it by the sum of what it read."""
from __future__ import annotations

from dataclasses import dataclass, field

from front.shapes import Shape, packed, unpacked


@dataclass(frozen=True)
class Origin:
    """Where a part of the core's text is written in Haskell, and the name of the wire that it is, or an empty one."""

    file: str
    line: int
    column: int
    name: str = ""

    def __str__(self) -> str:
        return f"{self.file}:{self.line}:{self.column}" + (f" {self.name}" if self.name else "")


@dataclass
class Network:
    """A network's file in the core's words, in one line for the network; and by the byte at which a part of it begins its origin."""

    text: str
    origins: dict[int, Origin] = field(default_factory=dict)


@dataclass
class Stated:
    """What is said of the network: `assume`, `guarantee`, `invariant` or `cover`, its name and place, and the network that says it. Its input is
    that of the network, or the pair of that and the output."""

    kind: str
    name: str
    origin: Origin
    network: Network


@dataclass
class Translation:
    """A network by that name of a module, its types in the program's words, what is said of it, the files that were read, and the types
    that its wires have by their names."""

    module: str
    name: str
    network: Network
    input: Shape
    output: Shape
    stated: list[Stated]
    files: list[str]
    wires: dict[str, list[Shape]] = field(default_factory=dict)


def kept_form(made: Translation) -> list:
    """The translation as lists and words."""
    stated = [[one.kind, one.name, kept_origin(one.origin), kept_network(one.network)] for one in made.stated]
    wires = [[name, [packed(shape) for shape in shapes]] for name, shapes in made.wires.items()]
    return [made.module, made.name, kept_network(made.network), packed(made.input), packed(made.output), stated, made.files, wires]


def kept_origin(origin: Origin) -> list:
    return [origin.file, origin.line, origin.column, origin.name]


def kept_network(network: Network) -> list:
    return [network.text, [[at, *kept_origin(origin)] for at, origin in network.origins.items()]]


def from_kept(kept: list) -> Translation:
    """The translation that was kept so."""
    module, name, network, given, output, stated, files, wires = kept
    said = [Stated(kind, word, Origin(*origin), network_from(inner)) for kind, word, origin, inner in stated]
    types = {wire: [unpacked(shape) for shape in shapes] for wire, shapes in wires}
    return Translation(module, name, network_from(network), unpacked(given), unpacked(output), said, files, types)


def network_from(kept: list) -> Network:
    text, origins = kept
    return Network(text, {at: Origin(*origin) for at, *origin in origins})
