"""The modules of a program: a file and those that it imports, each once, an imported one before who imports it."""
from __future__ import annotations

import os
from dataclasses import dataclass, field

from front.faults import NOWHERE, Fault, Place
from front.fixity import STANDARD, Fixity
from front.layout import tokens_of
from front.parsing import imports_of, read_module
from front.syntax import Apply, Declaration, Module, Name
from front.walking import binders, walked

MOST_BYTES = 1_048_576
# Modules that stand for what is here anyway.
BROUGHT = ("Yampa.Whole", "Prelude", "Data.Maybe", "Data.List", "Data.Functor", "Data.Function", "Data.Bits", "Control.Arrow")


@dataclass
class Program:
    """A module with all that it imports: the declarations in the order in which they are needed, and the texts by their files."""

    module: Module
    modules: list[Module] = field(default_factory=list)
    texts: dict[str, str] = field(default_factory=dict)
    faults: list[Fault] = field(default_factory=list)
    # Whether a module is missing, or its head.
    is_broken: bool = False

    @property
    def declarations(self) -> list[Declaration]:
        return [one for module in self.modules for one in module.declarations]


def decoded(data: bytes, file: str) -> str:
    """The text of a file, with the columns that tabs reach."""
    if len(data) > MOST_BYTES:
        raise Fault(Place(file, 1, 1), f"the file has over {MOST_BYTES:,} bytes")
    try:
        text = data.decode("utf-8-sig")
    except UnicodeDecodeError as error:
        line = data.count(b"\n", 0, error.start) + 1
        column = error.start - data.rfind(b"\n", 0, error.start)
        raise Fault(Place(file, line, column), f"byte {error.start} of the file is no UTF-8") from None
    return text.replace("\r\n", "\n").replace("\r", "\n").expandtabs(8)


def contents(file: str) -> bytes:
    with open(file, "rb") as opened:
        return opened.read(MOST_BYTES + 1)


class Loader:
    """Reads files as they are imported."""

    def __init__(self) -> None:
        self.found: dict[str, Module] = {}
        self.under_way: list[str] = []
        self.texts: dict[str, str] = {}
        self.faults: list[Fault] = []
        self.is_broken = False

    def load(self, file: str, data: bytes) -> Module | None:
        """The module of a file, behind all that it imports."""
        try:
            text = self.texts[file] = decoded(data, file)
            tokens = tokens_of(text, file)
            fixities: dict[str, Fixity] = {}
            for name in imports_of(tokens):
                fixities.update(self.imported(name, file))
            module, faults = read_module(text, file, fixities)
        except Fault as fault:
            self.faults.append(fault)
            self.is_broken = True
            return None
        self.faults += faults
        for name, place in module.imports:
            self.check(name, place, file)
        module.fixities = {**fixities, **module.fixities}
        self.faults += rebound(module)
        return module

    def imported(self, name: str, importer: str) -> dict[str, Fixity]:
        """The fixities that an imported module brings, which is read first."""
        if name in BROUGHT or name in self.under_way:
            return {}
        if name not in self.found:
            file = file_of(name, importer)
            if not os.path.isfile(file):
                return {}
            self.under_way.append(name)
            module = self.load(file, contents(file))
            self.under_way.pop()
            if module is not None:
                self.found[name] = module
        return self.found[name].fixities if name in self.found else {}

    def check(self, name: str, place: Place, importer: str) -> None:
        """That an import can be followed."""
        file, before = file_of(name, importer), len(self.faults)
        if name in self.under_way:
            chain = " -> ".join([*self.under_way[self.under_way.index(name) :], name])
            self.faults.append(Fault(place, f"these modules import each other: {chain}"))
        elif name in BROUGHT or name in self.found or os.path.isfile(file):
            return
        elif name.startswith("FRP.Yampa"):
            self.faults.append(Fault(place, f"{name} is not here: import Yampa.Whole, which has Yampa's names on whole numbers"))
        else:
            self.faults.append(Fault(place, f"there is no module {name} here: no file {file}"))
        self.is_broken = self.is_broken or len(self.faults) > before


def file_of(name: str, importer: str) -> str:
    return os.path.join(os.path.dirname(importer), *name.split(".")) + ".hs"


def rebound(module: Module) -> list[Fault]:
    """Names with a fixity that are bound again inside: there they would have none."""
    own = {word for word in module.fixities if module.fixities[word] != STANDARD.get(word)} | set(STANDARD)
    infix = {node.function.function.word for node in walked(module.declarations) if is_infix(node)}
    return [
        Fault(place, f"{word} has a precedence of its own, which this one would not have: choose another name")
        for word, place in binders(module.declarations)
        if word in own & infix
    ]


def is_infix(node: object) -> bool:
    """Whether a node may be an operator with both its operands: the operator then stands behind the left one."""
    if not (isinstance(node, Apply) and isinstance(node.function, Apply) and isinstance(node.function.function, Name)):
        return False
    sign, left = node.function.function.place, node.function.place
    return (sign.line, sign.column) > (left.line, left.column)


def loaded(file: str, data: bytes | None = None) -> Program:
    """The program of a file, with all that can't be read of it."""
    loader = Loader()
    try:
        given = contents(file) if data is None else data
    except OSError as error:
        return Program(Module("", file, [], []), [], {}, [Fault(NOWHERE, f"{file}: {(error.strerror or str(error)).lower()}")], True)
    module = loader.load(file, given)
    own = module or Module("", file, [], [])
    name = own.name
    chain = [other for key, other in loader.found.items() if key != name or other.file != file]
    return Program(own, [*chain, own], loader.texts, loader.faults, loader.is_broken)
