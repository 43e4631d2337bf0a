"""Translates a file of Haskell: `translate` answers what it means to the tools, or refuses it with all that is wrong."""
from __future__ import annotations

import contextlib
import gc
import hashlib
import json
import os
import sys
import threading
from pathlib import Path
from typing import Any

from front import core
from front.core import NOW
from front.described import inner_type, shape
from front.elaborate import Elaborator
from front.faults import NOWHERE, Fault, Place, WaitsForLength, shown
from front.judging import CommandChecker
from front.modules import Program, loaded
from front.network import network
from front.places import Tree
from front.prelude import PROPERTIES
from front.scopes import signatures_in
from front.shapes import Shape
from front.switches import built_in
from front.syntax import Function, bound_by
from front.translation import Network, Origin, Stated, Translation, from_kept, kept_form
from front.types import Con, Type, Var, real, result_of
from front.types import shown as shown_type
from front.values import applied
from workbench.cache import cache_folder, keep
from workbench.ending import Refused as Unkept

NEW_FORMS = {"-->", ">--", "drSwitch", "rpSwitchB"}
DEEPEST = 100_000
STACK = 256 << 20


class Refused(Exception):
    """All that is wrong in a file, as it is shown."""


# ---- from a program to networks


class Translator:
    """Makes the networks of a program whose types are right."""

    def __init__(self, program: Program, checker: CommandChecker):
        NOW.__init__()  # type: ignore[misc]
        self.program, self.checker, self.scopes = program, checker, checker.scopes
        self.elaborator = Elaborator(checker, {})
        self.made: dict[str, Tree] = {}
        self.elaborator.env = {**built_in(self.elaborator), **self.elaborator.env}

    def closed(self, word: str, given: Any, output: Any) -> Tree:
        """A definition as a network of the core from that type to the other."""
        if word not in self.made:
            made = self.elaborator.graph(self.elaborator.lookup(word, self.elaborator.env), given)
            core.unify(made.output.ty, output)
            self.made[word] = network(made, {})
        return self.made[word]

    def type_of(self, word: str) -> Type:
        return real(self.checker.scope[word].type)

    # ---- each definition by itself

    def faults(self, wanted: str) -> list[Fault]:
        """What is wrong in each definition by itself: networks without parameters, and functions of values that only samples know."""
        found: list[Fault] = []
        for one in self.checker.order:
            if isinstance(one, Function) and self.stands_alone(one.word):
                NOW.here = one.place
                try:
                    self.alone(one.word)
                except WaitsForLength as fault:
                    found += [fault] if one.word == wanted else []
                except Fault as fault:
                    found.append(fault)
        return found

    def stands_alone(self, word: str) -> bool:
        scheme = self.checker.scope.get(word)
        if scheme is None or scheme.variables:
            return False
        params, result = result_of(scheme.type)
        # The parameters of what makes a network may be numbers that it must know.
        return not (params and isinstance(result, Con) and result.name == "SF") and all(map(self.is_plain, params))

    def alone(self, word: str) -> None:
        params, result = result_of(self.type_of(word))
        value = self.elaborator.lookup(word, self.elaborator.env)
        for one in params:
            value = applied(value, core.variable(inner_type(self.scopes, one)))
        if isinstance(result, Con) and result.name == "SF":
            self.closed(word, inner_type(self.scopes, result.args[0]), inner_type(self.scopes, result.args[1]))

    def is_plain(self, type_: Type) -> bool:
        """Whether a type has neither a list, whose length may have to be known, nor a function nor a network."""
        left: list[Type] = [type_]
        while left:
            one = real(left.pop())
            if isinstance(one, Var) or one.name in ("->", "SF", "[]"):
                return False
            left += one.args
            if one.name in self.scopes.data:
                left += [part for made in self.scopes.data[one.name].constructors for part in result_of(self.scopes.makers[made.word].scheme.type)[0] if not open_in(part)]
        return True

    # ---- the whole

    def translation(self, word: str) -> Translation:
        type_ = self.type_of(word)
        assert isinstance(type_, Con)
        given, output = (inner_type(self.scopes, part) for part in type_.args)
        shapes = [shape(self.scopes, part) for part in type_.args]
        made = written(given, self.closed(word, given, output))
        stated = [self.stated(one, kind, given, output) for one, kind in self.properties()]
        return Translation(self.program.module.name, word, made, shapes[0], shapes[1], stated, list(self.program.texts), self.wires(made))

    def wires(self, made: Network) -> dict[str, list[Shape]]:
        """The types that a network's wires have by their names."""
        names = {origin.name for origin in made.origins.values() if origin.name}
        types = {name: [type_ for type_ in self.checker.wires.get(name, []) if is_data(type_)] for name in sorted(names)}
        shapes = {name: [made for type_ in found for made in self.shapes(type_)] for name, found in types.items()}
        return {name: list(dict.fromkeys(found)) for name, found in shapes.items() if found}

    def shapes(self, type_: Type) -> list[Shape]:
        """The shape of a type, where it has one: a record may hold functions."""
        try:
            return [shape(self.scopes, type_)]
        except Fault:
            return []

    def properties(self) -> list[tuple[str, str]]:
        """The properties that the file itself states, in the order of their lines."""
        own = signatures_in(self.program.module.declarations)
        return [(word, PROPERTIES[one.type.word]) for word, one in own.items() if getattr(one.type, "word", "") in PROPERTIES]

    def stated(self, word: str, kind: str, given: Any, output: Any) -> Stated:
        place = signatures_in(self.program.module.declarations)[word].place
        NOW.here = place
        of = given if kind == "assume" else ("Pair", given, output)
        type_ = self.type_of(word)
        assert isinstance(type_, Con)
        own = inner_type(self.scopes, type_.args[0])
        if core.spelt(own) != core.spelt(of):
            core.fail(f"{word} must be said of {'the input' if kind == 'assume' else 'the pair of input and output'}, which is {core.spelt(of)} in the core")
        return Stated(kind, word, Origin(place.file, place.line, place.column, word), written(of, self.closed(word, of, core.BOOL)))


def is_data(type_: Type) -> bool:
    """Whether values of a type can be in a sample, and all of it is known."""
    one = real(type_)
    return isinstance(one, Con) and not one.rigid and one.name not in ("->", "SF") and all(map(is_data, one.args))


def open_in(type_: Type) -> bool:
    return isinstance(real(type_), Var)


# ---- texts


def is_new(tree: Tree) -> bool:
    left = [tree]
    while left:
        one = left.pop()
        if one.head in NEW_FORMS:
            return True
        left += one.args
    return False


def written(given: Any, tree: Tree) -> Network:
    """The text of a network's file, and where each part of it comes from."""
    head = f"yampa {2 if is_new(tree) else 1}\ninput {core.spelt(given)}\n"
    pieces: list[str] = []
    origins: dict[int, Origin] = {}
    at = len(head)
    left: list[Tree | str] = [tree]
    while left:
        one = left.pop()
        if isinstance(one, str):
            pieces.append(one)
            at += len(one)
            continue
        if one.place.line:
            origins[at] = Origin(one.place.file, one.place.line, one.place.column, one.name)
        is_form = bool(one.args) or one.head in ("parB", "col")
        text = f"({one.head}" if is_form else one.head
        pieces.append(text)
        at += len(text)
        left += [")"] if is_form else []
        for part in reversed(one.args):
            left += [part, " "]
    return Network(f"{head}{''.join(pieces)}\n", origins)


# ---- what is wrong


def checked(program: Program) -> CommandChecker:
    """The types of a program. Where a module or a type could not be read, what is told of the rest would mislead."""
    lost = [word for module in program.modules for word in module.lost]
    if program.faults and (program.is_broken or any(module.lost_type for module in program.modules)):
        raise refused(program.faults, program)
    checker = CommandChecker(program.declarations, lost)
    checker.program()
    if program.faults or checker.faults:
        raise refused([*program.faults, *checker.faults], program)
    return checker


def refused(faults: list[Fault], program: Program) -> Refused:
    return Refused(shown(faults, program.texts))


def network_name(program: Program, checker: CommandChecker, of: str | None) -> str:
    """The name of the network that is wanted: that of the module with a small letter, where no other is."""
    module = program.module.name.split(".")[-1]
    word = of or module[:1].lower() + module[1:]
    place = Place(program.module.file, 1, 1) if not of else NOWHERE
    defined = [name for one in program.module.declarations for name in bound_by(one)]
    networks = [name for name in defined if checker.scope.get(name) and is_network(checker.scope[name].type)]
    which = f": write --of NAME, which may be {' or '.join(networks[:8])}" if networks else ""
    if word not in defined:
        raise Fault(place, f"the network of module {program.module.name} is {word}, and there is no such definition{which}")
    scheme = checker.scope[word]
    place = next(one.place for one in program.module.declarations if word in bound_by(one))
    if not is_network(scheme.type):
        raise Fault(place, f"{word} must be an SF, and is {shown_type(scheme.type)}{which}")
    if scheme.variables:
        raise Fault(place, f"{word} must be of one type, and is {shown_type(scheme.type)}: write its type")
    return word


def is_network(type_: Type) -> bool:
    type_ = real(type_)
    return isinstance(type_, Con) and type_.name == "SF"


def translated(file: str, data: bytes | None = None, of: str | None = None) -> Translation:
    """What a file means; of some bytes that of these, under that name. It has a stack of its own, since trees may be deep."""
    found: list[Translation | BaseException] = []

    def work() -> None:
        try:
            found.append(translation_of(file, data, of))
        except BaseException as error:  # pylint: disable=broad-exception-caught  # it is raised again below
            found.append(error)

    before = sys.getrecursionlimit(), threading.stack_size(STACK), gc.isenabled()
    sys.setrecursionlimit(max(before[0], DEEPEST))
    # A translation makes few cycles, and to look for them would take a fifth of its time.
    gc.disable()
    try:
        thread = threading.Thread(target=work)
        thread.start()
        thread.join()
    finally:
        threading.stack_size(before[1])
        sys.setrecursionlimit(before[0])
        if before[2]:
            gc.enable()
    if isinstance(found[0], BaseException):
        raise found[0]
    return found[0]


def translation_of(file: str, data: bytes | None, of: str | None) -> Translation:
    program = loaded(file, data)
    try:
        checker = checked(program)
        word = network_name(program, checker, of)
        translator = Translator(program, checker)
        faults = translator.faults(word)
        if faults:
            raise refused(faults, program)
        return translator.translation(word)
    except Fault as fault:
        raise refused([fault], program) from None
    except RecursionError:
        raise refused([Fault(NOW.here, "what this means is nested too deeply: part it by names")], program) from None


# ---- what is kept


def own_sum() -> bytes:
    """The sum of the front end's own sources."""
    whole = hashlib.sha256()
    for path in sorted(Path(__file__).parent.glob("*.py")):
        whole.update(path.read_bytes())
    return whole.digest()


def sum_of(files: list[str], of: str | None) -> str:
    whole = hashlib.sha256(own_sum() + repr(of).encode())
    for file in files:
        whole.update(hashlib.sha256(file.encode()).digest() + hashlib.sha256(Path(file).read_bytes()).digest())
    return whole.hexdigest()


def translate(file: str, of: str | None = None) -> Translation:
    """What a file means, which is kept by the sum of it, of what it imports, and of the front end's sources; and by its name as it is
    given, since places are told by that."""
    index = cache_folder() / "haskell" / hashlib.sha256(repr((file, os.path.realpath(file), of)).encode()).hexdigest()
    try:
        kept = json.loads(index.read_text(encoding="utf-8"))
        if kept["sum"] == sum_of(kept["files"], of):
            return from_kept(kept["made"])
    except (OSError, ValueError, KeyError, TypeError):
        pass
    made = translated(file, None, of)
    with contextlib.suppress(OSError, Unkept):
        text = json.dumps({"sum": sum_of(made.files, of), "files": made.files, "made": kept_form(made)})
        keep(index, text.encode())
    return made
