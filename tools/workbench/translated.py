"""Programs of Haskell as the tools take them: the core network that the front end makes of one, and where its parts are written."""
from __future__ import annotations

import os
import re
import sys
from collections.abc import Iterator
from dataclasses import replace
from functools import cached_property
from pathlib import Path

from front.shapes import Shape, core_type
from front.spell import Form, fields_of, named, shown_type
from front.translation import Network, Origin, Translation
from model.trees import at, is_network, shown
from workbench.ending import Refused
from workbench.source import File, read_file
from workbench.written import Text

BEGINS = re.compile(rb"(?:\s|\xef\xbb\xbf|--[^\n]*\n|\{-(?!#).*?-\})*(?:module\s|\{-#)", re.S)
WORD = re.compile(r"[\w']+|[^\w\s]+")
OF = "YAMPA_OF"


def is_haskell(name: str, data: bytes) -> bool:
    """Whether a file is one of Haskell: by its name, or by what it begins with."""
    return name.endswith(".hs") or BEGINS.match(data) is not None


def taken_of(words: list[str]) -> list[str]:
    """The words without `--of NAME`, which is kept for all files of Haskell that are read."""
    left: list[str] = []
    for word in words:
        if left and left[-1] == "--of":
            left.pop()
            os.environ[OF] = word
        elif word.startswith("--of="):
            os.environ[OF] = word[5:]
        else:
            left.append(word)
    return left


def translation_of(name: str, data: bytes) -> Translation:
    """What a file of Haskell means; all that is wrong in it is refused. The front end takes a while to come, so that it does here alone."""
    from front.main import Refused as AllFaults  # pylint: disable=import-outside-toplevel
    from front.main import translate, translated  # pylint: disable=import-outside-toplevel

    sys.setrecursionlimit(100_000)
    of = os.environ.get(OF) or None
    try:
        if os.path.isfile(name) and Path(name).read_bytes() == data:
            return translate(name, of)
        return translated(name, data, of)
    except AllFaults as faults:
        raise Refused(str(faults)) from None
    except OSError as error:
        raise Refused(f"{error.filename}: {(error.strerror or str(error)).lower()}", 3) from None


def forms_in(shape: Shape) -> Iterator[Form]:
    """The types of a program that are pairs in the core, with those in their parts."""
    type_ = named(shape)
    if len(fields_of(shape)) > 1 or shape.sort == "sum":
        yield type_
    for part in [*shape.parts, *[part for made in shape.constructors for _, part in made.parts]]:
        yield from forms_in(part)


class HaskellParts:
    """What a `Program` of Haskell has in the place of what one of a network's file has."""

    name: str
    data: bytes

    @cached_property
    def translation(self) -> Translation:
        return translation_of(self.name, self.data)

    def with_network(self, network: Network) -> "HaskellParts":
        """The same file with another network of it, such as one that is said of the first."""
        made = object.__new__(type(self))
        made.__dict__.update(name=self.name, data=self.data, translation=replace(self.translation, network=network))
        return made

    @cached_property
    def text(self) -> bytes:
        return self.translation.network.text.encode()

    @cached_property
    def file(self) -> File:
        return read_file(self.name, self.text)

    @cached_property
    def texts_by_file(self) -> dict[str, bytes]:
        return {}

    def origin_at(self, position: tuple) -> Origin:
        """Where a part is written, or else what is around it."""
        origins = self.translation.network.origins
        while position:
            node = self.file.origins.get(position)
            if node is not None and node.start in origins:
                return origins[node.start]
            position = position[:-1]
        node = self.file.origins.get(())
        return origins.get(node.start if node else -1, Origin(self.name, 1, 1))

    def span(self, position: tuple) -> tuple[Text, int, int, str | None]:
        """The file, the first byte and the last one of the word that stands there, and the wire's name."""
        origin = self.origin_at(position)
        text = self.text_of(origin.file)
        lines = text.split(b"\n")
        line = lines[origin.line - 1].decode(errors="replace").expandtabs(8) if origin.line <= len(lines) else ""
        before = sum(len(one) + 1 for one in lines[: origin.line - 1])
        start = before + len(line[: origin.column - 1].encode())
        word = WORD.match(line[origin.column - 1 :])
        return Text(origin.file, text), start, start + len((word.group() if word else " ").encode()), origin.name or None

    def text_of(self, file: str) -> bytes:
        if file == self.name:
            return self.data
        if file not in self.texts_by_file:
            try:
                self.texts_by_file[file] = Path(file).read_bytes()
            except OSError:
                self.texts_by_file[file] = b""
        return self.texts_by_file[file]

    @cached_property
    def signals(self) -> list:
        """The networks that have the name of a wire, each with a name of its own and its position, in the order of positions."""
        found, count = [], {}
        for position in sorted(self.file.origins):
            node = self.file.origins[position]
            if position and self.file.origins.get(position[:-1]) is node or not is_network(at(self.file.tree, position)):
                continue
            origin = self.translation.network.origins.get(node.start)
            if origin is not None and origin.name:
                count[origin.name] = count.get(origin.name, 0) + 1
                found.append((origin.name if count[origin.name] == 1 else f"{origin.name}#{count[origin.name]}", position))
        return found

    def spelt(self, position: tuple) -> str:
        """The part at a position; of a wire with its name."""
        return shown(at(self.file.tree, position))

    @cached_property
    def forms(self) -> list:
        """The types of the input and of the output, and of their parts, that are pairs in the core."""
        return [*forms_in(self.translation.input), *forms_in(self.translation.output)]

    @cached_property
    def input(self):
        return named(self.translation.input)

    def output_type(self, type_):
        """The output type that the program tells, in the file's own words."""
        made = named(self.translation.output)
        return made if made == type_ else type_

    def named_type(self, type_):
        """A type with one of the file's own in the place of the pairs that just that one means."""
        fitting = {shown_type(form): form for form in self.forms if form == type_} if isinstance(type_, tuple) else {}
        if len(fitting) == 1:
            return next(iter(fitting.values()))
        return (type_[0], *map(self.named_type, type_[1:])) if isinstance(type_, tuple) else type_

    def wire_shapes(self, position: tuple) -> list[Shape]:
        """The types that wires of the name that a part has are of."""
        return self.translation.wires.get(self.origin_at(position).name, [])

    def is_wire(self, position: tuple, type_) -> bool:
        """Whether a part of this output is no more than the wire whose name it has."""
        shapes = self.wire_shapes(position)
        return not shapes or any(core_type(shape) == type_ for shape in shapes)

    def signal_type(self, position: tuple, type_):
        """The type of a part's output, by that of its wire where it has one."""
        fitting = [shape for shape in self.wire_shapes(position) if core_type(shape) == type_]
        return named(fitting[0]) if len(fitting) == 1 else self.named_type(type_)
