"""How invariants are printed: as expressions of the language, of a file of Haskell in its own names; those of what its network takes
and outputs are definitions that can stand in it."""
import re
from typing import Any, Iterator, Optional

from front.shapes import Shape
from front.spell import fields_of, shape_of, shape_text
from model.trees import is_form
from workbench.haskell import Text, Writer, applied, atom, behind, infix, laid, lambda_of
from workbench.layout import laid_out
from workbench.origin import Program
from workbench.proving.told import Cell, Foreign, Path, Tree
from workbench.written import Node

INDENT = 2
# What a definition that is printed is called, with a number: the first word that doesn't stand in the file.
NAMES = ("found", "holding", "proved")
Access = dict[Path, tuple[Text, Shape]]


def spelt(trees: list[Tree], program: Program, given: Any, output: Any) -> list[str]:
    """The lines of invariants, of x, the pair of the input and the output, and of cells."""
    if not program.is_haskell:
        return in_core(trees)
    name = next((word for word in NAMES if word.encode() not in program.data), NAMES[0])
    speller = Speller(program, given, output)
    return [" " * INDENT + line for number, tree in enumerate(trees, 1) for line in speller.lines(f"{name}{number}", tree)]


# ---- in the core's words


def in_core(trees: list[Tree]) -> list[str]:
    """Each as it may be hinted, or as a comment where it has a word that the language hasn't."""
    marks = ["; " if is_foreign(tree) else "" for tree in trees]
    return [" " * INDENT + mark + line for tree, mark in zip(trees, marks) for line in laid_out(node_of(tree), INDENT + len(mark))]


def is_foreign(tree: Tree) -> bool:
    return isinstance(tree, Foreign) or isinstance(tree, tuple) and any(map(is_foreign, tree))


def node_of(tree: Tree) -> Node:
    if isinstance(tree, Cell):
        tree = form_of(tree)
    if isinstance(tree, Foreign):
        tree = (tree.word, *tree.parts)
    word, *parts = tree if isinstance(tree, tuple) else (tree,)
    return Node(str(word), [node_of(part) for part in parts], 0, 0, "")


def form_of(cell: Cell) -> Tree:
    """A cell as an expression: what the part at a position outputs, or what it keeps."""
    if not cell.word:
        return cell.cell
    if cell.outputs:
        position, way = min(cell.outputs, key=lambda output: (len(output[0]), len(output[1]), output))
        found: Tree = ("at", *position)
    else:
        found, way = (cell.cell.replace(" ", "-"), ("at", *cell.position)), cell.way
    for step in way:
        found = (step, found)
    return (cell.owner, found) if cell.owner else found


# ---- in Haskell


class Speller(Writer):
    """Writes expressions in the names of a file."""

    def __init__(self, program: Program, given: Any, output: Any):
        super().__init__()
        shapes = [shape_of(given), shape_of(output)]
        assert shapes[0] is not None and shapes[1] is not None
        self.type = f"Invariant {shape_text(shapes[0], True)} {shape_text(shapes[1], True)}"
        self.pattern, self.access = binding(Shape("tuple", tuple(shapes)), "v")
        self.wires = {position: name for name, position in program.signals}
        self.program, self.is_shown = program, True

    def lines(self, name: str, tree: Tree) -> list[str]:
        """A definition, or a comment where it speaks of what isn't shown outside."""
        self.is_shown = True
        body = self.expression(tree, "x")
        if not self.is_shown:
            return behind("-- ", laid(body, INDENT + 3))
        words = re.findall(r"\w+", body.flat)
        pattern = re.sub(r"\w+", lambda name: name[0] if name[0] in words else "_", self.pattern)
        function = applied("arr", [lambda_of([pattern], body)])
        return [f"{name} :: {self.type}", *behind(f"{name} = ", laid(function, INDENT + len(name) + 3))]

    def expression(self, tree: Tree, given: Any) -> Text:
        if isinstance(tree, Cell):
            self.is_shown = False
            return atom(self.name(tree))
        if isinstance(tree, Foreign):
            self.is_shown = False
            return applied(tree.word, [self.expression(part, given) for part in tree.parts])
        way = way_of(tree)
        if way is not None:
            return self.part(way)
        match tree:
            case ("not", ("less", left, int(number))):
                return infix("atLeast", self.expression(left, given), self.expression(number, given))
            case ("not", ("less", left, right)):
                return infix("atMost", self.expression(right, given), self.expression(left, given))
            case ("less", int(number), right):
                return infix("more", self.expression(right, given), self.expression(number, given))
            case ("not", ("equal", left, right)):
                return infix("unequal", *self.compared(left, right, given))
            case ("equal", left, right):
                return infix("equal", *self.compared(left, right, given))
            case ("on", event, "false", "true"):
                return applied("isEvent", [self.expression(event, given)])
        return super().expression(tree, given)

    def compared(self, left: Tree, right: Tree, given: Any) -> tuple[Text, Text]:
        """Two sides that are equal or not: a number that stands for a name is that name."""
        text, shape = self.access.get(way_of(left) or (), (None, None))
        if text and shape and shape.sort == "names" and isinstance(right, int) and 0 <= right < len(shape.constructors):
            return text, atom(shape.constructors[right].name)
        return self.expression(left, given), self.expression(right, given)

    def part(self, way: Path) -> Text:
        """A part of the input or of the output."""
        if way not in self.access:
            self.is_shown = False
            return atom(".".join(["input" if way[:1] == ("fst",) else "output", *way[1:]]))
        text, shape = self.access[way]
        return applied("fromEnum", [text]) if shape.sort == "names" else text

    def name(self, cell: Cell) -> str:
        """The wire that a cell is, or with a prime the one that it will be at the next sample; else where it is written."""
        if not cell.word:
            return cell.cell
        for position, way in cell.outputs:
            if position in self.wires:
                return ".".join([self.wires[position], *way])
        if cell.owner or cell.position not in self.wires:
            place = "" if cell.owner else f"@{str(self.program.place_of(cell.position)).split(' ')[0].partition(':')[2]}"
            return ".".join([f"{cell.owner}{' ' if cell.owner else ''}{cell.word}{place}", cell.cell, *cell.way])
        return ".".join([f"{self.wires[cell.position]}'", *cell.way])


def binding(shape: Shape, name: str) -> tuple[str, Access]:
    """A pattern for a value of a shape, and by the way to each part of it what that is then, and its shape."""
    if shape.sort != "tuple":
        return name, dict(parts_by_name(shape, atom(name)))
    patterns, access = [], {}
    for number, part in enumerate(shape.parts):
        pattern, inner = binding(part, f"{name}{number + 1}")
        patterns.append(pattern)
        access.update({(*way_to(number, len(shape.parts)), *way): found for way, found in inner.items()})
    return f"({', '.join(patterns)})", access


def parts_by_name(shape: Shape, text: Text) -> Iterator[tuple[Path, tuple[Text, Shape]]]:
    """The parts of a record that have names, or the value itself."""
    fields = fields_of(shape)
    if shape.sort == "record" and shape.constructors[0].is_named and fields:
        for number, (name, part) in enumerate(fields):
            for way, found in parts_by_name(part, applied(name, [text])):
                yield (*way_to(number, len(fields)), *way), found
    elif shape.sort not in ("record", "tuple", "sum"):
        yield (), (text, shape)


def way_to(number: int, count: int) -> Path:
    """The way to a part of nested pairs."""
    return ("snd",) * number + (("fst",) if number < count - 1 else ())


def way_of(tree: Tree) -> Optional[Path]:
    """The way to a part of x, if an expression is one."""
    if tree == "x":
        return ()
    if is_form("fst", tree) or is_form("snd", tree):
        way = way_of(tree[1])
        return None if way is None else (*way, tree[0])
    return None
