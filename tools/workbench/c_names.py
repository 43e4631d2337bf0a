"""What stands in the C of a file of Haskell besides what the program prints.

The comment of each function also says where the file has that part. A header of a network whose input or
output has names has a second part: structs and enumerations that are called as in the file, and `P_step_named`, which takes and answers
them, by copies to and from the structs of `P_step`, and returns what that returns.

| Haskell | C, where a file of the name P is made |
|---|---|
| a data of names | `enum P_Light { P_Red, P_Green };` |
| a record | `struct P_Lights`, its fields side by side |
| a tuple | a struct named by its parts, `struct P_Int_Light`, with `p1`, `p2` .. |
| `Event a`, `Maybe a`, `[a]` | as in the first part, with `is` and `v`, or `n` and `e` |
| a data of constructors with parts | a struct with `is`, an enumeration, and a struct for each constructor that has parts; that of `is` alone means something |
| a type without names | as in the first part |
"""
from __future__ import annotations

import os
import re

from front.shapes import Made, Shape, core_type
from front.spell import shape_text
from model.trees import shown
from workbench.c_structs import rooms_in, types_in
from workbench.origin import Program
from workbench.outline import position_in

ENTRY = re.compile(r"^(/\* \S+ at (\(at[ \d]*\))): ", re.M)
CHECKED = re.compile(r"^bool \w+_step\(", re.M)
SCALARS = {"Int": "int64_t", "Bool": "bool", "Unit": "uint8_t"}
# What a header ends with, and a whole file doesn't.
END = "\n#endif\n"
# The words of C99 and of C++ that a field may have as its name, and those that compilers define beside them.
RESERVED = set(
    "alignas alignof and and_eq asm auto bitand bitor bool break catch char class compl const constexpr const_cast continue decltype default "
    "delete do double dynamic_cast else enum explicit export extern false float for friend goto if inline int long mutable namespace new "
    "noexcept not not_eq nullptr operator or or_eq private protected public register reinterpret_cast restrict return short signed sizeof "
    "static static_assert static_cast struct switch template this thread_local throw true try typedef typeid typename union unsigned using "
    "virtual void volatile wchar_t while xor xor_eq typeof i386 linux mips sparc unix".split()
)


def with_origins(program: Program, text: str) -> str:
    """The C, with the place of each part in the comment of what it became."""
    return ENTRY.sub(lambda found: f"{found[1]}, {origin(program, found[2])}: ", text)


def origin(program: Program, position: str) -> str:
    found = program.origin_at(position_in(position))
    place = f"{os.path.basename(found.file)}:{found.line}:{found.column}" + (f" {found.name}" if found.name else "")
    return in_comment(place)


def with_names(program: Program, text: str) -> str:
    """The C of a network that goes between a file's types: a header has these names too."""
    prefix = re.search(r"^#ifndef (\w+)_h$", text, re.M)
    if prefix is None or not text.endswith(END):
        return text
    second = NamedPart(prefix[1], program, text).text()
    return f"{text.removesuffix(END)}\n{second}{END}" if second else text


def word_of(name: str) -> str:
    """A name of Haskell as one of C: what C doesn't have in names is spelt out."""
    made = name.replace("'", "_prime")
    made = "".join(letter if letter.isascii() else f"_u{ord(letter):x}" for letter in made)
    return f"{made}_" if made in RESERVED else made


class NamedPart:
    """The second part of a header. Each definition stands behind those that it names."""

    def __init__(self, prefix: str, program: Program, header: str):
        self.prefix, self.input, self.output = prefix, program.translation.input, program.translation.output
        self.structs = {type_: name for type_, (name, _) in types_in(header).items()}
        self.rooms = rooms_in(header)
        self.is_checked = CHECKED.search(header) is not None
        self.types: dict[Shape, str] = {}
        # Of each data with constructors, the constants that stand for them.
        self.constants: dict[Shape, dict[str, str]] = {}
        self.tags: set[str] = set()
        self.names = {f"{prefix}_STATE_BYTES"}
        self.definitions: list[str] = []
        self.copies: dict[tuple[Shape, bool], str] = {}

    def text(self) -> str:
        """The part, or nothing where neither input nor output has names."""
        if self.is_plain(self.input) and self.is_plain(self.output):
            return ""
        given, answer = self.type_of(self.input), self.type_of(self.output)
        step = self.step(given, answer)
        head = f"/* The same with the names of the file: {in_comment(shape_text(self.input))} -> {in_comment(shape_text(self.output))} */\n#include <string.h>\n"
        return "\n".join([head, *self.definitions, step])

    def step(self, given: str, answer: str) -> str:
        """`P_step_named`, which copies input and output where they have names."""
        p = self.prefix
        returned = "bool" if self.is_checked else "void"
        lines = [f"static inline {returned} {p}_step_named(struct {p}_state *state, int64_t dt, const {given} *input, {answer} *output) {{"]
        before, after = self.around(self.input, True), self.around(self.output, False)
        lines += [f"    {p}_input given;", f"    {before}(&given, input);"] if before else []
        lines += [f"    {p}_output answer;"] if after else []
        call = f"{p}_step(state, dt, {'&given' if before else 'input'}, {'&answer' if after else 'output'})"
        lines += [f"    if (!{call}) {{ return false; }}" if self.is_checked else f"    {call};"]
        lines += [f"    {after}(output, &answer);"] if after else []
        lines += ["    return true;"] if self.is_checked else []
        return "\n".join([*lines, "}", ""])

    def around(self, shape: Shape, is_in: bool) -> str:
        return "" if self.is_plain(shape) else self.copy(shape, is_in)

    # ---- types

    def is_plain(self, shape: Shape) -> bool:
        """Whether a type has no names, so that it is the one of the first part."""
        if shape.sort in ("Event", "Maybe", "List"):
            return self.is_plain(shape.parts[0])
        return shape.sort in SCALARS

    def core(self, shape: Shape) -> str:
        """The type of the first part that has the values of a type."""
        type_ = core_type(shape)
        return SCALARS[type_] if isinstance(type_, str) else f"struct {self.structs[shown(type_)]}"

    def type_of(self, shape: Shape) -> str:
        """A type as C names it; its definition is there then."""
        if self.is_plain(shape):
            return self.core(shape)
        if shape not in self.types:
            self.types[shape] = self.defined(shape)
        return self.types[shape]

    def defined(self, shape: Shape) -> str:
        if shape.sort == "names":
            return self.enumeration(shape, self.tag(name_of(shape)))
        if shape.sort == "sum":
            return self.sum_type(shape)
        if shape.sort == "List":
            members = ["uint32_t n;", f"{self.type_of(shape.parts[0])} e[{self.bound(shape)}];"]
        else:
            members = [f"{self.type_of(part)} {name};" for name, part in self.members(shape)]
        return self.struct(self.tag(name_of(shape)), members, in_comment(shape_text(shape)))

    def sum_type(self, shape: Shape) -> str:
        name = self.tag(name_of(shape))
        members = [f"{self.enumeration(shape, f'{name}_is')} is;"]
        for side in shape.constructors:
            if side.parts:
                parts = [f"{self.type_of(part)} {part_name};" for part_name, part in side_members(side)]
                members.append(f"{self.struct(self.tag(f'{name_of(shape)}_{word_of(side.name)}'), parts, side.name)} {word_of(side.name)};")
        return self.struct(name, members, in_comment(shape_text(shape)))

    def members(self, shape: Shape) -> list[tuple[str, Shape]]:
        """The members of a struct that is neither a list nor a sum, in order."""
        if shape.sort in ("Event", "Maybe"):
            return [("is", Shape("Bool")), ("v", shape.parts[0])]
        if shape.sort == "tuple":
            return [(f"p{number}", part) for number, part in enumerate(shape.parts, 1)]
        return side_members(shape.constructors[0]) or [("unit", Shape("Unit"))]

    def bound(self, shape: Shape) -> int:
        """How many elements the first part's list has room for."""
        return self.rooms[shown(core_type(shape))]

    def tag(self, name: str) -> str:
        """The name of a struct or an enumeration, that no other one has."""
        return fresh(f"{self.prefix}_{name}", self.tags)

    def enumeration(self, shape: Shape, name: str) -> str:
        """The type of a constructor's number, with a constant for each."""
        self.constants[shape] = {made.name: fresh(f"{self.prefix}_{word_of(made.name)}", self.names) for made in shape.constructors}
        self.definitions.append(f"enum {name} {{ {', '.join(self.constants[shape].values())} }};")
        return f"enum {name}"

    def struct(self, name: str, members: list[str], comment: str) -> str:
        self.definitions.append(f"struct {name} {{ {' '.join(members)} }}; /* {comment} */")
        return f"struct {name}"

    # ---- copies

    def copy(self, shape: Shape, is_in: bool) -> str:
        """The function that copies a value to the first part's type, or from it."""
        key = (shape, is_in)
        if key not in self.copies:
            type_, core = self.type_of(shape), self.core(shape)
            name = f"{self.prefix}_{'to' if is_in else 'from'}_{type_.split()[-1].removeprefix(f'{self.prefix}_')}"
            self.copies[key] = name
            to, of = (core, type_) if is_in else (type_, core)
            lines = self.list_lines(shape, is_in) if shape.sort == "List" else self.lines(shape, is_in)
            self.definitions.append("\n".join([f"static inline void {name}({to} *to, const {of} *from) {{", *[f"    {line}" for line in lines], "}"]))
        return self.copies[key]

    def list_lines(self, shape: Shape, is_in: bool) -> list[str]:
        inner = self.moved(shape.parts[0], "to->e[i]", "from->e[i]", is_in)
        return ["to->n = from->n;", f"for (uint32_t i = 0; i < {self.bound(shape)} && i < from->n; i++) {{", f"    {inner}", "}"]

    def lines(self, shape: Shape, is_in: bool) -> list[str]:
        if shape.sort in ("Event", "Maybe"):
            inner = self.moved(shape.parts[0], "to->v", "from->v", is_in)
            return ["to->is = from->is;", f"if (from->is) {{ {inner} }}", "else { memset(&to->v, 0, sizeof to->v); }"]
        if shape.sort == "sum":
            return self.sum_lines(shape, is_in)
        if shape.sort == "names":
            return [self.moved(shape, "*to", "*from", is_in)]
        parts = self.members(shape)
        return [self.part(part, path, name, is_in) for (name, part), path in zip(parts, paths_of(len(parts)))]

    def sum_lines(self, shape: Shape, is_in: bool) -> list[str]:
        """The number of the constructor, and its parts; those of the others are zeros."""
        made = [side for side in shape.constructors if side.parts]
        number, *paths = paths_of(1 + len(made))
        taken = f"to->{number} = (int64_t)from->is;" if is_in else f"to->is = (enum {self.type_of(shape).split()[-1]}_is)from->{number};"
        lines = ["memset(to, 0, sizeof *to);", taken]
        for side, path in zip(made, paths):
            inner = [".".join(word for word in (path, rest) if word) for rest in paths_of(len(side.parts))]
            parts = [self.part(part, core, f"{word_of(side.name)}.{name}", is_in) for (name, part), core in zip(side_members(side), inner)]
            lines.append(f"if ({'from' if is_in else 'to'}->is == {self.constants[shape][side.name]}) {{ {' '.join(parts)} }}")
        return lines

    def part(self, shape: Shape, core: str, named: str, is_in: bool) -> str:
        """The statement that copies a part, which has one path in the core's type and another in that with names."""
        to, of = (core, named) if is_in else (named, core)
        return self.moved(shape, at_path("to", to), at_path("from", of), is_in)

    def moved(self, shape: Shape, to: str, of: str, is_in: bool) -> str:
        """The statement that copies a value of a type."""
        if self.is_plain(shape):
            return f"{to} = {of};"
        if shape.sort == "names":
            return f"{to} = ({'int64_t' if is_in else self.type_of(shape)}){of};"
        return f"{self.copy(shape, is_in)}({address(to)}, {address(of)});"


def fresh(name: str, taken: set[str]) -> str:
    """The name, or one with a number behind it that isn't taken yet; it is then."""
    found, number = name, 2
    while found in taken:
        found, number = f"{name}_{number}", number + 1
    taken.add(found)
    return found


def at_path(pointer: str, path: str) -> str:
    """What a pointer leads to by a path; a record of one part is that part, without one."""
    return f"{pointer}->{path}" if path else f"*{pointer}"


def address(place: str) -> str:
    return place[1:] if place[0] == "*" else f"&{place}"


def side_members(made: Made) -> list[tuple[str, Shape]]:
    """The parts of a constructor, each with its name in C."""
    return [(word_of(name) if made.is_named else f"p{number}", part) for number, (name, part) in enumerate(made.parts, 1)]


def paths_of(count: int) -> list[str]:
    """Where so many parts are in nested pairs, of which the last has none behind it."""
    return [".".join(["b"] * number + (["a"] if number < count - 1 else [])) for number in range(count)]


def name_of(shape: Shape) -> str:
    """What a type is called by itself."""
    if shape.sort == "tuple":
        return "_".join(map(name_of, shape.parts))
    if shape.sort in ("Event", "Maybe", "List"):
        return f"{shape.sort}_{name_of(shape.parts[0])}"
    return word_of(shape.name or shape.sort)


def in_comment(text: str) -> str:
    """A text as it may stand in a comment."""
    return re.sub(r"\*/|[^ -~]|\?\?", "_", text)
