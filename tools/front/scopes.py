"""What types and constructors a program has: those that are built in, and those of its `data` and `type` declarations."""
from __future__ import annotations

from dataclasses import dataclass, field

from front.faults import Fault, Place, near
from front.parsing import read_type
from front.prelude import BUILT_IN, CLASSES, NO_TYPES, PROPERTIES, TYPES
from front.syntax import (
    Alias,
    Bound,
    Constructor,
    Data,
    Declaration,
    FieldOf,
    Made,
    Name,
    Record,
    RecordPattern,
    Signature,
    TypeOf,
    TypeTree,
    TypeVariable,
)
from front.types import BOOL, INT, UNIT, Con, Scheme, Type, Var, function_type, tuple_type
from front.walking import walked


@dataclass
class Maker:
    """A constructor: the data that it is of and its number there, its type, and its parts' names, which may be none."""

    scheme: Scheme
    parts: list[str | None]
    number: int = 0
    data: Data | None = None

    @property
    def fields(self) -> list[str]:
        return [part for part in self.parts if part]


@dataclass
class Scopes:
    """Types, their other names, constructors, and for each field its constructors."""

    data: dict[str, Data] = field(default_factory=dict)
    aliases: dict[str, tuple[list[str], TypeTree]] = field(default_factory=dict)
    makers: dict[str, Maker] = field(default_factory=dict)
    fields: dict[str, list[tuple[str, Maker]]] = field(default_factory=dict)
    faults: list[Fault] = field(default_factory=list)
    level: int = 0

    # ---- types as they are written

    def scheme(self, tree: TypeTree, context: list[tuple[str, str]], known: dict | None = None) -> Scheme:
        """The type for all of its variables that aren't known."""
        names = dict(known or {})
        self.level += 1
        try:
            type_ = self.type(tree, names)
        finally:
            self.level -= 1
        own = {name: var for name, var in names.items() if name not in (known or {})}
        wants = []
        for word, name in context:
            if word not in CLASSES:
                what = "numbers are Int here: write Int" if word in ("Num", "Integral", "Real", "Fractional") else "hand over functions"
                raise Fault(tree.place, f"there is no class {word} here; {what}")
            if name in own:
                wants.append((word, own[name]))
        return Scheme(list(own.values()), type_, wants)

    def type(self, tree: TypeTree, names: dict) -> Type:
        if isinstance(tree, TypeVariable):
            if tree.word not in names:
                names[tree.word] = Var(self.level)
            return names[tree.word]
        parts = [self.type(part, names) for part in tree.parts]
        if tree.word in ("Time", "DTime") and not parts and tree.word not in self.data:
            return INT
        if tree.word in self.aliases:
            params, body = self.aliases[tree.word]
            self.count(tree, len(params), len(parts))
            return self.type(body, dict(zip(params, parts)))
        if tree.word[0] != "(" or tree.word == "()":
            self.known(tree)
            self.count(tree, len(self.data[tree.word].params) if tree.word in self.data else BUILT_IN[tree.word], len(parts))
        return Con(tree.word, *parts)

    def known(self, tree: TypeOf) -> None:
        if tree.word in self.data or tree.word in BUILT_IN:
            return
        if tree.word in NO_TYPES:
            raise Fault(tree.place, NO_TYPES[tree.word])
        raise Fault(tree.place, f"there is no type {tree.word}" + near(tree.word, [*self.data, *self.aliases, *BUILT_IN]))

    def count(self, tree: TypeOf, wanted: int, has: int) -> None:
        if wanted != has:
            raise Fault(tree.place, f"{tree.word} has {wanted or 'no'} parameter{'s' * (wanted != 1)}, and here {has or 'none'}")

    # ---- declarations

    def built_in(self) -> dict[str, Scheme]:
        """Takes up what is built in; answers the types of the names."""
        one = Var(1)
        event, maybe, listed = Con("Event", one), Con("Maybe", one), Con("[]", one)
        for name, type_, parts in [
            ("True", BOOL, 0), ("False", BOOL, 0), ("()", UNIT, 0), ("NoEvent", event, 0), ("Event", function_type(one, event), 1),
            ("Nothing", maybe, 0), ("Just", function_type(one, maybe), 1), (":", function_type(one, listed, listed), 2),
        ]:  # fmt: skip
            self.makers[name] = Maker(Scheme([one], type_), [None] * parts)
        for size in range(2, 8):
            variables = [Var(1) for _ in range(size)]
            self.makers[f"({size})"] = Maker(Scheme(variables, function_type(*variables, tuple_type(list(variables)))), [None] * size)
        two = TypeOf(PLACE, "(2)", [TypeVariable(PLACE, "a"), TypeVariable(PLACE, "b")])
        for name in PROPERTIES:
            of = TypeVariable(PLACE, "a") if name == "Assume" else two
            self.aliases[name] = ["a"] if name == "Assume" else ["a", "b"], TypeOf(PLACE, "SF", [of, TypeOf(PLACE, "Bool", [])])
        found = {}
        for line in TYPES.strip().split("\n"):
            words, text = line.split(" :: ")
            scheme = self.scheme(*read_type(text))
            found.update({word.strip("()"): scheme for word in words.split(",")})
        return found

    def take(self, declarations: list[Declaration]) -> dict[str, Scheme]:
        """Takes up the types of a program; answers the types of the fields as functions."""
        for one in declarations:
            if isinstance(one, (Alias, Data)):
                self.name_type(one)
        for one in declarations:
            try:
                if isinstance(one, Alias):
                    self.alias(one)
                elif isinstance(one, Data):
                    self.constructors(one)
            except Fault as fault:
                self.faults.append(fault)
        for one in declarations:
            if isinstance(one, Data):
                self.cycles(one)
        self.put_rest(declarations)
        return {name: self.selector(name) for name in self.fields}

    def name_type(self, one: Alias | Data) -> None:
        if one.word in self.data or one.word in self.aliases and one.word not in PROPERTIES:
            self.faults.append(Fault(one.place, f"the type {one.word} is defined twice"))
        elif one.word in BUILT_IN or one.word in NO_TYPES or one.word in PROPERTIES:
            self.faults.append(Fault(one.place, f"{one.word} is a type of Haskell's: choose another name"))
        elif isinstance(one, Alias):
            self.aliases[one.word] = one.params, one.type
        else:
            self.data[one.word] = one

    def alias(self, one: Alias) -> None:
        seen, left = set(), [one.type]
        while left:
            tree = left.pop()
            if isinstance(tree, TypeOf):
                if tree.word == one.word:
                    self.aliases.pop(one.word)
                    raise Fault(one.place, f"the type {one.word} stands for itself")
                left += tree.parts
                if tree.word in self.aliases and tree.word not in seen:
                    seen.add(tree.word)
                    left.append(self.aliases[tree.word][1])
        self.type(one.type, {name: Var(1) for name in one.params})

    def constructors(self, data: Data) -> None:
        self.level += 1
        names: dict = {name: Var(self.level) for name in data.params}
        self.level -= 1
        whole = Con(data.word, *names.values())
        for number, one in enumerate(data.constructors):
            if one.word in self.makers:
                self.faults.append(Fault(one.place, f"the constructor {one.word} is defined twice, or is one of Haskell's"))
                continue
            scoped = dict(names)
            types = [self.type(part, scoped) for _, part in one.parts]
            strange = [name for name in scoped if name not in names]
            if strange:
                raise Fault(one.place, f"{strange[0]} is no parameter of {data.word}")
            maker = Maker(Scheme(list(names.values()), function_type(*types, whole)), [name for name, _ in one.parts], number, data)
            self.makers[one.word] = maker
            self.field_names(one, maker)

    def field_names(self, one: Made, maker: Maker) -> None:
        for name in maker.fields:
            others = self.fields.setdefault(name, [])
            if any(other.data is not maker.data or word == one.word for word, other in others):
                self.faults.append(Fault(one.place, f"the field {name} is defined twice"))
            else:
                others.append((one.word, maker))

    def cycles(self, data: Data) -> None:
        """That a data doesn't hold itself."""
        seen: set[str] = set()
        left: list = [part for one in data.constructors for _, part in one.parts]
        while left:
            tree = left.pop()
            if not isinstance(tree, TypeOf):
                continue
            if tree.word == data.word:
                self.faults.append(Fault(data.place, f"{data.word} holds itself, and a value has one size here: use a list, with numbers for links"))
                self.data[data.word] = Data(data.place, data.word, data.params, [], data.derived)
                return
            left += tree.parts
            if tree.word not in seen:
                seen.add(tree.word)
                inner = self.data.get(tree.word)
                left += [part for one in inner.constructors for _, part in one.parts] if inner else []
                left += [self.aliases[tree.word][1]] if tree.word in self.aliases else []

    def selector(self, name: str) -> Scheme:
        """A field as a function of its record."""
        maker = self.fields[name][0][1]
        type_, part = maker.scheme.type, None
        for word in maker.parts:
            assert isinstance(type_, Con)
            if word == name:
                part = type_.args[0]
            type_ = type_.args[1]
        return Scheme(maker.scheme.variables, Con("->", type_, part))  # type: ignore[arg-type]

    def put_rest(self, declarations: list[Declaration]) -> None:
        """Puts the fields that `..` stands for in its place."""
        for node in walked(declarations):
            if isinstance(node, RecordPattern) and node.rest and node.word in self.makers:
                given = [name for name, _ in node.fields]
                node.fields += [(name, Bound(node.place, name)) for name in self.makers[node.word].fields if name not in given]
                node.rest = False
            if isinstance(node, Record) and node.rest and isinstance(node.base, Constructor) and node.base.word in self.makers:
                given = [one.word for one in node.fields]
                lost = [name for name in self.makers[node.base.word].fields if name not in given]
                node.fields += [FieldOf(node.place, name, Name(node.place, name)) for name in lost]
                node.rest = False


PLACE = Place("", 0, 0)


def signatures_in(declarations: list[Declaration]) -> dict[str, Signature]:
    return {word: one for one in declarations if isinstance(one, Signature) for word in one.words}
