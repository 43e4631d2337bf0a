"""The types of a program's definitions, by unification, and all that is wrong with them."""
from __future__ import annotations

from collections.abc import Callable, Iterable
from typing import Any

from front.classes import Classes, Want
from front.faults import Fault, Place, near
from front.hints import hint, same
from front.prelude import PROPERTIES, TAKEN
from front.scopes import Scopes, signatures_in
from front.syntax import (
    Anything,
    Apply,
    As,
    Bound,
    Clause,
    Condition,
    Constructor,
    Data,
    Declaration,
    Expression,
    Function,
    Generator,
    Lazy,
    ListPattern,
    Local,
    MadePattern,
    Name,
    NumberPattern,
    Pattern,
    PatternBinding,
    Qualifier,
    RecordPattern,
    Rhs,
    Signature,
    TuplePattern,
    bound_by,
    free_in,
    names_in,
)
from front.types import (
    BOOL,
    INT,
    NUMBERS,
    Con,
    Scheme,
    Type,
    Var,
    copied,
    function_type,
    real,
    result_of,
    shown,
    tuple_type,
    with_article,
)

MOST, LEAST = 2**63 - 1, -(2**63)


class Wire:
    """What a `proc` binds, as its networks left of `-<` see it."""


WIRE = Wire()
# The types of names: None of one that has a fault of its own.
Scope = dict[str, Any]


def spine(node: Expression) -> tuple[Expression, list[Expression]]:
    """What is applied, and to which parts."""
    parts = []
    while isinstance(node, Apply):
        parts.append(node.part)
        node = node.function
    return node, parts[::-1]


def called(node: Expression) -> str:
    """The name of what is applied, or nothing."""
    return node.word if isinstance(node, (Name, Constructor)) else ""


def is_sign(word: str) -> bool:
    return bool(word) and not (word[0].isalpha() or word[0] in "_(")


class BaseChecker:
    """What all parts of the checker use."""

    def __init__(self, declarations: list[Declaration], lost: Iterable[str] = ()):
        """What is lost has names that are defined, and could not be read."""
        self.declarations, self.lost = declarations, list(lost)
        self.scopes = Scopes()
        self.classes = Classes(self.scopes)
        self.faults: list[Fault] = []
        self.level = 0
        self.scope: Scope = {}
        self.in_rec = False
        # The types at which names are used whose meaning depends on the type; and those of ranges.
        self.enumerated: dict[Any, Type] = {}
        # The types of the names that patterns and definitions without parameters bind, by name.
        self.wires: dict[str, list[Type]] = {}

    def note(self, place: Place, text: str) -> None:
        self.faults.append(Fault(place, text))

    def fresh(self) -> Var:
        return Var(self.level)

    def same(self, place: Place, wanted: Type, found: Type, what: str) -> bool:
        """Whether what is found has the type that is wanted; else a fault is noted."""
        if same(wanted, found):
            return True
        names: dict = {}
        spelt = [with_article(shown(type_, 0, names)) for type_ in (wanted, found)]
        self.note(place, f"{what} must be {spelt[0]} here, and this is {spelt[1]}{hint(wanted, found)}")
        return False

    def attempt(self, work: Callable[[], Type]) -> Type:
        """The type of a part; where that has a fault, this is noted, and the rest is looked at still."""
        level = self.level
        try:
            return work()
        except Fault as fault:
            self.level = level
            self.faults.append(fault)
            return self.fresh()

    def bound(self, node: Pattern, names: dict[str, Type]) -> Type:
        """The type of a pattern; where that has a fault, its names are bound still."""
        try:
            return self.pattern(node, names)
        except Fault as fault:
            self.faults.append(fault)
            for word in names_in(node):
                names.setdefault(word, self.fresh())
            return self.fresh()

    def scheme(self, signature: Signature) -> Scheme | None:
        self.scopes.level = self.level
        try:
            return self.scopes.scheme(signature.type, signature.context)
        except Fault as fault:
            self.faults.append(fault)
            return None

    # ---- patterns

    def pattern(self, node: Pattern, names: dict[str, Type]) -> Type:
        """The type of a pattern; the names that it binds are put among the others."""
        if isinstance(node, Anything):
            return self.fresh()
        if isinstance(node, (Bound, As)):
            if node.word in names:
                self.note(node.place, f"{node.word} is bound twice")
            names[node.word] = self.fresh()
            self.wires.setdefault(node.word, []).append(names[node.word])
            if isinstance(node, As):
                self.same(node.place, names[node.word], self.pattern(node.inner, names), node.word)
            return names[node.word]
        if isinstance(node, Lazy):
            return self.pattern(node.inner, names)
        if isinstance(node, NumberPattern):
            self.in_range(node.place, node.value)
            return INT
        if isinstance(node, TuplePattern):
            return tuple_type([self.pattern(part, names) for part in node.parts])
        if isinstance(node, ListPattern):
            element = self.fresh()
            for part in node.parts:
                self.same(part.place, element, self.pattern(part, names), "an element of this list")
            return Con("[]", element)
        return self.made_pattern(node, names)

    def made_pattern(self, node: MadePattern | RecordPattern, names: dict[str, Type]) -> Type:
        maker = self.scopes.makers.get(node.word)
        if maker is None:
            raise Fault(node.place, f"there is no constructor {node.word}" + near(node.word, self.scopes.makers))
        params, result = result_of(copied(maker.scheme.type, {var: self.fresh() for var in maker.scheme.variables}))
        if isinstance(node, MadePattern):
            if len(node.parts) != len(params):
                raise Fault(node.place, f"{node.word} has {len(params) or 'no'} part{'s' * (len(params) != 1)}, and here {len(node.parts) or 'none'}")
            for number, (part, type_) in enumerate(zip(node.parts, params), 1):
                self.same(part.place, type_, self.pattern(part, names), f"part {number} of {node.word}")
            return result
        for word, part in node.fields:
            if word not in maker.fields:
                raise Fault(part.place, f"{word} is no field of {node.word}" + near(word, maker.fields))
            self.same(part.place, params[maker.parts.index(word)], self.pattern(part, names), f"the field {word}")
        return result

    def in_range(self, place: Place, value: int) -> None:
        if not LEAST <= value <= MOST:
            self.note(place, "this number needs more than 64 bits")


class Checker(BaseChecker):
    """Checks the definitions of a program; what can stand in expressions and commands is in the classes that build on it."""

    def infer(self, node: Expression, scope: Scope) -> Type:
        raise NotImplementedError

    def checked(self, node: Any, scope: Scope, wanted: Type, what: str) -> None:
        raise NotImplementedError

    # ---- the whole

    def program(self) -> None:
        self.scope = dict(self.scopes.built_in())
        built_in = set(self.scope)
        self.scope.update(self.scopes.take(self.declarations))
        self.scope.update(dict.fromkeys(self.lost))
        self.faults += self.scopes.faults
        for one in self.declarations:
            self.free_names(one, built_in)
        values = [one for one in self.declarations if isinstance(one, (Function, PatternBinding, Signature))]
        self.scope = self.define(values, self.scope)
        self.classes.settle()
        self.faults += self.classes.faults
        self.order = [one for one in values if not isinstance(one, Signature)]
        self.check_properties(values)
        self.check_derived()

    def free_names(self, one: Declaration, built_in: set[str]) -> None:
        """That a name may be given at the top."""
        given = [name for maker in one.constructors for name, _ in maker.parts if name] if isinstance(one, Data) else bound_by(one)
        for name in given:
            if name in TAKEN or name in built_in:
                self.note(one.place, f"{name} is a name that every module has already, of Haskell's or of Yampa.Whole's: choose another")
            elif name in self.scopes.fields and not isinstance(one, Data):
                self.note(one.place, f"{name} is the name of a field: choose another")

    def check_properties(self, values: list) -> None:
        for word, signature in signatures_in(values).items():
            tree = signature.type
            if getattr(tree, "word", "") in PROPERTIES and self.scope.get(word) and self.scope[word].variables:
                self.note(signature.place, f"{word} must say of which types it is: the network's input, and its output")

    def check_derived(self) -> None:
        """That the parts of a data are of the classes that it derives."""
        for data in self.scopes.data.values():
            for one in data.constructors:
                maker = self.scopes.makers.get(one.word)
                if maker is None or maker.data is not data:
                    continue
                for kind in (kind for kind in data.derived if kind in ("Enum", "Bounded") and one.parts):
                    self.note(one.place, f"deriving ({kind}) is for a data of names, and {one.word} has parts")
                rigid = {var: Con("a", rigid=next(NUMBERS)) for var in maker.scheme.variables}
                for kind in (kind for kind in data.derived if kind in ("Eq", "Ord")):
                    for var in rigid.values():
                        self.classes.given[var.rigid] = {kind, "Eq"}
                    for part in result_of(copied(maker.scheme.type, rigid))[0]:
                        self.decide(Want(kind, part, one.place, f"deriving ({kind})"))

    def decide(self, want: Want) -> None:
        try:
            self.classes.decided(want)
        except Fault as fault:
            self.faults.append(fault)

    # ---- groups of declarations

    def define(self, declarations: list, scope: Scope) -> Scope:
        """The scope with what some declarations bind, which are put in an order in which each comes after what it uses."""
        scope = dict(scope)
        signed = signatures_in(declarations)
        defined = self.defined_once(declarations)
        for word, signature in signed.items():
            if word not in defined and word not in self.lost:
                self.note(signature.place, f"{word} has a type and no definition")
            scope[word] = self.scheme(signature)
        for word in defined:
            if word not in signed:
                scope.pop(word, None)
        order = self.in_order(declarations, defined, scope)
        for one in order:
            self.define_one(one, signed, scope)
        declarations[:] = [one for one in declarations if isinstance(one, Signature)] + order
        return scope

    def defined_once(self, declarations: list) -> dict[str, Any]:
        found: dict[str, Any] = {}
        for one in declarations:
            for word in bound_by(one):
                if word in found:
                    self.note(one.place, f"{word} is defined twice: the other one is in line {found[word].place.line}" + elsewhere(found[word], one))
                found[word] = one
        return found

    def in_order(self, declarations: list, defined: dict, scope: Scope) -> list:
        order: list = []
        state: dict[int, bool] = {}

        def visit(one: Any, chain: list) -> None:
            if id(one) in state:
                if not state[id(one)]:
                    self.recursion(one, chain, scope)
                return
            state[id(one)] = False
            for word in dict.fromkeys(free_in(one)):
                if word in defined:
                    visit(defined[word], [*chain, one])
            state[id(one)] = True
            order.append(one)

        for one in declarations:
            if not isinstance(one, Signature):
                visit(one, [])
        return order

    def recursion(self, one: Any, chain: list, scope: Scope) -> None:
        names = [bound_by(other)[0] for other in [*chain[chain.index(one) :], one] if bound_by(other)]
        for word in bound_by(one):
            scope.setdefault(word, None)
        if self.in_rec:
            self.note(one.place, f"this cycle has no iPre: {' -> '.join(names)}. One of these must be the sample before, by iPre")
            return
        remedy = "definitions are put in where they are used, so none can. For what goes on over time write rec with iPre, or loopPre; for lists map, foldl or [.. | ..]"
        self.note(one.place, f"{names[0]} uses itself ({' -> '.join(names)}): {remedy}")

    def define_one(self, one: Any, signed: dict, scope: Scope) -> None:
        """Puts what a definition binds into the scope."""
        saved, self.level = self.level, self.level + 1
        try:
            if isinstance(one, Function):
                self.function(one, signed.get(one.word), scope)
            else:
                self.binding(one, signed, scope)
        except Fault as fault:
            self.faults.append(fault)
            for word in bound_by(one):
                scope.setdefault(word, None)
        self.level = saved

    def binding(self, one: PatternBinding, signed: dict, scope: Scope) -> None:
        names: dict[str, Type] = {}
        wanted = self.bound(one.pattern, names)
        for word, type_ in names.items():
            if signed.get(word) and scope.get(word):
                self.same(one.place, self.classes.instance(scope[word], self.level, one.place, word), type_, word)
        found = self.rhs(one.rhs, scope, self.fresh(), "this")
        self.level -= 1
        self.same(one.rhs.place, wanted, found, "what the pattern takes apart")
        for word, type_ in names.items():
            if not signed.get(word):
                scope[word] = self.classes.generalised(type_, self.level)

    def function(self, one: Function, signature: Signature | None, scope: Scope) -> None:
        counts = {len(clause.patterns) for clause in one.clauses}
        if len(counts) > 1:
            raise Fault(one.place, f"the clauses of {one.word} have different numbers of parameters")
        scheme = scope.get(one.word) if signature else None
        if scheme is None:
            type_ = function_type(*[self.fresh() for _ in range(counts.pop() + 1)])
            self.wires.setdefault(one.word, []).append(type_)
            self.clauses(one, type_, scope)
            self.level -= 1
            found = self.classes.generalised(type_, self.level)
            if signature is None:
                scope[one.word] = found
            return
        rigid = {var: Con(name, rigid=next(NUMBERS)) for var, name in zip(scheme.variables, rigid_names(scheme))}
        self.classes.promise(scheme, rigid)
        type_ = copied(scheme.type, rigid)
        has = len(result_of(type_)[0])
        if counts.pop() > has:
            raise Fault(one.place, f"{one.word} has {len(one.clauses[0].patterns)} parameters, and by its type {has or 'none'}")
        self.clauses(one, type_, scope)
        self.level -= 1
        self.classes.settle()

    def clauses(self, one: Function, type_: Type, scope: Scope) -> None:
        """That the clauses of a function have its type."""
        for clause in one.clauses:
            inner, result = self.clause_scope(one, clause, type_, scope)
            self.rhs(clause.rhs, inner, result, f"what {one.word} gives" if clause.patterns else one.word)

    def clause_scope(self, one: Function, clause: Clause, type_: Type, scope: Scope) -> tuple[Scope, Type]:
        names: dict[str, Type] = {}
        for part in clause.patterns:
            type_ = real(type_)
            assert isinstance(type_, Con)
            found = self.bound(part, names)
            self.same(part.place, type_.args[0], found, f"a parameter of {one.word}")
            type_ = type_.args[1]
        return with_names(scope, names), type_

    # ---- right sides

    def rhs(self, rhs: Rhs, scope: Scope, wanted: Type, what: str, infer: Callable | None = None) -> Type:
        """That all branches of a right side have the type that is wanted."""
        scope = self.define(rhs.declarations, scope) if rhs.declarations else scope
        for branch in rhs.branches:
            inner = scope
            for guard in branch.guards:
                inner = self.qualifier(guard, inner, False)
            if infer is None:
                self.checked(branch.body, inner, wanted, what)
            else:
                found = self.attempt(lambda body=branch.body, inner=inner: infer(body, inner))  # type: ignore[misc]
                self.same(branch.body.place, wanted, found, what)
        return wanted

    def qualifier(self, one: Qualifier, scope: Scope, in_list: bool) -> Scope:
        """The scope behind a guard, or behind a part of a comprehension."""
        if isinstance(one, Condition):
            self.same(one.value.place, BOOL, self.attempt(lambda: self.infer(one.value, scope)), "a condition" if in_list else "a guard")
            return scope
        if isinstance(one, Local):
            return self.define(one.declarations, scope)
        names: dict[str, Type] = {}
        assert isinstance(one, Generator)
        found = self.attempt(lambda: self.infer(one.value, scope))
        wanted = self.bound(one.pattern, names)
        self.same(one.value.place, Con("[]", wanted) if in_list else wanted, found, "what is gone through" if in_list else "what the pattern takes apart")
        return with_names(scope, names)


def with_names(scope: Scope, names: dict[str, Type]) -> Scope:
    return {**scope, **{word: Scheme([], type_) for word, type_ in names.items()}}


def rigid_names(scheme: Scheme) -> list[str]:
    return ["abcdefghijklmnopqrstuvwxyz"[number % 26] for number in range(len(scheme.variables))]


def elsewhere(one: Any, other: Any) -> str:
    return f" of {one.place.file}" if one.place.file != other.place.file else ""
