"""The types of expressions and of commands."""
from __future__ import annotations

from front.classes import Want
from front.checking import WIRE, Checker, Scope, called, is_sign, spine, with_names
from front.faults import Fault, Place, near
from front.hints import is_con, same
from front.prelude import ABSENT
from front.scopes import Maker
from front.syntax import (
    Apply,
    Bind,
    Case,
    CaseCommand,
    Command,
    Comprehension,
    Constructor,
    Do,
    Expression,
    Feed,
    FieldOf,
    If,
    IfCommand,
    Lambda,
    Let,
    LetCommand,
    LetStatement,
    ListOf,
    Name,
    Number,
    Proc,
    Range,
    Rec,
    Record,
    Statement,
    Tuple,
    Typed,
    bound_at,
    bound_in,
    names_in,
    qualified,
)
from front.types import BOOL, INT, Con, Type, Var, copied, function_type, real, result_of, shown, tuple_type, with_article

# What these are depends on the type at which they are used.
BY_TYPE = ("toEnum", "succ", "pred", "minBound", "maxBound")
# What goes through events, `Maybe` and lists alike, and as which part it takes these.
FUNCTORS = {"fmap": 2, "<$>": 2, "<$": 2, "$>": 1}
LEFT_OF_FEED = (
    "{0} is a value of this proc, which changes with each sample, and what stands left of -< is fixed before:"
    " hand it over behind -<, or by the event of a switch"
)


class ExpressionChecker(Checker):
    def infer(self, node: Expression, scope: Scope) -> Type:
        """The type of an expression."""
        judges = {
            Name: self.name, Constructor: self.constructor, Number: self.number, Apply: self.application, Lambda: self.function_of,
            Let: self.let, If: self.choice, Case: self.case, Tuple: self.tuple_, ListOf: self.list_, Range: self.range_,
            Comprehension: self.comprehension, Typed: self.typed, Record: self.record, Proc: self.proc,
        }  # fmt: skip
        return judges[type(node)](node, scope)

    def check(self, node: Expression, scope: Scope, wanted: Type, what: str) -> None:
        """That an expression has a type; faults are noted as far inside as can be."""
        known = real(wanted)
        if isinstance(node, If):
            self.same(node.condition.place, BOOL, self.part(node.condition, scope), "the condition")
            self.check(node.yes, scope, wanted, what)
            self.check(node.no, scope, wanted, what)
        elif isinstance(node, Let):
            self.check(node.body, self.define(node.declarations, scope), wanted, what)
        elif isinstance(node, Case):
            self.case(node, scope, wanted, what)
        elif isinstance(node, Proc) and isinstance(known, Con) and known.name == "SF":
            self.proc(node, scope, known, what)
        elif isinstance(node, Lambda) and isinstance(known, Con) and known.name == "->":
            self.lambda_to(node, scope, known)
        elif isinstance(node, Apply):
            self.same(node.place, wanted, self.application(node, scope, wanted), what)
        elif isinstance(node, Tuple) and isinstance(known, Con) and known.name == f"({len(node.parts)})":
            for number, (part, type_) in enumerate(zip(node.parts, known.args), 1):
                self.checked(part, scope, type_, f"part {number} of {what if ' ' not in what else 'the tuple'}")
        else:
            self.same(node.place, wanted, self.infer(node, scope), what)

    def checked(self, node: Expression, scope: Scope, wanted: Type, what: str) -> None:
        """The same, where a fault doesn't hide those of others."""
        level = self.level
        try:
            self.check(node, scope, wanted, what)
        except Fault as fault:
            self.level = level
            self.faults.append(fault)

    def part(self, node: Expression, scope: Scope) -> Type:
        """The type of a part, whose faults don't hide those of the others."""
        return self.attempt(lambda: self.infer(node, scope))

    def name(self, node: Name, scope: Scope) -> Type:
        if node.word not in scope:
            if node.word in ABSENT:
                raise Fault(node.place, f"{node.word}: {ABSENT[node.word]}" if node.word not in ABSENT[node.word] else ABSENT[node.word])
            raise Fault(node.place, f"there is no {node.word} here" + near(node.word, scope))
        scheme = scope[node.word]
        if scheme is WIRE:
            raise Fault(node.place, LEFT_OF_FEED.format(node.word))
        if scheme is None:
            return self.fresh()
        type_ = self.classes.instance(scheme, self.level, node.place, node.word)
        if node.word in BY_TYPE:
            self.enumerated[node] = result_of(type_)[1]
        return type_

    def constructor(self, node: Constructor, scope: Scope) -> Type:
        if node.word not in self.scopes.makers:
            raise Fault(node.place, f"there is no constructor {node.word}" + near(node.word, self.scopes.makers))
        return self.classes.instance(self.scopes.makers[node.word].scheme, self.level, node.place, node.word)

    def number(self, node: Number, _scope: Scope) -> Type:
        self.in_range(node.place, node.value)
        return INT

    def application(self, node: Apply, scope: Scope, wanted: Type | None = None) -> Type:
        """The type of what is applied to its parts; where that can be what is wanted, the parts are looked at in this light."""
        head, parts = spine(node)
        word, known = called(head), dict[int, Type]()
        type_ = real(self.functor(head, parts, scope, wanted, known) if word in FUNCTORS else self.infer(head, scope))
        params, result = result_of(type_)
        if wanted is not None and (len(params) == len(parts) or word in FUNCTORS and len(params) > len(parts)):
            same(function_type(*params[len(parts) :], result), wanted)
        for number, part in enumerate(parts, 1):
            type_ = real(type_)
            if isinstance(type_, Var):
                type_.to = function_type(Var(type_.level), Var(type_.level))
                type_ = real(type_)
            assert isinstance(type_, Con)
            if type_.name != "->":
                wanted = f"{number - 1} part{'s' * (number != 2)}" if number > 1 else "no part"
                self.too_many(node, word, wanted, len(parts), type_)
                for more in parts[number - 1 :]:
                    self.part(more, scope)
                return self.fresh()
            if number in known:
                self.same(part.place, type_.args[0], known[number], side_of(word, number))
            else:
                self.checked(part, scope, type_.args[0], side_of(word, number))
            type_ = type_.args[1]
        return type_

    def functor(self, head: Expression, parts: list[Expression], scope: Scope, wanted: Type | None, known: dict[int, Type]) -> Type:
        """The type of `fmap`: of events, of `Maybe` or of lists, as what it goes through is, or what it must be; that one is then known."""
        assert isinstance(head, Name)
        at, type_ = FUNCTORS[head.word], self.infer(head, scope)
        if len(parts) >= at:
            known[at] = inside = self.part(parts[at - 1], scope)
        else:
            params = result_of(wanted)[0] if wanted is not None else []
            inside = params[at - len(parts) - 1] if len(params) >= at - len(parts) else type_
        inside = real(inside)
        if isinstance(inside, Con) and inside.name in ("Maybe", "[]"):
            type_ = over(type_, inside.name)
        if at in known:
            same(result_of(type_)[0][at - 1], inside)
        return type_

    def lambda_to(self, node: Lambda, scope: Scope, wanted: Type) -> None:
        """That a lambda has a type."""
        names: dict[str, Type] = {}
        for part in node.patterns:
            wanted = real(wanted)
            if not isinstance(wanted, Con) or wanted.name != "->":
                params = function_type(self.fresh(), self.fresh())
                self.same(node.place, wanted, params, "this function")
                wanted = params
            assert isinstance(wanted, Con)
            found = self.bound(part, names)
            self.same(part.place, wanted.args[0], found, "a parameter of this function")
            wanted = wanted.args[1]
        self.checked(node.body, with_names(scope, names), wanted, "what this function gives")

    def too_many(self, node: Apply, word: str, wanted: str, has: int, type_: Con) -> None:
        if type_.name == "SF" and not word:
            self.note(node.place, "this is a network, and takes no parts: feed it by -<")
        else:
            self.note(node.place, f"{word or 'this'} takes {wanted}, and has {has} here: then it is {with_article(shown(type_))}")

    def function_of(self, node: Lambda, scope: Scope) -> Type:
        names: dict[str, Type] = {}
        types = [self.bound(part, names) for part in node.patterns]
        return function_type(*types, self.part(node.body, with_names(scope, names)))

    def let(self, node: Let, scope: Scope) -> Type:
        return self.infer(node.body, self.define(node.declarations, scope))

    def choice(self, node: If, scope: Scope) -> Type:
        self.same(node.condition.place, BOOL, self.part(node.condition, scope), "the condition")
        type_ = self.part(node.yes, scope)
        self.same(node.no.place, type_, self.part(node.no, scope), "what follows else")
        return type_

    def case(self, node: Case, scope: Scope, wanted: Type | None = None, what: str = "this case") -> Type:
        of, out = self.part(node.of, scope), wanted or self.fresh()
        for one in node.alternatives:
            names: dict[str, Type] = {}
            pattern = self.bound(one.pattern, names)
            self.same(one.pattern.place, of, pattern, "the pattern")
            self.rhs(one.rhs, with_names(scope, names), out, what)
        return out

    def tuple_(self, node: Tuple, scope: Scope) -> Type:
        return tuple_type([self.part(part, scope) for part in node.parts])

    def list_(self, node: ListOf, scope: Scope) -> Type:
        element: Type = self.fresh()
        for part in node.parts:
            self.same(part.place, element, self.part(part, scope), "an element of this list")
        return Con("[]", element)

    def range_(self, node: Range, scope: Scope) -> Type:
        type_ = self.enumerated[node] = self.fresh()
        for part in (node.first, node.then, node.last):
            if part is not None:
                self.same(part.place, type_, self.part(part, scope), "an end of a range")
        self.classes.left.append(Want("Enum", type_, node.place, "a range"))
        return Con("[]", type_)

    def comprehension(self, node: Comprehension, scope: Scope) -> Type:
        for one in node.qualifiers:
            scope = self.qualifier(one, scope, True)
        return Con("[]", self.part(node.body, scope))

    def typed(self, node: Typed, scope: Scope) -> Type:
        self.scopes.level = self.level
        scheme = self.scopes.scheme(node.type, [])
        type_ = self.classes.instance(scheme, self.level, node.place, "this")
        self.same(node.body.place, type_, self.infer(node.body, scope), "this")
        return type_

    # ---- records

    def record(self, node: Record, scope: Scope) -> Type:
        twice = {one.word for number, one in enumerate(node.fields) if one.word in [other.word for other in node.fields[:number]]}
        for word in sorted(twice):
            self.note(node.place, f"{word} stands here twice")
        return self.built(node, scope) if isinstance(node.base, Constructor) else self.changed(node, scope)

    def built(self, node: Record, scope: Scope) -> Type:
        """A constructor with all of its fields."""
        word = called(node.base)
        maker = self.scopes.makers.get(word)
        if maker is None:
            raise Fault(node.base.place, f"there is no constructor {word}" + near(word, self.scopes.makers))
        if len(maker.fields) != len(maker.parts):
            raise Fault(node.place, f"{word} has no names for its parts: write them behind it")
        params, type_ = result_of(copied(maker.scheme.type, {var: self.fresh() for var in maker.scheme.variables}))
        lost = [name for name in maker.fields if name not in [one.word for one in node.fields]]
        if lost:
            self.note(node.place, f"{word} lacks {', '.join(lost)}")
        for one in node.fields:
            if one.word not in maker.fields:
                self.note(one.place, f"{one.word} is no field of {word}" + near(one.word, maker.fields))
                self.part(one.value, scope)
            else:
                self.field(one, params[maker.parts.index(one.word)], scope)
        return type_

    def field(self, one: FieldOf, wanted: Type, scope: Scope) -> None:
        self.same(one.value.place, wanted, self.part(one.value, scope), f"the field {one.word}")

    def changed(self, node: Record, scope: Scope) -> Type:
        """A record with some fields changed."""
        base = self.part(node.base, scope)
        known = [one for one in node.fields if one.word in self.scopes.fields]
        for one in node.fields:
            if one not in known:
                self.note(one.place, f"{one.word} is no field" + near(one.word, self.scopes.fields))
                self.part(one.value, scope)
        if not known:
            return base
        maker: Maker = self.scopes.fields[known[0].word][0][1]
        if maker.data is not None and len(maker.data.constructors) > 1:
            raise Fault(node.place, f"{maker.data.word} has several constructors: take it apart by case, and build it anew")
        params, type_ = result_of(copied(maker.scheme.type, {var: self.fresh() for var in maker.scheme.variables}))
        if not self.same(node.base.place, type_, base, f"what has {known[0].word} changed"):
            return base
        for one in known:
            if one.word not in maker.fields:
                self.note(one.place, f"{one.word} is no field of {maker.data.word if maker.data else 'it'}" + near(one.word, maker.fields))
            else:
                self.field(one, params[maker.parts.index(one.word)], scope)
        return type_

    # ---- networks

    def proc(self, node: Proc, scope: Scope, wanted: Con | None = None, what: str = "this") -> Type:
        names: dict[str, Type] = {}
        given = self.bound(node.pattern, names)
        if wanted is not None:
            self.same(node.pattern.place, wanted.args[0], given, f"the input of {what}")
        output = self.command(node.command, with_names(scope, names), frozenset(names))
        if wanted is not None:
            self.same(output_place(node.command), wanted.args[1], output, f"the output of {what}")
        return Con("SF", given, output)

    def command(self, node: Command, scope: Scope, wires: frozenset) -> Type:
        raise NotImplementedError


class CommandChecker(ExpressionChecker):
    """Commands know which names are wires: these change with each sample."""

    def command(self, node: Command, scope: Scope, wires: frozenset) -> Type:
        if isinstance(node, Feed):
            return self.feed(node, scope, wires)
        if isinstance(node, Do):
            return self.do(node, scope, wires)
        if isinstance(node, LetCommand):
            return self.command(node.body, self.define(node.declarations, scope), wires | set(bound_in(node.declarations)))
        if isinstance(node, IfCommand):
            self.same(node.condition.place, BOOL, self.part(node.condition, scope), "the condition")
            type_ = self.attempt(lambda: self.command(node.yes, scope, wires))
            self.same(node.no.place, type_, self.attempt(lambda: self.command(node.no, scope, wires)), "what follows else")
            return type_
        return self.case_command(node, scope, wires)

    def case_command(self, node: CaseCommand, scope: Scope, wires: frozenset) -> Type:
        of, out = self.part(node.of, scope), self.fresh()
        for one in node.alternatives:
            names: dict[str, Type] = {}
            pattern = self.bound(one.pattern, names)
            self.same(one.pattern.place, of, pattern, "the pattern")
            own = wires | set(names_in(one.pattern)) | set(bound_in(one.rhs.declarations))
            for branch in one.rhs.branches:
                own |= qualified(branch.guards)
            self.rhs(one.rhs, with_names(scope, names), out, "this case", lambda body, inner, own=own: self.command(body, inner, own))
        return out

    def feed(self, node: Feed, scope: Scope, wires: frozenset) -> Type:
        outer = {**scope, **dict.fromkeys(wires, WIRE)}
        network = self.part(node.network, outer)
        given, output = self.fresh(), self.fresh()
        if is_con(network, "->"):
            self.note(node.network.place, f"what stands left of -< must be a network here, and this is {with_article(shown(network))}: arr makes a network of a function")
        else:
            self.same(node.network.place, Con("SF", given, output), network, "what stands left of -<")
        word = called(spine(node.network)[0])
        self.same(node.value.place, given, self.part(node.value, scope), f"what goes into {word or 'it'}")
        return output

    def do(self, node: Do, scope: Scope, wires: frozenset) -> Type:
        scope = dict(scope)
        for statement in node.statements:
            try:
                wires = self.statement(statement, scope, wires)
            except Fault as fault:
                self.faults.append(fault)
                lost = bound_at(statement)
                scope.update(dict.fromkeys(lost))
                wires |= set(lost)
        return self.command(node.last, scope, wires)

    def statement(self, node: Statement, scope: Scope, wires: frozenset) -> frozenset:
        """Puts what a statement binds into the scope; answers the wires behind it."""
        if isinstance(node, Bind):
            type_ = self.command(node.command, scope, wires)
            names: dict[str, Type] = {}
            if node.pattern is not None:
                self.same(node.pattern.place, type_, self.pattern(node.pattern, names), "what the pattern takes apart")
            scope.update(with_names({}, names))
            return wires | set(names)
        if isinstance(node, LetStatement):
            scope.update(self.define(node.declarations, scope))
            return wires | set(bound_in(node.declarations))
        return self.rec(node, scope, wires)

    def rec(self, node: Rec, scope: Scope, wires: frozenset) -> frozenset:
        """All that a `rec` binds is known in all of it."""
        names: dict[str, Type] = {}
        for word in bound_at(node):
            if word in names:
                self.note(node.place, f"{word} is bound twice in this rec")
            names[word] = self.fresh()
        scope.update(with_names({}, names))
        wires |= set(names)
        for one in node.statements:
            self.attempt(lambda one=one: self.rec_statement(one, names, scope, wires))  # type: ignore[misc]
        return wires

    def rec_statement(self, node: Statement, names: dict[str, Type], scope: Scope, wires: frozenset) -> Type:
        if isinstance(node, Bind):
            own: dict[str, Type] = {}
            type_ = self.command(node.command, scope, wires)
            if node.pattern is None:
                raise Fault(node.place, "a line of rec binds something")
            self.same(node.pattern.place, type_, self.pattern(node.pattern, own), "what the pattern takes apart")
            for word, found in own.items():
                self.same(node.place, names[word], found, word)
        elif isinstance(node, LetStatement):
            self.in_rec = True
            new = self.define(node.declarations, scope)
            self.in_rec = False
            for word in bound_in(node.declarations):
                if new.get(word):
                    self.same(node.place, names[word], self.classes.instance(new[word], self.level, node.place, word), word)
        else:
            raise Fault(node.place, "a rec stands in no rec here: put its lines into the outer one")
        return INT


def over(type_: Type, word: str) -> Type:
    """The type with another word in the place of `Event`."""
    type_ = real(type_)
    if isinstance(type_, Var):
        return type_
    return Con(word if type_.name == "Event" else type_.name, *[over(part, word) for part in type_.args])


def output_place(node: Command) -> Place:
    """Where a command's output is made."""
    if isinstance(node, Do):
        return output_place(node.last)
    if isinstance(node, LetCommand):
        return output_place(node.body)
    if isinstance(node, Feed) and called(node.network) in ("returnA", "identity"):
        return node.value.place
    return node.place


def side_of(word: str, number: int) -> str:
    """How a part of something that is applied is called."""
    if is_sign(word):
        return f"what stands {'left' if number == 1 else 'right'} of {word}"
    return f"part {number} of {word}" if word else f"part {number}"
