"""What definitions mean: functions are put in where they are used, networks become graphs, and data become pairs and numbers."""
from __future__ import annotations

from collections.abc import Callable
from typing import Any

from front import core
from front.checking import Checker
from front.core import NOW, Node, constant, fail, number
from front.enumerating import by_type, count_of, named
from front.faults import Fault
from front.functions import from_enum
from front.matching import Env, Matcher
from front.graph import Graph
from front.lengths import steady
from front.scopes import Maker
from front.syntax import (
    Alternative,
    Apply,
    Bind,
    Branch,
    Case,
    CaseCommand,
    Command,
    Comprehension,
    Condition,
    Constructor,
    Do,
    Expression,
    Feed,
    Function,
    Generator,
    If,
    IfCommand,
    Lambda,
    Let,
    LetCommand,
    LetStatement,
    ListOf,
    Name,
    Number,
    PatternBinding,
    Proc,
    Qualifier,
    Range,
    Rec,
    Record,
    Rhs,
    Tuple,
    Typed,
    bound_by,
    free_in,
    names_in,
)
from front.values import Fun, Net, applied, as_node, choose, listed, parts, sieve, sifted, tupled

MOST_STEPS = 3_000_000
LONGEST_RANGE = 10_000
NO_STATE = (
    "what keeps a state can't stand in a branch: it would stand still where the other one runs. Let both run before the {},"
    " and choose between what they output; or use a switch"
)


class Elaborator(Matcher):
    def __init__(self, checker: Checker, built_in: Env):
        self.checker, self.scopes = checker, checker.scopes
        self.memo: Env = {}
        self.steps = 0
        self.env: Env = dict(built_in)
        for word, maker in self.scopes.makers.items():
            if maker.data is not None:
                self.env[word] = self.made_by(maker)
        for word, owners in self.scopes.fields.items():
            self.env[word] = Fun(1, lambda value, word=word, owners=owners: self.selected(word, owners, value), name=word)
        self.definitions = {word: one for one in checker.order for word in bound_by(one)}

    # ---- data

    def made_by(self, maker: Maker) -> Any:
        """A constructor as a value or as a function of its parts."""
        assert maker.data is not None
        count, constructors = len(maker.parts), maker.data.constructors
        if len(constructors) == 1:
            return Fun(count, lambda *args: tupled(list(args))) if count else core.unit()
        if not any(one.parts for one in constructors):
            return constant(maker.number)

        def build(*args: Any) -> Any:
            sides = [tupled(list(args)) if at == maker.number else core.blank(core.Open()) for at, one in enumerate(constructors) if one.parts]
            return tupled([constant(maker.number), *sides])

        return Fun(count, build) if count else Fun(0, build)

    def selected(self, word: str, owners: list, value: Any) -> Any:
        maker = owners[0][1]
        if len(maker.data.constructors) > 1:
            fail(f"{word} is a field of {owners[0][0]} alone, which this {maker.data.word} need not be: take it apart by case")
        return parts(value, len(maker.parts))[maker.parts.index(word)]

    # ---- definitions at the top

    def top(self, word: str) -> Any:
        """What a definition means; of one with type variables anew for each use."""
        if word in self.memo:
            return self.memo[word]
        saved, here = dict(NOW.facts), NOW.here
        NOW.facts.clear()
        one = self.definitions[word]
        try:
            if isinstance(one, Function):
                value = self.function(one, self.env, self.has_one_type(word))
                if self.has_one_type(word):
                    self.memo[word] = value
                return value
            own: Env = {}
            self.bind(one.pattern, self.rhs(one.rhs, self.env), own)
            if all(self.has_one_type(name) for name in own):
                self.memo.update(own)
            return own[word]
        finally:
            NOW.facts.update(saved)
            NOW.here = here

    def has_one_type(self, word: str) -> bool:
        scheme = self.checker.scope.get(word)
        return scheme is not None and not scheme.variables

    def lookup(self, word: str, env: Env) -> Any:
        if word in ("NoEvent", "Nothing"):
            return core.none()
        found = env.get(word)
        if found is None:
            found = self.top(word)
        return found.made() if isinstance(found, Fun) and not found.arity else found

    def function(self, one: Function, env: Env, keep: bool = True) -> Any:
        count = len(one.clauses[0].patterns)

        def call(*args: Any) -> Any:
            asked = NOW.here
            try:
                return self.clause(one, 0, args, env)
            except Fault as fault:
                fault.calls.append((one.word, asked))
                raise

        if not count:
            value = self.rhs(one.clauses[0].rhs, env)
            if isinstance(value, Node) and not value.name and value.op not in ("const", "var"):
                value.name = one.word
            return value
        seen: dict[tuple, Any] = {}

        def cached(*args: Any) -> Any:
            if not keep or not all(isinstance(part, Node) for part in args):
                return call(*args)
            key = tuple(part.id for part in args), frozenset(NOW.facts.items())
            if key not in seen:
                seen[key] = call(*args)
            return seen[key]

        return Fun(count, cached, name=one.word)

    def clause(self, one: Function, at: int, args: tuple, env: Env) -> Any:
        if at == len(one.clauses):
            NOW.here = one.place
            fail(f"{one.word} has no clause for some values: end with one that fits all")
        own = dict(env)
        clause = one.clauses[at]

        def others() -> Any:
            return self.clause(one, at + 1, args, env)

        return self.all(clause.patterns, list(args), own, lambda: self.rhs(clause.rhs, own, others), others)

    # ---- right sides

    def rhs(self, rhs: Rhs, env: Env, otherwise: Callable | None = None, evaluate: Callable | None = None) -> Any:
        """The first branch whose guards hold; where none does, what is given, or a fault."""
        env = self.declared(rhs.declarations, env)
        return self.branch(rhs, 0, env, otherwise, evaluate or self.value)

    def branch(self, rhs: Rhs, at: int, env: Env, otherwise: Callable | None, evaluate: Callable) -> Any:
        if at == len(rhs.branches):
            if otherwise is not None:
                return otherwise()
            NOW.here = rhs.place
            fail("the guards may all fail: end with otherwise")
        one: Branch = rhs.branches[at]
        own = dict(env) if one.guards else env
        return self.guards(one.guards, own, lambda: evaluate(one.body, own), lambda: self.branch(rhs, at + 1, env, otherwise, evaluate))

    def guards(self, guards: list[Qualifier], env: Env, fits: Callable, fails: Callable) -> Any:
        if not guards:
            return fits()
        one, rest = guards[0], guards[1:]
        if isinstance(one, Condition):
            return choose(as_node(self.value(one.value, env)), lambda: self.guards(rest, env, fits, fails), fails)
        if isinstance(one, Generator):
            return self.match(one.pattern, self.value(one.value, env), env, lambda: self.guards(rest, env, fits, fails), fails)
        env.update(self.declared(one.declarations, env))
        return self.guards(rest, env, fits, fails)

    def declared(self, declarations: list, env: Env) -> Env:
        """The environment with what declarations bind, each after what it uses."""
        if not declarations:
            return env
        env = dict(env)
        for one in declarations:
            NOW.here = one.place
            if isinstance(one, Function):
                env[one.word] = self.function(one, env)
            elif isinstance(one, PatternBinding):
                self.bind(one.pattern, self.rhs(one.rhs, env), env)
        return env

    # ---- expressions

    def value(self, node: Expression, env: Env) -> Any:
        """What an expression means."""
        self.steps += 1
        before, NOW.here = NOW.here, node.place
        if self.steps > MOST_STEPS:
            fail(f"over {MOST_STEPS:,} steps are taken to put all definitions in their places: make lists shorter, or cases fewer")
        try:
            return getattr(self, WAYS[type(node)])(node, env)
        finally:
            NOW.here = before

    def number(self, node: Number, _env: Env) -> Any:
        return constant(node.value)

    def name(self, node: Name | Constructor, env: Env) -> Any:
        if node in self.checker.enumerated and node.word not in env:
            return by_type(node.word, self.checker.enumerated[node], self.scopes)
        return self.lookup(node.word, env)

    def application(self, node: Apply, env: Env) -> Any:
        function = self.value(node.function, env)
        part = self.value(node.part, env)
        NOW.here = node.place
        return applied(function, part)

    def lambda_(self, node: Lambda, env: Env) -> Any:
        def call(*args: Any) -> Any:
            own = dict(env)
            for pattern, part in zip(node.patterns, args):
                self.bind(pattern, part, own)
            return self.value(node.body, own)

        return Fun(len(node.patterns), call)

    def let(self, node: Let, env: Env) -> Any:
        return self.value(node.body, self.declared(node.declarations, env))

    def if_(self, node: If, env: Env) -> Any:
        return choose(as_node(self.value(node.condition, env)), lambda: self.value(node.yes, env), lambda: self.value(node.no, env))

    def case(self, node: Case, env: Env) -> Any:
        return self.alternatives(node, node.alternatives, self.value(node.of, env), 0, env, self.value)

    def alternatives(self, node: Case | CaseCommand, ways: list[Alternative], value: Any, at: int, env: Env, evaluate: Callable) -> Any:
        if at == len(ways):
            NOW.here = node.place
            fail("this case has no alternative for some values: end with _")
        own = dict(env)

        def others() -> Any:
            return self.alternatives(node, ways, value, at + 1, env, evaluate)

        return self.match(ways[at].pattern, value, own, lambda: self.rhs(ways[at].rhs, own, others, evaluate), others)

    def tuple_(self, node: Tuple, env: Env) -> Any:
        return tupled([self.value(part, env) for part in node.parts])

    def list_(self, node: ListOf, env: Env) -> Any:
        return listed([self.value(part, env) for part in node.parts])

    def range_(self, node: Range, env: Env) -> Any:
        type_ = self.checker.enumerated[node]
        given = [None if part is None else number(from_enum(self.value(part, env))) for part in (node.first, node.then, node.last)]
        if node.last is None:
            count = count_of(type_, self.scopes, "a range without an end")
            falls = None not in given[:2] and given[1] < given[0]
            given[2] = fail("a list has an end here: write [a .. b]") if count is None else 0 if falls else count - 1
        if given[0] is None or given[2] is None or node.then is not None and given[1] is None:
            fail("the ends of a range must be known before it runs")
        first, last = given[0], given[2]
        step = given[1] - first if given[1] is not None else 1
        if not step or abs(last - first) // abs(step) > LONGEST_RANGE:
            fail(f"a range has at most {LONGEST_RANGE:,} numbers")
        return listed([named(constant(at), type_) for at in range(first, last + (1 if step > 0 else -1), step)])

    def comprehension(self, node: Comprehension, env: Env) -> Any:
        return sieve(self.generated(node, node.qualifiers, constant(True), env))

    def generated(self, node: Comprehension, qualifiers: list, condition: Node, env: Env) -> list:
        """The elements of a comprehension, each with the condition on which it is there."""
        if not qualifiers:
            return [(condition, self.value(node.body, env))]
        one, rest = qualifiers[0], qualifiers[1:]
        if isinstance(one, Condition):
            holds = core.both("and", condition, as_node(self.value(one.value, env)))
            return self.generated(node, rest, holds, env) if core.truth(holds) is not False else []
        if not isinstance(one, Generator):
            return self.generated(node, rest, condition, self.declared(one.declarations, env))
        found = []
        for has, part in sifted(self.value(one.value, env)):
            holds = core.both("and", condition, has)
            found += [(core.both("and", holds, own), value) for own, value in self.taken(node, one, part, rest, env)]
        return found

    def taken(self, node: Comprehension, one: Generator, part: Any, rest: list, env: Env) -> list:
        """What an element gives that may fit the pattern by which it is taken."""
        inner: list = []

        def gather(own: Env) -> Node:
            inner[:] = self.generated(node, rest, constant(True), own)
            return constant(True)

        own = dict(env)
        fits = as_node(self.match(one.pattern, part, own, lambda: gather(own), lambda: constant(False)))
        if core.truth(fits) is not None:
            return inner if core.truth(fits) else []

        def where_it_fits(value: Any, other: Callable) -> Any:
            return self.match(one.pattern, part, dict(env), lambda: value, other)

        blanks = [lambda: core.blank(core.Open()), lambda: constant(False)]
        return [(where_it_fits(holds, blanks[1]), where_it_fits(value, blanks[0])) for holds, value in inner]

    def typed(self, node: Typed, env: Env) -> Any:
        return self.value(node.body, env)

    def record(self, node: Record, env: Env) -> Any:
        if isinstance(node.base, Constructor):
            maker = self.scopes.makers[node.base.word]
            given = {one.word: self.value(one.value, env) for one in node.fields}
            made = self.lookup(node.base.word, env)
            for name in maker.parts:
                made = applied(made, given[name])
            return made
        maker = self.scopes.fields[node.fields[0].word][0][1]
        values = list(parts(self.value(node.base, env), len(maker.parts)))
        for one in node.fields:
            values[maker.parts.index(one.word)] = self.value(one.value, env)
        return tupled(values)

    def proc(self, node: Proc, env: Env) -> Any:
        def run(graph: Graph, value: Any) -> Any:
            own = dict(env)
            NOW.here = node.pattern.place
            self.bind(node.pattern, value, own)
            return self.command(node.command, graph, own, env)

        return Net(run)

    # ---- commands: env has everything, fixed what networks left of -< may see

    def command(self, node: Command, graph: Graph, env: Env, fixed: Env) -> Any:
        NOW.here = node.place
        if isinstance(node, Feed):
            network = self.value(node.network, fixed)
            value = self.value(node.value, env)
            NOW.here = node.network.place
            return network.run(graph, value)
        if isinstance(node, Do):
            env = dict(env)
            for statement in node.statements:
                env = self.statement(statement, graph, env, fixed)
            return self.command(node.last, graph, env, fixed)
        if isinstance(node, LetCommand):
            return self.command(node.body, graph, self.declared(node.declarations, env), fixed)
        before, graph.stateless = graph.stateless, NO_STATE.format("if" if isinstance(node, IfCommand) else "case")
        try:
            return self.chosen(node, graph, env, fixed)
        finally:
            graph.stateless = before

    def chosen(self, node: IfCommand | CaseCommand, graph: Graph, env: Env, fixed: Env) -> Any:
        def run(body: Command, own: Env) -> Any:
            return self.command(body, graph, own, fixed)

        if isinstance(node, IfCommand):
            return choose(as_node(self.value(node.condition, env)), lambda: run(node.yes, env), lambda: run(node.no, env))
        return self.alternatives(node, node.alternatives, self.value(node.of, env), 0, env, run)

    def statement(self, node: Any, graph: Graph, env: Env, fixed: Env) -> Env:
        NOW.here = node.place
        if isinstance(node, Bind):
            value = self.command(node.command, graph, env, fixed)
            if node.pattern is not None:
                NOW.here = node.pattern.place
                self.bind(node.pattern, value, env)
            return env
        if isinstance(node, LetStatement):
            return self.declared(node.declarations, env)
        return steady(graph, lambda: self.rec(node, graph, dict(env), fixed))

    def rec(self, node: Rec, graph: Graph, env: Env, fixed: Env) -> Env:
        """First what is known before its input; then the rest, each after what it needs."""
        units, feeds = [], []
        for one in node.statements:
            if isinstance(one, LetStatement):
                units += [(inner, bound_by(inner), list(free_in(inner))) for inner in one.declarations if bound_by(inner)]
                continue
            network = self.value(one.command.network, fixed) if isinstance(one.command, Feed) else None
            if network is not None and network.split:
                NOW.here = one.place
                out, feed = network.split(graph)
                self.bind(one.pattern, out, env)
                feeds.append((one, feed))
            else:
                wanted = one.command.value if isinstance(one.command, Feed) else one.command
                units.append((one, names_in(one.pattern), list(free_in(wanted))))
        for one in in_order(units):
            NOW.here = one.place
            env = self.statement(one, graph, env, fixed) if isinstance(one, Bind) else self.declared([one], env)
        for one, feed in feeds:
            value = self.value(one.command.value, env)
            NOW.here = one.place
            feed(value)
        return env

    # ---- closed networks

    def graph(self, network: Net, input_type: Any, params: int = 0, olds: int = 0, bound: frozenset = frozenset()) -> Graph:
        made = Graph(input_type, params, olds, bound)
        saved = dict(NOW.facts)
        NOW.facts.clear()
        try:
            made.output = as_node(network.run(made, made.input))
        finally:
            NOW.facts.update(saved)
        return made


WAYS = {
    Number: "number", Name: "name", Constructor: "name", Apply: "application", Lambda: "lambda_", Let: "let", If: "if_", Case: "case",
    Tuple: "tuple_", ListOf: "list_", Range: "range_", Comprehension: "comprehension", Typed: "typed", Record: "record", Proc: "proc",
}  # fmt: skip


def in_order(units: list[tuple]) -> list:
    """The lines of a `rec`, each after what it needs; a cycle is a fault."""
    own = {name: unit for unit in units for name in unit[1]}
    state: dict[int, bool] = {}
    order: list = []

    def visit(unit: tuple, chain: list) -> None:
        if id(unit) in state:
            if not state[id(unit)]:
                names = [one[1][0] for one in [*chain[chain.index(unit) :], unit]]
                raise Fault(unit[0].place, f"this cycle has no iPre: {' -> '.join(names)}. One of these must be the sample before, by iPre")
            return
        state[id(unit)] = False
        for name in unit[2]:
            if name in own:
                visit(own[name], [*chain, unit])
        state[id(unit)] = True
        order.append(unit[0])

    for unit in units:
        visit(unit, [])
    return order
