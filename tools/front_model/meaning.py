"""What expressions, patterns and definitions mean: a function for each kind of node of the tree."""
from __future__ import annotations

from collections.abc import Callable, Iterator

from front.syntax import (
    Anything,
    Apply,
    As,
    Bound,
    Case,
    Comprehension,
    Condition,
    Constructor,
    Data,
    Declaration,
    Expression,
    Function,
    Generator,
    If,
    Lambda,
    Lazy,
    Let,
    ListOf,
    ListPattern,
    MadePattern,
    Name,
    Node,
    Number,
    NumberPattern,
    Pattern,
    PatternBinding,
    Qualifier,
    Range,
    Record,
    RecordPattern,
    Rhs,
    Tuple,
    TuplePattern,
    Typed,
)
from front_model.values import By, Later, Made, Unfit, Value, call, curried, now


class Scope:
    """Names and their values, inside of others; constructors are found by their names too, and names whose meaning depends on a type by
    where they stand."""

    def __init__(self, outer: Scope | None = None):
        self.names: dict[str, Value] = {}
        self.made: dict[str, By] = {} if outer is None else outer.made
        self.by_type: dict[Node, Value] = {} if outer is None else outer.by_type
        self.outer = outer

    def find(self, word: str) -> Value:
        scope: Scope | None = self
        while scope is not None:
            if word in scope.names:
                return scope.names[word]
            scope = scope.outer
        raise Unfit(f"there is no {word}")


def value(node: Expression, scope: Scope) -> Value:
    """The value of an expression."""
    return now(MEANINGS[type(node)](node, scope))


def later(node: Expression, scope: Scope) -> Later:
    return Later(lambda: value(node, scope))


# ---- expressions


def name(node: Name, scope: Scope) -> Value:
    return scope.by_type[node] if node in scope.by_type else scope.find(node.word)


def constructor(node: Constructor, scope: Scope) -> Value:
    if node.word in scope.made:
        by = scope.made[node.word]
        return curried(by.count, lambda *parts: Made(by, list(parts)))
    if node.word == ":":
        return curried(2, lambda head, tail: [head, *now(tail)])
    if node.word in ("True", "False"):
        return node.word == "True"
    return curried(int(node.word[1:-1] or 0), lambda *parts: parts)


def number(node: Number, _scope: Scope) -> Value:
    return node.value


def applied(node: Apply, scope: Scope) -> Value:
    return call(value(node.function, scope), later(node.part, scope))


def function_of(node: Lambda, scope: Scope) -> Value:
    def body(*parts: Value) -> Value:
        inner = Scope(scope)
        must_fit(node.patterns, parts, inner)
        return value(node.body, inner)

    return curried(len(node.patterns), body)


def let(node: Let, scope: Scope) -> Value:
    inner = Scope(scope)
    define(node.declarations, inner)
    return value(node.body, inner)


def choice(node: If, scope: Scope) -> Value:
    return value(node.yes if value(node.condition, scope) else node.no, scope)


def case(node: Case, scope: Scope) -> Value:
    branch = chosen(node.alternatives, later(node.of, scope), scope)
    return value(*branch)


def tuple_of(node: Tuple, scope: Scope) -> Value:
    return tuple(later(part, scope) for part in node.parts)


def list_of(node: ListOf, scope: Scope) -> Value:
    return [later(part, scope) for part in node.parts]


def numbers(node: Range, scope: Scope) -> Value:
    first, last = value(node.first, scope), value(node.last, scope) if node.last else None
    if isinstance(first, bool):
        return [truth for truth in (False, True) if first <= truth <= (True if last is None else last)]
    if isinstance(first, Made):
        step = value(node.then, scope).by.number - first.by.number if node.then else 1
        end = last.by.number if last else len(first.by.beside) - 1 if step > 0 else 0
        return [Made(by) for by in first.by.beside[first.by.number : end + 1 if step > 0 else (end - 1 if end else None) : step]]
    step = value(node.then, scope) - first if node.then else 1
    return list(range(first, last + (1 if step > 0 else -1), step))


def comprehension(node: Comprehension, scope: Scope) -> Value:
    return [later(node.body, inner) for inner in scopes(node.qualifiers, scope)]


def scopes(qualifiers: list[Qualifier], scope: Scope) -> Iterator[Scope]:
    """The scopes in which the body of a comprehension is wanted, in order."""
    if not qualifiers:
        yield scope
        return
    first, *rest = qualifiers
    if isinstance(first, Generator):
        for part in value(first.value, scope):
            inner = Scope(scope)
            if fits(first.pattern, part, inner):
                yield from scopes(rest, inner)
    else:
        within = guarded([first], scope)
        yield from scopes(rest, within) if within else ()


def typed(node: Typed, scope: Scope) -> Value:
    return value(node.body, scope)


def record(node: Record, scope: Scope) -> Value:
    given = {field.word: later(field.value, scope) for field in node.fields}
    if isinstance(node.base, Constructor):
        by = scope.made[node.base.word]
        return Made(by, [given[word] if word in given else scope.find(word) for word in by.fields])
    before = value(node.base, scope)
    return Made(before.by, [given.get(word, part) for word, part in zip(before.by.fields, before.parts)])


MEANINGS: dict[type[Node], Callable] = {
    Name: name,
    Constructor: constructor,
    Number: number,
    Apply: applied,
    Lambda: function_of,
    Let: let,
    If: choice,
    Case: case,
    Tuple: tuple_of,
    ListOf: list_of,
    Range: numbers,
    Comprehension: comprehension,
    Typed: typed,
    Record: record,
}

# ---- patterns


def fits(pattern: Pattern, part: Value, scope: Scope) -> bool:
    """Whether a value fits a pattern, whose names are then bound in the scope."""
    match pattern:
        case Anything():
            return True
        case Bound(word=word):
            scope.names[word] = part
            return True
        case As(word=word, inner=inner):
            scope.names[word] = part
            return fits(inner, part, scope)
        case Lazy(inner=inner):
            bind_later(inner, part, scope)
            return True
        case NumberPattern(value=wanted):
            return bool(now(part) == wanted)
        case TuplePattern(parts=parts):
            return all_fit(parts, now(part), scope)
        case ListPattern(parts=parts):
            return len(now(part)) == len(parts) and all_fit(parts, now(part), scope)
        case MadePattern(word=":", parts=parts):
            return len(now(part)) > 0 and all_fit(parts, [now(part)[0], now(part)[1:]], scope)
        case MadePattern(word=("True" | "False") as word):
            return bool(now(part) == (word == "True"))
        case MadePattern(word=word, parts=parts):
            return word == "()" or now(part).by.word == word and all_fit(parts, now(part).parts, scope)
        case RecordPattern():
            return record_fits(pattern, now(part), scope)
    raise AssertionError(pattern)


def all_fit(patterns: list[Pattern], parts: list | tuple, scope: Scope) -> bool:
    return all(fits(pattern, part, scope) for pattern, part in zip(patterns, parts))


def record_fits(pattern: RecordPattern, made: Made, scope: Scope) -> bool:
    if made.by.word != pattern.word:
        return False
    parts = dict(zip(made.by.fields, made.parts))
    if pattern.rest:
        named = {word for word, _ in pattern.fields}
        scope.names.update({word: part for word, part in parts.items() if word not in named})
    return all(fits(inner, parts[word], scope) for word, inner in pattern.fields)


def must_fit(patterns: list[Pattern], parts: tuple, scope: Scope) -> None:
    if not all_fit(patterns, parts, scope):
        raise Unfit("no pattern fits")


def bind_later(pattern: Pattern, part: Value, scope: Scope) -> None:
    """Binds the names of a pattern without looking at the value: that it fits is found where one of them is wanted."""

    def bound() -> dict[str, Value]:
        inner = Scope(scope)
        must_fit([pattern], (part,), inner)
        return inner.names

    names = Later(bound)

    def part_of(word: str) -> Later:
        return Later(lambda: now(names)[word])

    for word in words_of(pattern, scope):
        scope.names[word] = part_of(word)


def words_of(pattern: Pattern, scope: Scope) -> list[str]:
    """The names that a pattern binds."""
    match pattern:
        case Bound(word=word):
            return [word]
        case As(word=word, inner=inner):
            return [word, *words_of(inner, scope)]
        case Lazy(inner=inner):
            return words_of(inner, scope)
        case TuplePattern(parts=parts) | ListPattern(parts=parts) | MadePattern(parts=parts):
            return [word for part in parts for word in words_of(part, scope)]
        case RecordPattern(word=word, fields=fields, rest=rest):
            named = {field for field, _ in fields}
            others = [field for field in scope.made[word].fields if field not in named] if rest else []
            return others + [inner for _, part in fields for inner in words_of(part, scope)]
    return []


# ---- definitions


def define(declarations: list[Declaration], scope: Scope) -> None:
    """Gives the names of declarations their values, which may use one another."""
    for one in declarations:
        if isinstance(one, Function):
            scope.names[one.word] = of_clauses(one, scope)
        elif isinstance(one, PatternBinding):
            bind_later(one.pattern, of_rhs(one.rhs, scope), scope)
        elif isinstance(one, Data):
            scope.made.update(constructors(one))
            scope.names.update(selectors(one))


def of_clauses(one: Function, scope: Scope) -> Later:
    """A function: the first clause that fits its parts, and of which a guard holds, is its value."""

    def body(*parts: Value) -> Value:
        for clause in one.clauses:
            inner = Scope(scope)
            branch = all_fit(clause.patterns, parts, inner) and branch_of(clause.rhs, inner)
            if branch:
                return value(*branch)
        raise Unfit(f"{one.word} has no clause for this")

    return Later(lambda: curried(len(one.clauses[0].patterns), body))


def of_rhs(rhs: Rhs, scope: Scope) -> Later:
    def body() -> Value:
        branch = branch_of(rhs, scope)
        if not branch:
            raise Unfit("no guard holds")
        return value(*branch)

    return Later(body)


def branch_of(rhs: Rhs, scope: Scope) -> tuple | None:
    """The body of the first branch whose guards hold, and the scope in which it is meant; none where there is none."""
    inner = Scope(scope)
    define(rhs.declarations, inner)
    for branch in rhs.branches:
        within = guarded(branch.guards, inner)
        if within:
            return branch.body, within
    return None


def guarded(guards: list[Qualifier], scope: Scope) -> Scope | None:
    """The scope behind guards, where all of them hold."""
    for guard in guards:
        scope, outer = Scope(scope), scope
        if isinstance(guard, Condition):
            if not value(guard.value, outer):
                return None
        elif isinstance(guard, Generator):
            if not fits(guard.pattern, later(guard.value, outer), scope):
                return None
        else:
            define(guard.declarations, scope)
    return scope


def chosen(alternatives: list, of: Value, scope: Scope) -> tuple:
    """The body of the first alternative that fits, and its scope."""
    for alternative in alternatives:
        inner = Scope(scope)
        branch = fits(alternative.pattern, of, inner) and branch_of(alternative.rhs, inner)
        if branch:
            return branch
    raise Unfit("no alternative fits")


def constructors(one: Data) -> dict[str, By]:
    found: list[By] = []
    for number, made in enumerate(one.constructors):
        found.append(By(made.word, number, len(made.parts), tuple(word for word, _ in made.parts if word), found))
    return {by.word: by for by in found}


def selectors(one: Data) -> dict[str, Value]:
    """The functions that take a named part of what a constructor of the type makes."""

    def selector(word: str) -> Value:
        def taken(made: Value) -> Value:
            whole = now(made)
            if word not in whole.by.fields:
                raise Unfit(f"{whole.by.word} has no {word}")
            return now(whole.parts[whole.by.fields.index(word)])

        return taken

    return {word: selector(word) for made in one.constructors for word, _ in made.parts if word}
