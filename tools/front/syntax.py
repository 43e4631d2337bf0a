"""The syntax tree of a file: what `parsing` reads, and everybody else takes apart.

Operators stand as names that are applied, with their fixities resolved; sections are lambdas or applications; a chain of clauses is one
`Function`. Of each node `place` is the piece of the file that it is.
"""
from __future__ import annotations

from collections.abc import Iterator
from dataclasses import dataclass, field
from typing import Any

from front.faults import Place


@dataclass(eq=False)
class Node:
    place: Place


# ---- types as they are written


@dataclass(eq=False)
class TypeOf(Node):
    """A type with its parts: of a function the word is `->`, of a list `[]`, of a tuple of n parts `(n)`, of the empty one `()`."""

    word: str
    parts: list[TypeTree]


@dataclass(eq=False)
class TypeVariable(Node):
    word: str


TypeTree = TypeOf | TypeVariable

# ---- patterns


@dataclass(eq=False)
class Anything(Node):
    pass


@dataclass(eq=False)
class Bound(Node):
    """A name that is bound to what stands there."""

    word: str


@dataclass(eq=False)
class As(Node):
    word: str
    inner: Pattern


@dataclass(eq=False)
class Lazy(Node):
    inner: Pattern


@dataclass(eq=False)
class NumberPattern(Node):
    value: int


@dataclass(eq=False)
class TuplePattern(Node):
    parts: list[Pattern]


@dataclass(eq=False)
class ListPattern(Node):
    parts: list[Pattern]


@dataclass(eq=False)
class MadePattern(Node):
    """A constructor with its parts; of `x : xs` the word is `:`."""

    word: str
    parts: list[Pattern]


@dataclass(eq=False)
class RecordPattern(Node):
    """A constructor with some of its fields; `rest` is whether `..` binds the others by their names."""

    word: str
    fields: list[tuple[str, Pattern]]
    rest: bool


Pattern = Anything | Bound | As | Lazy | NumberPattern | TuplePattern | ListPattern | MadePattern | RecordPattern

# ---- expressions


@dataclass(eq=False)
class Name(Node):
    """A variable or an operator."""

    word: str


@dataclass(eq=False)
class Constructor(Node):
    """A constructor; of the empty tuple `()`, of the function that makes pairs `(2)`, of `x : xs` it is `:`."""

    word: str


@dataclass(eq=False)
class Number(Node):
    value: int


@dataclass(eq=False)
class Apply(Node):
    function: Expression
    part: Expression


@dataclass(eq=False)
class Lambda(Node):
    patterns: list[Pattern]
    body: Expression


@dataclass(eq=False)
class Let(Node):
    declarations: list[Declaration]
    body: Expression


@dataclass(eq=False)
class If(Node):
    condition: Expression
    yes: Expression
    no: Expression


@dataclass(eq=False)
class Case(Node):
    of: Expression
    alternatives: list[Alternative]


@dataclass(eq=False)
class Tuple(Node):
    parts: list[Expression]


@dataclass(eq=False)
class ListOf(Node):
    parts: list[Expression]


@dataclass(eq=False)
class Range(Node):
    first: Expression
    then: Expression | None
    last: Expression | None


@dataclass(eq=False)
class Comprehension(Node):
    body: Expression
    qualifiers: list[Qualifier]


@dataclass(eq=False)
class Typed(Node):
    body: Expression
    type: TypeTree


@dataclass(eq=False)
class Record(Node):
    """A constructor with its fields, or a value with some fields changed; `rest` is whether `..` takes the others by their names."""

    base: Expression
    fields: list[FieldOf]
    rest: bool


@dataclass(eq=False)
class FieldOf(Node):
    word: str
    value: Expression


@dataclass(eq=False)
class Proc(Node):
    pattern: Pattern
    command: Command


Expression = Name | Constructor | Number | Apply | Lambda | Let | If | Case | Tuple | ListOf | Range | Comprehension | Typed | Record | Proc

# ---- guards, and what stands behind the bar of a comprehension


@dataclass(eq=False)
class Condition(Node):
    value: Expression


@dataclass(eq=False)
class Generator(Node):
    """`p <- e`: in a guard a pattern that e must fit, in a comprehension each element of e."""

    pattern: Pattern
    value: Expression


@dataclass(eq=False)
class Local(Node):
    declarations: list[Declaration]


Qualifier = Condition | Generator | Local


@dataclass(eq=False)
class Branch(Node):
    """What holds where all its guards do; in a `case` among commands the body is a command."""

    guards: list[Qualifier]
    body: Expression | Command


@dataclass(eq=False)
class Rhs(Node):
    """The right side of a definition or of an alternative, with what `where` binds over all its guards."""

    branches: list[Branch]
    declarations: list[Declaration]


@dataclass(eq=False)
class Alternative(Node):
    pattern: Pattern
    rhs: Rhs


# ---- commands


@dataclass(eq=False)
class Feed(Node):
    """`network -< value`."""

    network: Expression
    value: Expression


@dataclass(eq=False)
class Do(Node):
    """Statements, and the command whose output is that of the whole."""

    statements: list[Statement]
    last: Command


@dataclass(eq=False)
class IfCommand(Node):
    condition: Expression
    yes: Command
    no: Command


@dataclass(eq=False)
class CaseCommand(Node):
    of: Expression
    alternatives: list[Alternative]


@dataclass(eq=False)
class LetCommand(Node):
    declarations: list[Declaration]
    body: Command


Command = Feed | Do | IfCommand | CaseCommand | LetCommand


@dataclass(eq=False)
class Bind(Node):
    """`pattern <- command`; without a pattern what the command outputs is left."""

    pattern: Pattern | None
    command: Command


@dataclass(eq=False)
class LetStatement(Node):
    declarations: list[Declaration]


@dataclass(eq=False)
class Rec(Node):
    statements: list[Statement]


Statement = Bind | LetStatement | Rec

# ---- declarations


@dataclass(eq=False)
class Signature(Node):
    """The type of some names; the context has pairs of a class and the variable that it is said of."""

    words: list[str]
    type: TypeTree
    context: list[tuple[str, str]]


@dataclass(eq=False)
class Clause(Node):
    patterns: list[Pattern]
    rhs: Rhs


@dataclass(eq=False)
class Function(Node):
    """A name with its clauses; without parameters it has one."""

    word: str
    clauses: list[Clause]


@dataclass(eq=False)
class PatternBinding(Node):
    pattern: Pattern
    rhs: Rhs


@dataclass(eq=False)
class Alias(Node):
    word: str
    params: list[str]
    type: TypeTree


@dataclass(eq=False)
class Made(Node):
    """A constructor of a `data`, with its parts, which have names or none."""

    word: str
    parts: list[tuple[str | None, TypeTree]]


@dataclass(eq=False)
class Data(Node):
    word: str
    params: list[str]
    constructors: list[Made]
    derived: list[str]


Declaration = Signature | Function | PatternBinding | Alias | Data


@dataclass
class Module:
    """A file: its module's name, what it imports, each with its place, its declarations, the fixities that it declares, and the names of
    what can't be read of it, and whether a type is among that."""

    name: str
    file: str
    imports: list[tuple[str, Place]]
    declarations: list[Declaration]
    fixities: dict[str, tuple[int, str]] = field(default_factory=dict)
    lost: list[str] = field(default_factory=list)
    lost_type: bool = False


# ---- names


def names_in(pattern: Pattern | None) -> list[str]:
    """The names that a pattern binds; `..` binds fields, which `bound_by_rest` puts in their places first."""
    if isinstance(pattern, Bound):
        return [pattern.word]
    if isinstance(pattern, As):
        return [pattern.word, *names_in(pattern.inner)]
    if isinstance(pattern, Lazy):
        return names_in(pattern.inner)
    if isinstance(pattern, (TuplePattern, ListPattern, MadePattern)):
        return [name for part in pattern.parts for name in names_in(part)]
    if isinstance(pattern, RecordPattern):
        return [name for _, part in pattern.fields for name in names_in(part)]
    return []


def bound_in(declarations: list[Declaration]) -> list[str]:
    """The names that declarations of values bind."""
    return [name for one in declarations for name in bound_by(one)]


def bound_by(one: Declaration) -> list[str]:
    if isinstance(one, Function):
        return [one.word]
    return names_in(one.pattern) if isinstance(one, PatternBinding) else []


def bound_at(statement: Statement) -> list[str]:
    """The names that a statement of a `do` binds."""
    if isinstance(statement, Bind):
        return names_in(statement.pattern)
    if isinstance(statement, LetStatement):
        return bound_in(statement.declarations)
    return [name for inner in statement.statements for name in bound_at(inner)]


def qualified(qualifiers: list[Qualifier]) -> set[str]:
    """The names that guards bind."""
    found: set[str] = set()
    for one in qualifiers:
        found |= set(names_in(one.pattern) if isinstance(one, Generator) else bound_in(one.declarations) if isinstance(one, Local) else [])
    return found


def own_names(node: Any) -> set[str]:
    """The names that a part of the tree binds for the parts in it."""
    if isinstance(node, (Lambda, Clause)):
        return {name for pattern in node.patterns for name in names_in(pattern)}
    if isinstance(node, (Alternative, Proc)):
        return set(names_in(node.pattern))
    if isinstance(node, (Let, Rhs, LetCommand)):
        return set(bound_in(node.declarations))
    if isinstance(node, Branch):
        return qualified(node.guards)
    if isinstance(node, Comprehension):
        return qualified(node.qualifiers)
    if isinstance(node, Do):
        return {name for statement in node.statements for name in bound_at(statement)}
    return set()


def free_in(node: Any) -> Iterator[str]:
    """The variables that occur in a part of the tree and are not bound in it."""
    left: list[tuple[Any, frozenset]] = [(node, frozenset())]
    while left:
        one, own = left.pop()
        if isinstance(one, Name):
            if one.word not in own:
                yield one.word
        elif isinstance(one, (list, tuple)):
            left += [(part, own) for part in one if isinstance(part, (Node, list, tuple))]
        elif not isinstance(one, (TypeOf, TypeVariable)):
            inner = own | own_names(one)
            left += [(part, inner) for part in vars(one).values() if isinstance(part, (Node, list))]
