"""Invariants that z3's Spacer finds by itself, over unbounded integers."""
import time
from contextlib import contextmanager, suppress
from dataclasses import dataclass, field
from functools import reduce
from typing import Any, Iterator

import z3

from model.trees import GREATEST
from workbench.proving.induction import Candidate
from workbench.proving.saying import leaf_at
from workbench.proving.system import System
from workbench.proving.terms import LEAST, Leaf, Terms, formula, is_truth, negation
from workbench.proving.told import Foreign
from workbench.proving.values import Tree

# What Spacer finds soon depends on chance: it is tried by these seeds in turn, each with so much work, which takes one to three seconds.
SEEDS, WORK = (42, 0, 1, 2, 3), 2_000_000


@dataclass(frozen=True)
class Lemma(Candidate):
    """What Spacer says of each state: a term of z3, in which the last variable is the state's first leaf."""

    term: Any = field(default=None, compare=False)

    def of(self, terms: Terms, leaves: list[Leaf]) -> Leaf:
        return z3.substitute_vars(self.term, *reversed(in_z3(terms, leaves)))


def in_z3(terms: Terms, leaves: list[Leaf]) -> list[z3.ExprRef]:
    return [formula(leaf) if is_truth(leaf) else terms.number(leaf) for leaf in leaves]


@contextmanager
def at_most_work(most: int) -> Iterator[None]:
    """Ends what z3 is asked here after so many of its steps."""
    context = z3.main_ctx().ref()
    z3.Z3_update_param_value(context, "rlimit", str(most))
    try:
        yield
    finally:
        z3.Z3_update_param_value(context, "rlimit", "0")


def unknowns(found: list[z3.ExprRef]) -> list[z3.ExprRef]:
    """The variables in some terms."""
    variables, seen, stack = {}, set(), list(found)
    while stack:
        term = stack.pop()
        if term.get_id() in seen:
            continue
        seen.add(term.get_id())
        if z3.is_const(term) and term.decl().kind() == z3.Z3_OP_UNINTERPRETED:
            variables[term.get_id()] = term
        stack += term.children()
    return list(variables.values())


class Horn:
    """The system as rules on the states that may be reached. A strict one is wrong too where a number leaves 64 bits: then what Spacer
    finds is enough by itself."""

    def __init__(self, system: System, until: float, seed: int, strict: bool):
        self.system, self.strict = system, strict
        sorts = [z3.BoolSort() if truth else z3.IntSort() for truth in system.truths]
        self.reached = z3.Function("reached", *sorts, z3.BoolSort())
        self.wrong = z3.Function("wrong", z3.BoolSort())
        self.rules = z3.Fixedpoint()
        left = max(1, int((until - time.monotonic()) * 1000))
        self.rules.set(engine="spacer", timeout=left, **{"spacer.random_seed": seed})
        self.rules.register_relation(self.reached, self.wrong)
        self.add(system.start, True, [])
        state, lengths = system.unknown("state")
        self.add(state, False, [self.at(state), *lengths])

    def at(self, state: Any) -> z3.BoolRef:
        return self.reached(*in_z3(self.system.terms, self.system.leaves(state)))

    def add(self, state: Any, first: bool, before: list) -> None:
        """What a sample leads to from the state."""
        step, sample, bounds = self.system.sample("first" if first else "next", first)
        frame = self.system.step(state, step, sample)
        self.rule(self.at(frame.state), [*before, *bounds, frame.passed])
        wrong = [frame.wrong] if self.strict else [frame.fair, frame.known, frame.inside, negation(frame.good)]
        self.rule(self.wrong(), [*before, *bounds, *wrong])

    def rule(self, head: z3.BoolRef, body: list[Leaf]) -> None:
        terms = [formula(leaf) for leaf in body]
        implication = z3.Implies(z3.And(terms), head)
        variables = [variable for variable in unknowns([head, *terms]) if not variable.eq(self.wrong())]
        self.rules.add_rule(z3.ForAll(variables, implication) if variables else implication)

    def holds(self) -> bool:
        """Whether Spacer finds, with so much work, that nothing wrong is reached."""
        with at_most_work(WORK), suppress(z3.Z3Exception):
            return self.rules.query(self.wrong()) == z3.unsat
        return False

    def lemmas(self) -> list[Candidate]:
        """What Spacer found to hold of each state."""
        answer, count = self.rules.get_answer(), len(self.system.truths)
        for part in [answer, *answer.children()]:
            if z3.is_quantifier(part) and part.num_vars() == count:
                found = part.body().children()[-1]
                return [Lemma(said_by(term, count), term=term) for term in (found.children() if z3.is_and(found) else [found])]
        return []


# The operations of z3 that are those of the language, and which of these on how many operands.
OPERATIONS = {
    z3.Z3_OP_AND: "and",
    z3.Z3_OP_OR: "or",
    z3.Z3_OP_NOT: "not",
    z3.Z3_OP_EQ: "equal",
    z3.Z3_OP_ITE: "if",
    z3.Z3_OP_LT: "less",
    z3.Z3_OP_ADD: "add",
    z3.Z3_OP_SUB: "sub",
    z3.Z3_OP_MUL: "mul",
    z3.Z3_OP_UMINUS: "neg",
}


def said_by(term: z3.ExprRef, count: int) -> Tree:
    """What a term says of so many variables, the last of which is the state's first leaf: an expression, but for what is foreign, as are
    numbers of more than 64 bits."""
    if z3.is_var(term):
        return leaf_at(count - 1 - z3.get_var_index(term))
    if z3.is_int_value(term):
        number = term.as_long()
        return number if LEAST <= number <= GREATEST else Foreign(str(number), ())
    if z3.is_true(term) or z3.is_false(term):
        return str(term).lower()
    if not z3.is_app(term):
        return Foreign(" ".join(term.sexpr().split()), ())
    parts, kind = [said_by(part, count) for part in term.children()], term.decl().kind()
    if kind in (z3.Z3_OP_LE, z3.Z3_OP_GE):
        return ("not", ("less", *(reversed(parts) if kind == z3.Z3_OP_LE else parts)))
    if kind == z3.Z3_OP_GT:
        return ("less", *reversed(parts))
    if kind in (z3.Z3_OP_AND, z3.Z3_OP_OR, z3.Z3_OP_ADD, z3.Z3_OP_MUL):
        return reduce(lambda left, right: (OPERATIONS[kind], left, right), parts)
    return (OPERATIONS[kind], *parts) if kind in OPERATIONS else Foreign(term.decl().name(), tuple(parts))
