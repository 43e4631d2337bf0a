"""Truths and numbers of an encoding: Python's own where they are known, else z3's, folded as they are made."""
from contextlib import contextmanager
from typing import Iterable, Iterator, Optional, Union

import z3

from model.trees import GREATEST

# z3's checks of how its Python part is called take a quarter of the time.
z3.z3.Z3_DEBUG = False
LEAST = -GREATEST - 1
MOST_STEPS = 60_000

Leaf = Union[bool, int, z3.ExprRef]


class TooLarge(Exception):
    """One sample of the network takes more steps of its parts than an encoding may have."""


def is_known(a: Leaf) -> bool:
    return isinstance(a, int)


def is_truth(a: Leaf) -> bool:
    return isinstance(a, bool) or z3.is_bool(a)


def identical(a: Leaf, b: Leaf) -> bool:
    """Whether two leaves are the same by their looks."""
    if is_known(a) or is_known(b):
        return is_known(a) and is_known(b) and a == b
    return a.eq(b)


def negation(a: Leaf) -> Leaf:
    if isinstance(a, bool):
        return not a
    return a.arg(0) if z3.is_not(a) else z3.Not(a)


def both(a: Leaf, b: Leaf) -> Leaf:
    if a is False or b is False:
        return False
    if a is True or identical(a, b):
        return b
    return a if b is True else z3.And(a, b)


def either(a: Leaf, b: Leaf) -> Leaf:
    if a is True or b is True:
        return True
    if a is False or identical(a, b):
        return b
    return a if b is False else z3.Or(a, b)


def implied(a: Leaf, b: Leaf) -> Leaf:
    return either(negation(a), b)


def any_of(truths: Iterable[Leaf]) -> Leaf:
    found: Leaf = False
    for truth in truths:
        found = either(found, truth)
    return found


def all_of(truths: Iterable[Leaf]) -> Leaf:
    found: Leaf = True
    for truth in truths:
        found = both(found, truth)
    return found


def formula(a: Leaf) -> z3.BoolRef:
    """A truth as z3 takes it."""
    return z3.BoolVal(a) if isinstance(a, bool) else a


class Terms:
    """Numbers of `width` bits, which wrap; where that is None they are unbounded integers, `ranges` keeps what must hold so that
    none leaves 64 bits, and `facts` what new numbers are. With `named` the product of two unknown numbers is a function of which nothing
    else is known; with `parted` choices are taken out of sums before z3 solves, so that these cancel. What each part outputs is put into
    `outputs`, where that is asked for."""

    def __init__(self, width: Optional[int] = 64, named: bool = False, parted: bool = False):
        self.width, self.named, self.parted = width, named, parted
        self.guard: Leaf = True
        self.ranges: list[Leaf] = []
        self.facts: list[Leaf] = []
        self.steps, self.most_step, self.uses_function = 0, None, False
        self.outputs: Optional[dict] = None
        sort = self.sort()
        self.function = z3.Function("product", sort, sort, sort)

    def sort(self) -> z3.SortRef:
        return z3.BitVecSort(self.width) if self.width else z3.IntSort()

    def step(self) -> None:
        """Counts the step of a part in one sample."""
        self.steps += 1
        if self.steps > MOST_STEPS:
            raise TooLarge

    @contextmanager
    def under(self, condition: Leaf) -> Iterator[None]:
        """What is computed here matters only where the condition holds."""
        before = self.guard
        if self.width is None:
            self.guard = both(before, condition)
        try:
            yield
        finally:
            self.guard = before

    # ---- numbers

    def variable(self, name: str, truth: bool) -> Leaf:
        return z3.Bool(name) if truth else z3.Const(name, self.sort())

    def number(self, a: Leaf) -> z3.ExprRef:
        """A number as z3 takes it. Few bits, in which things are only looked for, may cut it."""
        if not is_known(a):
            return a
        assert self.width != 64 or LEAST <= a <= GREATEST, a
        return z3.BitVecVal(a, self.width) if self.width else z3.IntVal(a)

    def wrapped(self, a: Leaf) -> Leaf:
        """The result of a computation within its bits."""
        if self.width is None:
            inside = LEAST <= a <= GREATEST if is_known(a) else z3.And(a >= LEAST, a <= GREATEST)
            if inside is not True:
                self.ranges.append(implied(self.guard, inside))
            return a
        half = 1 << (self.width - 1)
        return (a + half) % (2 * half) - half if is_known(a) else a

    def plus(self, a: Leaf, b: Leaf) -> Leaf:
        if is_known(a) and a == 0:
            return b
        if is_known(b) and b == 0:
            return a
        return self.wrapped(a + b)

    def minus(self, a: Leaf, b: Leaf) -> Leaf:
        return a if is_known(b) and b == 0 else self.wrapped(a - b)

    def opposite(self, a: Leaf) -> Leaf:
        return self.wrapped(-a)

    def times(self, a: Leaf, b: Leaf) -> Leaf:
        for one, other in ((a, b), (b, a)):
            if is_known(one) and one in (0, 1):
                return other if one else 0
        if self.named and not is_known(a) and not is_known(b):
            self.uses_function = True
            return self.function(a, b)
        return self.wrapped(a * b)

    def less(self, a: Leaf, b: Leaf) -> Leaf:
        if is_known(a) and is_known(b):
            return a < b
        return False if identical(a, b) else self.number(a) < self.number(b)

    def remainder(self, a: Leaf, q: int) -> Leaf:
        """Of a number that isn't negative; over integers by a fact about a new number, which Spacer takes more easily."""
        if is_known(a):
            return a % q
        if self.width:
            return z3.URem(a, self.number(q))
        rest, times = z3.FreshInt("rest"), z3.FreshInt("times")
        self.facts += [a == q * times + rest, rest >= 0, rest < q]
        return rest

    def low_bits(self, a: Leaf, power: int) -> Leaf:
        """What a number leaves when it is divided by this power of two, rounded down."""
        if is_known(a):
            return a % power
        return a & (power - 1) if self.width else a % power

    def equal(self, a: Leaf, b: Leaf) -> Leaf:
        if identical(a, b):
            return True
        if is_known(a) and is_known(b):
            return False
        if not is_truth(a):
            return self.number(a) == self.number(b)
        for one, other in ((a, b), (b, a)):
            if isinstance(one, bool):
                return other if one else negation(other)
        return a == b

    def chosen(self, condition: Leaf, a: Leaf, b: Leaf) -> Leaf:
        """The leaf a where the condition holds, else b."""
        if isinstance(condition, bool):
            return a if condition else b
        if identical(a, b):
            return a
        if not is_truth(a):
            return z3.If(condition, self.number(a), self.number(b))
        if isinstance(a, bool):
            return either(condition, b) if a else both(negation(condition), b)
        if isinstance(b, bool):
            return either(negation(condition), a) if b else both(condition, a)
        return z3.If(condition, a, b)
