"""Whether the condition of a property can come about: one that holds only since it never does says nothing."""
from typing import Any, Optional

Tree = Any


def condition_of(goal: Tree) -> Optional[Tree]:
    """Of a goal that says `A only with B`, at its end as `(or (not A) B)` or `(if A B true)`, the one that is false where A is true."""
    match goal:
        case (">>>", first, last):
            found = condition_of(last)
            return None if found is None else (">>>", first, found)
        case ("arr", test):
            refuting = never(test)
            return None if refuting is None else ("arr", refuting)
    return None


def never(test: Tree) -> Optional[Tree]:
    """The expression that a test's condition is false."""
    match test:
        case ("or", ("not", condition), _) | ("or", _, ("not", condition)) | ("if", condition, _, "true"):
            return ("not", condition)
        case ("then", before, behind):
            found = never(behind)
            return None if found is None else ("then", before, found)
    return None
