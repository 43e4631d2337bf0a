"""The decimal times of a table and the steps between them, in ticks."""
import argparse
from collections.abc import Callable
from decimal import Context, Decimal, Inexact, InvalidOperation

from model.trees import GREATEST
from workbench.ending import Refused

MOST_DIGITS = 40
# Of times within so many digits, products with ticks are exact; a quotient that isn't is rounded.
EXACT, ROUNDED = Context(prec=100, traps=[InvalidOperation]), Context(prec=28)
MOST_TICKS = 10**9


def number_in(least: int, most: int) -> Callable[[str], int]:
    """What reads a number within these limits from a word."""

    def number(text: str) -> int:
        if not (text.isascii() and text.isdigit() and len(text) <= 20 and least <= int(text) <= most):
            raise argparse.ArgumentTypeError(f"a number from {least} to {most} is wanted")
        return int(text)

    return number


class Times:
    """Goes from the times of a table's rows to steps, or back, with so many ticks in a unit of time."""

    def __init__(self, ticks: int, start: str):
        self.ticks = ticks
        self.before: Decimal | None = None
        try:
            self.now = EXACT.multiply(decimal_in(start), ticks)
        except Refused as refused:
            raise Refused(f"--start: {refused}") from None

    def step(self, text: str) -> int:
        """The step to this time since the one before; 0 at the first."""
        try:
            time = EXACT.multiply(decimal_in(text), self.ticks)
        except Refused as refused:
            raise Refused(f"column time: {refused}") from None
        if time != time.to_integral_value():
            raise Refused(f"column time: {text} is no whole number of ticks: {self.mend(text)}")
        step = 0 if self.before is None else int(EXACT.subtract(time, self.before))
        if self.before is not None and step <= 0:
            raise Refused(f"column time: times rise, and {text} doesn't")
        if step > GREATEST:
            raise Refused(f"column time: a step is at most {GREATEST}")
        self.before = time
        return step

    def mend(self, text: str) -> str:
        """With how many ticks the time is whole, where that may be meant."""
        ticks = self.ticks
        while ticks < MOST_TICKS:
            ticks *= 1000
            time = EXACT.multiply(decimal_in(text), ticks)
            if time == time.to_integral_value():
                return f"try --ticks {ticks}"
        return "round the times"

    def time(self, step: int) -> str:
        """The time that is so many ticks behind the one before."""
        self.now = EXACT.add(self.now, step)
        EXACT.clear_flags()
        time = EXACT.divide(self.now, self.ticks)
        text = f"{ROUNDED.divide(self.now, self.ticks) if EXACT.flags[Inexact] else time:f}"
        return text.rstrip("0").rstrip(".") if "." in text else text


def decimal_in(text: str) -> Decimal:
    """The decimal number that a time is."""
    try:
        time = Decimal(text)
    except InvalidOperation:
        raise Refused(f"{text or 'nothing'} is no time") from None
    if not time.is_finite():
        raise Refused(f"{text} is no time")
    if len(time.as_tuple().digits) > MOST_DIGITS or abs(time.adjusted()) > MOST_DIGITS:
        raise Refused(f"a time has at most {MOST_DIGITS} digits")
    return time
