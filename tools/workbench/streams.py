"""Random recordings: values near the numbers of a network, stretches of one value, steps that timers look at."""
import random
from dataclasses import dataclass
from typing import Any, NamedTuple, Optional

from front.shapes import Shape, core_type
from front.spell import is_told, named, shape_of, whole_of
from model.texts import read_value
from model.trees import GREATEST, is_form, shown

LIMITS = [GREATEST, -GREATEST - 1, GREATEST - 1, 2**32, 2**31, 2**62]
LONG_STEPS = [10, 60, 100, 1000, 4096, 2**31, 2**62, GREATEST]
STICKY = [0.0, 0.3, 0.6, 0.9, 0.97]
LENGTH = 60


class Value(NamedTuple):
    """A value with its spelling."""

    value: Any
    text: str


Recording = list  # of pairs of a step and a Value; the first step counts nothing


@dataclass
class Wishes:
    """What recordings are asked for: how long they are at most, which steps they have, how many elements a list has, between which
    the numbers are, and recordings of which those that are made are variations."""

    length: int = LENGTH
    steps: Optional[list[int]] = None
    most_step: int = GREATEST
    lists: int = 5
    ints: Optional[tuple[int, int]] = None
    recordings: tuple = ()


class Streams:
    """Random recordings of a type, of a network in which these numbers stand."""

    def __init__(self, given: Any, numbers: list[int], rng: random.Random, wishes: Wishes):
        self.given, self.rng, self.wishes = given, rng, wishes
        near = {number + by for number in numbers for by in (-1, 0, 1)}
        self.numbers = sorted(number for number in near if -GREATEST - 1 <= number <= GREATEST)
        self.steps = [number for number in self.numbers if 1 <= number <= wishes.most_step] or [1]
        self.long = [step for step in LONG_STEPS if step <= wishes.most_step] or [1]

    def number(self) -> int:
        least, most = self.wishes.ints or (LIMITS[1], GREATEST)
        found = self.any_number()
        return found if least <= found <= most else self.rng.randint(least, most)

    def any_number(self) -> int:
        way = self.rng.random()
        if way < 0.45 and self.numbers:
            return self.rng.choice(self.numbers)
        if way < 0.75:
            return self.rng.randint(-3, 12)
        if way < 0.95:
            return self.rng.randint(-50, 300) if way < 0.85 else self.rng.randint(0, 10_000)
        return self.rng.choice(LIMITS)

    def value(self, type_: Any) -> Any:
        if is_told(type_):
            return self.made(shape_of(type_))
        if type_ == "Int":
            return self.number()
        if not isinstance(type_, tuple):
            return "unit" if type_ == "Unit" else self.rng.choice(["false", "true"])
        if is_form("Pair", type_):
            return ("pair", self.value(type_[1]), self.value(type_[2]))
        if is_form("Event", type_):
            return ("event", self.value(type_[1])) if self.rng.random() < 0.4 else "none"
        return ("list", *[self.value(type_[1]) for _ in range(self.rng.randint(0, self.wishes.lists))])

    def made(self, shape: Shape) -> Any:
        """A name, or a constructor with its parts."""
        one = self.rng.choice(shape.constructors)
        text = whole_of(shape, one, [shown(self.value(named(part))) for _, part in one.parts])
        return read_value(text.encode(), core_type(shape))

    def changed(self, value: Any, type_: Any) -> Any:
        """A value that is another one in one of its parts."""
        if is_told(type_):
            return self.value(type_)
        if type_ == "Int" and self.rng.random() < 0.4:
            return min(max(value + self.rng.choice([-10, -2, -1, 1, 2, 10]), -GREATEST - 1), GREATEST)
        if is_form("Pair", type_):
            part = self.rng.choice([1, 2] + [at for at in (1, 2) if isinstance(type_[at], tuple)] * 2)
            return (*value[:part], self.changed(value[part], type_[part]), *value[part + 1 :])
        if is_form("Event", type_) and value != "none" and self.rng.random() < 0.5:
            return ("event", self.changed(value[1], type_[1]))
        return self.value(type_)

    def pool(self) -> list[Value]:
        """A few values, of which many are alike in all but a part."""
        values = [self.value(self.given)]
        for _ in range(self.rng.choice([0, 1, 1, 2, 3, 5])):
            new = self.changed(self.rng.choice(values), self.given) if self.rng.random() < 0.7 else self.value(self.given)
            values.append(new)
        return [Value(value, shown(value)) for value in values]

    def step_pool(self) -> list[int]:
        if self.wishes.steps:
            return self.wishes.steps
        way = self.rng.random()
        if way < 0.5:
            return [1]
        if way < 0.8:
            return [1, 1, 2, min(3, self.wishes.most_step), self.rng.choice(self.steps)]
        return [1, self.rng.choice(self.steps), self.rng.choice(self.steps), self.rng.choice(self.long)]

    def recording(self) -> Recording:
        if self.wishes.recordings and self.rng.random() < 0.8:
            return self.variation(list(self.rng.choice(self.wishes.recordings)))
        rng, count = self.rng, 1 + int(self.wishes.length * self.rng.random() ** 1.5)
        pool, steps, sticky = self.pool(), self.step_pool(), rng.choice(STICKY)
        found: Recording = []
        value = pool[0]
        while len(found) < count:
            value = rng.choice(pool)
            stretch = 1
            while rng.random() < sticky and stretch < count:
                stretch += 1
            found += [(step, value) for step in rng.choices(steps, k=stretch)]
        return found[:count]

    def variation(self, recording: Recording) -> Recording:
        """A recording that is changed a little: a sample, a stretch, a step, a piece left out or doubled."""
        rng = self.rng
        for _ in range(rng.choice([1, 1, 2, 4])):
            at = rng.randrange(len(recording))
            end = at + rng.choice([1, 1, 3, 10])
            way = rng.randrange(5)
            if way == 0 and len(recording) > end - at:
                del recording[at:end]
            elif way == 1:
                recording[at:at] = recording[at:end]
            elif way == 2:
                recording[at] = (rng.choice(self.step_pool()), recording[at][1])
            else:
                new = self.changed(recording[at][1].value, self.given)
                recording[at:end] = [(step, Value(new, shown(new))) for step, _ in recording[at:end]]
        return recording


def stream_text(recording: Recording) -> bytes:
    """The stream of a recording."""
    lines = [(f"+{step} " if number else "") + value.text for number, (step, value) in enumerate(recording)]
    return "".join(line + "\n" for line in lines).encode()
