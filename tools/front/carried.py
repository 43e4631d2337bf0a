"""What goes from one stage of a network to later ones: by when each node can be computed, and until when it is wanted."""
from __future__ import annotations

from front.core import Node
from front.graph import Item
from front.places import Env
from front.reach import ALWAYS, NEVER, Reach, greatest, parts_of


class Carried:
    """Of stages with these items, the first of which is 1; what comes out of stage k can be used behind it. At last `out` is wanted."""

    def __init__(self, stages: list[list[Item]], env: Env, out: Node):
        self.comes = Reach(env, {item.out: at for at, items in enumerate(stages, 1) for item in items})
        self.until: dict[Node, int] = {}
        self.stages = len(stages)
        for at, items in enumerate(stages, 1):
            for item in items:
                self.want(item.feed(), at)
        self.want(out, len(stages) + 1)
        self.by_time: dict[int, list[Node]] = {}
        for one, until in self.until.items():
            if ALWAYS < self.comes.time(one) < min(until, NEVER):
                self.by_time.setdefault(self.comes.time(one), []).append(one)
        self.waiting: list[Node] = []

    def want(self, root: Node, at: int) -> None:
        """Notes that a node is wanted at a stage, and its parts by when it can be computed."""
        left = [(root, at)]
        while left:
            one, when = left.pop()
            before, comes = self.until.get(one, 0), self.comes.time(one)
            if not one.vars or when <= before:
                continue
            self.until[one] = when
            # The value of an event comes with what is computed of it, and is wanted as long.
            if comes and (not before or comes == NEVER):
                left += [(part, min(comes, when)) for part in parts_of(one)]

    def count(self) -> int:
        """How many nodes go past stages in all, and how many stages there are."""
        return sum(self.until[one] - time for time, some in self.by_time.items() for one in some) + self.stages

    def leaving(self, at: int) -> list[Node]:
        """The nodes that can be computed behind that stage and not before, and are wanted behind it."""
        return [one for one in self.by_time.get(at, []) if self.until[one] > at]

    def beside(self, at: int, have: Env) -> list[Node]:
        """What goes past a stage, whose output gives what an environment has. It is asked of one stage after the other."""
        had = Reach(have).has
        self.waiting = [one for one in [*self.waiting, *self.by_time.get(at - 1, [])] if self.until[one] > at]
        past = greatest(self.leaving(at), lambda one: self.comes.time(one) < at, had)
        return list(dict.fromkeys([*[one for one in self.waiting if not had(one)], *past]))
