"""The order in which the parts of a network stand: those that need each other together, and many of one type side by side."""
from __future__ import annotations

from front.core import spelt
from front.graph import Item

# So many parts of one type are many: they may stand side by side, at most so many.
MANY = 8
MOST_MEMBERS = 64
# Items that need each other, and whether they do.
Part = tuple[list[Item], bool]


class Components:
    """Parts of which each item needs each other, in an order in which each comes after what it needs (by Tarjan's algorithm)."""

    def __init__(self, items: list[Item]):
        self.by_out = {item.out: item for item in items}
        self.number = {item: at for at, item in enumerate(items)}
        self.need = {item: self.needs(item) for item in items}
        self.index: dict[Item, int] = {}
        self.low: dict[Item, int] = {}
        self.stack: list[Item] = []
        self.waiting: set[Item] = set()
        self.found: list[Part] = []
        for item in items:
            if item not in self.index:
                self.visit(item)

    def needs(self, item: Item) -> list[Item]:
        return [self.by_out[var] for var in sorted(item.feed().vars, key=lambda var: var.id) if var in self.by_out]

    def visit(self, first: Item) -> None:
        calls = [(first, iter(self.begun(first)))]
        while calls:
            item, rest = calls[-1]
            for other in rest:
                if other not in self.index:
                    calls.append((other, iter(self.begun(other))))
                    break
                if other in self.waiting:
                    self.low[item] = min(self.low[item], self.index[other])
            else:
                calls.pop()
                if calls:
                    outer = calls[-1][0]
                    self.low[outer] = min(self.low[outer], self.low[item])
                if self.low[item] == self.index[item]:
                    self.close(item)

    def begun(self, item: Item) -> list[Item]:
        self.index[item] = self.low[item] = len(self.index)
        self.stack.append(item)
        self.waiting.add(item)
        return self.need[item]

    def close(self, item: Item) -> None:
        part = []
        while True:
            other = self.stack.pop()
            self.waiting.discard(other)
            part.append(other)
            if other is item:
                break
        cyclic = len(part) > 1 or item in self.need[item]
        self.found.append((sorted(part, key=self.number.__getitem__), cyclic))


def components(items: list[Item]) -> list[Part]:
    return Components(items).found


class Stages:
    """Puts parts into stages: many of one type stand side by side once what they need is there, others one after the other."""

    def __init__(self, parts: list[Part], many: int):
        self.parts, self.many = parts, many
        by_out = {item.out: at for at, part in enumerate(parts) for item in part[0]}
        needs = [{by_out[var] for item in part[0] for var in item.feed().vars if var in by_out} - {at} for at, part in enumerate(parts)]
        self.users: list[list[int]] = [[] for _ in parts]
        for at, some in enumerate(needs):
            for other in some:
                self.users[other].append(at)
        self.waits = [len(some) for some in needs]
        self.left = dict.fromkeys(range(len(parts)))
        # The parts that can stand now, by their types.
        self.ready: dict[tuple, set[int]] = {}
        for at in self.left:
            self.offer(at)

    def offer(self, at: int) -> None:
        if not self.waits[at]:
            self.ready.setdefault(self.type_of(at), set()).add(at)

    def type_of(self, at: int) -> tuple:
        """What parts that stand side by side have in common; one that has a cycle stands alone."""
        items, cyclic = self.parts[at]
        return (at,) if cyclic else (spelt(items[0].feed().ty), spelt(items[0].out.ty), items[0].kind == "cell")

    def all(self) -> list[list[Part]]:
        found = []
        while self.left:
            batch = self.side_by_side() or [next(iter(self.left))]
            for at in batch:
                self.take(at)
            found.append([self.parts[at] for at in batch])
        return found

    def side_by_side(self) -> list[int]:
        """The numbers of many parts of one type that can stand now; or none, where there are few."""
        many = [some for some in self.ready.values() if len(some) >= self.many]
        return sorted(max(many, key=lambda some: (len(some), -min(some))))[:MOST_MEMBERS] if many else []

    def take(self, at: int) -> None:
        del self.left[at]
        self.ready[self.type_of(at)].remove(at)
        for other in self.users[at]:
            self.waits[other] -= 1
            self.offer(other)
