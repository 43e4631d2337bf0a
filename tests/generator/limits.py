"""Files and streams at the limits, and one past them."""
from generator.holding import Command
from model.texts import Step, certificate_text, network_text
from model.trees import NUMBERS
from model.typed import event, pair


def nested(times, around, tree):
    for _ in range(times):
        tree = around(tree)
    return tree


def network(given, net):
    return network_text(given, net).encode()


EVENTS = ("arr", ("pair", "x", ("event", "x")))


class Limits:
    """Makes commands by a source of random numbers: each way has a limit, and is one before it, at it, or one past it."""

    def __init__(self, rng):
        self.rng = rng

    def near(self, limit):
        return limit + self.rng.choice([-1, 0, 0, 1, 1])

    def any(self, number):
        """The commands in turn, so that none is left out."""
        ways = [self.type_depth, self.type_nodes, self.network_height, self.expression_height, self.members, self.weight]
        ways += [self.open, self.range, self.child, self.line, self.leaves, self.steps, self.size, self.inputs, self.grown]
        return ways[number % len(ways)]()

    def type_depth(self):
        given = nested(self.near(32) - 1, event, "Int")
        nets = ["time", ("arr", "x"), ("arr", ("event", "x")), ("iPre", ("none", given[1])), ("after", 1, "unit")]
        return Command("types", [network(given, self.rng.choice(nets))])

    def type_nodes(self):
        given = self.nodes(self.near(256))
        nets = ["time", ("arr", "x"), ("first", "time"), ("loopPre", 0, ("arr", "x"))]
        nets += [("arr", ("pair", "x", "x")), ("arr", ("event", "x"))]
        return Command("types", [network(given, self.rng.choice(nets))])

    def nodes(self, count):
        """A type with so many nodes, and hardly higher than it must be."""
        if count < 3:
            return "Int" if count == 1 else event("Int")
        part = (count - 1) // 2
        return pair(self.nodes(part), self.nodes(count - 1 - part))

    def network_height(self):
        height = self.near(256)
        ways = [lambda f: (">>>", "time", f), lambda f: (">>>", f, "time"), lambda f: ("switch", self.never(), f)]
        return Command("types", [network("Int", nested(height - 1, self.rng.choice(ways), "time"))])

    def never(self):
        return ("arr", ("pair", "x", ("none", "Unit")))

    def expression_height(self):
        around = self.rng.choice([lambda e: ("neg", e), lambda e: ("then", "x", e), lambda e: ("add", 1, e)])
        text = network("Int", ("arr", nested(self.near(256) - 1, around, "x")))
        return Command(self.rng.choice(["types", "run"]), [text], b"5\n")

    def members(self):
        count = self.rng.choice([0, 1, 63, 64, 65])
        parallel = ("parB", *["time"] * count)
        ready = ("arr", ("event", "unit"))
        resumed = ("parB", ("old", 0), ("old", max(count - 1, 0)))
        collection = ("pSwitch", ("fst", "x"), ("col", *["time"] * count), ready, resumed)
        choosing = (">>>", EVENTS, ("rpSwitchB", ("col", *["time"] * count), self.choice(), "time"))
        return Command("run", [network("Int", self.rng.choice([parallel, collection, choosing]))], b"5\n+1 6\n")

    def choice(self):
        """A choice of 63 to 65 members, of those that run and new ones."""
        count = self.near(64)
        kept = self.rng.randint(0, count)
        return ("pair", ("list", "Int", *[0] * kept), ("list", "Int", *["x"] * (count - kept)))

    def weight(self):
        return self.rng.choice([self.chain_weight, self.chain_weight, self.collection_weight])()

    def collection_weight(self):
        """A collection whose member makes the weight 1,000,000, or hardly more or less."""
        net = ("rpSwitchB", ("col", self.balanced(self.near(7_812))), ("pair", ("list", "Int"), ("list", "Int")), ("arr", "x"))
        return Command("types", [network(("Pair", "Int", ("Event", "Int")), net)])

    def balanced(self, count):
        """So many `(arr x)` in a row."""
        if count == 1:
            return ("arr", "x")
        return (">>>", self.balanced(count // 2), self.balanced(count - count // 2))

    def chain_weight(self):
        """A chain in which each frozen network resumes the one before it twice."""
        depth = self.rng.choice([16, 17, 18, 20, 80])
        net = self.tail(depth)
        for level in reversed(range(depth)):
            resumed = ("old", level - 1)
            net = ("kSwitch", (">>>", resumed, resumed) if level else ("arr", "x"), ("arr", ("none", "Unit")), net)
        return Command("types", [network("Int", net)])

    def tail(self, depth):
        """At depth 17 a tail that makes the weight 1,000,000, or hardly more or less."""
        levels = [16, 15, 14, 12, 7, 4, 2, 1] if depth == 17 else [depth - 1]
        parts = [("old", level) for level in levels] + [("arr", "x")] * (self.near(3) if depth == 17 else 1)
        net = parts.pop()
        for part in reversed(parts):
            net = (">>>", part, net)
        return net

    def open(self):
        word = self.rng.choice([b"(>>> ", b"(arr (neg ", b"(first ", b"(switch (switch ", b"(parB "])
        count = self.near(600) // word.count(b"(")
        inside = self.rng.choice([b"time", b"x", b"", b"(old 0)", b"(pSwitch x (col "])
        return Command("types", [b"yampa 1 input Int " + word * count + inside + b")" * self.rng.choice([0, count])])

    def range(self):
        place, numbers = self.rng.choice(sorted(NUMBERS.items()))
        number = self.rng.choice(numbers) + self.rng.choice([-1, 0, 0, 1])
        net = {
            "literal": ("arr", number),
            "level": self.rng.choice([("arr", ("p", number)), ("old", number)]),
            "delay": ("delay", number, 0),
            "after": ("after", number, 0),
            "repeatedly": ("repeatedly", number, 0),
        }.get(place)
        if net is None:
            return self.child(number)
        step = self.rng.choice([2**63 - 1, 2**63, 2**62, 4096, 1])
        return Command("run", [network("Int", net)], f"5\n+{step} 6\n+{step} 7\n".encode())

    def child(self, number=65_536):
        text = network("Int", ("arr", "x"))
        return Command("check", [text, text, f"laws 1 (step E1 forward (at {number}))".encode()])

    def line(self):
        """A line of 65,536 bytes, or one more or less."""
        length = self.near(65_536)
        value = b"(list" + b" 1" * ((length - 8) // 2) + (b" 12)" if length % 2 else b" 1)")
        lines = self.rng.choice([[value], [b"(list)", b"+1 " + value[:5] + value[8:]]])
        return Command("run", [network(("List", "Int"), ("arr", ("len", "x")))], b"\n".join([*lines, b"+1 =\n"]))

    def leaves(self):
        """A network with 4,096 different expressions, or one more."""
        rows = [("parB", *[("arr", ("add", "x", 64 * row + at)) for at in range(64)]) for row in range(64)]
        before = self.rng.choice([[], [("neg", "x")], [("add", "x", 7)]])
        net = ("parB", *rows)
        for e in before:
            net = (">>>", ("arr", e), net)
        return Command("run", [network("Int", net)], b"5\n")

    def steps(self):
        """10,000 steps, or one more or less, from a sum to itself."""
        text = network("Int", ("arr", ("add", "x", 1)))
        steps = [Step("E16", "forward", (0,))] * self.near(10_000)
        return Command("check", [text, text, certificate_text(steps).encode()])

    def grown(self):
        """A step that makes an expression one higher, at the limit of heights."""
        count = self.near(255)
        text = network("Int", ("arr", nested(count, lambda e: ("neg", e), "x")))
        step = Step("E1", "backward", (0,) * (count + 1), ("then", "x", "x"))
        target = network("Int", ("arr", nested(count, lambda e: ("neg", e), ("then", "x", "x"))))
        return Command("check", [text, self.rng.choice([text, target]), certificate_text([step]).encode()])

    def size(self):
        text = network("Int", "time").ljust(self.near(1_048_576), self.rng.choice([b" ", b";", b"\n"]))
        return Command("types", [text])

    def inputs(self):
        texts = [network(given, ("arr", "unit")) for given in self.rng.choices(["Int", "Bool", pair("Int", "Int")], k=2)]
        return Command("check", [*texts, self.rng.choice([b"laws 1", b"laws 2", b"laws 3", b"laws 4", b"laws 5", b"laws 1 (step E1 forward (at 0))"])])
