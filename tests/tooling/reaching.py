"""What `prove` tells of random machines of few states, beside a search of all their states here, which knows tables and no networks."""
import os
import random
from dataclasses import dataclass

from tooling.common import want
from tooling.trusting import made, told_by

NEEDS = ["z3"]
# How many machines are asked about, which ways are asked, and of how many the search of states must decide each.
MACHINES, WAYS = 200 if os.environ.get("DEAR") else 8, ("states", "induction", "integers", "spacer", "reached", "narrow")
# The steps of machines that look at the time, and within how many more ticks what shall not come about in time may come.
STEPS, LATE = (1, 2), 9


@dataclass
class Table:
    """A machine: what it outputs and what its next state is, by its state and a truth."""

    rows: list

    @property
    def net(self):
        """As a network of an Int, of which only is asked whether it is above 0."""
        chosen = "unit"
        for state, (no, yes) in reversed([*enumerate(self.rows)]):
            row = f"(if (less 0 (fst x)) (pair {yes[0]} {yes[1]}) (pair {no[0]} {no[1]}))"
            chosen = row if chosen == "unit" else f"(if (equal (snd x) {state}) {row} {chosen})"
        return f"(loopPre 0 (arr {chosen}))"

    def step(self, state, truth):
        return self.rows[state][truth]


def random_table(rng):
    count = rng.randint(2, 7)
    return Table([[(rng.randint(-2, 3), rng.randrange(count)) for _ in range(2)] for _ in range(count)])


# ---- two machines together: the network of both, the first state, what a truth leads to, an output and a state, and what else the
# recordings keep to


def side_by_side(_rng, one, other):
    def step(state, truth, _ticks):
        (a, left), (b, right) = one.step(state[0], truth), other.step(state[1], truth)
        return (a, b), (left, right)

    return f"(&&& {one.net} {other.net})", (0, 0), step, {}


def chained(_rng, one, other):
    """The second hears what the first outputs."""

    def step(state, truth, _ticks):
        a, left = one.step(state[0], truth)
        b, right = other.step(state[1], a > 0)
        return (a, b), (left, right)

    return f"(>>> {one.net} (&&& identity {other.net}))", (0, 0), step, {}


def delayed(_rng, one, other):
    """The second is a sample late, and outputs 0 before."""

    def step(state, truth, _ticks):
        (a, left), (b, right) = one.step(state[0], truth), other.step(state[1], truth)
        return (a, state[2]), (left, right, b)

    return f"(&&& {one.net} (>>> {other.net} (iPre 0)))", (0, 0, 0), step, {}


def switched(_rng, one, other):
    """The first runs until it outputs 3; from that sample on the second, from its start. The pair has 7 or 8 for which of them runs."""

    def step(state, truth, _ticks):
        if state[0] == 0:
            a, left = one.step(state[1], truth)
            if a != 3:
                return (a, 7), (0, left)
        b, right = other.step(state[1] if state[0] else 0, truth)
        return (b, 8), (1, right)

    event = "(arr (pair (pair x 7) (if (equal x 3) (event x) (none Int))))"
    return f"(switch (>>> {one.net} {event}) (>>> {other.net} (arr (pair x 8))))", (0, 0), step, {}


def paced(rng, one, other):
    """The second hears whether the time, which is last in the state, has reached a multiple of a number since the sample before."""
    often = rng.randint(2, 4)

    def step(state, truth, ticks):
        now = 0 if state[2] is None else state[2] + ticks
        a, left = one.step(state[0], truth)
        b, right = other.step(state[1], now // often > (state[2] or 0) // often)
        return (a, b), (left, right, now)

    heard = f"(>>> (repeatedly {often} unit) (arr (on x 0 1)))"
    pace = {"most": max(STEPS), "total": rng.randint(1, 9), "samples": rng.choice([None, rng.randint(1, 6)])}
    return f"(&&& {one.net} (>>> {heard} {other.net}))", (0, 0, None), step, pace


def depths_of(first, step, total=None, samples=None):
    """The number of the sample at which each pair of numbers is output first, where the time is known within so many ticks, of at most so
    many samples."""
    found, seen, level, depth = {}, {first}, [first], 0
    while level and depth != samples:
        depth += 1
        behind = []
        for output, state in (step(state, truth, ticks) for state in level for truth in (False, True) for ticks in STEPS):
            if total is not None and state[-1] > total:
                continue
            found.setdefault(output, depth)
            if state not in seen:
                seen.add(state)
                behind.append(state)
        level = behind
    return found


# ---- what is told of them


def question_of(net, pair, pace):
    from workbench.proving.question import Pace, Question

    never = f"(arr (not (and (equal (fst x) {pair[0]}) (equal (snd x) {pair[1]}))))"
    return Question("Int", (made(f"(>>> {net} {never})"),), pace=Pace(ints=(0, 1), **pace))


def random_case(number):
    """A network, a pair of numbers, at which sample it is output first, if it ever is, and what recordings keep to."""
    rng = random.Random(f"reaching {number}")
    made_of = rng.choice([side_by_side, chained, delayed, switched, paced])
    net, first, step, pace = made_of(rng, random_table(rng), random_table(rng))
    depths = depths_of(first, step, pace.get("total"), pace.get("samples"))
    later = depths_of(first, step, pace["total"] + LATE) if pace else {}
    pairs = sorted(depths, key=lambda pair: (depths[pair], pair))
    never = sorted({*later} - {*depths}) or [(a, b) for a in range(-2, 4) for b in (*range(-2, 4), 7, 8) if (a, b) not in depths]
    pair = rng.choice([pairs[-1], rng.choice(never or pairs)])
    return net, pair, depths.get(pair), pace


def all_ways_agree():
    from workbench.proving.told import Holds, Wrong

    open_ = []
    for number in range(MACHINES):
        net, pair, depth, pace = random_case(number)
        told = {way: told_by(question_of(net, pair, pace), way) for way in WAYS}
        for way, one in ((way, one) for way, found in told.items() for one in found):
            right = isinstance(one, Holds) and depth is None or isinstance(one, Wrong) and depth is not None
            want(f"{way} of machine {number}", right and (depth is None or one.recording.count(b"\n") >= depth), f"{depth} {one} {net} {pair}")
        least = [one.recording.count(b"\n") for one in told["states"] if isinstance(one, Wrong)]
        want(f"states of machine {number}", bool(told["states"]) and least in ([], [depth]), f"{depth} {told['states']} {net} {pair}")
        open_ += [number] if not any(told.values()) else []
    want("machines that stay open", not open_, open_)


def try_all() -> None:
    all_ways_agree()
