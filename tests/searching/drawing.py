"""Draws the random walks that tests/searching/walked holds.

Of each example so many walks by the laws of versions 1 and 2, and so many by all laws, by a seed that is its name and the walk's number:
from its network 30 steps forward, or fewer where no more are possible, drawn evenly from all those that `laws` prints of the network that
the ones before lead to: one, or of many one in five, none of them below another. Equal walks are kept once, so an example with few steps
has few walks. Of so many steps as are asked for, walks by all laws are drawn that aren't kept.
"""
import random
import tempfile
from pathlib import Path

from searching.calls import Caller
from searching.walks import EXAMPLES, WALKED, certificate_of, ends_found, is_older

WALKS = 10
STEPS = 30
HEAD = "; A walk a line: the example, and steps forward from its network, each a law and a position; drawn by tests/searches --draw."


def possible(caller, net, by_all):
    """The steps that `laws` prints, each a law and the numbers of its position: by all laws, or by those of versions 1 and 2."""
    status, output, error = caller.call("laws", net)
    if status:
        raise ValueError(f"laws: status {status}, {error!r}")
    steps = [line[6:-2].replace(" forward (at", "") for line in output.splitlines() if line.startswith("(step ")]
    return [step for step in steps if by_all or is_older(step)]


def drawn(choices, draws, room):
    """Some of the steps, none below another."""
    taken: list[list[str]] = []
    for step in map(str.split, draws.sample(choices, len(choices))):
        if len(taken) < min(room, max(1, len(choices) // 5)) and not any(beneath(step[1:], other[1:]) for other in taken):
            taken.append(step)
    return [" ".join(step) for step in taken]


def beneath(one, other):
    """Whether one of two positions is below the other, or both are one."""
    return all(first == second for first, second in zip(one, other))


def walk_of(caller, source, draws, by_all, most=STEPS):
    """A walk from a network, and the text of where it ends."""
    steps, net, output = [], source, ""
    while len(steps) < most and (choices := possible(caller, net, by_all)):
        steps += (taken := drawn(choices, draws, most - len(steps)))
        status, output, error = caller.call("apply", net, caller.file(certificate_of(taken)))
        if status:
            raise ValueError(f"apply {taken}: status {status}, {error!r}")
        net = caller.file(output)
    return steps, output


def drawn_found(caller, name, count, walks):
    """What is wrong with what `certify` prints from an example to the ends of walks of so many steps, what it finds, and how much of it."""
    source = str(EXAMPLES / name / "net")
    taken = [walk_of(caller, source, random.Random(f"{name} {count} {number}"), True, count) for number in range(walks)]
    ends = {"; ".join(steps): (f"walk {number}", f"walks of {count} steps", end, count) for number, (steps, end) in enumerate(taken) if len(steps) == count}
    return ends_found(caller, source, list(ends.values()))


def walks_of(job):
    """The different walks of an example, each a line."""
    program, name = job
    lines = []
    with tempfile.TemporaryDirectory(prefix="walks-") as folder:
        caller = Caller(program, folder)
        for number in range(2 * WALKS):
            steps, _ = walk_of(caller, str(EXAMPLES / name / "net"), random.Random(f"{name} {number}"), by_all=number >= WALKS)
            lines += [f"{name}: {'; '.join(steps)}"] if steps else []
    return list(dict.fromkeys(lines))


def drawn_from():
    """The names of the examples that walks are drawn from."""
    return sorted(net.parent.name for net in Path(EXAMPLES).glob("*/net"))


def draw(pool, program):
    """Writes the walks of all examples anew."""
    found = pool.map(walks_of, [(program, name) for name in drawn_from()], chunksize=1)
    WALKED.write_text("\n".join([HEAD, *(line for lines in found for line in lines), ""]))
    return sum(map(len, found))
