"""A network of a family, and one of the same types that is nearly it but outputs other values, as `run` shows: no steps lead from one to the other."""
import re

from searching.families import families
from searching.pairs import APART

# The nodes that the searches may visit together where they find nothing: 28 million at weights of 1,500, and 45 are all budgets.
MOST_VISITED = 39_000_000
# The shares of weights of 1,500 and of 5,000.
SHARES = 0.3, 1
# A number of a stage; not that of a parameter or of a frozen network.
NUMBER = re.compile(r"(?<=[ (])(?<!\(p )(?<!\(old )\d+(?=[ )])")
# So many samples that a change in the middle of the longest chain of cells is output.
SAMPLES = 1_300
VALUES = {"Int": "{0}", "(Pair Int Int)": "(pair {0} {1})", "(Event Int)": "(event {0})"}


def changed(net):
    """The network with one more for the number in its middle."""
    numbers = list(NUMBER.finditer(net))
    number = numbers[len(numbers) // 2]
    return f"{net[:number.start()]}{int(number[0]) + 1}{net[number.end():]}"


def longer(net):
    """The network with a stage more."""
    return f"(>>> {net} (arr (add x 1)))"


# What is done to which families, and to which only where all is tried.
CHANGES = {
    changed: (
        ("sums balanced", "cells balanced", "loops balanced", "firsts balanced", "members behind a cell"),
        ("sums nested right", "cells nested left", "loops nested right", "sums of both balanced", "switches balanced", "swaps balanced", "members frozen", "events of events", "pairs before sums"),
    ),
    longer: (("clocks balanced",), ("identities balanced", "switches in switches", "frozen in frozen", "doubled in the first part")),
}


def stream_of(kind):
    """A stream of values of a type."""
    return "".join(f"{'+1 ' * (k > 0)}{VALUES[kind].format(k * 37 % 101 - 9, k)}\n" for k in range(SAMPLES))


def crossed(dear):
    """What they are, the texts of the two networks, and a stream."""
    for share in SHARES if dear else SHARES[:1]:
        texts = families(share)
        for change, (usual, others) in CHANGES.items():
            for name in usual + others if dear else usual:
                version, kind, net = texts[name].splitlines()
                other = "\n".join([version, kind, change(net), ""])
                yield f"{name}, {change.__name__}, at a share of {share}", texts[name], other, stream_of(kind.removeprefix("input "))


def crossed_ends(caller, first, second, stream):
    """What is wrong with what is told of two networks that are not one, and what `certify` tells."""
    nets, stream = (caller.file(first), caller.file(second)), caller.file(stream)
    types = [caller.call("types", net)[1].partition("\n")[0] for net in nets]
    outputs = [caller.call("run", net, stream=stream) for net in nets]
    found, fault = caller.certified(*nets)
    faults = [fault] if fault else []
    if types[0] != types[1] or outputs[0] == outputs[1] or any(status or error for status, _, error in outputs):
        faults.append("wanted: two networks of the same types that output different values")
    visited = re.search(r", (\d+) nodes visited$", str(found))
    if not str(found).startswith(APART) or visited and int(visited[1]) > MOST_VISITED:
        faults.append(f"wanted: {' or '.join(APART)}, at most {MOST_VISITED} nodes visited")
    return faults, str(found)
