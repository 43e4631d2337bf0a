"""Each example: what `certify` finds to its `optimise`, to its `improve`, and to the ends of its random walks.

A line of tests/searching/walked is a walk: the example that it starts from, `:`, and its steps, with `;` between them: a law and the
numbers of its position. tests/searching/drawing.py draws them.
"""
from pathlib import Path

from searching.calls import found_within, steps_in, told_of

TOP = Path(__file__).resolve().parent.parent.parent
EXAMPLES = TOP / "examples"
WALKED = TOP / "tests/searching/walked"


# The largest examples: a search to the end of a walk takes up to 40 seconds of a processor, and `improve` does more than `optimise`.
LARGEST = {"arcade", "court", "junction", "plant", "sensors"}
# The greatest numbers of the laws of version 2.
OLDER = {"E": 18, "L": 46}


def is_older(step):
    """Whether the step's law is one of version 1 or 2."""
    law = step.split()[0]
    return int(law[1:]) <= OLDER[law[0]]


def walks():
    """The walks of each example that has one: lists of steps by its name."""
    found: dict[str, list[list[str]]] = {}
    for line in WALKED.read_text().splitlines():
        if not line.startswith("; "):
            name, steps = line.split(": ")
            found.setdefault(name, []).append(steps.split("; "))
    return found


def certificate_of(steps):
    """The text of a certificate with these steps."""
    told = [f"(step {law} forward (at{''.join(f' {k}' for k in path)}))" for law, *path in map(str.split, steps)]
    return "\n".join(["laws 4", *told, ""])


def kind_of(steps):
    """Walks by the laws of versions 1 and 2, or by all laws that there were when they were drawn: those of version 3."""
    return "walks" if all(map(is_older, steps)) else "walks by all laws"


def ends_of(caller, source, taken):
    """The networks to which steps from the source are known: what they are, of which kind, their text, and how many steps lead there."""
    for command in "optimise", "improve":
        yield command, "rewritings", caller.call(command, source)[1], steps_in(caller.call(command, source, "--certificate")[1])
    for number, steps in enumerate(taken):
        yield f"walk {number}", kind_of(steps), caller.call("apply", source, caller.file(certificate_of(steps)))[1], len(steps)


def example_found(caller, name, taken):
    """What is wrong with what `certify` prints of an example, what it finds, and how much of it: of rewritings, and of walks of both kinds."""
    source = str(EXAMPLES / name / "net")
    ends = list(ends_of(caller, source, taken))
    same = name in LARGEST and ends[0][2] == ends[1][2]
    faults, said, counts = ends_found(caller, source, ends)
    return ["improve does no more than optimise"] * same + faults, said, counts


def ends_found(caller, source, ends):
    """What is wrong with what `certify` prints from a network to others, what it finds, and how much of it, by the kind of these."""
    faults, said, counts = [], [], {kind: [0, 0, 0] for _, kind, _, _ in ends}
    for what, kind, target, known in ends:
        found, fault = caller.certified(source, caller.file(target)) if target else (None, "nothing is printed")
        faults += [f"{what}: {fault}"] if fault else []
        said += [f"{what} {told_of(found)} of {known}"] if kind == "rewritings" else []
        for place, more in enumerate((True, isinstance(found, int), found_within(found, known))):
            counts[kind][place] += more
    told = [f"{kind} {found} of {walked}, {few} short" for kind, (walked, found, few) in counts.items() if kind != "rewritings"]
    return faults, ", ".join(said + told), counts
