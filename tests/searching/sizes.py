"""What commands tell of the families of large networks: each ends, within its memory, with an answer that it may give."""
from searching.calls import found_within, steps_in, told_of

# The most steps that each takes, and the most bytes of a line of `laws` that isn't a step.
MOST_STEPS = {"optimise": 1_000, "improve": 10_000}
LINE = 102


def family_found(caller, text):
    """What is wrong with what the commands tell of a network, what they found, and how much of it."""
    net = caller.file(text)
    faults = [fault for view in (types_fault, outline_fault, laws_fault) if (fault := view(caller, net))]
    found = [rewriting_ends(caller, net, command) for command in MOST_STEPS]
    counts = [sum(column) for column in zip(*(count for _, _, count in found))]
    return sum([more for more, _, _ in found], faults), ", ".join(said for _, said, _ in found), {"families": counts}


def types_fault(caller, net):
    status, output, error = caller.call("types", net)
    return "" if (status, error) == (0, "") and output.count("\n") == 3 else f"types: status {status}, {error!r}"


def outline_fault(caller, net):
    """Whether each row stands behind the one that it is inside of."""
    status, output, error = caller.call("outline", net)
    if (status, error) != (0, ""):
        return f"outline: status {status}, {error!r}"
    positions = [row.partition("\t")[0].strip() for row in output.splitlines()]
    inside = all(position == "(at)" or position.rpartition(" ")[0] + ")" in ("(at)", *last_path(before)) for before, position in zip(["(at)", *positions], positions))
    return "" if inside else "outline: a row isn't below an earlier one"


def last_path(position):
    """The position, and all that it is inside of."""
    numbers = position[1:-1].split(" ")[1:]
    return [f"(at{''.join(f' {number}' for number in numbers[:count])})" for count in range(len(numbers) + 1)]


def laws_fault(caller, net):
    """Whether steps are told in lines, and the last one can be taken."""
    status, output, error = caller.call("laws", net)
    lines = output.splitlines()
    if (status, error) != (0, "") or len(lines) % 3:
        return f"laws: status {status}, {len(lines)} lines, {error!r}"
    steps, *trees = lines[::3], lines[1::3], lines[2::3]
    if not all(step.startswith("(step ") for step in steps) or any(len(line) > LINE for tree in trees for line in tree):
        return "laws: a line is too long"
    if not steps:
        return ""
    told = caller.call("apply", net, caller.file(f"laws 4\n{steps[-1]}\n"))
    return "" if told[0] == 0 else f"laws: the last step: {told}"


def rewriting_ends(caller, net, command):
    """What is wrong with what the command makes of a network, what `certify` finds to that, and whether it is few steps."""
    status, output, error = caller.call(command, net)
    printed = caller.call(command, net, "--certificate")
    if (status, error) != (0, "") or printed[0] != 0:
        return [f"{command}: status {status}, {error!r}; {printed[0]}, {printed[2]!r}"], command, (1, 0, 0)
    target, steps = caller.file(output), steps_in(printed[1])
    checked = caller.call("check", net, target, caller.file(printed[1]))
    found, fault = caller.certified(net, target)
    right = checked == (0, f"accepted {steps}\n", "") and steps <= MOST_STEPS[command]
    faults = [] if right else [f"check of {command}: {checked}, {steps} steps"]
    faults += [f"certify, {command}: {fault}"] if fault else []
    why = "" if isinstance(found, int) else f" ({found})"
    return faults, f"{command} {told_of(found)} of {steps}{why}", (1, isinstance(found, int), found_within(found, steps))
