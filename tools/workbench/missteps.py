"""Why a certificate is refused: the step, what stands at its place, the law, and the first difference."""
import re

from model.trees import at, at_text, children, difference, is_network
from workbench.laws import LAWS, unlike
from workbench.program import answered
from front.spell import shown_type
from workbench.source import core, read_file, read_steps
from workbench.telling import Told, short
from workbench.tracing import steps_shown


def of_steps(fault, files):
    """What is told of a fault of a certificate's steps; None where the steps have no such fault."""
    name, _ = files.certificate()
    if fault == "inputs differ":
        source, target = (files.program(role) for role in ("source", "target"))
        return Told(f"the inputs differ: {shown_type(source.input)} and {shown_type(target.input)}", name)
    if fault == "ends elsewhere":
        return of_end(files)
    found = re.fullmatch(r"(no position|no match|ill typed) at step (\d+)", fault)
    return of_step(found.group(1), int(found.group(2)), files) if found else Told(fault, name)


def of_end(files):
    """Where the steps of a certificate end, in the place of its target; None where that is it."""
    target = files.program("target")
    found = difference(network_made(files.paths), target.file.tree)
    if found is None:
        return None
    where, made, wanted = found
    return Told(f"the steps end elsewhere: at {at_text(where)} they make {short(made)}, and the target has {short(wanted)}", files.names["certificate"])


def network_made(paths, first=10_000):
    """The network that the first steps lead to."""
    text = answered(["apply", paths["source"], paths["certificate"], "--first", str(first)])
    return read_file("", text).tree


def of_step(fault, number, files):
    """What is told of the step that is refused; None where that one isn't."""
    name, data = files.certificate()
    paths = files.paths
    steps = steps_shown(paths["source"], paths["certificate"])
    if number != len(steps) or steps[-1].after is not None:
        return None
    step = steps[-1]
    law, direction, position, given, start, end = read_steps(data)[number - 1]
    told, where = Told("", name, data, start, end - start), at_text(position)
    if step.before is None:
        told.why = f"step {number}: {nothing_there(network_made(paths, number - 1), position)}"
        return told
    if fault == "ill typed":
        why, note = f"with {law} {direction} the network has no type, or another one at {where}, or it is over a limit", ""
    else:
        why, note = no_match(law, direction, where, given, step)
    told.why = f"step {number}: {why}"
    told.notes = [f"at {where} stands {short(step.before)}", f"{law}: {LAWS[law].left} = {LAWS[law].right}", note]
    return told


def nothing_there(tree, position):
    """That nothing stands at a position, and what stands above it."""
    above = next(position[:depth] for depth in reversed(range(len(position))) if at(tree, position[:depth]) is not None)
    there = at(tree, above)
    return f"nothing stands at {at_text(position)}: {at_text(above)} is {short(there)}, which has {len(children(there))} parts"


def no_match(law, direction, where, given, step):
    """Why a step's law doesn't fit what stands at its place, and a note on it."""
    if is_network(step.before) != (law[0] == "L"):
        kind, stands = ("networks", "an expression") if law[0] == "L" else ("expressions", "a network")
        return f"{law} is a law of {kind}, and at {where} stands {stands}", ""
    if direction == "forward" and given:
        return "a step forward has no tree", ""
    if direction == "forward":
        return f"what stands at {where} doesn't have the form of {law}'s left side", first_difference(law, step.before)
    if given is None:
        return f"a step backward has a tree, from which {law} leads to what stands at {where}", ""
    if step.led is None:
        return f"the tree given doesn't have the form of {law}'s left side", first_difference(law, core(given)[0])
    there, made, stands = difference(step.led, step.before)
    note = f"the first difference is at {at_text(there)} in it: {short(made)} is made, and {short(stands)} stands there"
    return f"the tree given leads by {law} to another tree than stands there", note


def first_difference(law, tree):
    """Where a tree first differs from a law's left side."""
    found = unlike(law, tree)
    if found is None:
        return ""
    there, wanted = found
    return f"the first difference is at {at_text(there)} in it: {short(wanted)} is wanted, and {short(at(tree, there))} stands there"
