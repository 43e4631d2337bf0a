"""The types of parts of a network that the program refuses as a whole: it is asked of each part in the part's environment.

A part is put into a network that is walked as the whole is, up to the part, and in which what comes behind the part needs nothing
of it: so it has the input there, the parameters and the frozen networks that it has in the whole. Many such networks, as the
members of one, make one file, of which `outline` tells the types.
"""
import re

from model.texts import network_text
from model.trees import SWAP, at, head, shown
from workbench.outline import SWITCHES, rows_of
from workbench.program import call, kept

MEMBERS = 64
# What one file asks at most, that is within its limits.
MOST_BYTES = 500_000


def asked(file, questions, base=()):
    """The type that the program tells for each question, a position and the part that stands there in its place, up to the first
    part that it refuses; or None where it tells nothing, since the file that it is asked with is over a limit. All positions are
    that of the base, or below it."""
    types = []
    for part in together(questions):
        found = asked_at_once(file, part, base)
        if found is None:
            return None
        types += found
        if len(found) < len(part):
            break
    return types


def together(questions):
    """The questions, as many together as one file can ask."""
    part, size = [], 0
    for question in questions:
        length = len(shown(question[1]))
        if part and (len(part) == MEMBERS**2 or size + length > MOST_BYTES):
            yield part
            part, size = [], 0
        part.append(question)
        size += length
    if part:
        yield part


def asked_at_once(file, questions, base):
    """The same of questions that one file asks."""
    if not questions:
        return []
    nets, places = zip(*[cut(at(file.tree, base), position[len(base) :], part) for position, part in questions])
    groups = [members(nets[start : start + MEMBERS]) for start in range(0, len(nets), MEMBERS)]
    net, before = cut(file.tree, base, members(groups))
    with kept(network_text(file.input, net)) as name:
        told = call(["outline", name])
    if told.status:
        number = refused_number(told.fault(), before)
        return None if number is None else asked_at_once(file, questions[:number], base)
    rows = rows_of(told.output)
    return [rows[(*before, number // MEMBERS, 0, number % MEMBERS, 0, *place)].type for number, place in enumerate(places)]


def refused_number(fault, before):
    """The number of the question whose part is refused; none where a limit is: that may be for what was put around the part."""
    found = re.search(r"\(at([ \d]*)\)", fault)
    position = tuple(map(int, found.group(1).split())) if found and "deep" not in fault else ()
    inside = position[len(before) :]
    return inside[0] * MEMBERS + inside[2] if position[: len(before)] == before and len(inside) > 3 else None


def asked_by_name(file, questions, base):
    """The same of questions that have names: the types by name."""
    types = asked(file, list(questions.values()), base)
    return None if types is None else dict(zip(questions, types))


def members(nets):
    """The networks side by side, as members of one type."""
    return ("parB", *map(dropped, nets))


def dropped(net):
    """The network without its output."""
    return (">>>", net, ("arr", "unit"))


def cut(tree, position, part):
    """A network in which the part has the environment that it would have at that position of the tree, and its place there."""
    place = ()
    for depth in reversed(range(len(position))):
        part, before = around(at(tree, position[:depth]), position[depth], part)
        place = before + place
    return part, place


# ---- what stands around a part


def around(whole, number, part):
    """What gives the part the environment of that child of the whole, where it itself stands in the whole's; and its place there."""
    match whole, number:
        case (">>>" | "then" as word, before, _), 1:
            return (word, before, part), (1,)
        case (("arr" | "first" as word, _), 0):
            return (word, part), (0,)
        case (("loopPre" | "-->" | ">--" | "iPre" | "hold" | "delay" | "after" | "repeatedly", *_), 0) | (("accumBy", *_), 1):
            return ("arr", ("then", "unit", part)), (0, 1)
        case ("accumBy", _, start), 0:
            return at_event("x", ("pair", ("then", "unit", start), ("snd", "x")), part)
        case ("loopPre", constant, _), 1:
            return (">>>", ("arr", ("pair", "x", ("then", "unit", constant))), part), (1,)
        case ("on", event, _, _), 2:
            return ("on", event, "unit", ("then", part, "unit")), (2, 0)
    return in_switch(whole, number, part) if head(whole) in SWITCHES else (part, ())


def in_switch(whole, number, part):
    """The same in a switch."""
    match whole, number:
        case (("switch" | "dSwitch" as word, first, _), 1):
            return (word, (">>>", first, ("arr", ("pair", "unit", ("snd", "x")))), dropped(part)), (1, 0)
        case (("rSwitch" | "drSwitch" as word, _, _), 1):
            return (word, ("arr", "unit"), dropped(part)), (1, 0)
        case ("kSwitch", first, _, _), 1:
            return (">>>", with_output(first), part), (1,)
        case ("kSwitch", first, watch, _), 2:
            return ("kSwitch", first, watch, beside(part, first)), (2, *BESIDE)
        case (("switch" | "dSwitch" | "kSwitch", *_), 0):
            return part, ()
        case ("pSwitch", *_), _:
            return in_collection(whole, number, part)
        case ("rpSwitchB", (_, *nets), choice, _), _ if number == len(nets):
            return at_event(("snd", "x"), ("snd", "x"), part)
        case ("rpSwitchB", (_, *nets) as started, choice, _), _ if number > len(nets):
            return ("rpSwitchB", started, choice, beside(part, nets[0] if nets else part)), (number, *BESIDE)
    return (">>>", ("arr", ("fst", "x")), part), (1,)


def in_collection(whole, number, part):
    """The same in a `pSwitch`."""
    _, route, (_, *nets), watch, _ = whole

    def routed(net):
        return (">>>", ("arr", ("then", ("pair", "x", 0), route)), net)

    together = ("parB", *map(routed, nets))
    if number == 0:
        return ("arr", ("then", ("pair", "x", 0), part)), (0, 1)
    if number <= len(nets):
        return routed(part), (1,)
    if number == len(nets) + 1:
        return (">>>", with_output(together), part), (1,)
    return ("pSwitch", route, ("col", *nets), watch, beside(part, together)), (number, *BESIDE)


def at_event(event, given, part):
    """A network that computes the part where `event` is one, from what is given to it; and the part's place."""
    return ("arr", ("on", event, "unit", ("then", ("then", given, part), "unit"))), (0, 2, 0, 1)


def with_output(net):
    """The pair of the sample and of what the network outputs on it."""
    return (">>>", ("arr", ("pair", "x", "x")), (">>>", ("first", net), ("arr", SWAP)))


def beside(part, net):
    """Outputs what the network does; the part runs beside it."""
    return (">>>", ("arr", ("pair", "x", "x")), (">>>", ("first", dropped(part)), (">>>", ("arr", ("snd", "x")), net)))


BESIDE = (1, 0, 0, 0)
