"""The encoding that z3 is given, beside the program: random networks, each sample's output, with numbers and with z3's terms."""
import os
import random

from generator.making import Maker
from model.texts import network_text, read_stream
from model.trees import expanded, head, is_network, preorder, shown
from model.typed import TypeFault, check_types, weight
from workbench.ending import Refused
from workbench.program import call, kept

from tooling.common import leave_out, want

NEEDS = ["z3"]
# How many networks, in how many seconds of a processor.
NETWORKS, SECONDS, LISTS, LEAVES, HEAVY, STEPS = 500, 30, 5, 1_000, 3_000, 12
FORMS = "arr >>> first parB loopPre iPre delay hold accumBy after repeatedly time integral switch dSwitch rSwitch kSwitch pSwitch old --> >-- drSwitch rpSwitchB".split()


def case(number):
    """A random network that runs on a random stream: its input type, itself, the stream's samples and the lines of the output."""
    maker = Maker(random.Random(f"encoding {number}"))
    given = maker.type()
    net = expanded(maker.any_network(given, maker.rng.choice([1, 2, 3, 4, 5])))
    stream = b"".join(maker.stream(given)[:STEPS])
    try:
        if weight(net) > HEAVY:
            return None
        check_types(given, net)
    except TypeFault:
        return None
    with kept(network_text(given, net)) as name:
        told = call(["run", name], stream)
    return None if told.status else (given, net, read_stream(stream, given)[0], told.output.decode().splitlines())


def longest_list(value):
    """How many elements the longest list in a value has."""
    if not isinstance(value, tuple):
        return 0
    return max([len(value) - 1 if value[0] == "list" else 0, *map(longest_list, value[1:])])


def long_delays(net):
    """Whether a delay keeps very many samples, so that an unknown state of it is large."""
    return any(head(tree) == "delay" and tree[1] > LEAVES for _, tree in preorder(net))


def compared(number):
    """What the encoding makes of a case: how often its outputs are the program's, the forms in it, and what differs."""
    found = case(number)
    if found is None:
        return None
    given, net, samples, wanted = found
    forms = {head(tree) for _, tree in preorder(net) if is_network(tree)}
    from workbench.proving.question import Pace, Question
    from workbench.proving.system import System
    from workbench.proving.terms import Terms

    longest = max((longest_list(value) for _, value in samples), default=0)
    question = Question(given, (net,), ("arr", "true"), pace=Pace(lists=min(longest, LISTS)))
    system = System(question, Terms())
    output = check_types(given, net).output
    ways = [("numbers", by_numbers(system, samples, output))]
    try:
        if longest <= LISTS and not long_delays(net) and len(system.truths) <= LEAVES:
            ways.append(("terms", by_terms(system, samples, output)))
    except Refused:
        pass
    told = [f"{shown(given)} {shown(net)} by {way}: {found} and {wanted}" for way, found in ways if found != wanted]
    return [way for way, _ in ways], forms, told


def by_numbers(system, samples, output):
    """The outputs where all is known."""
    from workbench.proving.values import decoded, encoded

    machine, state, lines = system.machines[0], system.start[1], []
    for number, (step, value) in enumerate(samples):
        made, state = machine.step(state, step if number else 0, encoded(value, system.question.given), system.env)
        lines.append(shown(decoded(made, output)))
    return lines


def by_terms(system, samples, output):
    """The outputs where the step's terms, of an unknown state, step and input, are given what they stand for."""
    import z3
    from workbench.proving.terms import formula, is_known, is_truth
    from workbench.proving.values import decoded, encoded, leaves, padded, rebuilt

    (_, before, *_), _ = system.unknown("before")
    step, (_, sample, _) = z3.BitVec("step", 64), system.sample("sample", False)
    made, after = system.machines[0].step(before, step, sample, system.env)
    terms = [formula(leaf) if is_truth(leaf) else system.terms.number(leaf) for leaf in [*leaves(padded(after, system.shape[1])), *leaves(made)]]
    whole = z3.Function("all", *[term.sort() for term in terms], z3.BoolSort(), z3.BoolSort())(*terms, z3.BoolVal(True))
    count, state, lines = len(terms) - len(leaves(made)), leaves(padded(system.start[1], system.shape[1])), []
    variables = [*leaves(before), *leaves(sample), step]
    for number, (length, value) in enumerate(samples):
        values = [*state, *leaves(padded(encoded(value, system.question.given), sample)), length if number else 0]
        known = [(variable, formula(leaf) if is_truth(leaf) else z3.BitVecVal(leaf, 64)) for variable, leaf in zip(variables, values) if not is_known(variable)]
        found = [plain(term) for term in z3.simplify(z3.substitute(whole, *known)).children()]
        state = found[:count]
        lines.append(shown(decoded(rebuilt(made, iter(found[count:])), output)))
    return lines


def plain(term):
    """What a z3 constant is."""
    import z3

    return z3.is_true(term) if z3.is_bool(term) else term.as_signed_long()


def processor_seconds() -> float:
    """How long a processor has worked for this process and the runs of the program."""
    return sum(os.times()[:4])


def try_all() -> None:
    until, number, ways, forms, told = processor_seconds() + SECONDS, 0, [], set(), []
    while ways.count("numbers") < NETWORKS and processor_seconds() < until:
        found = compared(number)
        number += 1
        if found:
            ways += found[0]
            forms |= found[1]
            told += found[2]
    want("the encoding does what the program does", not told, "\n".join(told[:3]))
    want("networks that were encoded", ways.count("numbers") >= NETWORKS // 5 and ways.count("terms") >= NETWORKS // 10, ways)
    want("all forms were encoded", forms == {*FORMS}, {*FORMS} - forms)
    if ways.count("numbers") < NETWORKS:
        leave_out(f"more than {ways.count('numbers')} of {NETWORKS} encodings, for want of time")
