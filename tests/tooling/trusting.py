"""What z3 proves, beside the program: no way of proof passes what is false, of questions made for that and of random ones."""
import multiprocessing
import os
import random
import resource
import signal
import time
import traceback
from itertools import product

from generator.breaking import Breaker
from generator.making import UNIT_SCOPE, Maker
from model.texts import TextFault, network_text, read_network
from model.trees import GREATEST, expanded, is_form, shown
from model.typed import TypeFault, check_types, weight
from workbench.batches import Observer
from workbench.ending import Refused
from workbench.program import call, kept
from workbench.streams import Streams, Value, Wishes, stream_text

from tooling.common import want

NEEDS = ["z3"]
# How many random questions, how many seconds of a processor a way of proof has for each, and how heavy their networks are at most.
QUESTIONS, SECONDS, HEAVY = 200 if os.environ.get("DEAR") else 15, 1, 80
RECORDINGS, LONGEST = 1_500, 16
# Of a network of truths all recordings of fewer samples than these are run, with one step.
SHORT = 9

# Of an Int: a network, what is assumed and the pace; the program outputs false, and what leaves 64 bits might hide that.
FALSE = [
    ("(arr (less x 0))", [f"(arr (less (add x {GREATEST}) 0))"], {}),
    ("(arr (less x 10))", [f"(arr (equal (add x {GREATEST}) -5))"], {}),
    (f"(>>> (loopPre (add {GREATEST} 1) (arr (pair (snd x) (snd x)))) (arr (less 0 x)))", [], {}),
    (f"(>>> (loopPre 0 (arr (pair (add {GREATEST - 2} (snd x)) (add (snd x) 1)))) (arr (less 0 x)))", [], {}),
    (f"(>>> (&&& (after 1 {GREATEST}) (repeatedly 1 {GREATEST})) (arr (equal (fst x) (snd x))))", [], {"total": GREATEST}),
    ("(>>> (&&& (after 1 unit) (repeatedly 1 unit)) (arr (equal (fst x) (snd x))))", [], {"total": GREATEST}),
    ("(>>> time (arr (less x 9)))", [f"(>>> time (arr (less (mul x {2**62}) 1)))"], {"step": 4}),
    ("(>>> integral (arr (less -1 x)))", ["(arr (less 0 x))"], {}),
]


def made(net):
    return expanded(read_network(f"yampa 2\ninput Int\n{net}".encode())[1])


def asked(net, assumed, pace):
    from workbench.proving.question import Pace, Question

    return Question("Int", (made(net),), assumed=tuple(map(made, assumed)), pace=Pace(**pace))


# ---- random questions


def typed(given, net):
    """The type of what a network outputs; None where it isn't typed, or too heavy."""
    try:
        whole = expanded(net)
        return check_types(given, whole).output if weight(whole) <= HEAVY else None
    except (TypeFault, TextFault):
        return None


def random_question(rng):
    """A random network beside a copy in which something is changed, or within bounds that some recordings show; None where it failed."""
    from workbench.proving.question import ALIKE, Pace, Question

    maker, breaker = Maker(rng), Breaker(rng)
    given = rng.choice(["Int", "Int", "Bool", maker.type(2)])
    net = maker.any_network(given, rng.choice([1, 2, 2, 3, 4]))
    output = typed(given, net)
    if output is None:
        return None
    step, most = rng.choice([(None, None), (None, None), (1, None), (None, 3), (3, None)])
    pace = Pace(step, most, rng.choice([2**62, 20, GREATEST, None]), rng.choice([1, 2]))
    assumed = tuple(random_assumptions(rng, maker, given))
    if rng.random() < 0.5:
        other = breaker.twin(expanded(net))
        return Question(given, (expanded(net), expanded(other)), ALIKE, assumed, pace=pace) if typed(given, other) == output else None
    seen = maker.expression(("Pair", given, output), "Int", UNIT_SCOPE, 2)
    shown_by = expanded((">>>", ("&&&", "identity", net), ("arr", seen)))
    question = Question(given, (expanded(net),), assumed=assumed, pace=pace)
    values = [number for recording in random_recordings(question, rng, 10) for number in numbers_of(given, shown_by, recording)]
    if typed(given, shown_by) is None or not values:
        return None
    inside = ("and", ("not", ("less", seen, min(values))), ("not", ("less", max(values), seen)))
    return Question(given, (expanded(net),), expanded(("arr", inside)), assumed, pace=pace)


def random_assumptions(rng, maker, given):
    if rng.random() < 0.5:
        return
    if given == "Int":
        parts = ["x", ("add", "x", rng.choice([GREATEST, GREATEST - 3])), ("mul", "x", rng.choice([2**62, 2**32, "x"])), ("sub", 3, "x")]
        part = rng.choice(parts)
        yield ("arr", rng.choice([("less", part, rng.randint(-3, 9)), ("and", ("less", -5, part), ("less", part, 7))]))
    else:
        net = expanded(maker.network(given, "Bool", size=2))
        if typed(given, net):
            yield net


def numbers_of(given, net, recording):
    with kept(network_text(given, net)) as name:
        told = call(["run", name], stream_text(recording))
    return [int(line) for line in told.output.split()] if told.status == 0 else []


def random_recordings(question, rng, count):
    """Recordings by the numbers of the networks, and short ones of few values."""
    from workbench.proving.deciding import asked_part

    pace = question.pace
    streams = Streams(question.given, question.numbers, rng, Wishes(LONGEST, pace.steps, pace.most or GREATEST, pace.lists, pace.ints))
    steps = [pace.step] if pace.step else [step for step in (1, 2, 3, 5) if step <= (pace.most or GREATEST)]
    found = [streams.recording() for _ in range(count // 2)]
    if question.given == "Bool":
        found += [[(steps[0], Value(truth, truth)) for truth in truths] for size in range(1, SHORT) for truths in product(("false", "true"), repeat=size)]
    for _ in range(count - count // 2):
        values = [Value(value, shown(value)) for value in (small(question.given, rng, streams.numbers, pace.lists) for _ in range(3))]
        found.append([(rng.choice(steps), rng.choice(values)) for _ in range(rng.randint(1, 7))])
    return list(map(asked_part(question), found))


def small(type_, rng, numbers, lists):
    """One of few values of a type."""
    if type_ == "Int":
        return rng.choice([0, 1, -1, 5, GREATEST, -GREATEST - 1, *numbers])
    if not isinstance(type_, tuple):
        return "unit" if type_ == "Unit" else rng.choice(["false", "true"])
    if is_form("Pair", type_):
        return ("pair", *[small(part, rng, numbers, lists) for part in type_[1:]])
    if is_form("Event", type_):
        return rng.choice(["none", ("event", small(type_[1], rng, numbers, lists))])
    return ("list", *[small(type_[1], rng, numbers, lists) for _ in range(rng.randint(0, lists))])


# ---- what is told of them


def told_of(question):
    """What each way of proof tells by itself, with its name."""
    return [(name, told) for name in ("induction", "cases", "integers", "spacer", "reached", "states") for told in told_by(question, name)]


def told_by(question, name):
    """What a way of proof tells that ends the search, in a process of its own; a fault of its own is told as text."""
    from workbench.proving import search  # noqa: F401  # read here, once for all processes
    from workbench.proving.told import Holds, Unfair, Wrong

    ours, theirs = multiprocessing.Pipe(duplex=False)
    child = os.fork()
    if not child:
        prove(question, name, theirs)
    theirs.close()
    try:
        while ours.poll(60):
            if isinstance(told := ours.recv(), (Holds, Unfair, Wrong, str)):
                return [told]
        return []
    except EOFError:
        return []
    finally:
        os.kill(child, signal.SIGKILL)
        os.waitpid(child, 0)


def prove(question, name, pipe):
    """Runs a way of proof within so many seconds of a processor, and ends."""
    try:
        from workbench.proving.deciding import Decision, Limits
        from workbench.proving.explicit import by_states
        from workbench.proving.search import PROVING
        from workbench.proving.told import Search

        resource.setrlimit(resource.RLIMIT_CPU, (SECONDS, SECONDS))
        ways, confirmed = {**PROVING, "states": by_states}, Decision(question, Limits()).confirmed
        ways[name](Search(question, time.monotonic() + 60, 30, confirmed, tell=pipe.send))
    except Refused:
        pass
    except Exception:  # pylint: disable=broad-exception-caught
        pipe.send(traceback.format_exc())
    finally:
        os._exit(0)


def passed(found):
    """The ways that told that all is well, or that nothing keeps to what is assumed, or that failed."""
    from workbench.proving.told import Holds, Unfair

    return [f"{name} {told}" for name, told in found if isinstance(told, (Holds, str)) or isinstance(told, Unfair) and told.samples == 0]


def what_is_false_is_not_passed():
    for case in FALSE:
        ways = passed(told_of(asked(*case)))
        want(f"what is false isn't passed: {case[0]}", not ways, ways)


def what_is_passed_holds_by_brute_force():
    number = held = 0
    while held < QUESTIONS:
        rng = random.Random(f"trusting {number}")
        number += 1
        try:
            question = random_question(rng)
            observer = Observer(question.observer()) if question else None
            ways = passed(told_of(question)) if observer and observer.again else []
        except (Refused, TextFault, TypeFault):
            continue
        if not ways:
            continue
        held += 1
        recordings = random_recordings(question, rng, RECORDINGS)
        wrong = [stream_text(recording[:first]) for recording, first in zip(recordings, observer.firsts(recordings)) if first is not None]
        want(f"question {number - 1}", not wrong, f"{ways} {wrong[:1]} {question}")


def a_lie_is_seen():
    """Random recordings are run where z3 says that all is well."""
    from workbench.proving.deciding import Decision, Limits

    for net, holds in (("(arr (less x 10))", False), ("(arr (equal x x))", True), ("(>>> time (arr (less x 30)))", False)):
        found = Decision(asked(net, [], {}), Limits(1)).contradicted()
        want(f"a lie of {net}", (found is None) == holds, found)


def try_all() -> None:
    a_lie_is_seen()
    what_is_false_is_not_passed()
    what_is_passed_holds_by_brute_force()
