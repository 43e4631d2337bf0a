"""The printed C of random networks, read from its text and run by the rules that its proof stands on, beside `run`; and planted faults."""
import random
import re

from compiling.beside import most_words, network_of, program_of, stream_of
from compiling.making import Differs
from compiling.meaning import Meaning, Undefined
from compiling.reading import Unread, read
from generator.breaking import Breaker
from generator.making import Maker
from model.texts import ValueReader, network_text, read_network
from model.trees import expanded
from model.typed import check_types, weight

# Networks up to this weight, state and length of lists, each on so many streams of so many samples: some 30 processor seconds in all.
NETWORKS, HEAVY, STATE, MOST, STREAMS, LONGEST = 200, 400, 40_000, 8, 4, 40


def random_network(bench, seed, number):
    """A random network, each fifth of a program in Haskell, on random streams, as far as `run` takes them."""
    rng = random.Random(f"evaluated {seed} {number}")
    while True:
        text, streams = program_of(bench, rng) if number % 5 == 4 else random_case(rng, number)
        net = read_network(text)[1]
        streams = [b"".join(stream.splitlines(True)[:LONGEST]) for stream in streams]
        words = most_words(text, streams)
        if weight(net) > HEAVY or words and words[1] > MOST:
            continue
        told = bench.compile("--no-main", "--name", "net", *words, bench.file("net", text))
        if not told.status and int(re.search(rb"The state has at most (\d+) bytes", told.output)[1]) <= STATE:
            break
    bench.file("net.c", told.output)
    held(bench, typed(bench.folder / "net"), told.output.decode("latin-1"), streams)


def typed(file):
    """The types of a network's file, of its input and of its output."""
    given, net = read_network(file.read_bytes())
    return given, check_types(given, expanded(net)).output


def random_case(rng, number):
    """A random network's text, and streams."""
    maker, breaker = Maker(rng, 1 + number % 2), Breaker(rng)
    given, net = network_of(maker, number)
    return network_text(given, net).encode(), [stream_of(maker, breaker, given) for _ in range(STREAMS)]


def held(bench, types, text, streams):
    """Holds the meaning of a text to what `run` tells of streams."""
    try:
        meaning = Meaning(read(text))
    except Unread as why:
        raise Differs(f"the printed C isn't read: {why}") from None
    for stream in streams:
        lines = bench.run("net", stream).output.decode().splitlines()
        found = list(outputs(meaning, types, stream, len(lines)))
        if found != lines:
            bench.file("stream", stream)
            at = next((number for number, pair in enumerate(zip(found, lines)) if pair[0] != pair[1]), len(found))
            raise Differs(f"by its meaning the printed C tells {found[at:][:1]} at line {at + 1} of the file `stream`, run {lines[at:][:1]}")
        bench.tally["lines by meaning"] += len(lines)


def outputs(meaning, types, stream, count):
    """What the C of a network between these types outputs on so many samples of a stream."""
    init, step_of = meaning.program.meant("net_init"), meaning.program.meant("net_step")
    (state_type, _), _, (input_type, _), (output_type, _) = meaning.program.functions[step_of].parameters
    frame = [meaning.fresh(state_type[1]), None, meaning.fresh(output_type[1])]
    state, into, out = ((frame, number, (id(frame), number)) for number in range(3))
    try:
        meaning.call(init, [state])
        for step, value in samples(types[0], stream, count):
            frame[1] = object_of(value, types[0], meaning.fresh(input_type[1]))
            meaning.call(step_of, [state, step, into, out])
            yield spelt(frame[2], types[1])
    except Undefined as why:
        yield f"no result: {why}"


def samples(given, stream, count):
    """Steps and values of a stream's first lines."""
    before = None
    for number, line in enumerate(stream.split(b"\n")[:count]):
        step = 0
        if number:
            word, _, line = line.partition(b" ")
            step = int(word)
        before = before if line == b"=" else ValueReader(line).value(given)
        yield step, before


def object_of(value, type_, into):
    """A value of a type as an object, whose parts have the places of the table in docs/C.md, into one in which nothing is set: what an event
    or a list doesn't have stays so."""
    if isinstance(type_, str):
        return {"Unit": 0, "Bool": value == "true"}.get(type_, value)
    if type_[0] == "Pair":
        return [object_of(*one) for one in zip(value[1:], type_[1:], into)]
    if type_[0] == "Event":
        return [value != "none", into[1] if value == "none" else object_of(value[1], type_[1], into[1])]
    count = len(value) - 1
    return [count, [object_of(one, type_[1], place) for one, place in zip(value[1:], into[1])] + into[1][count:]]


def spelt(found, type_):
    """An object of a type as a stream spells it."""
    if found is None:
        raise Undefined("a scalar of the output is not set")
    if isinstance(type_, str):
        return {"Unit": "unit", "Bool": str(found).lower()}.get(type_, str(found))
    if type_[0] == "Pair":
        return f"(pair {spelt(found[0], type_[1])} {spelt(found[1], type_[2])})"
    if type_[0] == "Event":
        return f"(event {spelt(found[1], type_[1])})" if found[0] else "none"
    return " ".join(["(list", *[spelt(one, type_[1]) for one in found[1][: found[0]]]]) + ")"


# ---- planted faults

DELAY = "(>>> (arr (sub 20 x)) (delay 4 7))"
FROZEN = "(kSwitch integral (arr (if (less 9 (snd x)) (event (snd x)) (none Int))) (>>> (old 0) (arr (add x (p 0)))))"
RISING = b"1\n" + b"".join(b"+%d %d\n" % (1 + number % 2, number) for number in range(30))
# A network of numbers, what stands in its C, and what stands there instead.
PLANTED = {
    "operands are swapped": (DELAY, r"\(\(uint64_t\)r1\) - \(\(uint64_t\)\(\*r0\)\)", "((uint64_t)(*r0)) - ((uint64_t)r1)"),
    "a ring's head doesn't wrap": (DELAY, r"r0->m2 = \(.*;", "r0->m2 = r0->m2 + UINT32_C(1);"),
    "a place behind the ring": (DELAY, r"\(UINT32_C\(4\) <= \(r0->m2 \+ r0->m3\)\) \?", "(UINT32_C(9) <= (r0->m2 + r0->m3)) ?"),
    "a sum without wrapping": ("(arr (add x 9223372036854775807))", r"= net_signed\(.*;", "= (*r0) + r1;"),
    "a copy is left out": (FROZEN, r"    r0->m3\.m1 = r0->m2\.m0;\n", ""),
    "a copy comes too late": (FROZEN, r"(    r0->m3\.m1 = r0->m2\.m0;\n)((?:.*\n)*?)(    if \(!r)", r"\2\1\3"),
    "a part is left out of braces": ("(arr (pair x x))", r"\{\(\*r0\), \(\*r0\)\}", "{(*r0)}"),
    "a local is not set": (DELAY, r"const int64_t r1 = INT64_C\(7\);", "int64_t r1;"),
    "a pointer twice": (FROZEN, r", &r0->m3\.m1,", ", &r0->m3.m2.m0,"),
}


def planted(bench):
    """Each planted fault is found, on a stream on which the C without it does as `run` does."""
    for name, (net, pattern, instead) in PLANTED.items():
        file = bench.file("net", f"yampa 1 input Int {net}")
        text, types = bench.compile("--no-main", "--name", "net", file).output.decode(), typed(file)
        held(bench, types, text, [RISING])
        changed, count = re.subn(pattern, instead, text)
        if not count:
            raise Differs(f"{name}: nothing is there to be changed")
        try:
            held(bench, types, changed, [RISING])
        except Differs:
            bench.tally["planted faults that were found"] += 1
            continue
        raise Differs(f"{name}: it isn't found")
