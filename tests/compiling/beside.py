"""Networks beside their compiled forms: those of examples/, and random ones, of which some are programs in Haskell."""
import random
from pathlib import Path

from compiling.making import COMPILERS, ELSEWHERE, QUICK, SANITIZED, SLOW, Differs, Told, can_run, is_here, live
from front.main import translated
from generator.breaking import Breaker
from generator.cases import FORM_WORDS
from generator.making import Maker
from model.texts import ValueFault, ValueReader, network_text, read_network, step_of
from model.trees import NEW_FORMS, expanded, preorder, shown
from model.typed import Scope, check_types, weight
from whole import chance, trying

TOP = Path(__file__).resolve().parents[2]
NEARLY = 6
STREAMS = 6
# How many streams a random program in Haskell has, and of how many lines.
PROGRAM_STREAMS = 3, 40
HEAVY = 20_000
# How random networks are compiled, in turn: by sanitizers, which find what isn't defined, without and with all optimisation, by clang, and
# for other processors.
WAYS = [SANITIZED, SLOW, "clang", QUICK, "i686", "gcc", "arm"]


def examples():
    """The networks of examples/ without names."""
    return sorted(net for name in ("net", "fast", "improved") for net in (TOP / "examples").glob(f"*/{name}"))


def example(bench, net):
    """An example on its stream, on streams that are nearly it, and line by line; and by the other compilers."""
    rng = random.Random(f"{net.parent.name} {net.name}")
    breaker, stream = Breaker(rng), (net.parent / "stream").read_bytes()
    texts = [stream, stream[:-1], b"", stream * 2, *[breaker.broken(stream) for _ in range(NEARLY)]]
    source = bench.source("net.c", net, *most_words(net.read_bytes(), texts))
    built = bench.built("by-gcc", [source])
    for text in texts:
        bench.same(built, net, text)
    live(built, stream)
    for by in ("g++", "clang", "clang++"):
        if is_here(by) and (by == "clang" or rng.random() < 0.3):
            bench.same(bench.built(f"by-{by}", [source], by), net, stream)
    for processor in filter(can_run, ELSEWHERE):
        if processor == "arm" or rng.random() < 0.3:
            bench.same(bench.elsewhere(processor, [source]), net, stream)


def random_network(bench, seed, number):
    """A random network on random streams, by one compiler after the other."""
    rng = random.Random(f"{seed} {number}")
    maker, breaker = Maker(rng, 1 + number % 2), Breaker(rng)
    given, net = network_of(maker, number)
    bench.tally.update(f"with {word}" for word in {tree[0] for _, tree in preorder(net) if isinstance(tree, tuple) and tree[0] in COUNTED})
    file = bench.file("net", network_text(given, net))
    streams = [stream_of(maker, breaker, given) for _ in range(STREAMS)]
    most = most_of(given, streams)
    if most and rng.random() < 0.3:
        most = rng.randint(1, most)
    words = [file, *(["--most", most] if most else [])]
    if bench.compile(*words).error.startswith(b"network: state too large"):
        bench.tally["states that are too large"] += 1
        return
    built = built_by_turns(bench, [bench.source("net.c", *words)], number // 2)
    for stream in streams:
        fault = fault_of(stream, given, most)
        if fault:
            same_up_to(bench, built, file, stream, *fault)
        else:
            bench.same(built, file, stream)


def random_program(bench, seed, number):
    """A random program in Haskell on random streams, by one compiler after the other."""
    rng = random.Random(f"program {seed} {number}")
    text, streams = program_of(bench, rng)
    file = bench.file("net", text)
    built = built_by_turns(bench, [bench.source("net.c", file)], number)
    for stream in [*streams, Breaker(rng).broken(streams[0])]:
        bench.same(built, file, stream)
    bench.tally["programs in Haskell"] += 1


def built_by_turns(bench, sources, turn):
    """A program of these sources by one of the ways; by gcc where that one isn't here."""
    way = WAYS[turn % len(WAYS)]
    if isinstance(way, list):
        return bench.built("by-gcc", sources, way)
    if way in ELSEWHERE and can_run(way):
        return bench.elsewhere(way, sources)
    return bench.built("by-gcc", sources, way if way in COMPILERS and is_here(way) else "gcc")


COUNTED = [*NEW_FORMS, "switch", "dSwitch", "rSwitch", "kSwitch", "pSwitch", "old", "delay"]


def network_of(maker, number):
    """An input type and a network in core forms, of which one after the other begins with each form."""
    words = [word for word in FORM_WORDS if maker.version == 2 or word not in NEW_FORMS]
    while True:
        word, size = words[number // 2 % len(words)], maker.rng.choice([1, 2, 3, 5, 7])
        given, made, _ = maker.of_form(word, maker.type(), maker.type(), Scope(), size)
        net = expanded(made)
        if weight(net) <= HEAVY:
            check_types(given, net)
            return given, net


def program_of(bench, rng):
    """The network of a random program in Haskell, and streams for it. No list is in its input."""
    file = bench.file("Chance.hs", chance.Maker(rng.randrange(10**9)).module("Chance"))
    return translated(str(file)).network.text.encode(), [stream.encode() for stream in trying.random_streams(file, *PROGRAM_STREAMS)]


def stream_of(maker, breaker, given):
    """A stream of this type, of which one in three has a faulty line, and some lack the last line feed."""
    lines = maker.stream(given)
    if lines and maker.chance(0.35):
        at = maker.rng.randrange(len(lines))
        value = shown(maker.value(maker.type())).encode()
        lines[at] = maker.rng.choice([breaker.broken(lines[at]), breaker.line(lines[at], value)])
    stream = b"".join(lines)
    return stream.removesuffix(b"\n") if maker.chance(0.1) else stream


# ---- lists of the input


def has_lists(type_):
    return isinstance(type_, tuple) and (type_[0] == "List" or any(map(has_lists, type_[1:])))


class Bounded(ValueReader):
    """Reads a value whose lists have at most so many elements, at the first element that is too many."""

    def __init__(self, text, most):
        super().__init__(text)
        self.most = most
        self.longest = 0

    def form(self, word, type_):
        if word != "(list":
            return super().form(word, type_)
        count = 0
        while self.text[self.at : self.at + 1] != b")":
            self.want(b" ")
            if count == self.most:
                self.refuse("too many elements")
            self.value(type_[1])
            count += 1
        self.longest = max(self.longest, count)
        self.want(b")")
        return (word[1:],)


def values_of(stream):
    """The values of a stream's lines, each with its number; a line without a step ends them."""
    for number, line in enumerate(stream.split(b"\n"), 1):
        if number > 1:
            found = step_of(line)
            if not found:
                return
            line = found[1]
        if line != b"=":
            yield number, line


def most_of(given, streams):
    """The length of the longest list that the streams have, at least 1; 0 where the type has no list."""
    if not has_lists(given):
        return 0
    found = 1
    for stream in streams:
        for _, text in values_of(stream):
            reader = Bounded(text, len(text))
            try:
                reader.value(given)
            except ValueFault:
                pass
            found = max(found, reader.longest)
    return found


def most_words(net, streams):
    given, _ = read_network(net)
    most = most_of(given, streams)
    return ["--most", most] if most else []


def fault_of(stream, given, most):
    """The number of the first line that has a longer list, before any other fault, and what is told of it; or None."""
    if not most:
        return None
    for number, text in values_of(stream):
        reader = Bounded(text, most)
        try:
            reader.value(given)
            if reader.at < len(text):
                return None
        except ValueFault as fault:
            return (number, f"stream: line {number}: {fault}\n".encode()) if "too many" in str(fault) else None
    return None


def same_up_to(bench, built, net, stream, number, error):
    """Holds a compiled network to the lines of `run` before this one, and to this fault."""
    output = b"".join(bench.run(net, stream).output.splitlines(True)[: number - 1])
    wanted, told = Told(output, error, 1), bench.ran([built], stream)
    if wanted != told:
        bench.file("stream", stream)
        raise Differs(f"on the file `stream` {told} is told, not {wanted}")
    bench.tally["streams with a list that is too long"] += 1
