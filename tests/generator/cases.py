"""The cases: what is made of a random number, and which laws the program is held to."""
import random
import re

from generator.breaking import Breaker
from generator.holding import Command, Find, typed_of
from model.laws import taken
from generator.limits import Limits
from generator.making import FORM_WEIGHTS, Maker
from generator.steps import StepMaker, reversed_steps
from model.texts import FILE_BYTES, LAWS, NEW_LAWS, Step, TextFault, certificate_text, network_text, read_network
from model.trees import (
    NEW_FORMS,
    SUGAR_WORDS,
    at_text,
    child_places,
    difference,
    expanded,
    head,
    is_network,
    preorder,
    replaced,
    shown,
)
from model.typed import WEIGHT, Scope, check_types, weight
from model.viewing import difference_text
from workbench.program import answering
from workbench.proposing import APART

NONE_FOUND = re.compile(rb"equal on [\d,]+ samples; no certificate found\n")
# Where two normal forms differ, with what each has there; and what is told where none is told whole.
APART_AT = re.compile(rb"(\(at[ \d]*\))\n- (.+)\n\+ (.+)\n(?:the first wire that differs: .+\n)?")
UNTOLD = {
    "too long for a line": re.compile(rb".*\.\.", re.S),
    "search gave up": re.compile(rb"gave up: \d+ nodes visited\n|too long: \d+ steps, \d+ bytes\n"),
}
DIFFER = re.compile(rb"they differ on this recording: line (\d+): (.*) and (.*)\n")


class Case:
    """One case: all that is random in it comes from the seed and the case's number."""

    def __init__(self, program, seed, number):
        self.program, self.tally = program, program.tally
        self.rng = random.Random(f"{seed} {number}")
        self.version = 1 + number // len(KINDS) % 2
        self.maker, self.breaker = Maker(self.rng, self.version), Breaker(self.rng)
        self.steps, self.limited = StepMaker(self.maker), Limits(self.rng)
        self.laws = [law for law in LAWS if self.version == 2 or law not in NEW_LAWS]
        self.number = number

    def run(self):
        kind = KINDS[self.number % len(KINDS)]
        if kind not in self.program.skipped:
            self.tally["kinds of cases", kind] += 1
            self.tally["versions", self.version] += 1
            getattr(self, kind)()

    def next_of(self, kind, words):
        """The words in turn over the cases of a kind, those of version 2 from the middle on, so that in few cases none is left out."""
        words = [word for word in words if self.version == 2 or word not in NEW_FORMS + NEW_LAWS]
        rounds, rest = divmod(self.number, len(KINDS))
        first = 0 if self.version == 1 else len(words) // 2
        return words[(first + rounds // 2 * KINDS.count(kind) + KINDS[:rest].count(kind)) % len(words)]

    # ---- parts

    def network(self, size=None):
        """A typed network, as it was made and in core forms."""
        given, output = self.maker.type(), self.maker.type()
        if size is None:
            size = self.rng.choice([1, 3, 5, 7, 9])
        return self.typed(given, lambda: self.maker.network(given, output, size=size))

    def typed(self, given, make):
        """What is made, and its typed network; made anew where collections inside one another make it too heavy."""
        while True:
            made = make()
            core = expanded(made)
            if weight(core) <= WEIGHT:
                self.count(made, core, given)
                return made, check_types(given, core)

    def networks(self):
        """Some networks side by side on one input. The first begins with the next word in turn."""
        word, size = self.next_of("ran", FORM_WORDS), self.rng.choice([1, 2, 3, 5, 7])
        given, first, _ = self.maker.of_form(word, self.maker.type(), self.maker.type(), Scope(), size)
        if weight(expanded(first)) > WEIGHT // 2:
            given, first, _ = self.maker.of_form(word, self.maker.type(), self.maker.type(), Scope(), 1)

        def make():
            made = first
            for _ in range(self.rng.choice([0, 1, 2, 3])):
                made = ("&&&", made, self.maker.any_network(given, self.rng.choice([1, 1, 2, 4])))
            return made

        return self.typed(given, make)

    def count(self, made, core, given):
        """Tells the tally which forms, sugar and types are there."""
        for word in words_of(made):
            if word in SUGAR_WORDS:
                self.tally["sugar", word] += 1
        for _, tree in preorder(core):
            self.tally["forms" if is_network(tree) else "expressions", head(tree)] += 1
        self.tally["input types", head(given)] += 1

    def hold(self, command, *files, stream=b"", pieces=()):
        return self.program.hold(Command(command, list(files), stream, list(pieces)))

    def stream(self, typed):
        """A stream of the network's input type, of which one in five has a faulty line, and some lack the last line feed."""
        lines = self.maker.stream(typed.input)
        if lines and self.maker.chance(0.2):
            number = self.rng.randrange(len(lines))
            value, line = shown(self.maker.value(self.maker.type())).encode(), lines[number]
            lines[number] = self.rng.choice([self.breaker.broken(line), self.breaker.line(line, value)])
        stream = b"".join(lines)
        return stream.removesuffix(b"\n") if self.maker.chance(0.1) else stream

    def pieces(self, stream):
        """The stream in pieces."""
        cuts = sorted({0, len(stream), *[self.rng.randint(0, len(stream)) for _ in range(self.rng.randint(1, 6))]})
        return [stream[a:b] for a, b in zip(cuts, cuts[1:])] or [b""]

    # ---- kinds of cases

    def ran(self):
        """Types and runs of one network: spelt otherwise, in pieces, and on the front of its stream."""
        made, typed = self.networks()
        core = typed.places[()].tree
        text, plain = self.maker.spaced(network_text(typed.input, made)), network_text(typed.input, core).encode()
        self.hold("types", text)
        self.hold("types", plain)
        stream = self.stream(typed)
        whole = self.hold("run", text, stream=stream)
        other = self.hold("run", plain, stream=stream, pieces=self.pieces(stream))
        lines = stream.split(b"\n")
        front = b"".join(line + b"\n" for line in lines[: self.rng.randrange(len(lines))])
        part = self.hold("run", text, stream=front)
        if whole != other:
            raise Find(Command("run", [text], stream), "pieces of the stream give other lines", other, whole)
        if not whole.output.startswith(part.output):
            raise Find(Command("run", [text], stream), "the front of the stream gives other lines", part, whole)

    def certified(self):
        """A law at a random place, and a row of steps from there; then all the way back."""
        law = self.next_of("certified", LAW_WORDS)
        source, position = self.steps.with_left_side(self.surroundings(), law)
        self.possible(source, position)
        step = Step(law, "forward", position)
        target = taken(source, step)
        steps, typeds = self.steps.walk(target, self.rng.choice([0, 0, 1, 2, 5]))
        steps, typeds = [step, *steps], [source, *typeds]
        ways = [(steps, typeds), (reversed_steps(steps, typeds), typeds[::-1])]
        self.rng.shuffle(ways)
        for steps, typeds in ways:
            files = self.accepted_steps(steps, typeds)
        self.same(files, self.stream(typeds[0]))
        self.refused(files, steps, typeds)
        self.missed(source, step, target)

    def missed(self, source, step, target):
        """A step from a tree that is nearly a left side, or back to one."""
        nearly = self.steps.nearly(source, step.position)
        self.hold("check", text_of(nearly), text_of(target), certificate_text([step]).encode())
        back = Step(step.law, "backward", step.position, nearly.places[step.position].tree)
        self.hold("check", text_of(target), text_of(nearly), certificate_text([back]).encode())

    def surroundings(self):
        """A typed network that a left side is to be put into: one in three begins with a switch."""
        if self.maker.chance(0.7):
            return self.network(self.rng.choice([0, 2, 4, 6]))[1]
        words = [word for word in SWITCHES if self.version == 2 or word not in NEW_FORMS]
        word, given, output = self.rng.choice(words), self.maker.type(), self.maker.type()
        for size in (self.rng.choice([2, 4, 6]), 1):
            given, made, _ = self.maker.of_form(word, given, output, Scope(), size)
            if weight(expanded(made)) <= WEIGHT // 2:
                break
        return check_types(given, expanded(made))

    def accepted_steps(self, steps, typeds):
        files = [text_of(typeds[0]), text_of(typeds[-1]), certificate_text(steps).encode()]
        self.accepted(self.hold("check", *files), files, len(steps))
        self.applied(files, len(steps))
        for step, typed in zip(steps, typeds):
            self.tally[f"laws {step.direction}", step.law] += 1
            self.tally["places of steps", place_of(typed, step.position)] += 1
        return files

    def accepted(self, told, files, count):
        if told.output != f"accepted {count}\n".encode():
            raise Find(Command("check", files), "steps that can be taken are refused", told)

    def applied(self, files, count):
        """What the steps lead to is the target, and is derived; the first of them, and what each changes, are as the model has it."""
        source, _, certificate = files
        target = self.hold("apply", source, certificate).output
        self.accepted(self.hold("check", source, target, certificate), [source, target, certificate], count)
        self.hold(f"apply --first {self.rng.randint(0, count + 1)}", source, certificate)
        self.hold("apply --steps", source, certificate)

    def same(self, files, stream):
        """Source, target and the checked target write the same bytes."""
        source = self.hold("run", files[0], stream=stream)
        target = self.program.run(Command("run", files[1:2], stream))
        behind_check = self.program.run(Command("run-checked", files, stream, self.pieces(stream)))
        if not source == target == behind_check:
            raise Find(Command("run-checked", files, stream), "source and target write other bytes", target, source)

    def refused(self, files, steps, typeds):
        """A certificate with a step changed or one that is ill typed, or a target with a part changed."""
        source, target, certificate = files
        if self.maker.chance(0.3):
            at = self.rng.randint(0, len(steps))
            ill = self.steps.ill_typed_step(typeds[at])
            certificate = certificate_text([*steps[:at], ill, *steps[at:]]).encode()
        elif self.maker.chance(0.3):
            net = typeds[-1].places[()].tree
            net = self.breaker.twin(net) if self.maker.chance(0.6) else self.breaker.tree(net, self.maker)
            target = network_text(typeds[-1].input, expanded(net)).encode()
        else:
            certificate = certificate_text(self.changed(steps)).encode()
        self.hold(self.rng.choice(["apply", "apply --steps", "apply --steps --first 1"]), source, certificate)
        command = self.rng.choice(["check", "check", "run-checked"])
        told = self.hold(command, source, target, certificate, stream=self.stream(typeds[0]))
        if told.output.startswith(b"accepted"):
            self.same([source, target, certificate], self.stream(typeds[0]))

    def changed(self, steps):
        """The steps with one of them changed, left out, doubled or moved."""
        at = self.rng.randrange(len(steps))
        step, other = steps[at], self.rng.choice(steps)
        law = self.rng.choice([law for law in self.laws if law[0] == step.law[0]])
        position = self.rng.choice([step.position[:-1], (*step.position, self.rng.randint(0, 2)), other.position])
        turned_round = "backward" if step.direction == "forward" else "forward"
        ways = [
            [],
            [step, step],
            [Step(law, step.direction, step.position, step.given)],
            [Step(step.law, turned_round, step.position, step.given)],
            [Step(step.law, step.direction, position, step.given)],
        ]
        if step.given is None:
            ways.append([Step(step.law, step.direction, step.position, "time" if law[0] == "L" else "x")])
        else:
            given = self.breaker.twin(step.given) if self.maker.chance(0.3) else self.breaker.tree(step.given, self.maker)
            given = expanded(given)
            ways += [[Step(step.law, step.direction, step.position)]]
            ways += [[Step(step.law, step.direction, step.position, given)]] * 3
        return steps[:at] + self.rng.choice(ways) + steps[at + 1 :]

    def optimised(self):
        """The optimiser's network, given again, and its certificate."""
        net, count = self.rewritten("optimise", *self.with_law())
        if count < 1_000 and self.hold("optimise", net).output != net:
            raise Find(Command("optimise", [net]), "what is printed can be bettered", net)

    def with_law(self):
        """A network, most often with a left side in it, as it was made, and typed."""
        made, typed = self.network(self.rng.choice([2, 4, 6]))
        if self.maker.chance(0.7):
            typed, _ = self.steps.with_left_side(typed, self.rng.choice(self.laws))
            made = typed.places[()].tree
        return made, typed

    def rewritten(self, command, made, typed):
        """What a command makes of a network, of the same types, derived and doing the same, and how many steps lead there."""
        text = self.maker.spaced(network_text(typed.input, made))
        net = self.hold(command, text).output
        certificate = self.hold(f"{command} --certificate", text).output
        types = self.hold("types", net).output.split(b"\n")[0]
        if types != self.hold("types", text).output.split(b"\n")[0]:
            raise Find(Command(command, [text]), "what is printed has other types", net, text)
        count = certificate.count(b"(step ")
        self.accepted(self.hold("check", text, net, certificate), [text, net, certificate], count)
        self.same([text, net, certificate], self.stream(typed))
        return net, count

    def improved(self):
        """The improved network, and its certificate."""
        self.rewritten("improve", *self.with_law())

    def viewed(self):
        """What stands where, and the steps that may be taken: all, and those from a place on."""
        made, typed = self.with_law()
        text = self.maker.spaced(network_text(typed.input, made))
        self.hold("outline", text)
        self.hold("laws", text)
        self.possible(typed, self.rng.choice([*typed.places, (9,)]))

    def possible(self, typed, position):
        """The steps that may be taken from a position on."""
        self.hold(f"laws --at '{at_text(position)}'", text_of(typed))

    def joined(self):
        """A certificate between two networks that steps lead between, and between two that mostly do something else."""
        _, typed = self.with_law()
        way = self.rng.choice(["steps", "steps", "optimise", "improve"])
        pair = [text_of(typed), self.led(typed, way)]
        self.rng.shuffle(pair)
        self.between(way, *pair, self.stream(typed))
        self.between("another", pair[0], self.another(typed_of(pair[1])), self.stream(typed))

    def led(self, typed, way):
        """A network that steps lead to, random ones or those of a command."""
        if way != "steps":
            return self.hold(way, text_of(typed)).output
        return text_of(self.steps.walk(typed, self.rng.choice([1, 3, 9]))[1][-1])

    def another(self, typed):
        """The network with another number in it, or one of another input type."""
        net = typed.places[()].tree
        numbers = [position for position, tree in preorder(net) if isinstance(tree, int)]
        if not numbers or self.maker.chance(0.1):
            return text_of(self.network(1)[1])
        position = self.rng.choice(numbers)
        return network_text(typed.input, replaced(net, position, self.rng.randint(-3, 9))).encode()

    def between(self, way, source, target, stream):
        """What `certify` finds is accepted, and both do the same; else it tells on what recording they differ, or where their normal forms do."""
        told = self.hold("certify", source, target)
        self.tally["certificates", f"{way}: {told.error.decode().partition(': line')[0].strip() or 'found'}"] += 1
        files = [source, target, told.output]
        if not told.status and len(told.output) <= FILE_BYTES:
            self.accepted(self.program.run(Command("check", files)), files, told.output.count(b"(step "))
            self.same(files, stream)
        elif NONE_FOUND.fullmatch(told.error):
            self.told_apart(told, files[:2], stream)
        elif found := DIFFER.fullmatch(told.error):
            outputs = [self.program.run(Command("run", [text], told.output)).output.splitlines() for text in files[:2]]
            if outputs[0][:-1] != outputs[1][:-1] or [lines[-1] for lines in outputs] != [found[2], found[3]] or found[2] == found[3]:
                raise Find(Command("certify", files[:2]), "the networks don't differ so on the recording", told)

    def told_apart(self, told, files, stream):
        """The first position at which the normal forms differ is told, with what each has there; or that the search gave up, and the first
        position at which the networks differ as they are given; or how long a certificate would be. Of a form that is too long for a line nothing is known."""
        if re.fullmatch(rb"too long: \d+ steps, \d+ bytes\n", told.output):
            return
        if gave_up := re.match(rb"gave up: \d+ nodes visited\n", told.output):
            wanted = gave_up[0] + difference_text(*difference(*[typed_of(text).places[()].tree for text in files])).encode()
            if told.output != wanted:
                raise Find(Command("certify", files), "the networks differ elsewhere", told, wanted)
            return
        forms = [self.normal_form(text, stream) for text in files]
        if None in forms:
            return
        found = difference(*forms)
        wanted = APART + difference_text(*found).encode() if found else b""
        if not found or re.sub(rb"the first wire that differs: .+\n", b"", told.output) != wanted:
            raise Find(Command("certify", files), "the normal forms differ elsewhere", told, wanted)

    def normal_form(self, text, stream):
        """The normal form of a network, which does what the network does: beside that of `time` it is told whole, or nothing is known of it."""
        given = typed_of(text).input
        told = self.beside_time(text, given)
        for end, pattern in UNTOLD.items():
            if pattern.match(told.output):
                self.tally["normal forms", end] += 1
                return None
        found = APART_AT.fullmatch(told.output)
        if found and found[1] != b"(at)":
            self.tally["normal forms", "differ from that of `time` within"] += 1
            return self.within_time(told, found, given)
        net = net_in(found[2]) if found else None if told.status else "time"
        if net is None:
            raise Find(Command("certify", [text]), "a normal form other than `time` isn't told", told)
        form = network_text(given, net).encode()
        outputs = [self.program.run(Command("run", [file], stream)) for file in (text, form)]
        if outputs[0] != outputs[1]:
            raise Find(Command("run", [text, form], stream), "the normal form writes other bytes", *outputs[::-1])
        return net

    def beside_time(self, text, given):
        """What the searches tell of the normal forms of a network and of `time`."""
        return self.program.searched(Command("certify", [text, network_text(given, "time").encode()]))

    def within_time(self, told, found, given):
        """Holds what is told of `time`'s normal form at a position to the whole of it, which is told beside a constant's."""
        whole = APART_AT.fullmatch(self.beside_time(network_text(given, ("arr", 0)).encode(), given).output)
        places = typed_of(network_text(given, net_in(whole[3])).encode()).places
        position = tuple(map(int, found[1].strip(b"(at )").split()))
        if position not in places or shown(places[position].tree).encode() != found[3]:
            raise Find(Command("certify", []), "the normal form of `time` has something else there", told)

    def ill_typed(self):
        """Networks with a part that may not fit."""
        _, typed = self.network()
        for _ in range(4):
            net = self.breaker.tree(typed.places[()].tree, self.maker)
            given = typed.input if self.maker.chance(0.9) else self.maker.type()
            self.hold("types", network_text(given, net).encode())

    def hostile(self):
        """Files and streams whose bytes were changed."""
        made, typed = self.network(self.rng.choice([0, 2, 4]))
        text = self.maker.spaced(network_text(typed.input, made))
        self.hold("types", self.breaker.broken(text))
        self.hold("run", text, stream=self.breaker.broken(self.stream(typed)))
        command = self.rng.choice(["run", "types", "optimise", "outline", "laws"])
        self.hold(command, self.breaker.broken(text), stream=self.stream(typed))
        steps, typeds = self.steps.walk(typed, 3)
        files = [text_of(typeds[0]), text_of(typeds[-1]), self.maker.spaced(certificate_text(steps))]
        at = self.rng.choice([0, 1, 2, 2, 2, 2])
        files[at] = self.breaker.broken(files[at])
        self.hold(self.rng.choice(["check", "run-checked"]), *files, stream=self.stream(typed))
        self.hold("apply", files[0], files[2])
        self.hold("certify", *files[:2])
        if self.maker.chance(0.1):
            self.large(text, files)

    def large(self, text, files):
        """Texts of hostile sizes."""
        beginning = self.rng.choice([b"", b"yampa 1 input ", b"yampa 1 input Int ", b"yampa 1 input Int (arr ", text])
        self.hold("types", self.breaker.large(beginning))
        steps = [b"", b"(step L4 backward (at) ", b"(step E1 backward (at"]
        beginning = self.rng.choice([b"", files[2], *[b"laws 1 " + step for step in steps]])
        self.hold("check", text, text, self.breaker.large(beginning))
        stream = self.breaker.large(self.rng.choice([b"", b"5\n+1 ", b"(list ", b"5\n+"]))
        self.hold("run", b"yampa 1 input " + self.rng.choice([b"Int", b"(List Int)"]) + b" identity", stream=stream)

    def limits(self):
        """What stands at the limits, and one past them."""
        for way in range(3):
            command = self.limited.any(3 * (self.number // len(KINDS)) + way)
            self.program.hold(command)

    def worded(self):
        """Words of the command line that are wrong, and files that aren't there."""
        for words in self.rng.sample(WRONG_WORDS, 3):
            told = self.program.start(words, Command("words", []), answering(words))
            if told.status != 2 or told.output:
                raise Find(Command(str(words), []), "wrong words aren't told as wrong", told)
        text = b"yampa 1 input Int time"
        files = [text, text, b"laws 1"]
        files[self.rng.randrange(3)] = None
        self.hold(self.rng.choice(["check", "run-checked"]), *files)
        self.hold(self.rng.choice(["apply", "apply --steps"]), *files[:2])
        self.hold(self.rng.choice(["types", "run", "outline", "laws"]), None)
        self.hold("certify", *self.rng.choice([[text, None], [None, text]]))


WRONG_WORDS = [
    [],
    [""],
    ["Types", "first"],
    ["first"],
    ["types"],
    ["types", "first", "second"],
    ["run"],
    ["run", "first", "second"],
    ["check", "first", "second"],
    ["check", "first", "second", "third", "first"],
    ["run-checked", "first"],
    ["types", "--certificate", "first"],
    ["optimise"],
    ["apply", "first"],
    ["improve"],
    ["apply", "--first", "x", "first", "second"],
    ["outline"],
    ["outline", "first", "second"],
    ["laws", "--at", "first"],
    ["laws", "--at", "0", "first"],
    ["laws", "--at", "(at 0", "first"],
    ["laws", "--at", "(at 65536)", "first"],
    ["certify", "first"],
    ["certify", "first", "second", "third", "fourth"],
    ["optimise", "--certificates", "first"],
    ["types", "-x", "first"],
    [b"types", b"\xff"],
    [b"\xfe"],
]
FORM_WORDS = [word for word in FORM_WEIGHTS if word != "old"] + ["kSwitch", "pSwitch", "rpSwitchB"] * 3
LAW_WORDS = [*LAWS, "L38", "L38"]
SWITCHES = ["switch", "dSwitch", "rSwitch", "kSwitch", "pSwitch", "drSwitch", "rpSwitchB"]
OFTEN = "ran certified hostile viewed ran certified optimised ill_typed certified".split()
KINDS = [*OFTEN, "joined", *OFTEN, "improved"] * 2 + ["limits", "worded"]


def words_of(tree):
    """All words of a tree."""
    if not isinstance(tree, tuple):
        return [tree]
    return [word for part in tree for word in words_of(part)]


def place_of(typed, position):
    """What a position is inside of: of a template, a network that may be frozen, and an expression the first that holds."""
    found = "elsewhere"
    for at, number in enumerate(position):
        tree = typed.places[position[:at]].tree
        word = head(tree)
        if word in SWITCHES and number == len(child_places(tree)) - 1:
            return "in a template"
        if word == "kSwitch" and number == 0 or word == "pSwitch" and 1 <= number < len(tree[2]):
            found = "in a network that may be frozen"
        elif found == "elsewhere" and not is_network(tree):
            found = "in an expression"
    return found


def text_of(typed):
    return network_text(typed.input, typed.places[()].tree).encode()


def net_in(text):
    """The network that a text spells, or None."""
    try:
        _, net = read_network(b"yampa 2 input Int " + text)
    except TextFault:
        return None
    return net if shown(net).encode() == text else None
