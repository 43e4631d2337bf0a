"""Random types, values, expressions, networks and streams, all of them typed."""
from model.trees import (
    GREATEST,
    NETWORK_FORMS,
    NETWORK_SUGAR,
    NETWORK_SUGAR_WORDS,
    NETWORK_WORDS,
    NEW_FORMS,
    SWAP,
    shown,
)
from model.typed import Scope, event, is_form, list_of, pair

FORM_WEIGHTS = {word: 2 for word in [*NETWORK_FORMS, *NETWORK_WORDS]}
FORM_WEIGHTS |= {word: 1 for word in [*NETWORK_SUGAR, *NETWORK_SUGAR_WORDS]}
FORM_WEIGHTS |= {"arr": 5, ">>>": 5, "switch": 3, "kSwitch": 3, "pSwitch": 3, "rpSwitchB": 4, "old": 6}
MEMORY = "iPre delay hold accumBy after repeatedly time integral loopPre".split()
NAMES = {">>>": "seq", "***": "both", "&&&": "fan", "-->": "first_output", ">--": "first_input"}
UNIT_SCOPE = Scope()


class Maker:
    """Makes trees of a version from a source of random numbers; a form by its method, as its input type, the tree and its
    output type."""

    def __init__(self, rng, version=2):
        self.rng, self.version = rng, version
        self.weights = {word: of for word, of in FORM_WEIGHTS.items() if version == 2 or word not in NEW_FORMS}

    def chance(self, of):
        return self.rng.random() < of

    # ---- types and values

    def type(self, depth=3):
        word = self.rng.choice(["Int"] * 4 + ["Bool"] * 2 + ["Unit"] + (["Pair", "Event", "List"] * 2 if depth > 1 else []))
        if word == "Pair":
            return pair(self.type(depth - 1), self.type(depth - 1))
        return (word, self.type(depth - 1)) if word in ("Event", "List") else word

    def number(self):
        if self.chance(0.8):
            return self.rng.randint(-3, 9)
        near = self.rng.choice([0, GREATEST, -GREATEST, 2**32, 2**62, -(2**62)])
        return min(max(near + self.rng.randint(-2, 2), -GREATEST - 1), GREATEST)

    def value(self, type_):
        if type_ == "Int":
            return self.number()
        if type_ == "Unit":
            return "unit"
        if type_ == "Bool":
            return self.rng.choice(["true", "false"])
        word, *parts = type_
        if word == "Pair":
            return ("pair", *map(self.value, parts))
        if word == "Event":
            return "none" if self.chance(0.6) else ("event", self.value(parts[0]))
        count = self.rng.choice([0, 1, 1, 2, 3]) if self.chance(0.995) else self.rng.randint(50, 1_000)
        return ("list", *[self.value(parts[0]) for _ in range(count)])

    # ---- expressions

    def constant(self, output, scope, size=1):
        return self.expression("Unit", output, scope, size)

    def expression(self, given, output, scope, size=3):
        """An expression from one type to another."""
        seen = self.views(given, output, scope)
        if seen and self.chance(0.35 if size > 0 else 0.85):
            return self.rng.choice(seen)
        if size <= 0:
            return self.literal(given, output, scope)
        ways = [(6 if output == "Int" else 3, self.own), (3, self.telling), (3, self.shaped)]
        ways += [(1, way) for way in (self.through, self.choice, self.happening, self.element, self.part, self.literal)]
        return self.weighted(ways)(given, output, scope, size - 1)

    def weighted(self, ways):
        return self.rng.choices([way for _, way in ways], [weight for weight, _ in ways])[0]

    def views(self, given, output, scope):
        """The parts of the input and of the parameters that have this type."""
        return [tree for tree, type_ in self.known(given, scope) if type_ == output]

    def known(self, given, scope):
        """The parts of the input and of the parameters, each with its type."""
        roots = [("x", given)] + [(("p", level), param) for level, param in enumerate(scope.params)]
        return [part for root in roots for part in parts_of(*root)]

    def literal(self, given, output, scope, size=0):
        """An expression that begins with the word that makes values of the type."""
        if not isinstance(output, tuple):
            return self.value(output)
        word, *parts = output
        if word == "Pair":
            return ("pair", *[self.expression(given, part, scope, size) for part in parts])
        if word == "Event":
            sides = [("event", self.expression(given, parts[0], scope, size)), ("none", parts[0])]
            self.rng.shuffle(sides)
            return sides[0] if self.chance(0.4) else ("if", self.some_question(given, scope), *sides)
        count = self.rng.choice([0, 1, 1, 2, 3])
        return ("list", parts[0], *[self.expression(given, parts[0], scope, size) for _ in range(count)])

    def telling(self, given, output, scope, size):
        """An expression that goes by a part of the input, so that what the part is can be seen in the output."""
        tree, type_ = self.rng.choice(self.known(given, scope))
        sides = [self.expression(given, output, scope, size) for _ in range(2)]
        if is_form("Event", type_):
            return ("on", tree, sides[0], self.expression(pair(given, type_[1]), output, scope, size))
        if is_form("List", type_) and type_[1] == output:
            return ("nth", tree, self.rng.randint(0, 2), sides[0])
        return ("if", self.question(tree, type_), *sides)

    def some_question(self, given, scope):
        return self.question(*self.rng.choice(self.known(given, scope)))

    def question(self, tree, type_):
        """A truth that goes by a tree of this type."""
        if type_ == "Int":
            return self.rng.choice([("less", tree, self.rng.randint(0, 6)), ("equal", tree, self.rng.randint(0, 4))])
        if is_form("List", type_):
            return ("less", ("len", tree), self.rng.randint(1, 3))
        if is_form("Event", type_):
            return ("on", tree, "false", "true")
        return tree if type_ == "Bool" else ("equal", tree, written(self.value(type_), type_))

    def through(self, given, output, scope, size):
        between = self.rng.choice([given, output, self.type(2)])
        return ("then", self.expression(given, between, scope, size), self.expression(between, output, scope, size))

    def choice(self, given, output, scope, size):
        sides = [self.expression(given, output, scope, size) for _ in range(2)]
        return ("if", self.expression(given, "Bool", scope, size), *sides)

    def happening(self, given, output, scope, size):
        carried = self.type(2)
        source = self.expression(given, event(carried), scope, size)
        without = self.expression(given, output, scope, size)
        return ("on", source, without, self.expression(pair(given, carried), output, scope, size))

    def element(self, given, output, scope, size):
        whole = self.expression(given, list_of(output), scope, size)
        at = self.rng.randint(-1, 3) if self.chance(0.6) else self.expression(given, "Int", scope, size)
        return ("nth", whole, at, self.expression(given, output, scope, size))

    def part(self, given, output, scope, size):
        other = self.type(2)
        if self.chance(0.5):
            return ("fst", self.expression(given, pair(output, other), scope, size))
        return ("snd", self.expression(given, pair(other, output), scope, size))

    def shaped(self, given, output, scope, size):
        """One of the forms that the program keeps a way of its own for, where the types allow one."""
        a, b = self.number(), self.number()
        shapes = []
        if given == output == "Int":
            shapes = [("add", "x", b), ("mul", "x", a), ("add", ("mul", "x", a), b)]
        elif given == "Int" and output == "Bool":
            shapes = [("less", "x", a)]
        elif is_form("Pair", given) and output == pair(given[2], given[1]):
            shapes = [SWAP]
        elif output == event(given):
            shapes = [("event", "x")]
        return self.rng.choice(shapes) if shapes else self.own(given, output, scope, size)

    def own(self, given, output, scope, size):
        """A form that makes values of the type and of few others."""

        def part(type_):
            return self.expression(given, type_, scope, size)

        if output == "Int":
            word = self.rng.choice(["neg", "add", "add", "sub", "mul", "len"])
            if word == "len":
                return ("len", part(list_of(self.type(2))))
            return (word, *[part("Int") for _ in range(1 if word == "neg" else 2)])
        if output == "Bool":
            return self.own_truth(part)
        if is_form("Event", output):
            return self.own_event(given, output[1], scope, size, part)
        return self.literal(given, output, scope, size)

    def own_truth(self, part):
        word = self.rng.choice(["less", "less", "equal", "not", "and", "or"])
        if word == "equal":
            compared = self.type(2)
            return ("equal", part(compared), part(compared))
        if word == "less":
            return ("less", part("Int"), part("Int"))
        return (word, *[part("Bool") for _ in range(1 if word == "not" else 2)])

    def own_event(self, given, carried, scope, size, part):
        word = self.rng.choice(["own", "own", "own", "lMerge", "gate", "tag", "attach"])
        if word == "lMerge":
            return ("lMerge", part(event(carried)), part(event(carried)))
        if word == "gate":
            return ("gate", carried, part(event(carried)), part("Bool"))
        if word == "tag":
            return ("tag", carried, part(event(self.type(2))), part(carried))
        if word == "attach" and is_form("Pair", carried):
            return ("attach", carried, part(event(carried[1])), part(carried[2]))
        return self.literal(given, event(carried), scope, size)

    # ---- networks

    def network(self, given, output, scope=UNIT_SCOPE, size=4):
        """A network from one type to another."""
        if size <= 0:
            return ("arr", self.expression(given, output, scope, 2))
        return self.fitted(given, self.of_form(self.word(), given, output, scope, size), output, scope)

    def any_network(self, given, size):
        """A network of any output type, so that its output shows all that its last form gives."""
        into, tree, output = self.of_form(self.word(), given, self.type(), UNIT_SCOPE, size)
        return self.fitted(given, (into, tree, output), output, UNIT_SCOPE)

    def word(self):
        return self.rng.choices(list(self.weights), list(self.weights.values()))[0]

    def of_form(self, word, given, output, scope, size):
        """A network that begins with this word, with the types that it has, which are these where that can be."""
        return getattr(self, "form_" + NAMES.get(word, word))(given, output, scope, size - 1)

    def fitted(self, given, made, output, scope):
        """What was made, with an `arr` before and behind where its types aren't the ones that are wanted."""
        into, tree, out = made
        if into != given:
            tree = (">>>", ("arr", self.expression(given, into, scope)), tree)
        return tree if out == output else (">>>", tree, ("arr", self.expression(out, output, scope)))

    def share(self, size, parts=2):
        """The size of one of the parts of a network."""
        return max(0, size // parts + self.rng.randint(-1, 1))

    def part_of(self, given, output, scope, size, parts=2):
        return self.network(given, output, scope, self.share(size, parts))

    def members(self, given, output, scope, size):
        count = 1 + min(self.rng.choice([0, 1, 1, 2]), max(size, 0)) if self.chance(0.97) else self.rng.randint(4, 64)
        return [self.network(given, output, scope, self.share(size, count) if count < 4 else 0) for _ in range(count)]

    def form_arr(self, given, output, scope, _size):
        return given, ("arr", self.expression(given, output, scope)), output

    def form_seq(self, given, output, scope, size):
        between = self.rng.choice([given, output, self.type(2)])
        parts = [self.part_of(given, between, scope, size), self.part_of(between, output, scope, size)]
        return given, (">>>", *parts), output

    def form_first(self, given, output, scope, size):
        given = given if is_form("Pair", given) else pair(given, self.type(2))
        inner = output[1] if is_form("Pair", output) else output
        return given, ("first", self.network(given[1], inner, scope, size)), pair(inner, given[2])

    def form_second(self, given, output, scope, size):
        given = given if is_form("Pair", given) else pair(self.type(2), given)
        inner = output[2] if is_form("Pair", output) else output
        return given, ("second", self.network(given[2], inner, scope, size)), pair(given[1], inner)

    def form_both(self, given, output, scope, size):
        given = given if is_form("Pair", given) else pair(given, self.type(2))
        output = output if is_form("Pair", output) else pair(self.type(2), output)
        parts = [self.part_of(a, b, scope, size) for a, b in zip(given[1:], output[1:])]
        return given, ("***", *parts), output

    def form_fan(self, given, output, scope, size):
        output = output if is_form("Pair", output) else pair(output, self.type(2))
        return given, ("&&&", *[self.part_of(given, part, scope, size) for part in output[1:]]), output

    def form_parB(self, given, output, scope, size):
        inner = output[1] if is_form("List", output) else output
        return given, ("parB", *self.members(given, inner, scope, size)), list_of(inner)

    def form_loopPre(self, given, output, scope, size):
        kept = self.rng.choice(["Int", output, self.type(2)])
        inner = self.network(pair(given, kept), pair(output, kept), scope, size)
        return given, ("loopPre", self.constant(kept, scope), inner), output

    def form_first_output(self, given, output, scope, size):
        return given, ("-->", self.constant(output, scope), self.network(given, output, scope, size)), output

    def form_first_input(self, given, output, scope, size):
        return given, (">--", self.constant(given, scope), self.network(given, output, scope, size)), output

    def form_iPre(self, given, _output, scope, _size):
        return given, ("iPre", self.constant(given, scope)), given

    def form_delay(self, given, _output, scope, _size):
        return given, ("delay", self.rng.choice([1, 2, 3, 5, 4096]), self.constant(given, scope)), given

    def form_hold(self, given, output, scope, _size):
        given = given if is_form("Event", given) else event(output)
        return given, ("hold", self.constant(given[1], scope)), given[1]

    def form_accumBy(self, given, output, scope, _size):
        given = given if is_form("Event", given) else event(given)
        kept = output[1] if is_form("Event", output) else output
        return given, ("accumBy", *self.accumulator(given[1], kept, scope)), event(kept)

    def form_accumHoldBy(self, given, output, scope, _size):
        given = given if is_form("Event", given) else event(given)
        return given, ("accumHoldBy", *self.accumulator(given[1], output, scope)), output

    def accumulator(self, given, kept, scope):
        return self.expression(pair(kept, given), kept, scope), self.constant(kept, scope)

    def timer(self, given, output, scope, before):
        carried = output[1] if is_form("Event", output) else self.type(2)
        return given, (*before, self.constant(carried, scope)), event(carried)

    def form_after(self, given, output, scope, _size):
        return self.timer(given, output, scope, ("after", self.rng.choice([0, 1, 2, 3, 7, 2**62])))

    def form_repeatedly(self, given, output, scope, _size):
        return self.timer(given, output, scope, ("repeatedly", self.rng.choice([1, 2, 3, 5, 2**62])))

    def form_now(self, given, output, scope, _size):
        return self.timer(given, output, scope, ("now",))

    def form_time(self, given, _output, _scope, _size):
        return given, "time", "Int"

    def form_integral(self, _given, _output, _scope, _size):
        return "Int", "integral", "Int"

    def form_identity(self, given, _output, _scope, _size):
        return given, "identity", given

    def form_edge(self, _given, _output, _scope, _size):
        return "Bool", "edge", event("Unit")

    def form_constant(self, given, output, scope, _size):
        return given, ("constant", self.constant(output, scope)), output

    def form_never(self, given, output, _scope, _size):
        carried = output[1] if is_form("Event", output) else output
        return given, ("never", carried), event(carried)

    # ---- switches

    def switch_parts(self, given, output, scope, size):
        value = self.type(2)
        t = self.part_of(given, output, scope.with_param(value), size)
        return self.part_of(given, pair(output, event(value)), scope, size), t

    def form_switch(self, given, output, scope, size):
        return given, ("switch", *self.switch_parts(given, output, scope, size)), output

    def form_dSwitch(self, given, output, scope, size):
        return given, ("dSwitch", *self.switch_parts(given, output, scope, size)), output

    def form_rSwitch(self, given, output, scope, size):
        return self.recurring("rSwitch", given, output, scope, size)

    def form_drSwitch(self, given, output, scope, size):
        return self.recurring("drSwitch", given, output, scope, size)

    def recurring(self, word, given, output, scope, size):
        given = self.with_event(given)
        _, sample, (_, value) = given
        f = self.part_of(sample, output, scope, size)
        return given, (word, f, self.part_of(sample, output, scope.with_param(value), size)), output

    def with_event(self, given):
        """A type of pairs of a sample and an event: the given one where it is so."""
        is_so = is_form("Pair", given) and is_form("Event", given[2])
        return given if is_so else pair(given, event(self.type(2)))

    def form_rpSwitchB(self, given, output, scope, size):
        given = self.with_event(given)
        _, sample, (_, value) = given
        first, member = self.remembering(sample, output[1] if is_form("List", output) else output, scope, size)
        members = [first, *self.members(sample, member, scope, size - 1)][:64]
        started = self.type(2)
        t = self.part_of(sample, member, scope.with_param(started), size)
        return given, ("rpSwitchB", ("col", *members), self.choosing(value, started, scope), t), list_of(member)

    def choosing(self, value, started, scope):
        """What an event keeps and starts: often members that are there, more than once or in another order."""
        way = self.rng.choice(["some", "some", "some", "any", "value"])
        if way == "any":
            return self.expression(value, pair(list_of("Int"), list_of(started)), scope)
        count = self.rng.choice([0, 1, 2, 3, 4]) if self.chance(0.97) else 70
        numbers = [self.rng.choice([0, 0, 1, 1, 2, 3, self.number()]) for _ in range(count)]
        if way == "value":
            numbers = [self.expression(value, "Int", scope, 1) if self.chance(0.5) else number for number in numbers]
        values = [self.expression(value, started, scope, 1) for _ in range(self.rng.choice([0, 0, 1, 1, 2]))]
        return ("pair", ("list", "Int", *numbers), ("list", started, *values))

    def form_kSwitch(self, given, output, scope, size):
        value = self.type(2)
        f, output = self.remembering(given, output, scope, size)
        e = self.watching(pair(given, output), value, scope, size)
        inner = scope.with_param(value).with_olds([(given, output)])
        return given, ("kSwitch", f, e, self.resuming(given, output, inner, size)), output

    def form_pSwitch(self, given, output, scope, size):
        routed, value = self.rng.choice([given, self.type(2)]), self.type(2)
        first, member = self.remembering(routed, output[1] if is_form("List", output) else output, scope, size)
        members = [first, *self.members(routed, member, scope, size - 1)][:64]
        out = list_of(member)
        e = self.watching(pair(given, out), value, scope, size)
        inner = scope.with_param(value).with_olds([(routed, member)] * len(members))
        r = self.expression(pair(given, "Int"), routed, scope)
        return given, ("pSwitch", r, ("col", *members), e, self.resuming(given, out, inner, size)), out

    def remembering(self, given, output, scope, size):
        """A network that is to be frozen, with its output type: more than half of them remember what came before."""
        if self.chance(0.4):
            return self.part_of(given, output, scope, size, 3), output
        into, tree, out = self.of_form(self.rng.choice(MEMORY), given, output, scope, 1)
        return self.fitted(given, (into, tree, out), out, scope), out

    def watching(self, given, value, scope, size):
        """What says when a network is frozen, often at a time or at a sample that isn't the first."""
        way = self.rng.choice(["any", "any", "time", "sample"])
        if way == "time":
            return ("after", self.rng.choice([1, 2, 3, 5]), self.constant(value, scope))
        if way == "sample":
            question = self.some_question(given, scope)
            return ("arr", ("if", question, ("event", self.expression(given, value, scope, 1)), ("none", value)))
        return self.part_of(given, event(value), scope, size, 3)

    def resuming(self, given, output, scope, size):
        """A continuation, which often resumes frozen networks, or freezes another one first."""
        way = self.rng.choice(["any", "freeze", "one", "one", "two"])
        if way == "any":
            return self.part_of(given, output, scope, size)
        if way == "freeze" and size > -2:
            form = self.rng.choice([self.form_kSwitch, self.form_pSwitch])
            return self.fitted(given, form(given, output, scope, size - 1), output, scope)
        level = self.rng.choice([len(scope.olds) - 1, self.rng.randrange(len(scope.olds))])
        into, out = scope.olds[level]
        if way == "two":
            return self.fitted(given, (into, ("parB", ("old", level), ("old", level)), list_of(out)), output, scope)
        return self.fitted(given, (into, ("old", level), out), output, scope)

    def form_old(self, given, output, scope, size):
        if not scope.olds:
            return self.of_form(self.rng.choice(["kSwitch", "pSwitch"]), given, output, scope, size)
        levels = [level for level, types in enumerate(scope.olds) if types == (given, output)]
        level = self.rng.choice(levels or range(len(scope.olds)))
        given, output = scope.olds[level]
        return given, ("old", level), output

    # ---- streams

    def step(self):
        if self.chance(0.9):
            return self.rng.choice([1, 1, 1, 2, 3, 4, 7])
        return self.rng.choice([GREATEST, GREATEST - 1, 2**62, 4096, 10**6])

    def stream(self, type_):
        """The lines of a stream, each with its line feed."""
        count = self.rng.choice([0, 1, 2, 3, 5, 8, 12, 16]) if self.chance(0.97) else self.rng.randint(100, 400)
        lines = []
        for number in range(count):
            shown_value = "=" if number and self.chance(0.15) else shown(self.value(type_))
            lines.append((f"+{self.step()} " if number else "") + shown_value + "\n")
        return [line.encode() for line in lines]

    # ---- texts

    def spaced(self, text):
        """The text of a file with other space between its tokens, and comments; sometimes of a later version than it needs."""
        if self.version == 2 and self.chance(0.2):
            text = text.replace("yampa 1", "yampa 2", 1)
            for version in "123":
                if self.chance(0.7):
                    text = text.replace(f"laws {version}", f"laws {int(version) + 1}", 1)
        if self.chance(0.5):
            return text.encode()
        gaps = [" ", " ", " ", "\n", "\t", "\r\n", "  ", " ; a comment ( \n", ";\n"]
        found = ""
        for token in text.replace("(", " ( ").replace(")", " ) ").split():
            tight = token == ")" or found.endswith("(") or token == "(" and found.endswith(")")
            found += ("" if not found or tight and self.chance(0.7) else self.rng.choice(gaps)) + token
        return (self.rng.choice(["", " ", "; first\n"]) + found + self.rng.choice(["", "\n", " ; last"])).encode()


def written(value, type_):
    """The expression that is this value, whatever the input."""
    if not isinstance(type_, tuple):
        return value
    if value == "none":
        return ("none", type_[1])
    if type_[0] == "List":
        return ("list", type_[1], *[written(element, type_[1]) for element in value[1:]])
    return (value[0], *[written(part, part_type) for part, part_type in zip(value[1:], type_[1:])])


def parts_of(tree, type_, deep=3):
    """The tree of this type and its parts, each with its type."""
    found = [(tree, type_)]
    if deep and is_form("Pair", type_):
        found += parts_of(("fst", tree), type_[1], deep - 1)
        found += parts_of(("snd", tree), type_[2], deep - 1)
    return found
