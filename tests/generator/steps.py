"""Random steps of certificates: left sides of the laws, put into random networks, and rows of steps in both directions."""
from model.laws import (
    ASSOC,
    DISTRIBUTED,
    FOLDED,
    LIFTING,
    SWITCH_LAWS,
    StepFault,
    accumulated,
    arr,
    forward,
    laws_by_word,
    left,
    lifted,
    mapped,
    right,
    seq,
    taken,
)
from model.texts import LAWS, NEW_LAWS, Step
from model.trees import SWAP, at, children, expanded, head, is_literal, is_network, preorder, replaced
from model.typed import WEIGHT, ExpressionFault, ExpressionWalk, Scope, check_types, event, is_form, list_of, pair, weight


class LeftSides:
    """Makes left sides of laws as `(input, tree, output)`, with the types that are given where that can be."""

    def __init__(self, maker, scope, size=2):
        self.maker, self.rng, self.scope, self.size = maker, maker.rng, scope, size

    def of(self, law, given, output):
        make = getattr(self, EXPRESSION_SIDES[law] if law[0] == "E" else NETWORK_SIDES[law])
        into, tree, out = make(law, given, output)
        return into, expanded(tree), out

    def e(self, given, output, size=2):
        return self.maker.expression(given, output, self.scope, size)

    def n(self, given, output, scope=None):
        return self.maker.network(given, output, scope or self.scope, self.rng.randint(0, self.size))

    def c(self, output):
        return self.maker.constant(output, self.scope)

    def t(self):
        return self.maker.type(2)

    def carried(self, output):
        """The type that an event type carries, or any."""
        return output[1] if is_form("Event", output) else self.t()

    def element(self, output):
        return output[1] if is_form("List", output) else output

    # ---- expressions

    def then_side(self, law, given, output):
        if law == "E1":
            return given, ("then", "x", self.e(given, output)), output
        if law == "E2":
            return given, ("then", self.e(given, output), "x"), output
        a, b = self.t(), self.t()
        return given, ("then", ("then", self.e(given, a), self.e(a, b)), self.e(b, output)), output

    def distributed_side(self, _law, given, output):
        between = self.t()
        word = self.rng.choice(DISTRIBUTED)
        made, out = self.form(word, between, output)
        return given, ("then", self.e(given, between), made), out

    def form(self, word, given, output, make=None):
        """An expression that begins with this word, its parts by this function, and its type."""
        t, make = self.t(), make or self.e
        shapes = {
            "pair": ([output[1], output[2]] if is_form("Pair", output) else [t, output], None),
            "fst": ([pair(output, t)], output),
            "snd": ([pair(t, output)], output),
            "neg": (["Int"], "Int"),
            "less": (["Int", "Int"], "Bool"),
            "equal": ([t, t], "Bool"),
            "not": (["Bool"], "Bool"),
            "and": (["Bool", "Bool"], "Bool"),
            "or": (["Bool", "Bool"], "Bool"),
            "if": (["Bool", output, output], output),
            "event": ([self.carried(output)], None),
            "nth": ([list_of(output), "Int", output], output),
            "len": ([list_of(t)], "Int"),
            "list": ([self.element(output)] * self.rng.randint(1, 3), None),
        }
        wanted, out = shapes.get(word, (["Int", "Int"], "Int"))
        parts = [make(given, type_) for type_ in wanted]
        if word == "list":
            return ("list", wanted[0], *parts), list_of(wanted[0])
        return (word, *parts), out or (pair(*wanted) if word == "pair" else event(wanted[0]))

    def on_side(self, law, given, output):
        carried = self.t()
        d, b = self.e(given, output), self.e(pair(given, carried), output)
        if law == "E13":
            return given, ("on", ("none", carried), d, b), output
        if law == "E14":
            return given, ("on", ("event", self.e(given, carried)), d, b), output
        between = self.t()
        inner = ("on", self.e(between, event(carried)), self.e(between, output), self.e(pair(between, carried), output))
        return given, ("then", self.e(given, between), inner), output

    def constant_side(self, _law, given, output):
        ways = ["literal", "none", "list"] + ["p"] * 3 * bool(self.scope.params)
        way = self.rng.choice(ways)
        if way == "p":
            level = self.rng.randrange(len(self.scope.params))
            made, out = ("p", level), self.scope.params[level]
        elif way == "literal":
            out = output if output in ("Int", "Bool", "Unit") else self.rng.choice(["Int", "Bool", "Unit"])
            made = self.maker.value(out)
        else:
            carried = self.carried(output) if way == "none" else self.element(output)
            made, out = (way, carried), (event if way == "none" else list_of)(carried)
        return given, ("then", self.e(given, self.t()), made), out

    def pair_side(self, law, given, output):
        if law == "E7":
            return given, ("fst", ("pair", self.e(given, output), self.e(given, self.t()))), output
        if law == "E8":
            return given, ("snd", ("pair", self.e(given, self.t()), self.e(given, output))), output
        both = output if is_form("Pair", output) else pair(output, self.t())
        e = self.e(given, both)
        return given, ("pair", ("fst", e), ("snd", e)), both

    def if_side(self, law, given, output):
        e, f = self.e(given, output), self.e(given, output)
        condition = {"E10": "true", "E11": "false"}.get(law) or self.e(given, "Bool")
        if law == "E25":
            condition = ("not", condition)
        if law == "E44":
            return given, ("if", condition, "true", "false"), "Bool"
        if law in ("E47", "E48"):
            inner = ("if", condition, self.e(given, output), f)
            return given, ("if", condition, *((inner, e) if law == "E47" else (e, inner))), output
        return given, ("if", condition, e, e if law == "E12" else f), output

    def lifted_side(self, _law, given, output):
        word, between, carried, made, out = self.rng.choice(list(LIFTING)), self.t(), self.t(), None, output
        while lifted(made) is None:
            if word == "then":
                made = ("then", self.perhaps_if(given, between), self.perhaps_if(between, output))
            elif word == "on":
                last = self.perhaps_if(pair(given, carried), output)
                made = ("on", self.perhaps_if(given, event(carried)), self.perhaps_if(given, output), last)
            else:
                made, out = self.form(word, given, output, self.perhaps_if)
            made = expanded(made)
        return given, made, out

    def perhaps_if(self, given, output):
        """An expression, as often as not an `if`."""
        e = self.e(given, output, 1)
        return ("if", self.e(given, "Bool", 1), e, self.e(given, output, 1)) if self.maker.chance(0.5) else e

    def nested_side(self, law, given, output):
        carried, other, between = self.t(), self.t(), self.t()
        e = self.e(given, event(carried))

        def on(out):
            return ("on", e, self.e(given, out), self.e(pair(given, carried), out))

        if law == "E50":
            return given, ("on", on(event(other)), self.e(given, output), self.e(pair(given, other), output)), output
        if law == "E51":
            return given, ("on", e, ("none", carried), ("event", ("snd", "x"))), event(carried)
        if law == "E52":
            d = self.e(given, output)
            return given, ("on", e, d, ("then", ("fst", "x"), d)), output
        if law == "E53":
            return given, ("then", on(between), self.e(between, output)), output
        both = output if is_form("Pair", output) else pair(output, other)
        if law == "E54":
            return given, ("pair", on(both[1]), self.e(given, both[2])), both
        return given, ("pair", self.e(given, both[1]), on(both[2])), both

    def folded_side(self, _law, given, output):
        word = self.rng.choice(FOLDED[4:] if output == "Bool" else FOLDED)
        if word == "equal":
            kind = self.rng.choice(["Int", "Int", "Bool", "Unit"])
        else:
            kind = "Bool" if word in ("not", "and", "or") else "Int"
        parts = [self.maker.value(kind) for _ in range(1 if word in ("neg", "not") else 2)]
        return given, (word, *parts), "Int" if word in ("neg", "add", "sub", "mul") else "Bool"

    def number_side(self, law, given, _output):
        a, b = self.e(given, "Int"), self.e(given, "Int")
        sides = {
            "E27": ("add", a, 0),
            "E28": ("mul", a, 1),
            "E29": ("mul", a, 0),
            "E30": ("neg", ("neg", a)),
            "E31": ("neg", ("add", a, b)),
            "E32": ("neg", ("mul", a, b)),
            "E33": ("add", a, ("neg", a)),
            "E34": ("less", a, a),
        }
        return given, sides[law], "Bool" if law == "E34" else "Int"

    def truth_side(self, law, given, _output):
        a, b, c = [self.e(given, "Bool") for _ in range(3)]
        sides = {
            "E35": ("and", a, a),
            "E36": ("or", a, a),
            "E37": ("and", ("and", a, b), c),
            "E38": ("or", ("or", a, b), c),
            "E39": ("and", a, ("not", a)),
            "E40": ("or", a, ("not", a)),
            "E41": ("not", ("and", a, b)),
            "E42": ("not", ("or", a, b)),
            "E43": ("and", a, ("or", b, c)),
            "E45": ("and", a, b),
            "E46": ("or", a, b),
        }
        return given, sides[law], "Bool"

    def sum_side(self, law, given, _output):
        a, b = self.e(given, "Int"), self.e(given, "Int")
        return given, ("add", a, b) if law == "E16" else ("add", ("add", a, b), self.e(given, "Int")), "Int"

    def product_side(self, law, given, _output):
        a, b, c = [self.e(given, "Int") for _ in range(3)]
        return given, {"E19": ("sub", a, b), "E20": ("mul", a, b), "E21": ("mul", ("mul", a, b), c)}.get(law, ("mul", a, ("add", b, c))), "Int"

    def logic_side(self, law, given, _output):
        if law == "E24":
            return given, ("not", ("not", self.e(given, "Bool"))), "Bool"
        if law == "E26":
            kind = self.rng.choice(["Int", "Bool", self.t()])
            a = self.e(given, kind)
            return given, ("equal", a, a if self.maker.chance(0.5) else self.e(given, kind)), "Bool"
        a = self.rng.choice(["true", "false", self.e(given, "Bool"), self.e(given, "Bool")])
        return given, (self.rng.choice(["and", "or"]), a, self.e(given, "Bool")), "Bool"

    def nth_side(self, _law, given, output):
        elements = [self.e(given, output) for _ in range(self.rng.randint(1, 4))]
        i = self.rng.choice([-1, 0, 1, 2, 3, 4, self.maker.number()])
        return given, ("nth", ("list", output, *elements), i, self.e(given, output)), output

    # ---- networks

    def arrow_side(self, law, given, output):
        b, c = self.t(), self.t()
        sides = {
            "L1": lambda: seq(arr("x"), self.n(given, output)),
            "L2": lambda: seq(self.n(given, output), arr("x")),
            "L3": lambda: seq(seq(self.n(given, b), self.n(b, c)), self.n(c, output)),
            "L4": lambda: seq(arr(self.e(given, b)), arr(self.e(b, output))),
            "L10": lambda: seq(arr(self.e(given, b)), seq(arr(self.e(b, c)), self.n(c, output))),
            "L11": lambda: seq(("iPre", self.c(given)), arr(self.e(given, output))),
            "L26": lambda: seq(("delay", self.rng.randint(1, 4), self.c(given)), arr(self.e(given, output))),
            "L25": lambda: seq(self.n(given, b), arr(("then", "unit", self.c(output)))),
        }
        return given, sides[law](), output

    def copied_side(self, _law, given, output):
        part = output[1] if is_form("Pair", output) else output
        return given, seq(self.n(given, part), arr(("pair", "x", "x"))), pair(part, part)

    def first_side(self, law, given, output):
        other, d = self.t(), self.t()
        both, out = pair(given, other), pair(output, other)
        if law == "L5":
            return both, ("first", arr(self.e(given, output))), out
        if law == "L6":
            return both, ("first", seq(self.n(given, d), self.n(d, output))), out
        if law == "L7":
            return both, seq(("first", self.n(given, output)), arr(right(self.e(other, d)))), pair(output, d)
        if law == "L8":
            return both, seq(("first", self.n(given, output)), arr(("fst", "x"))), output
        if law == "L47":
            return both, ("first", ("loopPre", self.c(d), self.n(pair(given, d), pair(output, d)))), out
        if law == "L48":
            second = seq(arr(SWAP), seq(("first", self.n(other, d)), arr(SWAP)))
            return both, seq(("first", self.n(given, output)), second), pair(output, d)
        made = seq(("first", ("first", self.n(given, output))), arr(ASSOC))
        return pair(both, d), made, pair(output, pair(other, d))

    def pair_cell_side(self, law, given, _output):
        both = given if is_form("Pair", given) else pair(given, self.t())
        cell = ("iPre",) if law == "L12" else ("delay", self.rng.randint(1, 4))
        return both, (*cell, ("pair", self.c(both[1]), self.c(both[2]))), both

    def cell_side(self, law, given, output):
        if law == "L49":
            return given, ("iPre", self.c(given)), given
        if law == "L50":
            return event(output), ("hold", self.c(output)), output
        if law == "L53":
            source, z = self.carried(given), self.c(output)
            return event(source), seq(("accumBy", self.e(pair(output, source), output), z), ("hold", z)), output
        if law == "L63":
            return given, seq(arr(("then", "unit", 1)), "integral"), "Int"
        source, kept = self.carried(given), self.carried(output)
        loop = ("loopPre", self.c(kept), arr(accumulated(self.e(pair(kept, source), kept), kept)))
        return event(source), loop, event(kept)

    def loop_side(self, law, given, output):
        c, d = self.t(), self.t()
        if law == "L13":
            loop = ("loopPre", self.c(c), self.n(pair(d, c), pair(output, c)))
            return given, seq(self.n(given, d), loop), output
        if law == "L14":
            loop = ("loopPre", self.c(c), self.n(pair(given, c), pair(d, c)))
            return given, seq(loop, self.n(d, output)), output
        if law == "L15":
            inner = seq(arr(right(self.e(d, c))), self.n(pair(given, c), pair(output, d)))
            return given, ("loopPre", self.c(d), inner), output
        if law == "L16":
            inner = self.n(pair(pair(given, c), d), pair(pair(output, c), d))
            return given, ("loopPre", self.c(c), ("loopPre", self.c(d), inner)), output
        return given, ("loopPre", self.c(c), ("first", self.n(given, output))), output

    def event_side(self, law, given, output):
        carried = self.carried(output)
        if law == "L18":
            return given, seq(arr(("event", self.e(given, output))), ("hold", self.c(output))), output
        if law == "L19":
            return given, seq(arr(("none", output)), ("hold", self.c(output))), output
        if law == "L20":
            if output == "Int":
                return given, seq(self.n(given, self.t()), "time"), "Int"
            timer = (self.rng.choice(["after", "repeatedly"]), self.rng.randint(1, 4), self.c(carried))
            return given, seq(self.n(given, self.t()), timer), event(carried)
        source = self.t()
        timer = ("after" if law == "L21" else "repeatedly", self.rng.randint(1, 4), self.c(source))
        return given, seq(timer, arr(mapped(self.e(source, carried), carried))), event(carried)

    def mapped_side(self, law, given, output):
        source = self.carried(given)
        if law == "L23":
            g = self.e(source, output)
            return event(source), seq(arr(mapped(g, output)), ("hold", ("then", self.c(source), g))), output
        between, kept = self.t(), self.carried(output)
        accum = ("accumBy", self.e(pair(kept, between), kept), self.c(kept))
        return event(source), seq(arr(mapped(self.e(source, between), between)), accum), event(kept)

    def switch_side(self, law, given, output):
        s, value_type, other = SWITCH_LAWS[law], self.t(), self.t()
        inner = self.scope.with_param(value_type)
        if law in ("L27", "L28"):
            parts = [self.n(other, pair(output, event(value_type))), self.n(other, output, inner)]
            return given, seq(arr(self.e(given, other)), (s, *parts)), output
        if law in ("L29", "L30"):
            parts = [self.n(given, pair(other, event(value_type))), self.n(given, other, inner)]
            return given, seq((s, *parts), arr(self.e(other, output))), output
        if law in ("L31", "L32"):
            never = seq(self.n(given, output), arr(("pair", "x", ("none", value_type))))
            return given, (s, never, self.n(given, output, inner)), output
        if law in ("L64", "L65"):
            e = self.e(given, output)
            return given, (s, arr(("pair", e, self.e(given, event(value_type)))), arr(e)), output
        parts = [self.n(given, pair(output, event(value_type))), self.n(given, output, inner)]
        return pair(given, other), ("first", (s, *parts)), pair(output, other)

    def recurring_side(self, law, given, output):
        value_type, between = self.t(), self.t()
        inner = self.scope.with_param(value_type)
        both = pair(given, event(value_type))
        if law in ("L35", "L54"):
            ready = arr(("pair", self.e(given, between), ("none", value_type)))
            s = "rSwitch" if law == "L35" else "drSwitch"
            return given, seq(ready, (s, self.n(between, output), self.n(between, output, inner))), output
        if law in ("L56", "L57"):
            parts = [self.n(between, output), self.n(between, output, inner)]
            return both, seq(arr(left(self.e(given, between))), (SWITCH_LAWS[law], *parts)), output
        parts = [self.n(given, between), self.n(given, between, inner)]
        return both, seq(("rSwitch" if law == "L36" else "drSwitch", *parts), arr(self.e(between, output))), output

    def opening_side(self, law, given, output):
        if law == "L43":
            return given, ("-->", self.c(output), ("-->", self.c(output), self.n(given, output))), output
        if law == "L44":
            return given, (">--", self.c(given), arr(self.e(given, output))), output
        if law == "L61":
            return given, ("-->", self.c(given), ("iPre", self.c(given))), given
        if law == "L62":
            carried = self.carried(output)
            return given, ("-->", ("event", self.c(carried)), arr(("none", carried))), event(carried)
        between = self.t()
        chain = seq(self.n(given, between), self.n(between, output))
        if law == "L58":
            return given, ("-->", self.c(output), chain), output
        if law == "L59":
            return given, (">--", self.c(given), chain), output
        return given, seq(("-->", self.c(between), chain[1]), chain[2]), output

    def freezing_side(self, law, given, output):
        value_type = self.t()
        inner = self.scope.with_param(value_type).with_olds([(given, output)])
        f = self.n(given, output)
        if law == "L37":
            return given, ("kSwitch", f, arr(("none", value_type)), self.n(given, output, inner)), output
        e = self.n(pair(given, output), event(value_type))
        return given, ("kSwitch", f, e, ("old", len(self.scope.olds))), output

    def members_side(self, law, given, output):
        member, between = self.element(output), self.t()
        count = self.rng.randint(1, 3)
        if law == "L39":
            olds = [(between, member)] * count
            t = self.n(given, list_of(member), self.scope.with_param("Int").with_olds(olds))
            members = ("col", *[self.n(between, member) for _ in range(count)])
            made = ("pSwitch", self.e(pair(given, "Int"), between), members, arr(("none", "Int")), t)
            return given, made, list_of(member)
        if law == "L46":
            members, value_type, started = [self.n(between, member) for _ in range(count)], self.t(), self.t()
            m = self.e(value_type, pair(list_of("Int"), list_of(started)))
            ready = arr(("pair", self.e(given, between), ("none", value_type)))
            t = self.n(between, member, self.scope.with_param(started))
            return given, seq(ready, ("rpSwitchB", ("col", *members), m, t)), list_of(member)
        if law == "L40":
            members = [self.n(given, output) for _ in range(count)]
            choice = ("nth", "x", self.rng.randrange(count), self.e(list_of(output), output))
            return given, seq(("parB", *members), arr(choice)), output
        if law == "L41":
            members = [self.n(between, member) for _ in range(count)]
            return given, seq(self.n(given, between), ("parB", *members)), list_of(member)
        elements = [self.e(given, member) for _ in range(count)]
        return given, arr(("list", member, *elements)), list_of(member)


def sides(**laws):
    return {law: name for name, numbers in laws.items() for law in numbers.split()}


EXPRESSION_SIDES = sides(
    then_side="E1 E2 E3",
    distributed_side="E4",
    on_side="E5 E13 E14",
    constant_side="E6",
    pair_side="E7 E8 E9",
    if_side="E10 E11 E12 E25 E44 E47 E48",
    folded_side="E15",
    sum_side="E16 E17",
    nth_side="E18",
    product_side="E19 E20 E21 E22",
    logic_side="E23 E24 E26",
    number_side="E27 E28 E29 E30 E31 E32 E33 E34",
    truth_side="E35 E36 E37 E38 E39 E40 E41 E42 E43 E45 E46",
    lifted_side="E49",
    nested_side="E50 E51 E52 E53 E54 E55",
)
NETWORK_SIDES = sides(
    arrow_side="L1 L2 L3 L4 L10 L11 L25 L26",
    first_side="L5 L6 L7 L8 L9 L47 L48",
    copied_side="L52",
    pair_cell_side="L12 L55",
    cell_side="L49 L50 L51 L53 L63",
    loop_side="L13 L14 L15 L16 L17",
    event_side="L18 L19 L20 L21 L22",
    mapped_side="L23 L24",
    switch_side="L27 L28 L29 L30 L31 L32 L33 L34 L64 L65",
    recurring_side="L35 L36 L45 L54 L56 L57",
    opening_side="L43 L44 L58 L59 L60 L61 L62",
    freezing_side="L37 L38",
    members_side="L39 L40 L41 L42 L46",
)


class StepMaker:
    """Makes certificates that lead from one network to another."""

    def __init__(self, maker):
        self.maker, self.rng = maker, maker.rng
        self.expression_growths = EXPRESSION_GROWTHS + NEW_GROWTHS * (maker.version == 2)
        self.laws_by_word = laws_by_word([law for law in LAWS if maker.version == 2 or law not in NEW_LAWS])
        self.network_growths = NETWORK_GROWTHS + NEW_NETWORK_GROWTHS * (maker.version == 2)

    def with_left_side(self, typed, law):
        """A network with a left side of the law at a random place of this one, and the position of that side.

        Another place is taken where the side would make the network too heavy; at its top none does."""
        places = [place for place in typed.places.values() if is_network(place.tree) == (law[0] == "L")]
        if not places:
            return self.with_left_side(check_types(typed.input, seq(arr("x"), typed.places[()].tree)), law)
        bound = [place for place in places if place.scope != Scope()]
        place = self.rng.choice(bound if bound and self.maker.chance(0.5) else places)
        into, tree, out = LeftSides(self.maker, place.scope).of(law, place.input, place.output)
        fitted, position = self.fitted(place, into, tree, out)
        net = replaced(typed.places[()].tree, place.position, fitted)
        if weight(net) > WEIGHT:
            return self.with_left_side(typed, law)
        return check_types(typed.input, net), place.position + position

    def nearly(self, typed, position):
        """The network with another part of the same types hardly below a position, or there where that has no parts."""
        place = typed.places[position]
        for _ in range(self.rng.choice([1, 1, 2])):
            if children(place.tree):
                place = typed.places[(*place.position, self.rng.randrange(len(children(place.tree))))]
        make = self.maker.network if is_network(place.tree) else self.maker.expression
        other = expanded(make(place.input, place.output, place.scope, self.rng.choice([0, 1, 2, 2])))
        net = replaced(typed.places[()].tree, place.position, other)
        return check_types(typed.input, net) if weight(net) <= WEIGHT else self.nearly(typed, position)

    def fitted(self, place, into, tree, out):
        """The tree with the types of the place, and the tree's position in that."""
        network = is_network(tree)

        def between(a, b):
            e = expanded(self.maker.expression(a, b, place.scope, 2))
            return arr(e) if network else e

        word, position = ">>>" if network else "then", ()
        if into != place.input:
            tree, position = (word, between(place.input, into), tree), (1,)
        if out != place.output:
            tree, position = (word, tree, between(out, place.output)), (0, *position)
        return tree, position

    def forward_steps(self, typed):
        """The steps forward that are there to take."""
        net, found = typed.places[()].tree, []
        for position, tree in preorder(net):
            olds = len(typed.places[position].scope.olds)
            laws = self.laws_by_word.get(head(tree), [])
            found += [Step(law, "forward", position) for law in laws if forward(law, tree, olds) is not None]
        return found

    def backward_step(self, typed):
        """A step backward from any place to a larger tree, or None."""
        position, tree = self.rng.choice(list(preorder(typed.places[()].tree)))
        place = typed.places[position]
        law = self.rng.choice(self.network_growths if is_network(tree) else self.expression_growths)
        given = self.grown(law, tree, place)
        return None if given is None else Step(law, "backward", position, expanded(given))

    def grown(self, law, tree, place):
        """A left side of the law whose right side is the tree, or None."""

        def e(output, given=place.input):
            return self.maker.expression(given, output, place.scope, 1)

        t = self.maker.type(2)
        match law, tree:
            case "E1", _:
                return ("then", "x", tree)
            case "E2", _:
                return ("then", tree, "x")
            case "E3", ("then", f, ("then", g, h)):
                return ("then", ("then", f, g), h)
            case "E6", _ if is_literal(tree) or head(tree) in ("p", "none"):
                return ("then", e(t), tree)
            case "E7", _:
                return ("fst", ("pair", tree, e(t)))
            case "E8", _:
                return ("snd", ("pair", e(t), tree))
            case "E9", _ if is_form("Pair", place.output):
                return ("pair", ("fst", tree), ("snd", tree))
            case "E10", _:
                return ("if", "true", tree, e(place.output))
            case "E11", _:
                return ("if", "false", e(place.output), tree)
            case "E12", _:
                return ("if", e("Bool"), tree, tree)
            case "E13", _:
                return ("on", ("none", t), tree, e(place.output, pair(place.input, t)))
            case "E14", ("then", ("pair", "x", v), b):
                return ("on", ("event", v), e(place.output), b)
            case "E15", int(n):
                return self.rng.choice([("neg", -n), ("add", n - 1, 1), ("sub", n, 0)]) if abs(n) < 2**62 else None
            case "E16", ("add", a, b):
                return ("add", b, a)
            case "E17", ("add", a, ("add", b, c)):
                return ("add", ("add", a, b), c)
            case "E18", _:
                return ("nth", ("list", place.output, tree), self.rng.choice([0, 0, 5]), tree)
            case "E19", ("add", a, ("neg", b)):
                return ("sub", a, b)
            case "E20", ("mul", a, b):
                return ("mul", b, a)
            case "E21", ("mul", a, ("mul", b, c)):
                return ("mul", ("mul", a, b), c)
            case "E22", ("add", ("mul", a, b), ("mul", d, c)) if a == d:
                return ("mul", a, ("add", b, c))
            case "E23", ("and" | "or" as o, a, b) if b not in ("true", "false"):
                return (o, b, a)
            case "E23", _ if place.output == "Bool":
                return self.rng.choice([("and", "true", tree), ("or", "false", tree)])
            case "E24", _ if place.output == "Bool":
                return ("not", ("not", tree))
            case "E25", ("if", c, a, b):
                return ("if", ("not", c), b, a)
            case "E26", ("equal", a, b) if a != b:
                return ("equal", b, a)
            case "E26", "true":
                a = e(t)
                return ("equal", a, a)
        if is_network(tree):
            return self.grown_network(law, tree, place, e, t)
        return grown_anywhere(law, tree, place.output, e, t) or grown_form(law, tree, place.output, e)

    def grown_network(self, law, tree, place, e, t):
        inner = place.scope.with_param(t)

        def n(given=place.input, output=place.output, scope=place.scope):
            return self.maker.network(given, output, scope, 1)

        match law, tree:
            case "L1", _:
                return seq(arr("x"), tree)
            case "L2", _:
                return seq(tree, arr("x"))
            case "L3", (">>>", f, (">>>", g, h)):
                return seq(seq(f, g), h)
            case "L5", ("arr", ("pair", ("then", ("fst", "x"), f), ("snd", "x"))):
                return ("first", arr(f))
            case "L13", ("loopPre", c, (">>>", ("first", h), f)):
                return seq(h, ("loopPre", c, f))
            case "L17", _:
                return ("loopPre", self.maker.constant(t, place.scope), ("first", tree))
            case "L18", ("arr", f):
                return seq(arr(("event", f)), ("hold", self.maker.constant(place.output, place.scope)))
            case "L20", _ if head(tree) in ("after", "repeatedly", "time"):
                return seq(n(output=t, given=place.input), tree)
            case "L25", ("arr", ("then", "unit", _)):
                return seq(n(output=t), tree)
            case ("L31" | "L32"), _:
                never = seq(tree, arr(("pair", "x", ("none", t))))
                return (SWITCH_LAWS[law], never, n(scope=inner))
            case ("L35" | "L54"), (">>>", ("arr", f), g):
                between, s = output_of(f, place), "rSwitch" if law == "L35" else "drSwitch"
                return between and seq(arr(("pair", f, ("none", t))), (s, g, n(given=between, scope=inner)))
            case "L37", _:
                frozen = inner.with_olds([(place.input, place.output)])
                return ("kSwitch", tree, arr(("none", t)), n(scope=frozen))
            case "L38", _:
                watching = n(given=pair(place.input, place.output), output=event(t))
                return ("kSwitch", tree, watching, ("old", len(place.scope.olds)))
            case "L40", _:
                return seq(("parB", tree, n()), arr(("nth", "x", 0, e(place.output, list_of(place.output)))))
            case "L42", ("parB", *members) if all(head(member) == "arr" for member in members):
                return arr(("list", place.output[1], *[member[1] for member in members]))
            case "L43", ("-->", c, f):
                return ("-->", c, ("-->", self.maker.constant(place.output, place.scope), f))
            case "L44", ("-->", ("then", c, f), ("arr", g)) if f == g:
                return (">--", c, arr(f))
            case "L46", (">>>", ("arr", f), ("parB", *members)):
                between = output_of(f, place)
                m = ("pair", ("list", "Int", self.maker.number()), ("list", t))
                started = between and n(given=between, output=place.output[1], scope=inner)
                return between and seq(arr(("pair", f, ("none", "Int"))), ("rpSwitchB", ("col", *members), m, started))
            case "L61", ("iPre", c):
                return ("-->", c, ("iPre", self.maker.constant(place.output, place.scope)))
            case ("L64" | "L65"), ("arr", f):
                return (SWITCH_LAWS[law], arr(("pair", f, e(event(t)))), tree)
        return grown_opening(law, tree, place.output)

    def ill_typed_step(self, typed):
        """A step backward that matches, to a tree with a part that has hardly ever a type."""
        position, tree = self.rng.choice(list(preorder(typed.places[()].tree)))
        t = self.maker.type(2)
        if is_network(tree):
            ill = self.rng.choice([("old", self.rng.randint(0, 9)), ("hold", 0), arr(("p", 9)), arr(("not", 1)), ("parB",)])
            trees = {
                "L17": ("loopPre", self.rng.choice(["x", ("p", 9), ("not", 1)]), ("first", tree)),
                "L20": seq(ill, tree),
                "L25": seq(ill, tree),
                "L31": ("switch", seq(tree, arr(("pair", "x", ("none", t)))), ill),
                "L32": ("dSwitch", seq(tree, arr(("pair", "x", ("none", t)))), ill),
                "L37": ("kSwitch", tree, arr(("none", t)), ill),
                "L40": seq(("parB", tree, ill), arr(("nth", "x", 0, 0))),
            }
        else:
            ills = [("p", 9), ("not", 1), ("add", "true", 1), ("fst", 0), ("if", 1, "x", "x"), ("equal", 1, "true")]
            ill = self.rng.choice(ills)
            trees = {
                "E6": ("then", ill, tree),
                "E7": ("fst", ("pair", tree, ill)),
                "E8": ("snd", ("pair", ill, tree)),
                "E9": ("pair", ("fst", tree), ("snd", tree)),
                "E10": ("if", "true", tree, ill),
                "E11": ("if", "false", ill, tree),
                "E12": ("if", ill, tree, tree),
                "E13": ("on", ("none", t), tree, ill),
                "E52": ("on", ill, tree, ("then", ("fst", "x"), tree)),
                "E18": ("nth", ("list", t, tree), 0, tree),
            }
        law = self.rng.choice(list(trees))
        return Step(law, "backward", position, trees[law])

    def walk(self, typed, count):
        """A row of steps that can be taken from a network, in both directions, and the typed networks between them."""
        steps, typeds = [], [typed]
        for _ in range(count):
            step = self.forward_step(typeds[-1]) if self.maker.chance(0.6) else self.backward_step(typeds[-1])
            behind = step and self.behind(typeds[-1], step)
            if behind:
                steps.append(step)
                typeds.append(behind)
        return steps, typeds

    def forward_step(self, typed):
        steps = self.forward_steps(typed)
        laws = sorted({step.law for step in steps})
        if not laws:
            return None
        law = self.rng.choice(laws)
        return self.rng.choice([step for step in steps if step.law == law])

    def behind(self, typed, step):
        try:
            return taken(typed, step)
        except StepFault:
            return None


def grown_anywhere(law, tree, output, e, t):
    """A left side of a law of version 4 that has as its right side any tree of the type, or this literal, or None."""
    number, truth = e("Int"), e("Bool")
    sides = {"E52": ("on", e(event(t)), tree, ("then", ("fst", "x"), tree))}
    if is_form("Event", output):
        sides["E51"] = ("on", tree, ("none", output[1]), ("event", ("snd", "x")))
    if output == "Int":
        sides |= {"E27": ("add", tree, 0), "E28": ("mul", tree, 1), "E30": ("neg", ("neg", tree))}
    if output == "Bool":
        sides |= {"E35": ("and", tree, tree), "E36": ("or", tree, tree), "E44": ("if", tree, "true", "false")}
    if tree == 0:
        sides |= {"E29": ("mul", number, 0), "E33": ("add", number, ("neg", number))}
    if tree == "false":
        sides |= {"E34": ("less", number, number), "E39": ("and", truth, ("not", truth))}
    if tree == "true":
        sides["E40"] = ("or", truth, ("not", truth))
    return sides.get(law)


def grown_form(law, tree, output, e):
    """A left side of a law of version 4 whose right side is this form, or None."""
    match law, tree:
        case "E31", ("add", ("neg", a), ("neg", b)):
            return ("neg", ("add", a, b))
        case "E32", ("mul", ("neg", a), b):
            return ("neg", ("mul", a, b))
        case ("E37", ("and", a, ("and", b, c))) | ("E38", ("or", a, ("or", b, c))):
            return (tree[0], (tree[0], a, b), c)
        case "E41", ("or", ("not", a), ("not", b)):
            return ("not", ("and", a, b))
        case "E42", ("and", ("not", a), ("not", b)):
            return ("not", ("or", a, b))
        case "E43", ("or", ("and", a, b), ("and", d, c)) if a == d:
            return ("and", a, ("or", b, c))
        case "E45", ("if", a, b, "false"):
            return ("and", a, b)
        case "E46", ("if", a, "true", b):
            return ("or", a, b)
        case "E47", ("if", c, a, d):
            return ("if", c, ("if", c, a, e(output)), d)
        case "E48", ("if", c, a, d):
            return ("if", c, a, ("if", c, e(output), d))
        case "E53", ("on", o, ("then", d, f), ("then", b, g)) if f == g:
            return ("then", ("on", o, d, b), f)
        case "E54", ("on", o, ("pair", d, f), ("pair", b, ("then", ("fst", "x"), g))) if f == g:
            return ("pair", ("on", o, d, b), f)
        case "E55", ("on", o, ("pair", f, d), ("pair", ("then", ("fst", "x"), g), b)) if f == g:
            return ("pair", f, ("on", o, d, b))
    return None


def grown_opening(law, tree, output):
    """The same of a law of networks."""
    match law, tree:
        case "L58", (">>>", f, ("-->", c, g)):
            return ("-->", c, seq(f, g))
        case "L59", (">>>", (">--", c, f), g):
            return (">--", c, seq(f, g))
        case "L60", (">>>", f, (">--", c, g)):
            return seq(("-->", c, f), g)
        case "L62", ("after", 0, c):
            return ("-->", ("event", c), arr(("none", output[1])))
        case "L63", "time":
            return seq(arr(("then", "unit", 1)), "integral")
    return None


def output_of(tree, place):
    """The type of an expression at the input and in the scope of a place, or None."""
    try:
        return ExpressionWalk({}).whole(tree, place.input, place.scope)
    except ExpressionFault:
        return None


def reversed_steps(steps, typeds):
    """The steps that lead back; `typeds` are the networks between the steps, from source to target."""
    return [turned(step, typeds[at]) for at, step in reversed(list(enumerate(steps)))]


def turned(step, before):
    """The step that leads back to the network before it."""
    if step.direction == "backward":
        return Step(step.law, "forward", step.position)
    return Step(step.law, "backward", step.position, at(before.places[()].tree, step.position))


NETWORK_GROWTHS = "L1 L2 L3 L5 L13 L17 L18 L20 L25 L31 L32 L35 L37 L38 L40 L42".split()
EXPRESSION_GROWTHS = "E1 E2 E3 E6 E7 E8 E9 E10 E11 E12 E13 E14 E15 E16 E17 E18".split()
NEW_GROWTHS = [law for law in NEW_LAWS if law[0] == "E" and law != "E49"]
NEW_NETWORK_GROWTHS = "L43 L44 L46 L54 L58 L59 L60 L61 L62 L63 L64 L65".split()
