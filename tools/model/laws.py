"""The laws, from left to right; what a step of a certificate makes; what the optimiser takes."""
from model.meaning import STRICT
from model.texts import Step
from model.trees import SWAP, at, child_places, head, is_literal, is_network, part_at, preorder, replaced, with_part
from model.typed import TypeFault, check_types

ASSOC = ("pair", ("fst", ("fst", "x")), ("pair", ("snd", ("fst", "x")), ("snd", "x")))
UNASSOC = ("pair", ("pair", ("fst", "x"), ("fst", ("snd", "x"))), ("snd", ("snd", "x")))
CROSS = ("pair", ("pair", ("fst", ("fst", "x")), ("snd", "x")), ("snd", ("fst", "x")))
# What an accumulator has kept, and the value of the event that it got.
BOTH = ("pair", ("snd", ("fst", "x")), ("snd", "x"))
HELD = ("on", ("fst", "x"), ("pair", ("snd", "x"), ("snd", "x")), ("pair", ("snd", "x"), ("snd", "x")))

DISTRIBUTED = "pair fst snd neg add sub mul less equal not and or if event nth len list".split()
# The operators past which E49 lifts an `if`: of how many of their parts, from the left.
LIFTING = {**dict.fromkeys(DISTRIBUTED), "then": 1, "on": 2}
FOLDED = "neg add sub mul less equal not and or".split()
MEMBERS = 64


LEFT_WORDS = {
    "then": "E1 E2 E3 E4 E5 E6 E53",
    "fst": "E7",
    "snd": "E8",
    "pair": "E9 E54 E55",
    "neg": "E15 E30 E31 E32",
    "add": "E15 E16 E17 E27 E33",
    "sub": "E15 E19",
    "mul": "E15 E20 E21 E22 E28 E29",
    "less": "E15 E34",
    "equal": "E15 E26",
    "not": "E15 E24 E41 E42",
    "and": "E15 E23 E35 E37 E39 E43 E45",
    "or": "E15 E23 E36 E38 E40 E46",
    "if": "E10 E11 E12 E25 E44 E47 E48",
    "on": "E13 E14 E50 E51 E52",
    "nth": "E18",
    ">>>": "L1 L2 L3 L4 L7 L8 L9 L10 L11 L13 L14 L18 L19 L20 L21 L22 L23 L24 L25 L26 L27 L28 L29 L30 L35 L36 L40 L41 L45 L46 L48 "
    "L52 L53 L54 L56 L57 L60 L63",
    "-->": "L43 L58 L61 L62",
    ">--": "L44 L59",
    "first": "L5 L6 L33 L34 L47",
    "iPre": "L12 L49",
    "delay": "L55",
    "hold": "L50",
    "loopPre": "L15 L16 L17 L51",
    "switch": "L31 L64",
    "dSwitch": "L32 L65",
    "kSwitch": "L37 L38",
    "pSwitch": "L39",
    "arr": "L42",
}


def laws_by_word(among):
    """By the first word of a tree, those of these laws whose left side may begin with it, in their order."""
    words = dict.fromkeys([*LEFT_WORDS, *LIFTING])
    return {word: [law for law in among if law in LEFT_WORDS.get(word, "").split() or law == "E49" and word in LIFTING] for word in words}


def left(g):
    return ("pair", ("then", ("fst", "x"), g), ("snd", "x"))


def right(g):
    return ("pair", ("fst", "x"), ("then", ("snd", "x"), g))


def mapped(g, carried):
    return ("on", "x", ("none", carried), ("event", ("then", ("snd", "x"), g)))


def held_accumulated(g):
    return ("on", ("fst", "x"), ("pair", ("snd", "x"), ("snd", "x")), ("then", BOTH, ("then", g, ("pair", "x", "x"))))


def accumulated(g, kept):
    return ("on", ("fst", "x"), ("pair", ("none", kept), ("snd", "x")), ("then", BOTH, ("then", g, ("pair", ("event", "x"), "x"))))


def seq(f, g):
    return (">>>", f, g)


def arr(e):
    return ("arr", e)


def forward(law, tree, olds):
    """The right side of the law where the tree is a left side with so many frozen networks in scope; else None."""
    if law[0] == "E":
        return None if is_network(tree) else of_expressions(law, tree)
    if law in ("L38", "L39", "L40", "L41", "L42", "L46"):
        return of_members(law, tree, olds)
    return of_switches(law, tree) if law in SWITCH_LAWS else of_networks(law, tree)


# ---- laws of expressions


def of_expressions(law, tree):
    match law, tree:
        case "E1", ("then", "x", f):
            return f
        case "E2", ("then", f, "x"):
            return f
        case "E3", ("then", ("then", f, g), h):
            return ("then", f, ("then", g, h))
        case "E4", ("then", f, (o, *parts)) if o in DISTRIBUTED:
            return distributed(f, o, parts)
        case "E5", ("then", f, ("on", g, d, b)):
            both = ("pair", ("then", ("fst", "x"), f), ("snd", "x"))
            return ("on", ("then", f, g), ("then", f, d), ("then", both, b))
        case "E6", ("then", _, k) if is_literal(k) or is_constant(k):
            return k
        case ("E7", ("fst", ("pair", e, _))) | ("E8", ("snd", ("pair", _, e))):
            return e
        case "E9", ("pair", ("fst", e), ("snd", f)) if e == f:
            return e
        case ("E10", ("if", "true", e, _)) | ("E11", ("if", "false", _, e)):
            return e
        case "E12", ("if", _, e, f) if e == f:
            return e
        case "E13", ("on", ("none", _), d, _):
            return d
        case "E14", ("on", ("event", v), _, b):
            return ("then", ("pair", "x", v), b)
        case "E15", (o, *parts) if o in FOLDED:
            return folded(o, parts)
        case "E16", ("add", a, b):
            return ("add", b, a)
        case "E17", ("add", ("add", a, b), c):
            return ("add", a, ("add", b, c))
        case "E18", ("nth", ("list", _, *elements), int(i), d) if elements:
            return elements[i] if 0 <= i < len(elements) else d
    return of_operators(law, tree)


def of_operators(law, tree):
    match law, tree:
        case "E19", ("sub", a, b):
            return ("add", a, ("neg", b))
        case "E20", ("mul", a, b):
            return ("mul", b, a)
        case "E21", ("mul", ("mul", a, b), c):
            return ("mul", a, ("mul", b, c))
        case "E22", ("mul", a, ("add", b, c)):
            return ("add", ("mul", a, b), ("mul", a, c))
        case "E23", ("and" | "or" as o, a, b):
            if a not in ("true", "false"):
                return (o, b, a)
            return b if (a == "true") == (o == "and") else a
        case "E24", ("not", ("not", a)):
            return a
        case "E25", ("if", ("not", c), a, b):
            return ("if", c, b, a)
        case "E26", ("equal", a, b):
            return "true" if a == b else ("equal", b, a)
    return next((made for laws in (of_numbers, of_truths, of_choices) if (made := laws(law, tree)) is not None), None)


def of_numbers(law, tree):
    match law, tree:
        case ("E27", ("add", a, 0)) | ("E28", ("mul", a, 1)) | ("E30", ("neg", ("neg", a))):
            return a
        case "E29", ("mul", _, 0):
            return 0
        case "E31", ("neg", ("add", a, b)):
            return ("add", ("neg", a), ("neg", b))
        case "E32", ("neg", ("mul", a, b)):
            return ("mul", ("neg", a), b)
        case "E33", ("add", a, ("neg", b)) if a == b:
            return 0
        case "E34", ("less", a, b) if a == b:
            return "false"
    return None


def of_truths(law, tree):
    match law, tree:
        case ("E35", ("and", a, b)) | ("E36", ("or", a, b)) if a == b:
            return a
        case ("E37", ("and", ("and", a, b), c)) | ("E38", ("or", ("or", a, b), c)):
            return (tree[0], a, (tree[0], b, c))
        case "E39", ("and", a, ("not", b)) if a == b:
            return "false"
        case "E40", ("or", a, ("not", b)) if a == b:
            return "true"
        case "E41", ("not", ("and", a, b)):
            return ("or", ("not", a), ("not", b))
        case "E42", ("not", ("or", a, b)):
            return ("and", ("not", a), ("not", b))
        case "E43", ("and", a, ("or", b, c)):
            return ("or", ("and", a, b), ("and", a, c))
        case "E44", ("if", c, "true", "false"):
            return c
        case "E45", ("and", a, b):
            return ("if", a, b, "false")
        case "E46", ("or", a, b):
            return ("if", a, "true", b)
    return None


def of_choices(law, tree):
    match law, tree:
        case "E47", ("if", c, ("if", same, a, _), d) if c == same:
            return ("if", c, a, d)
        case "E48", ("if", c, a, ("if", same, _, d)) if c == same:
            return ("if", c, a, d)
        case "E49", _:
            return lifted(tree)
        case "E50", ("on", ("on", e, d, b), g, h):
            nested = ("then", ("pair", ("fst", ("fst", "x")), ("snd", "x")), h)
            return ("on", e, ("on", d, g, h), ("on", b, ("then", ("fst", "x"), g), nested))
        case "E51", ("on", e, ("none", _), ("event", ("snd", "x"))):
            return e
        case "E52", ("on", _, d, ("then", ("fst", "x"), same)) if d == same:
            return d
        case "E53", ("then", ("on", e, d, b), f):
            return ("on", e, ("then", d, f), ("then", b, f))
        case "E54", ("pair", ("on", e, d, b), f):
            return ("on", e, ("pair", d, f), ("pair", b, ("then", ("fst", "x"), f)))
        case "E55", ("pair", f, ("on", e, d, b)):
            return ("on", e, ("pair", f, d), ("pair", ("then", ("fst", "x"), f), b))
    return None


def lifted(tree):
    """The `if` that is a part of an operator, around it: the first such of the parts that count; None where there is none."""
    if head(tree) not in LIFTING:
        return None
    for place in child_places(tree)[: LIFTING[head(tree)]]:
        match part_at(tree, place):
            case ("if", c, a, b):
                return ("if", c, with_part(tree, place, a), with_part(tree, place, b))
    return None


def is_constant(tree):
    return head(tree) in ("p", "none") or head(tree) == "list" and len(tree) == 2


def distributed(f, o, parts):
    if o != "list":
        return (o, *[("then", f, part) for part in parts])
    carried, *elements = parts
    return ("list", carried, *[("then", f, element) for element in elements]) if elements else None


def literal_kind(tree):
    if isinstance(tree, int):
        return "Int"
    return {"true": "Bool", "false": "Bool", "unit": "Unit"}.get(tree)


def folded(o, parts):
    kinds = {literal_kind(part) for part in parts}
    taken = {"equal": {"Int", "Bool", "Unit"}, "not": {"Bool"}, "and": {"Bool"}, "or": {"Bool"}}.get(o, {"Int"})
    return STRICT[o](*parts) if len(kinds) == 1 and kinds <= taken else None


# ---- laws of networks


def of_networks(law, tree):
    match law, tree:
        case ("L1", (">>>", ("arr", "x"), f)) | ("L2", (">>>", f, ("arr", "x"))):
            return f
        case "L3", (">>>", (">>>", f, g), h):
            return seq(f, seq(g, h))
        case "L4", (">>>", ("arr", f), ("arr", g)):
            return arr(("then", f, g))
        case "L5", ("first", ("arr", f)):
            return arr(left(f))
        case "L6", ("first", (">>>", f, g)):
            return seq(("first", f), ("first", g))
        case "L7", (">>>", ("first", f), ("arr", ("pair", ("fst", "x"), ("then", ("snd", "x"), g)))):
            return seq(arr(right(g)), ("first", f))
        case "L8", (">>>", ("first", f), ("arr", ("fst", "x"))):
            return seq(arr(("fst", "x")), f)
        case "L9", (">>>", ("first", ("first", f)), ("arr", e)) if e == ASSOC:
            return seq(arr(ASSOC), ("first", f))
        case "L10", (">>>", ("arr", f), (">>>", ("arr", g), h)):
            return seq(arr(("then", f, g)), h)
        case "L11", (">>>", ("iPre", c), ("arr", f)):
            return seq(arr(f), ("iPre", ("then", c, f)))
        case "L12", ("iPre", ("pair", c, d)):
            return both_ways(("first", ("iPre", c)), ("first", ("iPre", d)))
        case "L20", (">>>", _, s) if head(s) in ("after", "repeatedly", "time"):
            return s
        case "L25", (">>>", _, ("arr", ("then", "unit", e))):
            return arr(("then", "unit", e))
        case "L26", (">>>", ("delay", q, c), ("arr", f)):
            return seq(arr(f), ("delay", q, ("then", c, f)))
        case "L45", (">>>", ("drSwitch", f, t), ("arr", h)):
            return ("drSwitch", seq(f, arr(h)), seq(t, arr(h)))
        case "L52", (">>>", f, ("arr", ("pair", "x", "x"))):
            return seq(arr(("pair", "x", "x")), both_ways(("first", f), ("first", f)))
        case "L55", ("delay", q, ("pair", c, d)):
            return both_ways(("first", ("delay", q, c)), ("first", ("delay", q, d)))
        case "L63", (">>>", ("arr", ("then", "unit", 1)), "integral"):
            return "time"
    return of_loops(law, tree) or of_events(law, tree) or of_openings(law, tree)


def both_ways(f, g):
    """One network, and then another between swaps."""
    return seq(f, seq(arr(SWAP), seq(g, arr(SWAP))))


def of_openings(law, tree):
    match law, tree:
        case "L43", ("-->", c, ("-->", _, f)):
            return ("-->", c, f)
        case "L44", (">--", c, ("arr", f)):
            return ("-->", ("then", c, f), arr(f))
        case "L58", ("-->", c, (">>>", f, g)):
            return seq(f, ("-->", c, g))
        case "L59", (">--", c, (">>>", f, g)):
            return seq((">--", c, f), g)
        case "L60", (">>>", ("-->", c, f), g):
            return seq(f, (">--", c, g))
        case "L61", ("-->", c, ("iPre", _)):
            return ("iPre", c)
        case "L62", ("-->", ("event", c), ("arr", ("none", _))):
            return ("after", 0, c)
    return None


def of_loops(law, tree):
    match law, tree:
        case "L13", (">>>", h, ("loopPre", c, f)):
            return ("loopPre", c, seq(("first", h), f))
        case "L14", (">>>", ("loopPre", c, f), h):
            return ("loopPre", c, seq(f, ("first", h)))
        case "L15", ("loopPre", d, (">>>", ("arr", ("pair", ("fst", "x"), ("then", ("snd", "x"), g))), f)):
            return ("loopPre", ("then", d, g), seq(f, arr(right(g))))
        case "L16", ("loopPre", c, ("loopPre", d, f)):
            return ("loopPre", ("pair", c, d), seq(arr(UNASSOC), seq(f, arr(ASSOC))))
        case "L17", ("loopPre", _, ("first", f)):
            return f
        case "L47", ("first", ("loopPre", c, f)):
            return ("loopPre", c, seq(arr(CROSS), seq(("first", f), arr(CROSS))))
        case "L48", (">>>", ("first", f), (">>>", ("arr", before), (">>>", ("first", g), ("arr", behind)))) if before == behind == SWAP:
            return seq(seq(arr(SWAP), seq(("first", g), arr(SWAP))), ("first", f))
        case "L49", ("iPre", c):
            return ("loopPre", c, arr(SWAP))
        case "L50", ("hold", c):
            return ("loopPre", c, arr(HELD))
        case "L51", ("loopPre", z, ("arr", e)):
            g = accumulator(e)
            return None if g is None else ("accumBy", g, z)
        case "L53", (">>>", ("accumBy", g, z), ("hold", same)) if z == same:
            return ("loopPre", z, arr(held_accumulated(g)))
    return None


def of_events(law, tree):
    match law, tree:
        case "L18", (">>>", ("arr", ("event", e)), ("hold", _)):
            return arr(e)
        case "L19", (">>>", ("arr", ("none", _)), ("hold", c)):
            return arr(("then", "unit", c))
        case ("L21", (">>>", ("after", q, c), ("arr", e))) | ("L22", (">>>", ("repeatedly", q, c), ("arr", e))):
            g = mapper(e)
            return None if g is None else (tree[1][0], q, ("then", c, g))
        case "L23", (">>>", ("arr", e), ("hold", ("then", c, h))):
            g = mapper(e)
            return seq(("hold", c), arr(g)) if g == h else None
        case "L24", (">>>", ("arr", e), ("accumBy", h, z)):
            g = mapper(e)
            return None if g is None else ("accumBy", ("then", right(g), h), z)
    return None


def mapper(tree):
    """The function that is mapped over events, where that is all that an expression does."""
    match tree:
        case ("on", "x", ("none", _), ("event", ("then", ("snd", "x"), g))):
            return g
    return None


def accumulator(tree):
    """The function that an accumulator takes with each event, where that is all that an expression does."""
    match tree:
        case ("on", ("fst", "x"), ("pair", ("none", kept), _), ("then", _, ("then", g, _))) if tree == accumulated(g, kept):
            return g
    return None


SWITCH_LAWS = {f"L{k}": "switch" if k % 2 else "dSwitch" for k in range(27, 35)} | dict.fromkeys(["L35", "L36", "L37", "L54"])
SWITCH_LAWS |= {"L56": "rSwitch", "L57": "drSwitch", "L64": "switch", "L65": "dSwitch"}


def of_switches(law, tree):
    s = SWITCH_LAWS[law]
    match law, tree:
        case ("L27" | "L28"), (">>>", ("arr", h), (word, f, t)) if word == s:
            return (s, seq(arr(h), f), seq(arr(h), t))
        case ("L29" | "L30"), (">>>", (word, f, t), ("arr", h)) if word == s:
            return (s, seq(f, arr(left(h))), seq(t, arr(h)))
        case ("L31" | "L32"), (word, (">>>", f, ("arr", ("pair", "x", ("none", _)))), _) if word == s:
            return f
        case ("L33" | "L34"), ("first", (word, f, t)) if word == s:
            return (s, seq(("first", f), arr(CROSS)), ("first", t))
        case "L35", (">>>", ("arr", ("pair", e, ("none", _))), ("rSwitch", f, _)):
            return seq(arr(e), f)
        case "L36", (">>>", ("rSwitch", f, t), ("arr", h)):
            return ("rSwitch", seq(f, arr(h)), seq(t, arr(h)))
        case "L37", ("kSwitch", f, ("arr", ("none", _)), _):
            return f
        case "L54", (">>>", ("arr", ("pair", e, ("none", _))), ("drSwitch", f, _)):
            return seq(arr(e), f)
        case ("L56" | "L57"), (">>>", ("arr", ("pair", ("then", ("fst", "x"), h), ("snd", "x"))), (word, f, t)) if word == s:
            return (s, seq(arr(h), f), seq(arr(h), t))
        case ("L64" | "L65"), (word, ("arr", ("pair", e, _)), ("arr", same)) if word == s and e == same:
            return arr(e)
    return None


def of_members(law, tree, olds):
    match law, tree:
        case "L38", ("kSwitch", f, _, ("old", j)) if j == olds:
            return f
        case "L39", ("pSwitch", r, (_, *members), ("arr", ("none", _)), _) if 1 <= len(members) <= MEMBERS:
            return ("parB", *[seq(arr(("then", ("pair", "x", i), r)), f) for i, f in enumerate(members)])
        case "L40", (">>>", ("parB", *members), ("arr", ("nth", "x", int(i), _))) if len(members) <= MEMBERS:
            return members[i] if 0 <= i < len(members) else None
        case "L41", (">>>", h, ("parB", *members)) if 1 <= len(members) <= MEMBERS:
            return ("parB", *[seq(h, f) for f in members])
        case "L42", ("arr", ("list", _, *elements)) if 1 <= len(elements) <= MEMBERS:
            return ("parB", *map(arr, elements))
        case "L46", (">>>", ("arr", ("pair", e, ("none", _))), ("rpSwitchB", (_, *members), _, _)) if 1 <= len(members) <= MEMBERS:
            return seq(arr(e), ("parB", *members))
    return None


# ---- steps


def answer(step, tree, olds):
    """What a step makes of the tree at its position; None where it has no answer there."""
    if is_network(tree) != (step.law[0] == "L"):
        return None
    if step.direction == "forward":
        return forward(step.law, tree, olds) if step.given is None else None
    if step.given is None:
        return None
    return step.given if forward(step.law, step.given, olds) == tree else None


class StepFault(Exception):
    """What is refused of a certificate, as the program says it."""


def taken(typed, step):
    """The typed network behind a step, or a StepFault."""
    net = typed.places[()].tree
    tree = at(net, step.position)
    if tree is None:
        raise StepFault("no position")
    place = typed.places[step.position]
    found = answer(step, tree, len(place.scope.olds))
    if found is None:
        raise StepFault("no match")
    try:
        behind = check_types(typed.input, replaced(net, step.position, found))
    except TypeFault:
        raise StepFault("ill typed") from None
    if behind.places[step.position].output != place.output:
        raise StepFault("ill typed")
    return behind


STEPS = 10_000


def applied(source, steps):
    """The typed network that the steps lead to, one after the other, or a StepFault."""
    if len(steps) > STEPS:
        raise StepFault("too many steps")
    for number, step in enumerate(steps, 1):
        source = numbered(source, step, number)
    return source


def numbered(typed, step, number):
    """The typed network behind a step, or a StepFault with its number."""
    try:
        return taken(typed, step)
    except StepFault as fault:
        raise StepFault(f"{fault} at step {number}") from None


def checked(source, target, steps):
    """The number of steps that lead from one typed network to the other, or a StepFault."""
    if source.input != target.input:
        raise StepFault("inputs differ")
    if applied(source, steps).places[()].tree != target.places[()].tree:
        raise StepFault("ends elsewhere")
    return len(steps)


def traced(source, steps):
    """What is told of steps, each with its lines: marks and trees; and the fault that stops them, or None."""
    if len(steps) > STEPS:
        return [], StepFault("too many steps")
    lines = []
    for number, step in enumerate(steps, 1):
        place = source.places.get(step.position)
        try:
            source = numbered(source, step, number)
        except StepFault as fault:
            told = [] if place is None else [("-", place.tree), (">", led(step, len(place.scope.olds)))]
            return [*lines, (step, told)], fault
        lines.append((step, [("-", place.tree), ("+", source.places[step.position].tree)]))
    return lines, None


def led(step, olds):
    """What a step's law leads to, forward, from the tree that it gives, or None."""
    return step.given and answer(Step(step.law, "forward", step.position), step.given, olds)


# ---- the optimiser


NETWORK_ORDER = "L1 L2 L20 L25 L3 L4 L10 L5 L8 L17 L18 L19 L21 L22 L23 L24 L31 L32 L35 L37 L38 L40".split()
EXPRESSION_ORDER = "E1 E2 E3 E6 E7 E8 E9 E10 E11 E12 E13 E14 E15 E18".split()
OPTIMISER_LAWS = laws_by_word(NETWORK_ORDER + EXPRESSION_ORDER)
OPTIMISER_STEPS = 1_000


def optimised(source):
    """The typed network that the optimiser reaches, and its steps."""
    steps = []
    while len(steps) < OPTIMISER_STEPS:
        found = next_step(source)
        if found is None:
            break
        step, source = found
        steps.append(step)
    return source, steps


def next_step(typed):
    """The first step in preorder that the optimiser can take, and what it leads to."""
    for position, tree in preorder(typed.places[()].tree):
        for law in OPTIMISER_LAWS.get(head(tree), []):
            step = Step(law, "forward", position)
            if answer(step, tree, len(typed.places[position].scope.olds)) is None:
                continue
            try:
                return step, taken(typed, step)
            except StepFault:
                pass
    return None
