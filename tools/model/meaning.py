"""What networks output, by whole lists: slow, and with no state that is carried along."""
from collections import Counter
from dataclasses import dataclass

from model.trees import head, is_literal


class TooSlow(Exception):
    """The model would take too long."""


@dataclass(frozen=True)
class Environment:
    """The values of the parameters, and the frozen networks."""

    params: tuple = ()
    olds: tuple = ()

    def with_param(self, value):
        return Environment((*self.params, value), self.olds)

    def with_olds(self, olds):
        return Environment(self.params, (*self.olds, *olds))


@dataclass(frozen=True)
class Frozen:
    """A network with its environment, its past and the step that it was frozen with."""

    net: object
    env: Environment
    past: list
    step: int


def wrapped(number):
    return (number + 2**63) % 2**64 - 2**63


def truth(holds):
    return "true" if holds else "false"


# ---- expressions


def value(tree, params, x):
    """The value of a typed expression."""
    if tree == "x":
        return x
    if is_literal(tree):
        return tree
    word, *parts = tree
    if word in STRICT:
        return STRICT[word](*[value(part, params, x) for part in parts])
    match tree:
        case ("p", level):
            return params[level]
        case ("then", f, g):
            return value(g, params, value(f, params, x))
        case ("none", _):
            return "none"
        case ("on", e, d, b):
            happening = value(e, params, x)
            return value(d, params, x) if happening == "none" else value(b, params, ("pair", x, happening[1]))
        case ("list", _, *elements):
            return ("list", *[value(element, params, x) for element in elements])
    raise AssertionError(tree)


STRICT = {
    "pair": lambda a, b: ("pair", a, b),
    "fst": lambda a: a[1],
    "snd": lambda a: a[2],
    "neg": lambda a: wrapped(-a),
    "add": lambda a, b: wrapped(a + b),
    "sub": lambda a, b: wrapped(a - b),
    "mul": lambda a, b: wrapped(a * b),
    "less": lambda a, b: truth(a < b),
    "equal": lambda a, b: truth(a == b),
    "not": lambda a: truth(a == "false"),
    "and": lambda a, b: truth(a == "true" and b == "true"),
    "or": lambda a, b: truth(a == "true" or b == "true"),
    "if": lambda c, a, b: a if c == "true" else b,
    "event": lambda a: ("event", a),
    "nth": lambda whole, i, d: whole[1 + i] if 0 <= i < len(whole) - 1 else d,
    "len": lambda whole: len(whole) - 1,
}


# ---- timed lists


def values(xs):
    return [v for _, v in xs]


def with_steps(xs, ys):
    return [(step, y) for (step, _), y in zip(xs, ys)]


def zipped(xs, ys):
    return [(step, ("pair", x, y)) for (step, x), y in zip(xs, ys)]


def retimed(step, xs):
    return [(step, xs[0][1]), *xs[1:]]


def times(xs):
    """The time of each sample: the first step is ignored."""
    found, now = [], 0
    for step, _ in xs[1:]:
        found.append(now)
        now += step
    return [*found, now] if xs else []


def firsts(pairs):
    return [a for _, a, _ in pairs]


def seconds(pairs):
    return [b for _, _, b in pairs]


def first_event(happenings):
    """The place of the first event, or None."""
    return next((n for n, happening in enumerate(happenings) if happening != "none"), None)


# ---- networks


class Model:
    """The outputs of networks; `fired` counts the switches that fired and the networks that were resumed, by their words."""

    def __init__(self, fuel=100_000):
        self.fuel = fuel
        self.fired = Counter()

    def outputs(self, net, env, xs):
        """As many values as there are samples in xs, a list of steps and values."""
        self.fuel -= 1 + len(xs)
        if self.fuel < 0:
            raise TooSlow
        outputs = MEANINGS[head(net)](self, net, env, xs)
        assert len(outputs) == len(xs)
        return outputs

    def resumed(self, frozen, xs):
        if not xs:
            return []
        return self.outputs(frozen.net, frozen.env, frozen.past + retimed(frozen.step, xs))[len(frozen.past) :]


def const(c, env):
    return value(c, env.params, "unit")


def arr(_model, net, env, xs):
    return [value(net[1], env.params, x) for x in values(xs)]


def seq(model, net, env, xs):
    _, f, g = net
    return model.outputs(g, env, with_steps(xs, model.outputs(f, env, xs)))


def first(model, net, env, xs):
    lefts = with_steps(xs, firsts(values(xs)))
    return [("pair", y, right) for y, right in zip(model.outputs(net[1], env, lefts), seconds(values(xs)))]


def par(model, net, env, xs):
    members = [model.outputs(member, env, xs) for member in net[1:]]
    return [("list", *row) for row in zip(*members)]


def loop(model, net, env, xs):
    _, c, f = net
    fed = []
    for n in range(len(xs)):
        fed = [const(c, env)] + seconds(model.outputs(f, env, zipped(xs[:n], fed)))
    return firsts(model.outputs(f, env, zipped(xs, fed)))


def i_pre(_model, net, env, xs):
    return ([const(net[1], env)] + values(xs))[: len(xs)]


def delay(_model, net, env, xs):
    _, q, c = net
    at = times(xs)
    late = [[x for x, then in zip(values(xs), at) if then + q <= now] for now in at]
    return [seen[-1] if seen else const(c, env) for seen in late]


def hold(_model, net, env, xs):
    held, found = const(net[1], env), []
    for x in values(xs):
        held = held if x == "none" else x[1]
        found.append(held)
    return found


def accum_by(_model, net, env, xs):
    _, g, z = net
    kept, found = const(z, env), []
    for x in values(xs):
        if x == "none":
            found.append("none")
        else:
            kept = value(g, env.params, ("pair", kept, x[1]))
            found.append(("event", kept))
    return found


def after(_model, net, env, xs):
    _, q, c = net
    reached = [now >= q for now in times(xs)]
    return [("event", const(c, env)) if now and not any(reached[:n]) else "none" for n, now in enumerate(reached)]


def repeatedly(_model, net, env, xs):
    _, q, c = net
    at = times(xs)
    return [("event", const(c, env)) if n >= 1 and at[n] // q > at[n - 1] // q else "none" for n in range(len(xs))]


def time(_model, _net, _env, xs):
    return [wrapped(now) for now in times(xs)]


def integral(_model, _net, _env, xs):
    return [wrapped(sum(xs[k][0] * xs[k - 1][1] for k in range(1, n + 1))) for n in range(len(xs))]


def switch(model, net, env, xs):
    word, f, t = net
    pairs = model.outputs(f, env, xs)
    n = first_event(seconds(pairs))
    if n is None:
        return firsts(pairs)
    model.fired[word] += 1
    after_it = model.outputs(t, env.with_param(pairs[n][2][1]), xs[n:])
    if word == "switch":
        return firsts(pairs)[:n] + after_it
    return firsts(pairs)[: n + 1] + after_it[1:]


def pieces(xs):
    """The list cut before each sample with an event: each piece without its events, with the event's value, None before the first."""
    cuts = [n for n, (_, x) in enumerate(xs) if x[2] != "none"]
    samples = with_steps(xs, firsts(values(xs)))
    values_of_events = [None, *[xs[n][1][2][1] for n in cuts]]
    return list(zip(values_of_events, [samples[a:b] for a, b in zip([0, *cuts], [*cuts, len(xs)])]))


def recurring(model, net, env, xs):
    """Each piece runs by itself."""
    _, f, t = net
    found = []
    for happened, piece in pieces(xs):
        if happened is None:
            found += model.outputs(f, env, piece)
        else:
            model.fired["rSwitch"] += 1
            found += model.outputs(t, env.with_param(happened), piece)
    return found


def late_recurring(model, net, env, xs):
    """Each piece runs by itself, with the first sample of the next one; what a new one first outputs isn't heard."""
    _, f, t = net
    cut = pieces(xs)
    found = []
    for (happened, piece), (_, behind) in zip(cut, [*cut[1:], (None, [])]):
        samples = piece + behind[:1]
        if happened is None:
            found += model.outputs(f, env, samples)
        else:
            model.fired["drSwitch"] += 1
            found += model.outputs(t, env.with_param(happened), samples)[1:]
    return found


def first_output(model, net, env, xs):
    _, c, f = net
    return ([const(c, env)] if xs else []) + model.outputs(f, env, xs)[1:]


def first_input(model, net, env, xs):
    _, c, f = net
    return model.outputs(f, env, [(step, x if n else const(c, env)) for n, (step, x) in enumerate(xs)])


def choosing(model, net, env, xs):
    """Members are networks, each with an environment and its past; before each piece its event chooses among them."""
    _, (_, *written), m, t = net
    members, found = [(f, env, []) for f in written], []
    for happened, piece in pieces(xs):
        if happened is not None:
            model.fired["rpSwitchB"] += 1
            _, (_, *numbers), (_, *started) = value(m, env.params, happened)
            kept = [members[number] for number in numbers if 0 <= number < len(members)]
            members = (kept + [(t, env.with_param(v), []) for v in started])[:64]
        rows = [model.outputs(f, e, past + piece)[len(past) :] for f, e, past in members]
        found += [("list", *[row[n] for row in rows]) for n in range(len(piece))]
        members = [(f, e, past + piece) for f, e, past in members]
    return found


def freezing(model, net, env, xs):
    _, f, e, t = net
    ys = model.outputs(f, env, xs)
    happenings = model.outputs(e, env, zipped(xs, ys))
    n = first_event(happenings)
    if n is None:
        return ys
    model.fired["kSwitch"] += 1
    olds = [Frozen(f, env, xs[:n], xs[n][0])]
    return ys[:n] + model.outputs(t, env.with_param(happenings[n][1]).with_olds(olds), xs[n:])


def collection(model, net, env, xs):
    _, r, (_, *members), e, t = net
    routed = [[(step, value(r, env.params, ("pair", x, i))) for step, x in xs] for i in range(len(members))]
    rows = [model.outputs(member, env, samples) for member, samples in zip(members, routed)]
    ys = [("list", *row) for row in zip(*rows)]
    happenings = model.outputs(e, env, zipped(xs, ys))
    n = first_event(happenings)
    if n is None:
        return ys
    model.fired["pSwitch"] += 1
    olds = [Frozen(member, env, samples[:n], xs[n][0]) for member, samples in zip(members, routed)]
    return ys[:n] + model.outputs(t, env.with_param(happenings[n][1]).with_olds(olds), xs[n:])


def old(model, net, env, xs):
    model.fired["old"] += 1
    return model.resumed(env.olds[net[1]], xs)


MEANINGS = {
    "arr": arr,
    ">>>": seq,
    "first": first,
    "parB": par,
    "loopPre": loop,
    "iPre": i_pre,
    "delay": delay,
    "hold": hold,
    "accumBy": accum_by,
    "after": after,
    "repeatedly": repeatedly,
    "time": time,
    "integral": integral,
    "switch": switch,
    "dSwitch": switch,
    "rSwitch": recurring,
    "kSwitch": freezing,
    "pSwitch": collection,
    "old": old,
    "-->": first_output,
    ">--": first_input,
    "drSwitch": late_recurring,
    "rpSwitchB": choosing,
}
