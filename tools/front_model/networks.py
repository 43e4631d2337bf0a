"""Signal functions: each a function from a sample and its input to an output and the signal function of the next sample.

What a network outputs is computed when it is asked for, so that in a `rec` a network may run before its input is known. At the end of a
sample all that is kept for the next one is computed.
"""
from __future__ import annotations

from collections.abc import Callable
from dataclasses import dataclass, field, replace

from front_model.values import NEVER, Later, Value, call, event, is_there, now, whole, wrapped

Network = Value
MOST_MEMBERS = 64


@dataclass
class Sample:
    """A sample's step in time, and what is kept for the next sample."""

    step: int
    kept: list = field(default_factory=list)

    def keep(self, value: Value) -> Value:
        self.kept.append(value)
        return value

    def at_start(self) -> Sample:
        """This sample as the first one of a network."""
        return replace(self, step=0)


def stepped(network: Network, sample: Sample, x: Value) -> tuple[Value, Network]:
    """What a network outputs at a sample, and what it is from then on."""
    ran = Later(lambda: now(network)(sample, x))
    return Later(lambda: now(ran)[0]), sample.keep(Later(lambda: now(ran)[1]))


def run(network: Network, steps: list[int], inputs: list[Value]) -> list[Value]:
    """The outputs of a network; the first step is 0."""
    outputs = []
    for step, x in zip(steps, inputs):
        sample = Sample(step)
        output, network = stepped(network, sample, x)
        outputs.append(whole(output))
        for kept in sample.kept:
            whole(kept)
    return outputs


# ---- without a state


def arr(function: Value) -> Network:
    return lambda _sample, x: (Later(lambda: call(function, x)), arr(function))


def identity(_sample: Sample, x: Value) -> tuple:
    return x, identity


def constant(c: Value) -> Network:
    return lambda _sample, _x: (c, constant(c))


def behind(f: Network, g: Network) -> Network:
    """`f >>> g`."""

    def step(sample: Sample, x: Value) -> tuple:
        between, f_next = stepped(f, sample, x)
        output, g_next = stepped(g, sample, between)
        return output, behind(f_next, g_next)

    return step


def beside(f: Network, g: Network) -> Network:
    """`f *** g`."""

    def step(sample: Sample, x: Value) -> tuple:
        left, f_next = stepped(f, sample, Later(lambda: now(x)[0]))
        right, g_next = stepped(g, sample, Later(lambda: now(x)[1]))
        return (left, right), beside(f_next, g_next)

    return step


def both(f: Network, g: Network) -> Network:
    """`f &&& g`."""
    return behind(arr(lambda x: (x, x)), beside(f, g))


def members(networks: Value) -> Network:
    """`parB`."""

    def step(sample: Sample, x: Value) -> tuple:
        ran = [stepped(network, sample, x) for network in now(networks)]
        return [output for output, _ in ran], members([rest for _, rest in ran])

    return step


# ---- with a state


def keeping(kept: Value, does: Callable) -> Network:
    """A network that keeps something: `does` tells the output and what is kept, from what was, the step and the input."""

    def step(sample: Sample, x: Value) -> tuple:
        did = Later(lambda: does(kept, sample.step, x))
        return Later(lambda: now(did)[0]), keeping(sample.keep(Later(lambda: now(did)[1])), does)

    return step


def i_pre(c: Value) -> Network:
    return keeping(c, lambda before, _step, x: (before, x))


def loop_pre(c: Value, f: Network) -> Network:
    def step(sample: Sample, x: Value) -> tuple:
        output, rest = stepped(f, sample, (x, c))
        return Later(lambda: now(output)[0]), loop_pre(sample.keep(Later(lambda: now(output)[1])), rest)

    return step


def delay(q: Value, c: Value) -> Network:
    """What waits are times and samples, the oldest first; before them the latest one that is old enough."""

    def does(kept: Value, step: int, x: Value) -> tuple:
        clock, waiting, latest = now(kept)
        clock, waiting = now(clock) + step, [*now(waiting), (now(clock) + step, x)]
        old = [value for then, value in map(now, waiting) if clock - now(then) >= now(q)]
        latest = old[-1] if old else latest
        return latest, (clock, waiting[len(old) :], latest)

    return keeping((0, [], c), does)


def hold(c: Value) -> Network:
    def does(before: Value, _step: int, x: Value) -> tuple:
        held = now(x).parts[0] if is_there(x) else before
        return held, held

    return keeping(c, does)


def accum_by(function: Value, z: Value) -> Network:
    def does(before: Value, _step: int, x: Value) -> tuple:
        if not is_there(x):
            return NEVER, before
        after_it = Later(lambda: call(function, before, now(x).parts[0]))
        return event(after_it), after_it

    return keeping(z, does)


def accum_hold_by(function: Value, z: Value) -> Network:
    return behind(accum_by(function, z), hold(z))


def apply_to(before: Value, function: Value) -> Value:
    return call(function, before)


def accum(z: Value) -> Network:
    return accum_by(lambda before: lambda function: apply_to(before, function), z)


def accum_hold(z: Value) -> Network:
    return behind(accum(z), hold(z))


def after(q: Value, c: Value) -> Network:
    """The clock, or -1 behind the event."""

    def does(clock: Value, step: int, _x: Value) -> tuple:
        if now(clock) < 0:
            return NEVER, -1
        clock = now(clock) + step
        return (event(c), -1) if clock >= now(q) else (NEVER, clock)

    return keeping(0, does)


def repeatedly(q: Value, c: Value) -> Network:
    def does(clock: Value, step: int, _x: Value) -> tuple:
        clock = now(clock) + step
        return (event(c), clock % now(q)) if clock >= now(q) else (NEVER, clock)

    return keeping(0, does)


def i_edge(before: Value) -> Network:
    return keeping(before, lambda was, _step, x: (event(()) if now(x) and not now(was) else NEVER, x))


def once() -> Network:
    """The first event alone."""

    def does(done: Value, _step: int, x: Value) -> tuple:
        return (NEVER if now(done) else x), now(done) or is_there(x)

    return keeping(False, does)


def time() -> Network:
    def does(clock: Value, step: int, _x: Value) -> tuple:
        later = wrapped(now(clock) + step)
        return later, later

    return keeping(0, does)


def integral() -> Network:
    """The sum so far, and the sample before."""

    def does(kept: Value, step: int, x: Value) -> tuple:
        total, before = now(kept)
        total = wrapped(now(total) + step * now(before))
        return total, (total, x)

    return keeping((0, 0), does)


def first_output(c: Value, f: Network) -> Network:
    """`c --> f`."""
    return lambda sample, x: (c, stepped(f, sample, x)[1])


def first_input(c: Value, f: Network) -> Network:
    """`c >-- f`."""
    return lambda sample, _x: stepped(f, sample, c)


# ---- switches


def switch(f: Network, template: Value) -> Network:
    def step(sample: Sample, x: Value) -> tuple:
        pair, rest = stepped(f, sample, x)
        output, happening = now(pair)
        if is_there(happening):
            return stepped(call(template, now(happening).parts[0]), sample.at_start(), x)
        return output, switch(rest, template)

    return step


def d_switch(f: Network, template: Value) -> Network:
    def step(sample: Sample, x: Value) -> tuple:
        pair, rest = stepped(f, sample, x)

        def from_then_on() -> Network:
            happening = now(now(pair)[1])
            if is_there(happening):
                return stepped(call(template, happening.parts[0]), sample.at_start(), x)[1]
            return d_switch(rest, template)

        return Later(lambda: now(pair)[0]), Later(from_then_on)

    return step


def r_switch(f: Network) -> Network:
    def step(sample: Sample, x: Value) -> tuple:
        inner, happening = now(x)
        if is_there(happening):
            output, rest = stepped(now(happening).parts[0], sample.at_start(), inner)
        else:
            output, rest = stepped(f, sample, inner)
        return output, r_switch(rest)

    return step


def dr_switch(f: Network) -> Network:
    def step(sample: Sample, x: Value) -> tuple:
        output, rest = stepped(f, sample, Later(lambda: now(x)[0]))

        def from_then_on() -> Network:
            inner, happening = now(x)
            if is_there(happening):
                return dr_switch(stepped(now(happening).parts[0], sample.at_start(), inner)[1])
            return dr_switch(rest)

        return output, Later(from_then_on)

    return step


def frozen(step: int, f: Network) -> Network:
    """A network as it was before a sample: the first sample at which it is resumed comes with that one's step."""
    return lambda sample, x: stepped(f, replace(sample, step=step), x)


def k_switch(f: Network, watch: Network, template: Value) -> Network:
    def step(sample: Sample, x: Value) -> tuple:
        output, rest = stepped(f, sample, x)
        happening, watch_next = stepped(watch, sample, (x, output))
        if is_there(happening):
            return stepped(call(template, frozen(sample.step, f), now(happening).parts[0]), sample.at_start(), x)
        return output, k_switch(rest, watch_next, template)

    return step


def p_switch(route: Value, networks: Value, watch: Network, template: Value) -> Network:
    def step(sample: Sample, x: Value) -> tuple:
        pairs = [now(pair) for pair in now(call(route, x, networks))]
        ran = [stepped(network, sample, inner) for inner, network in pairs]
        outputs = [output for output, _ in ran]
        happening, watch_next = stepped(watch, sample, (x, outputs))
        if is_there(happening):
            olds = [frozen(sample.step, network) for network in now(networks)]
            return stepped(call(template, olds, now(happening).parts[0]), sample.at_start(), x)
        return outputs, p_switch(route, [rest for _, rest in ran], watch_next, template)

    return step


def p_switch_b(networks: Value, watch: Network, template: Value) -> Network:
    return p_switch(lambda x: lambda members_: [(x, network) for network in now(members_)], networks, watch, template)


def rp_switch_b(networks: Value) -> Network:
    def step(sample: Sample, x: Value) -> tuple:
        inner, happening = now(x)
        if is_there(happening):
            olds = [frozen(sample.step, network) for network in now(networks)]
            there = call(now(happening).parts[0], olds)[:MOST_MEMBERS]
            ran = [stepped(network, sample.at_start(), inner) for network in there]
        else:
            ran = [stepped(network, sample, inner) for network in now(networks)]
        return [output for output, _ in ran], rp_switch_b([rest for _, rest in ran])

    return step
