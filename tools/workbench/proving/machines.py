"""Networks as a state and a step: the forms that wire, keep and time. `switching` has those that switch."""
from dataclasses import dataclass, replace
from typing import Any

from model.trees import at_text, head
from model.typed import Place
from workbench.proving.expressions import value
from workbench.proving.terms import Terms, both, either, is_known, negation
from workbench.proving.values import UNIT, Tree, chosen, zero


@dataclass(frozen=True)
class Frozen:
    """A network that was frozen: what it runs on, the state it was in, and the step that it goes on with."""

    machine: "Machine"
    env: "Environment"
    state: Tree
    step: Any


@dataclass(frozen=True)
class Environment:
    """The terms in use, the values of the parameters, and the frozen networks; a roomy one has room for all that a start may keep."""

    terms: Terms
    params: tuple = ()
    olds: tuple = ()
    roomy: bool = False

    def with_param(self, param: Tree) -> "Environment":
        return replace(self, params=(*self.params, param))

    def with_olds(self, olds: list) -> "Environment":
        return replace(self, olds=(*self.olds, *olds))

    def value(self, tree: Any, x: Tree = UNIT) -> Tree:
        return value(self.terms, tree, self.params, x)


class Machine:
    """A network. Its state is ("state", cells .., states of its parts ..); the first step of a start is 0, whatever the stream's."""

    cells: tuple = ()

    def __init__(self, place: Place, parts: list):
        self.word, self.tree, self.position = head(place.tree), place.tree, place.position
        self.input, self.output, self.parts = place.input, place.output, parts

    def named(self) -> str:
        return f"{self.word} {at_text(self.position)}"

    def start(self, env: Environment) -> Tree:
        return ("state", *self.first_cells(env), *[part.start(env) for part in self.parts])

    def first_cells(self, env: Environment) -> tuple:
        return ()

    def step(self, state: Tree, d: Any, a: Tree, env: Environment) -> tuple:
        """The output at a sample, and the state behind it."""
        env.terms.step()
        output, behind = self.advance(state, d, a, env)
        if env.terms.outputs is not None:
            env.terms.outputs[self] = output
        return output, behind

    def advance(self, state: Tree, d: Any, a: Tree, env: Environment) -> tuple:
        raise NotImplementedError


# ---- wiring


class Arr(Machine):
    def advance(self, state, d, a, env):
        return env.value(self.tree[1], a), state


class Seq(Machine):
    def advance(self, state, d, a, env):
        f, g = self.parts
        between, first = f.step(state[1], d, a, env)
        output, second = g.step(state[2], d, between, env)
        return output, ("state", first, second)


class First(Machine):
    def advance(self, state, d, a, env):
        output, inner = self.parts[0].step(state[1], d, a[1], env)
        return ("pair", output, a[2]), ("state", inner)


class Par(Machine):
    def advance(self, state, d, a, env):
        rows = [part.step(inner, d, a, env) for part, inner in zip(self.parts, state[1:])]
        return ("list", len(rows), tuple(output for output, _ in rows)), ("state", *[inner for _, inner in rows])


class Loop(Machine):
    cells = ("fed back",)

    def first_cells(self, env):
        return (env.value(self.tree[1]),)

    def advance(self, state, d, a, env):
        output, inner = self.parts[0].step(state[2], d, ("pair", a, state[1]), env)
        return output[1], ("state", output[2], inner)


# ---- memory


class IPre(Machine):
    cells = ("before",)

    def first_cells(self, env):
        return (env.value(self.tree[1]),)

    def advance(self, state, d, a, env):
        return state[1], ("state", a)


class Hold(Machine):
    cells = ("held",)

    def first_cells(self, env):
        return (env.value(self.tree[1]),)

    def advance(self, state, d, a, env):
        held = chosen(env.terms, a[1], a[2], state[1])
        return held, ("state", held)


class AccumBy(Machine):
    cells = ("accumulated",)

    def first_cells(self, env):
        return (env.value(self.tree[2]),)

    def advance(self, state, d, a, env):
        if a[1] is False:
            return ("event", False, state[1]), state
        with env.terms.under(a[1]):
            kept = env.value(self.tree[1], ("pair", state[1], a[2]))
        kept = chosen(env.terms, a[1], kept, state[1])
        return ("event", a[1], kept), ("state", kept)


class Delay(Machine):
    """Keeps the last samples, at most q, the newest first, each with its age, at most q; and the last of those that are old enough."""

    cells = ("late", "kept")

    def first_cells(self, env):
        first = env.value(self.tree[2])
        return first, ("list", 0, (("state", 0, zero(first)),) * self.tree[1] if env.roomy else ())

    def advance(self, state, d, a, env):
        _, late, (_, count, kept) = state
        terms, q = env.terms, self.tree[1]
        there = [terms.less(place, count) for place in range(len(kept))]
        aged = [self.older(slot, d, terms) if held is not False else slot for slot, held in zip(kept, there)]
        for held, (_, age, sample) in reversed(list(zip(there, aged))):
            late = chosen(terms, both(held, negation(terms.less(age, q))), sample, late)
        more = terms.less(count, q)
        with terms.under(more):
            count = terms.chosen(more, terms.plus(count, 1), q)
        return late, ("state", late, ("list", count, (("state", 0, a), *aged)[:q]))

    def older(self, slot: Tree, d: Any, terms: Terms) -> Tree:
        _, age, sample = slot
        q = self.tree[1]
        if is_known(age) and is_known(d):
            return ("state", min(age + d, q), sample)
        soon = terms.less(d, terms.minus(q, age))
        with terms.under(soon):
            later = terms.plus(age, d)
        return ("state", terms.chosen(soon, later, q), sample)


class FirstOutput(Machine):
    cells = ("first",)

    def first_cells(self, env):
        return (True,)

    def advance(self, state, d, a, env):
        output, inner = self.parts[0].step(state[2], d, a, env)
        return chosen(env.terms, state[1], env.value(self.tree[1]), output), ("state", False, inner)


class FirstInput(FirstOutput):
    def advance(self, state, d, a, env):
        given = chosen(env.terms, state[1], env.value(self.tree[1]), a)
        output, inner = self.parts[0].step(state[2], d, given, env)
        return output, ("state", False, inner)


# ---- time


class After(Machine):
    cells = ("done", "left")

    def first_cells(self, env):
        return False, self.tree[1]

    def advance(self, state, d, a, env):
        terms = env.terms
        with terms.under(negation(state[1])):
            left = terms.minus(state[2], d)
        fires = both(negation(state[1]), negation(terms.less(0, left)))
        done = either(state[1], fires)
        return ("event", fires, env.value(self.tree[2])), ("state", done, terms.chosen(done, 0, left))


class Repeatedly(Machine):
    cells = ("left",)

    def first_cells(self, env):
        return (self.tree[1],)

    def advance(self, state, d, a, env):
        left = env.terms.minus(state[1], d)
        fires = negation(env.terms.less(0, left))
        with env.terms.under(fires):
            again = self.again(left, env.terms)
        return ("event", fires, env.value(self.tree[2])), ("state", env.terms.chosen(fires, again, left))

    def again(self, left: Any, terms: Terms) -> Any:
        """What is left where an event came, as much too late as this tells."""
        q = self.tree[1]
        if not is_known(left) and terms.most_step is not None and terms.most_step <= q:
            return terms.plus(left, q)
        return terms.minus(q, terms.remainder(terms.opposite(left), q))


class Time(Machine):
    cells = ("time",)

    def first_cells(self, env):
        return (0,)

    def advance(self, state, d, a, env):
        now = env.terms.plus(state[1], d)
        return now, ("state", now)


class Integral(Machine):
    cells = ("sum", "before")

    def first_cells(self, env):
        return 0, 0

    def advance(self, state, d, a, env):
        total = env.terms.plus(state[1], env.terms.times(d, state[2]))
        return total, ("state", total, a)
