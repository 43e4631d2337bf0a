"""Networks as a state and a step: the forms that switch, freeze and resume."""
from typing import Any

from model.trees import child_places, children, is_network
from model.typed import Typed
from workbench.ending import Refused
from workbench.proving import machines
from workbench.proving.machines import Environment, Frozen, Machine
from workbench.proving.terms import TooLarge, both, either, negation
from workbench.proving.values import Tree, chosen, default, element, zero

MEMBERS = 64


class Template(Machine):
    """What starts a template, its last part, with one parameter more."""

    cells = ("switched", "parameter")

    def start(self, env):
        param = default(self.carried())
        before = [part.start(env) for part in self.parts[:-1]]
        with env.terms.under(False):
            template = self.first_template(env.with_param(param), before)
        return ("state", *self.first_cells(env), param, *before, template)

    def first_cells(self, env):
        return (False,)

    def first_template(self, env: Environment, before: list) -> Tree:
        return self.parts[-1].start(env)

    def carried(self) -> Any:
        """The type of the event's value."""
        raise NotImplementedError

    def taken_over(self, fires: Any, state: Tree, d: Any, a: Tree, env: Environment) -> tuple:
        """The template's step, where it fires from its start."""
        with env.terms.under(fires):
            begun = chosen(env.terms, fires, self.parts[-1].start(env), state) if fires is not False else state
        return self.parts[-1].step(begun, chosen(env.terms, fires, 0, d), a, env)


class Switch(Template):
    def carried(self):
        return self.parts[0].output[2][1]

    def advance(self, state, d, a, env):
        _, on, param, f, t = state
        if on is True:
            output, t = self.parts[1].step(t, d, a, env.with_param(param))
            return output, ("state", on, param, f, t)
        terms = env.terms
        with terms.under(negation(on)):
            left, f_next = self.parts[0].step(f, d, a, env)
        fires = both(negation(on), left[2][1])
        now = either(on, fires)
        if now is False:
            return left[1], ("state", on, param, f_next, t)
        param = chosen(terms, fires, left[2][2], param)
        with terms.under(now):
            right, t_next = self.taken_over(fires, t, d, a, env.with_param(param))
        heard = now if self.word == "switch" else on
        after = ("state", now, param, chosen(terms, on, f, f_next), chosen(terms, now, t_next, t))
        return chosen(terms, heard, right, left[1]), after


class RSwitch(Template):
    def carried(self):
        return self.input[2][1]

    def advance(self, state, d, a, env):
        _, on, param, f, t = state
        terms, (_, sample, (_, fires, given)) = env.terms, a
        now = either(on, fires)
        left, f_next = None, f
        if now is not True:
            with terms.under(negation(now)):
                left, f_next = self.parts[0].step(f, d, sample, env)
        if now is False:
            return left, ("state", on, param, f_next, t)
        param = chosen(terms, fires, given, param)
        with terms.under(now):
            right, t_next = self.taken_over(fires, t, d, sample, env.with_param(param))
        after = ("state", now, param, chosen(terms, now, f, f_next), chosen(terms, now, t_next, t))
        return right if left is None else chosen(terms, now, right, left), after


class DrSwitch(RSwitch):
    """What ran before hears the event's sample; what is started then has heard it too, and its output is lost."""

    def advance(self, state, d, a, env):
        _, on, param, f, t = state
        terms, (_, sample, (_, fires, given)) = env.terms, a
        rows = []
        for running, part, before, inner in ((negation(on), self.parts[0], f, env), (on, self.parts[1], t, env.with_param(param))):
            with terms.under(running):
                output, behind = part.step(before, d, sample, inner) if running is not False else (None, before)
            rows.append((output, chosen(terms, running, behind, before)))
        (left, f), (right, t) = rows
        output = right if on is True else left if on is False else chosen(terms, on, right, left)
        if fires is False:
            return output, ("state", on, param, f, t)
        begun = env.with_param(given)
        with terms.under(fires):
            _, new = self.parts[1].step(self.parts[1].start(begun), 0, sample, begun)
        return output, ("state", either(on, fires), chosen(terms, fires, given, param), f, chosen(terms, fires, new, t))


# ---- networks that are frozen


class KSwitch(Template):
    """One member, what watches it, and what may resume it."""

    cells = ("switched", "frozen step", "parameter")

    def first_cells(self, env):
        return False, 0

    def carried(self):
        return self.parts[-2].output[1]

    def first_template(self, env, before):
        return self.parts[-1].start(env.with_olds(self.frozen(env, before[:-1], 0)))

    def frozen(self, env: Environment, states: list, step: Any) -> list:
        return [Frozen(member, env, state, step) for member, state in zip(self.parts, states)]

    def members(self, states: list, d: Any, a: Tree, env: Environment) -> tuple:
        """What the members output, and their states."""
        output, state = self.parts[0].step(states[0], d, a, env)
        return output, [state]

    def advance(self, state, d, a, env):
        _, on, step, param, *states, watch, t = state
        terms, output, fires, given = env.terms, None, False, param
        states_next, watch_next = states, watch
        if on is not True:
            with terms.under(negation(on)):
                output, states_next = self.members(states, d, a, env)
                (_, happens, given), watch_next = self.parts[-2].step(watch, d, ("pair", a, output), env)
            fires = both(negation(on), happens)
        now = either(on, fires)
        if now is False:
            return output, ("state", on, step, param, *states_next, watch_next, t)
        param, step = chosen(terms, fires, given, param), chosen(terms, fires, d, step)
        inner = env.with_olds(self.frozen(env, states, step)).with_param(param)
        with terms.under(now):
            right, t_next = self.taken_over(fires, t, d, a, inner)
        kept = [chosen(terms, now, before, behind) for before, behind in zip([*states, watch], [*states_next, watch_next])]
        after = ("state", now, step, param, *kept, chosen(terms, now, t_next, t))
        return right if output is None else chosen(terms, now, right, output), after


class PSwitch(KSwitch):
    """Members, each of which gets its part of the sample."""

    def members(self, states, d, a, env):
        routed = [env.value(self.tree[1], ("pair", a, number)) for number in range(len(states))]
        rows = [part.step(state, d, sample, env) for part, state, sample in zip(self.parts, states, routed)]
        return ("list", len(rows), tuple(output for output, _ in rows)), [state for _, state in rows]


class Old(Machine):
    """A frozen network that goes on: at first with the step that was kept."""

    cells = ("first", "frozen step", "resumed")

    def first_cells(self, env):
        frozen = env.olds[self.tree[1]]
        return True, frozen.step, frozen.state

    def advance(self, state, d, a, env):
        _, first, step, inner = state
        frozen = env.olds[self.tree[1]]
        output, inner = frozen.machine.step(inner, chosen(env.terms, first, step, d), a, frozen.env)
        return output, ("state", False, step, inner)


# ---- members that come and go


class Choosing(Machine):
    """A list of members, each ("state", whether it starts now, the number of its network, its parameter, a state for each network)."""

    cells = ("members",)

    def start(self, env):
        count = len(self.parts) - 1
        return ("state", ("list", count, tuple(self.member(number, default(self.carried()), env) for number in range(count))))

    def carried(self) -> Any:
        """The type of the values that start members, as the expression tells it."""
        return self.choice[2][1]

    def member(self, number: int, param: Tree, env: Environment) -> Tree:
        *written, template = self.parts
        states = [part.start(env) for part in written]
        with env.terms.under(number == len(written)):
            states.append(template.start(env.with_param(param)))
        return ("state", True, number, param, *states)

    def advance(self, state, d, a, env):
        terms, (_, sample, (_, fires, given)), members = env.terms, a, state[1]
        try:
            if fires is not False:
                with terms.under(fires):
                    members = chosen(terms, fires, self.chosen_members(members, given, env), members)
            rows = []
            for number, member in enumerate(members[2]):
                with terms.under(terms.less(number, members[1])):
                    rows.append(self.member_step(member, d, sample, env))
        except TooLarge:
            raise Refused(f"{self.named()}: too large for z3") from None
        outputs = ("list", members[1], tuple(output for output, _ in rows))
        return outputs, ("state", ("list", members[1], tuple(member for _, member in rows)))

    def chosen_members(self, members: Tree, given: Tree, env: Environment) -> Tree:
        """Those that go on, and behind them those that start: the first 64."""
        terms = env.terms
        _, kept, started = env.value(self.tree[2], given)
        found = ("list", started[1], tuple(self.member(len(self.parts) - 1, param, env) for param in started[2]))
        for place, number in reversed(list(enumerate(kept[2]))):
            named = both(terms.less(place, kept[1]), negation(terms.less(number, 0)))
            named = both(named, terms.less(number, members[1]))
            if named is not False and members[2]:
                more = ("list", terms.plus(found[1], 1), (element(terms, members, number, zero(members[2][0])), *found[2]))
                found = chosen(terms, named, more, found)
        _, length, items = found
        return ("list", terms.chosen(terms.less(MEMBERS, length), MEMBERS, length), items[:MEMBERS])

    def member_step(self, member: Tree, d: Any, sample: Tree, env: Environment) -> tuple:
        _, starts, which, param, *states = member
        terms, step, output, behind = env.terms, chosen(env.terms, starts, 0, d), None, []
        for number, (part, state) in enumerate(zip(self.parts, states)):
            it = terms.equal(which, number)
            if it is False:
                behind.append(state)
                continue
            with terms.under(it):
                own, after = part.step(state, step, sample, env.with_param(param) if number == len(states) - 1 else env)
            output = own if output is None else chosen(terms, it, own, output)
            behind.append(chosen(terms, it, after, state))
        return output, ("state", False, which, param, *behind)


MACHINES = {
    "arr": machines.Arr,
    ">>>": machines.Seq,
    "first": machines.First,
    "parB": machines.Par,
    "loopPre": machines.Loop,
    "iPre": machines.IPre,
    "delay": machines.Delay,
    "hold": machines.Hold,
    "accumBy": machines.AccumBy,
    "after": machines.After,
    "repeatedly": machines.Repeatedly,
    "time": machines.Time,
    "integral": machines.Integral,
    "switch": Switch,
    "dSwitch": Switch,
    "rSwitch": RSwitch,
    "kSwitch": KSwitch,
    "pSwitch": PSwitch,
    "old": Old,
    "-->": machines.FirstOutput,
    ">--": machines.FirstInput,
    "drSwitch": DrSwitch,
    "rpSwitchB": Choosing,
}


def machine_of(typed: Typed, position: tuple = ()) -> Machine:
    """The machine of a typed network, or of a part of it."""
    place = typed.places[position]
    numbers = [number for number, child in enumerate(children(place.tree)) if is_network(child)]
    machine = MACHINES[head_of(place.tree)](place, [machine_of(typed, (*position, number)) for number in numbers])
    if isinstance(machine, Choosing):
        machine.choice = typed.places[(*position, len(child_places(place.tree)) - 2)].output
    return machine


def head_of(tree: Any) -> str:
    return tree[0] if isinstance(tree, tuple) else tree
