"""The types, weight and height of a network, or the first fault that its walk meets."""
from dataclasses import dataclass
from functools import lru_cache

from model.trees import at_text, child_places, children, head, is_form, is_literal

TYPE_DEPTH, TYPE_NODES = 32, 256
EXPRESSION_HEIGHT, EXPRESSION_NODES = 256, 100_000
HEIGHT, WEIGHT = 256, 1_000_000
MEMBERS = 64


class TypeFault(Exception):
    """What is refused, as the program says it behind the file's role."""


class ExpressionFault(Exception):
    """Why an expression is refused."""


@dataclass(frozen=True)
class Scope:
    """The types of the parameters, and the input and output types of the frozen networks."""

    params: tuple = ()
    olds: tuple = ()

    def with_param(self, param):
        return Scope((*self.params, param), self.olds)

    def with_olds(self, olds):
        return Scope(self.params, (*self.olds, *olds))


@dataclass(frozen=True)
class Place:
    """What stands at a position: the types that go in and come out, and what is in scope."""

    position: tuple
    tree: object
    input: object
    output: object
    scope: Scope


@dataclass
class Typed:
    """A network that is typed, with all its places."""

    input: object
    output: object
    weight: int
    height: int
    places: dict


def pair(a, b):
    return ("Pair", a, b)


def event(a):
    return ("Event", a)


def list_of(a):
    return ("List", a)


@lru_cache(maxsize=100_000)
def type_size(type_):
    """The depth and the nodes of a type."""
    if not isinstance(type_, tuple):
        return 1, 1
    sizes = [type_size(part) for part in type_[1:]]
    return 1 + max(depth for depth, _ in sizes), 1 + sum(nodes for _, nodes in sizes)


def fits(type_):
    depth, nodes = type_size(type_)
    return depth <= TYPE_DEPTH and nodes <= TYPE_NODES


# ---- expressions


def expression_size(tree):
    """The height and the nodes of an expression."""
    sizes = [expression_size(child) for child in children(tree)]
    return 1 + max((height for height, _ in sizes), default=0), 1 + sum(nodes for _, nodes in sizes)


def wanted(holds, why="mismatch"):
    if not holds:
        raise ExpressionFault(why)


def within(type_):
    wanted(fits(type_), "expression too deep")
    return type_


class ExpressionWalk:
    """Types an expression and its parts, and keeps what stands where."""

    def __init__(self, places):
        self.places = places

    def whole(self, tree, input_type, scope, position=()):
        height, nodes = expression_size(tree)
        wanted(height <= EXPRESSION_HEIGHT and nodes <= EXPRESSION_NODES, "expression too deep")
        return self.walk(tree, input_type, scope, position)

    def walk(self, tree, input_type, scope, position):
        places = child_places(tree)

        def part(number, under=input_type):
            return self.walk(tree[places[number][0]], under, scope, (*position, number))

        output = within(self.form_type(tree, input_type, scope, part))
        self.places[position] = Place(position, tree, input_type, output, scope)
        return output

    def form_type(self, tree, input_type, scope, part):
        word = head(tree)
        if is_literal(tree):
            return "Int" if word == "number" else "Unit" if word == "unit" else "Bool"
        if word in OPERANDS:
            operands, output = OPERANDS[word]
            for number, operand in enumerate(operands):
                wanted(part(number) == operand)
            return output
        if word in ("x", "p", "none", "list"):
            return self.leaf_type(tree, input_type, scope, part)
        return getattr(self, f"{word}_type")(input_type, part)

    def leaf_type(self, tree, input_type, scope, part):
        match tree:
            case "x":
                return input_type
            case ("p", level):
                wanted(level < len(scope.params), "no parameter")
                return scope.params[level]
            case ("none", type_):
                return event(within(type_))
        within(tree[1])
        for number in range(len(tree) - 2):
            wanted(part(number) == tree[1])
        return list_of(tree[1])

    def pair_type(self, _input, part):
        return pair(part(0), part(1))

    def fst_type(self, _input, part):
        whole = part(0)
        wanted(is_form("Pair", whole))
        return whole[1]

    def snd_type(self, _input, part):
        whole = part(0)
        wanted(is_form("Pair", whole))
        return whole[2]

    def then_type(self, _input, part):
        return part(1, part(0))

    def equal_type(self, _input, part):
        wanted(part(0) == part(1))
        return "Bool"

    def if_type(self, _input, part):
        wanted(part(0) == "Bool")
        output = part(1)
        wanted(part(2) == output)
        return output

    def event_type(self, _input, part):
        return event(part(0))

    def on_type(self, input_type, part):
        happening = part(0)
        wanted(is_form("Event", happening))
        output = part(1)
        wanted(part(2, within(pair(input_type, happening[1]))) == output)
        return output

    def nth_type(self, _input, part):
        whole = part(0)
        wanted(is_form("List", whole))
        wanted(part(1) == "Int")
        wanted(part(2) == whole[1])
        return whole[1]

    def len_type(self, _input, part):
        wanted(is_form("List", part(0)))
        return "Int"


OPERANDS = {
    "neg": (["Int"], "Int"),
    "add": (["Int", "Int"], "Int"),
    "sub": (["Int", "Int"], "Int"),
    "mul": (["Int", "Int"], "Int"),
    "less": (["Int", "Int"], "Bool"),
    "not": (["Bool"], "Bool"),
    "and": (["Bool", "Bool"], "Bool"),
    "or": (["Bool", "Bool"], "Bool"),
}


# ---- networks


def need(holds, why, position):
    if not holds:
        raise TypeFault(f"{why} at {at_text(position)}")


def bounded(type_):
    if not fits(type_):
        raise TypeFault("too deep")
    return type_


class Node:
    """A node of a network in its walk: its parts are walked as they are asked for, by their child numbers."""

    def __init__(self, walk, tree, input_type, scope, position):
        self.walk, self.tree, self.input, self.scope, self.position = walk, tree, input_type, scope, position

    def place(self, number):
        return (*self.position, number)

    def child(self, number):
        place = child_places(self.tree)[number]
        part = self.tree
        for index in place:
            part = part[index]
        return part

    def network(self, number, under, scope=None):
        return self.walk.network(self.child(number), bounded(under), scope or self.scope, self.place(number))

    def expression(self, number, under):
        return self.walk.expression(self.child(number), bounded(under), self.scope, self.place(number))

    def need(self, holds, why, child=None):
        need(holds, why, self.position if child is None else self.place(child))

    def pair_of(self, type_, child=None):
        self.need(is_form("Pair", type_), "no pair", child)
        return type_[1], type_[2]

    def event_of(self, type_, child=None):
        self.need(is_form("Event", type_), "no event", child)
        return type_[1]

    def members(self, under, first, count):
        """The one output type of the members, which are all walked before it is compared."""
        outputs = [self.network(first + at, under) for at in range(count)]
        for at, output in enumerate(outputs):
            self.need(output == outputs[0], "types differ", first + at)
        return outputs[0]


class NetworkWalk:
    """Types a network and its parts, and keeps what stands where."""

    def __init__(self):
        self.places = {}

    def expression(self, tree, input_type, scope, position):
        try:
            return ExpressionWalk(self.places).whole(tree, input_type, scope, position)
        except ExpressionFault as fault:
            raise TypeFault(f"{fault} in {at_text(position)}") from None

    def network(self, tree, input_type, scope, position):
        node = Node(self, tree, input_type, scope, position)
        output = bounded(NODES[head(tree)](node))
        self.places[position] = Place(position, tree, input_type, output, scope)
        return output


def arr_node(node):
    return node.expression(0, node.input)


def seq_node(node):
    return node.network(1, node.network(0, node.input))


def first_node(node):
    left, right = node.pair_of(node.input)
    return pair(node.network(0, left), right)


def par_node(node):
    count = len(node.tree) - 1
    node.need(1 <= count <= MEMBERS, "members")
    return list_of(node.members(node.input, 0, count))


def loop_node(node):
    kept = node.expression(0, "Unit")
    output, again = node.pair_of(node.network(1, pair(node.input, kept)), 1)
    node.need(again == kept, "types differ", 1)
    return output


def late_node(node):
    node.need(node.expression(0, "Unit") == node.input, "types differ")
    return node.input


def hold_node(node):
    held = node.event_of(node.input)
    node.need(node.expression(0, "Unit") == held, "types differ")
    return held


def accum_node(node):
    given = node.event_of(node.input)
    kept = node.expression(1, "Unit")
    node.need(node.expression(0, pair(kept, given)) == kept, "types differ")
    return event(kept)


def timer_node(node):
    return event(node.expression(0, "Unit"))


def time_node(_node):
    return "Int"


def integral_node(node):
    node.need(node.input == "Int", "types differ")
    return "Int"


def switch_node(node):
    output, happening = node.pair_of(node.network(0, node.input), 0)
    value = node.event_of(happening, 0)
    node.need(node.network(1, node.input, node.scope.with_param(value)) == output, "types differ", 1)
    return output


def recurring_node(node):
    sample, happening = node.pair_of(node.input)
    value = node.event_of(happening)
    output = node.network(0, sample)
    node.need(node.network(1, sample, node.scope.with_param(value)) == output, "types differ", 1)
    return output


def freezing_node(node):
    output = node.network(0, node.input)
    value = node.event_of(node.network(1, pair(node.input, output)), 1)
    scope = node.scope.with_param(value).with_olds([(node.input, output)])
    node.need(node.network(2, node.input, scope) == output, "types differ", 2)
    return output


def collection_node(node):
    count = len(node.tree[2]) - 1
    node.need(1 <= count <= MEMBERS, "members")
    routed = node.expression(0, pair(node.input, "Int"))
    member = node.members(routed, 1, count)
    output = list_of(member)
    value = node.event_of(node.network(count + 1, pair(node.input, output)), count + 1)
    scope = node.scope.with_param(value).with_olds([(routed, member)] * count)
    node.need(node.network(count + 2, node.input, scope) == output, "types differ", count + 2)
    return output


def first_output_node(node):
    kept = node.expression(0, "Unit")
    output = node.network(1, node.input)
    node.need(output == kept, "types differ")
    return output


def first_input_node(node):
    node.need(node.expression(0, "Unit") == node.input, "types differ")
    return node.network(1, node.input)


def choosing_node(node):
    count = len(node.tree[1]) - 1
    node.need(1 <= count <= MEMBERS, "members")
    sample, happening = node.pair_of(node.input)
    value = node.event_of(happening)
    member = node.members(sample, 0, count)
    choice = node.expression(count, value)
    node.need(is_form("Pair", choice) and choice[1] == list_of("Int") and is_form("List", choice[2]), "types differ", count)
    scope = node.scope.with_param(choice[2][1])
    node.need(node.network(count + 1, sample, scope) == member, "types differ", count + 1)
    return list_of(member)


def old_node(node):
    level = node.tree[1]
    node.need(level < len(node.scope.olds), "no old")
    given, output = node.scope.olds[level]
    node.need(given == node.input, "types differ")
    return output


NODES = {
    "arr": arr_node,
    ">>>": seq_node,
    "first": first_node,
    "parB": par_node,
    "loopPre": loop_node,
    "iPre": late_node,
    "delay": late_node,
    "hold": hold_node,
    "accumBy": accum_node,
    "after": timer_node,
    "repeatedly": timer_node,
    "time": time_node,
    "integral": integral_node,
    "switch": switch_node,
    "dSwitch": switch_node,
    "rSwitch": recurring_node,
    "kSwitch": freezing_node,
    "pSwitch": collection_node,
    "old": old_node,
    "-->": first_output_node,
    ">--": first_input_node,
    "drSwitch": recurring_node,
    "rpSwitchB": choosing_node,
}


def measure(net, node, olds=()):
    """The weight or the height of a network: `node` joins the measures of the child networks of one, of this word.

    A frozen network that isn't in `olds`, as in a part that stands alone, counts nothing."""
    word = head(net)
    match net:
        case ("old", level):
            return node(word, [olds[level] if level < len(olds) else 0])
        case ("kSwitch", f, e, t):
            frozen = measure(f, node, olds)
            return node(word, [frozen, measure(e, node, olds), measure(t, node, (*olds, frozen))])
        case ("pSwitch", _, (_, *members), e, t):
            frozen = [measure(member, node, olds) for member in members]
            return node(word, [*frozen, measure(e, node, olds), measure(t, node, (*olds, *frozen))])
    parts = [child for child in children(net) if head(child) in NODES]
    return node(word, [measure(part, node, olds) for part in parts])


def node_weight(word, parts):
    """A part counts as often as it may run in one sample: what a `drSwitch` starts twice, the greatest of an `rpSwitchB` 64 times."""
    if word == "drSwitch":
        return 1 + parts[0] + 2 * parts[1]
    return 1 + (MEMBERS * max(parts) if word == "rpSwitchB" else sum(parts))


def weight(net):
    return measure(net, node_weight)


def height(net):
    return measure(net, lambda _word, parts: 1 + max(parts, default=0))


@lru_cache(maxsize=64)
def check_types(input_type, net):
    """The typed network, or a TypeFault."""
    walk = NetworkWalk()
    output = walk.network(net, bounded(input_type), Scope(), ())
    if height(net) > HEIGHT:
        raise TypeFault("too deep")
    if weight(net) > WEIGHT:
        raise TypeFault("too heavy")
    return Typed(input_type, output, weight(net), height(net), walk.places)
