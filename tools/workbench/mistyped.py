"""Why a network has no type: the part in the file, and the types of what stands around it, as the program tells them."""
import re
from dataclasses import dataclass

from model.trees import at, children, head, is_network, shown
from workbench.asking import asked, asked_by_name
from workbench.outline import scope_of
from front.spell import shown_type
from workbench.telling import article, spelt_at, told_at


def of_types(program, fault):
    """What is told of a fault of a network's types; None where it has no such fault."""
    found = re.fullmatch(r"(.*) (at|in) \(at([ 0-9]*)\)", fault)
    if not found:
        return told_at(program, (), TOO_LARGE[fault], ["the page of the language has its limits"]) if fault in TOO_LARGE else None
    position = tuple(map(int, found.group(3).split()))
    if at(program.file.tree, position) is None:
        return None
    if found.group(2) == "in":
        return expression_fault(program, found.group(1), position)
    return network_fault(program, found.group(1), position)


TOO_LARGE = {
    "too deep": "the network is too large: its height is over 256, or a type that stands in it is over the limits of types",
    "too heavy": "the network is too large: its weight is over 1,000,000",
}


# ---- what stands around


@dataclass
class Surroundings:
    """The type of what goes into a part, those of the parameters, and of the frozen networks the types of what goes in and what
    comes out; None for each where the program doesn't tell them."""

    given: object
    params: list
    frozen: list

    def scope(self):
        if self.given is None:
            return []
        notes = [f"(p {number}) is {article(type_)}" for number, type_ in enumerate(self.params)]
        return notes + [f"(old {number}) is from {shown_type(given)} to {shown_type(output)}" for number, (given, output) in enumerate(self.frozen)]

    def notes(self, what):
        return [] if self.given is None else [f"{what} {article(self.given)}", *self.scope()]


def surroundings(program, position):
    """What the program tells of the surroundings of a part."""
    tree = program.file.tree
    count, frozen = scope_of(tree, position)
    lifted = (lambda e: ("arr", e)) if is_network(at(tree, position)) else (lambda e: e)
    questions = [(position, lifted("x")), *[(position, lifted(("p", number))) for number in range(count)]]
    for where in frozen:
        questions += [(where, ("arr", "x")), (where, at(tree, where))]
    types = asked(program.file, questions)
    if types is None or len(types) < len(questions):
        return Surroundings(None, [None] * count, [None] * len(frozen))
    types = [program.named_type(type_) for type_ in types]
    olds = types[count + 1 :]
    return Surroundings(types[0], types[1 : count + 1], list(zip(olds[::2], olds[1::2])))


def outermost(file, position):
    """The shortest position at which the same word of the file stands, of which what stands here is a part."""
    while position and file.origins.get(position[:-1]) is file.origins[position]:
        position = position[:-1]
    return position


# What the shorter ways want that mean networks, and those that mean expressions.
SUGAR_NETWORKS = {
    "edge": "takes a Bool",
    "second": "takes a pair",
    "***": "takes a pair",
    "accumHoldBy": "takes an event, and its last part has the type of its first one",
}
SUGAR_WANTS = {
    "lMerge": "wants two events of one type",
    "gate": "wants the type that its event carries, the event and a Bool",
    "tag": "wants the type of the new value, an event and that value",
    "attach": "wants the type (Pair A B), an event that carries A, and a value of type B",
}


def of_shorter_way(program, position, owner):
    """What is told of a part of what a shorter way means."""
    around = surroundings(program, outermost(program.file, position))
    gets = f", but gets {article(around.given)}" if around.given else ""
    return told_at(program, position, f"{owner.word} {SUGAR_NETWORKS[owner.word]}{gets}", around.scope())


# ---- expressions


def expression_fault(program, fault, position):
    """Why an expression has no type."""
    found = misfit(program.file, position)
    if found is None:
        return None
    where, number, types = found
    owner = program.file.origins[where]
    if owner.word in SUGAR_NETWORKS:
        return of_shorter_way(program, where, owner)
    around = surroundings(program, where)
    sees = around.notes("x here is")
    if owner.word in SUGAR_WANTS:
        return told_at(program, where, f"{owner.word} {SUGAR_WANTS[owner.word]}", sees)
    if fault == "no parameter":
        count = len(around.params)
        there = f"there are (p 0) to (p {count - 1}) here" if count else "there are none here"
        note = "a parameter is the value of the event of a switch around it, in its last part"
        return told_at(program, where, f"{spelt_at(program, where)}: {there}", [note, *around.scope()])
    if "deep" in fault:
        return told_at(program, where, "this expression is over the limits of expressions, or makes a type over those of types", sees)
    if not types:
        return told_at(program, where, f"{spelt_at(program, where)} doesn't fit here", sees)
    types = [program.named_type(type_) for type_ in types]
    return told_at(program, (*where, number), mismatch(program, where, types), sees)


def misfit(file, position):
    """Where the program stops in an expression that it refuses: the node, the number of the part at which it stops, and the types of
    the node's parts up to that one; where it doesn't tell, the whole without types. None where it refuses none."""
    questions = {(where, number): (where, part) for where, number, part in walked(at(file.tree, position), position)}
    types = asked_by_name(file, questions, position[:-1])
    if types is None:
        return position, -1, []
    if len(types) == len(questions):
        return None
    where, number = list(questions)[len(types)]
    parts = children(at(file.tree, where))[: number + 1]
    return where, number, [types[((*where, k), len(children(part)) - 1)] for k, part in enumerate(parts)]


def walked(tree, position):
    """The way of the program through an expression: each node, up to each of its parts, and what is typed where it comes so far."""
    parts = children(tree)
    if not parts:
        yield position, -1, tree
    for number, part in enumerate(parts):
        yield from walked(part, (*position, number))
        yield position, number, up_to(tree, number, part)


def up_to(tree, number, part):
    """An expression that is typed where the part is and fits to those before it."""
    word = head(tree)
    if word == "list":
        return (*tree[:2], part)
    if number == len(children(tree)) - 1:
        return tree
    if word in ("add", "sub", "mul", "less") or (word, number) == ("nth", 1):
        return ("neg", part)
    if word in ("and", "or") or (word, number) == ("if", 0):
        return ("not", part)
    if (word, number) == ("nth", 0):
        return ("len", part)
    if (word, number) == ("on", 0):
        return ("on", part, 0, 0)
    return part


def mismatch(program, where, types):
    """What the last one of an expression's parts that have these types should have been."""
    tree, number = at(program.file.tree, where), len(types) - 1
    word = head(tree)
    found = f"{spelt_at(program, (*where, number))} is {article(types[number])}"
    wanted = WANTED.get(word, {}).get(number)
    if wanted:
        return f"{word} wants {wanted}, but {found}"
    if word in ("equal", "if", "on"):
        other = number - 1
        return f"the parts of {word} have one type; {spelt_at(program, (*where, other))} is {article(types[other])}, but {found}"
    if word == "list":
        return f"each element of this list is {article(program.named_type(tree[1]))}, but {found}"
    return f"the last part of nth is what it gives outside of the list, {article(types[0][1])}, but {found}"


NUMBER_WORDS = {0: "an Int", 1: "an Int"}
TRUTH_WORDS = {0: "a Bool", 1: "a Bool"}
WANTED = dict.fromkeys(["neg", "add", "sub", "mul", "less"], NUMBER_WORDS) | dict.fromkeys(["not", "and", "or"], TRUTH_WORDS)
WANTED |= {
    "fst": {0: "a pair"},
    "snd": {0: "a pair"},
    "if": {0: "a Bool first"},
    "on": {0: "an event first"},
    "nth": {0: "a list first", 1: "an Int second"},
    "len": {0: "a list"},
}


# ---- networks


def network_fault(program, fault, position):
    """Why a network has no type: it refuses what goes into it or its parts, or what it is a part of refuses what it outputs."""
    file = program.file
    places = [*walked_before(file.tree, position), position, *[position[:-1]][: len(position)]]
    types = asked_by_name(file, {where: (where, at(file.tree, where)) for where in places}, position[:-1])
    if types is None:
        return told_at(program, position, f"{spelt_at(program, position)} doesn't fit here: {fault}")
    if len(types) == len(places):
        return None
    where = position[:-1] if position in types else position
    owner = file.origins[where]
    if owner.word in SUGAR_NETWORKS:
        return of_shorter_way(program, where, owner)
    around, tree = surroundings(program, where), at(file.tree, where)
    outputs = {place[-1]: program.named_type(type_) for place, type_ in types.items() if place and place[:-1] == where}
    return told_at(program, position, Refusal(tree, around, outputs).reason(fault), around.notes("it gets"))


def walked_before(tree, position):
    """The places of the parts that come before what stands at a position has its type: those beside it, and its own."""
    beside = [(*position[:-1], number) for number in range(position[-1])] if position else []
    return [*beside, *[(*position, number) for number in range(len(children(at(tree, position))))]]


@dataclass
class Refusal:
    """The network that refuses, with what stands around it and the types of its parts by their numbers, as far as these are told."""

    tree: object
    around: Surroundings
    outputs: dict

    def reason(self, fault):
        word, frozen = head(self.tree), len(self.around.frozen)
        last = article(self.outputs[max(self.outputs)]) if self.outputs else "something else"
        if fault == "members":
            return f"{word} takes 1 to 64 members; here are {len(children(self.tree)) - OTHER_PARTS[word]}"
        if fault == "no old":
            there = f"there are (old 0) to (old {frozen - 1})" if frozen else "there are none"
            return f"{shown(self.tree)}: no network with that number is frozen here; {there}"
        if fault == "no pair":
            return NO_PAIR[word].format(word=word, out=last)
        if fault == "no event":
            return NO_EVENT[word].format(word=word, out=last)
        return self.differing(word)

    def differing(self, word):
        """Which two types differ."""
        given, outs = self.around.given, [shown_type(self.outputs.get(number)) for number in range(3)]
        if given is None:
            return f"the types of {word}'s parts, or of what goes into it, don't fit"
        last = max(self.outputs, default=0)
        if word == "rpSwitchB" and last == len(self.tree[1]) - 1:
            return f"the expression behind the members of rpSwitchB has the type (Pair (List Int) (List V)); this one is {article(self.outputs[last])}"
        if word in OTHER_PARTS:
            seen = ", ".join(f"{shown_type(self.outputs[number])} at child {number}" for number in sorted(self.outputs) if word != "pSwitch" or number)
            return f"all members of {word} output one type, and what it starts or goes on with fits them; they output {seen}"
        if word == "old":
            return f"{shown(self.tree)} takes {article(self.around.frozen[self.tree[1]][0])}, but gets {article(given)}"
        if word in ("switch", "dSwitch"):
            outs[0] = shown_type(self.outputs[0][1])
        return DIFFERING[word].format(*outs, word=word, gets=article(given), given=shown_type(given[1] if word == "hold" else given))


# What stands beside the members among the parts of these.
OTHER_PARTS = {"parB": 0, "pSwitch": 3, "rpSwitchB": 2}
PAIR_WITH_EVENT = "{word} takes a pair of a sample and an event"
NO_PAIR = dict.fromkeys(["rSwitch", "drSwitch", "rpSwitchB"], PAIR_WITH_EVENT) | {
    "first": "first takes a pair",
    "loopPre": "the network of loopPre outputs a pair of the output and what is fed back; this one outputs {out}",
    "switch": "the first network of switch outputs a pair of the output and an event; this one outputs {out}",
    "dSwitch": "the first network of dSwitch outputs a pair of the output and an event; this one outputs {out}",
}
NO_EVENT = dict.fromkeys(["rSwitch", "drSwitch", "rpSwitchB"], PAIR_WITH_EVENT) | {
    "hold": "hold takes events",
    "accumBy": "accumBy takes events",
    "switch": "what the first network of switch outputs on the right is no event: it outputs {out}",
    "dSwitch": "what the first network of dSwitch outputs on the right is no event: it outputs {out}",
    "kSwitch": "the second network of kSwitch outputs an event; this one outputs {out}",
    "pSwitch": "the network behind the members outputs an event; this one outputs {out}",
}
# Here {0}, {1} and {2} are the types of the parts by their numbers.
FIRST_INPUT = "the constant of {word} is what goes in first: it is of type {0}, and the input of type {given}"
DIFFERING = dict.fromkeys(["iPre", "delay", ">--"], FIRST_INPUT) | {
    "-->": "the constant of --> stands in the place of the first output: it is of type {0}, and the output of type {1}",
    "hold": "the constant of hold is what is held before the first event: it is of type {0}, and the events carry {given}",
    "accumBy": "the first part of accumBy makes the new value from the pair of the old one and the event's: it is of type {0}, and the value of type {1}",
    "loopPre": "what is fed back has the constant's type {0}; the network outputs {1}",
    "integral": "integral takes an Int, but gets {gets}",
    "kSwitch": "kSwitch outputs one type: first {0}, and then {2}",
}
DIFFERING |= dict.fromkeys(["switch", "dSwitch", "rSwitch", "drSwitch"], "the branches of {word} output one type: the first {0}, the second {1}")
