"""Networks that output what a part of another one outputs."""
from __future__ import annotations

import re
from typing import Any, NamedTuple

from model.texts import network_text
from model.trees import at_text, children, head, is_network
from workbench.ending import WRONG_WORDS, Refused, Words, write
from workbench.instrument import Instrument
from workbench.layout import laid_out
from workbench.outline import Network, network_of
from workbench.shorter import shortened
from workbench.signals import Both, Collection, Leaf, Members, Pack, Position, Sometimes, leaves
from workbench.written import Node
from workbench.wiring import absent, arr, default, fst, seq, snd

ABOUT = """Prints the network whose output is the output of a part of NET, so that `yampa run` and `yampa plot` show
signals inside. The part is named by its position, as in certificates: `--at 0 1` is the second child of
the first child.

  yampa watch NET --at 0 1 > PART
  yampa run PART < STREAM

If the part doesn't run at each sample (it is in a switch), the output is an event of the part's output
while it runs, also when it is resumed; if it was started several times, of the last one started. For a
part of an rpSwitchB it is a list, with an element for each member that runs. The e of a kSwitch or a
pSwitch can't be watched, nor can expressions. All signals at once: `yampa step`, `yampa waves`."""

Tree = Any


def refusal(whole: Network, position: Position) -> str:
    """Why the part at a position can't be watched; nothing where it can."""
    for depth, number in enumerate(position):
        here, tree = position[:depth], whole.at(position[:depth])
        parts = children(tree)
        if number >= len(parts):
            return f"{at_text(position)}: nothing stands there: {at_text(here)} has {len(parts)} parts"
        if not is_network(parts[number]):
            return f"{at_text((*here, number))}: an expression stands there, and only networks can be watched"
        if head(tree) in ("kSwitch", "pSwitch") and number == len(parts) - 2:
            return f"{at_text((*here, number))}: what watches a {head(tree)} can't be watched itself"
    return ""


def seen(whole: Network, position: Position) -> Position:
    """The position, of a part that can be watched."""
    why = refusal(whole, position)
    if why:
        raise Refused(why)
    return position


def told_by(whole: Network, position: Position) -> Position:
    """The part within one that outputs what it outputs."""
    tree = whole.at(position)
    while head(tree) in (">>>", ">--"):
        position, tree = (*position, 1), tree[2]
    return position


class Watch(NamedTuple):
    """A network with the input of the whole, and the type of its output."""

    net: Tree
    type: Tree


def watched(whole: Network, position: Position) -> Watch:
    """The network that outputs what the part at a position outputs."""
    position = seen(whole, position)
    if not position:
        return Watch(whole.tree, whole.output(()))
    made = Instrument(whole, {told_by(whole, position)}).made()
    value, type_ = alone(made.signals, "x")
    return Watch(seq(made.net, arr(value)), type_)


def alone(pack: Pack, value: Tree) -> tuple:
    """The only signal of a pack, an event or a list with an element a member that runs, from the pack's value; and its type."""
    match pack:
        case Leaf() | Members() | Sometimes(inner=Leaf()):
            return value, pack.type
        case Both():
            return merged([alone(pack.left, fst(value)), alone(pack.right, snd(value))], pack)
        case Sometimes():
            inner, type_ = alone(pack.inner, snd("x"))
            return ("on", value, default(type_), inner), type_
        case Collection():
            empty = ("pair", ("list", pack.output), absent(pack.inner))
            return merged([alone(pack.inner, snd(("nth", value, number, empty))) for number in range(pack.count)], pack)


def merged(found: list, pack: Pack) -> tuple:
    """The first of the signals that is there, and their type."""
    (signal, type_), *others = found
    for other, other_type in others:
        if other_type != type_:
            at = at_text(next(leaves(pack)).position)
            raise Refused(f"{at}: it runs by itself and in members that come and go, and can't be watched alone: see `yampa step`")
        signal = ("if", ("equal", ("len", signal), 0), other, signal) if type_[0] == "List" else ("on", signal, other, ("event", ("snd", "x")))
    return signal, type_


def node_of(tree: Tree) -> Node:
    """The tree as a node to be laid out."""
    if isinstance(tree, tuple):
        return Node(tree[0], [node_of(part) for part in tree[1:]], 0, 0, "form")
    return Node(tree, [], 0, 0, "word")


def file_text(given: Tree, tree: Tree) -> str:
    """A network's file, laid out, with shorter ways."""
    head_lines = network_text(given, tree).split("\n")[:2]
    return "\n".join([*head_lines, *laid_out(node_of(shortened(tree)))]) + "\n"


def position_in(whole: Network, given: list) -> Position:
    """The position that the words behind `--at` name, as 0 1, or '(at 0 1)', or the name of a network."""
    text = " ".join(given)
    for name, position in whole.program.signals:
        if name == text:
            return position
    numbers = [number for number in re.findall(r"[^ ()]+", text) if number != "at"]
    if not all(re.fullmatch(r"[0-9]{1,5}", number) for number in numbers):
        names = [name for name, _ in whole.program.signals]
        known = f", or one of the names {', '.join(names[:12])}{' ..' * (len(names) > 12)}" if names else ""
        raise Refused(f"--at {text}: a position is made of numbers, as --at 0 1{known}", WRONG_WORDS)
    return tuple(map(int, numbers))


def add_position(words: Words, about: str = "a part's position, child by child, or its name", **how: Any) -> None:
    words.add_argument("--at", nargs="*", metavar="N", help=about, **how)


def main() -> None:
    words = Words("watch", ABOUT)
    words.add_argument("net", metavar="NET")
    add_position(words, default=[])
    words.add_argument("-o", metavar="FILE", dest="to", help="writes the network there")
    given = words.parse_args()
    whole = network_of(given.net)
    write(given.to, file_text(whole.input, watched(whole, position_in(whole, given.at)).net))
