"""How the graph of a network becomes a network of the core.

Parts that need each other become a `loopPre` over their cells; the others stand one behind the other, and between two of them goes what is
still wanted.
"""
from __future__ import annotations

from dataclasses import dataclass

from front import core
from front.carried import Carried
from front.core import Node
from front.emit import emit
from front.faults import Fault
from front.graph import Graph, Item, needed
from front.order import MANY, Part, Stages, components
from front.places import Env, Pack, Shape, Tree, X, blank_text, only_parameters, put_leaf, put_shape, shape_node, shape_of
from front.reach import Reach, compact, fewer, greatest, parts_of, without_small

# A chain of more stages is parted in halves, since the height of a network has a limit.
LONGEST = 32
NO_INPUT = ("time", "after", "repeatedly")


def network(graph: Graph, outer: Env) -> Tree:
    """A graph as a network; outer says where what it has from outside is to be found."""
    env = put_leaf(dict(outer), graph.input, X)
    return pipeline(components(needed(graph)), env, outer, graph.output)


def joined(stages: list[Tree | None]) -> Tree:
    found = [stage for stage in stages if stage is not None]
    if not found:
        return Tree("identity")
    if len(found) > LONGEST:
        half = len(found) // 2
        return Tree(">>>", [joined(list(found[:half])), joined(list(found[half:]))])
    made = found[-1]
    for stage in reversed(found[:-1]):
        made = Tree(">>>", [stage, made], stage.place)
    return made


def arr(text: Tree) -> Tree | None:
    """The network of an expression; of x alone none is needed."""
    return None if text.head == "x" else Tree("arr", [text], text.place, text.name)


@dataclass
class Stage:
    """What stands between two wirings: what goes in, the network, what comes out, and what is computed for it in any case."""

    into: Shape
    network: Tree
    out: Shape
    now: list[Node]


def pipeline(parts: list[Part], env: Env, outer: Env, out: Node) -> Tree:
    """The parts one after the other, in that of two orders in which less is carried; some stand side by side."""
    orders = [Stages(parts, many).all() for many in (MANY, len(parts) + 1)]
    best = min(orders, key=lambda order: Carried([items_in(batch) for batch in order], env, out).count()) if orders[0] != orders[1] else orders[0]
    return wired(best, env, outer, out)


def items_in(batch: list) -> list[Item]:
    """The items of the parts of a stage, or of several stages."""
    return [item for one in batch for item in (items_in(one) if isinstance(one, list) else one[0])]


def wired(order: list, env: Env, outer: Env, out: Node) -> Tree:
    """Stages one after the other; between two of them goes what is still wanted. Of many some become one, so that what only goes past them
    is spelt once for all of them."""
    size = max(LONGEST // 2, -(-len(order) // LONGEST))
    if len(order) > LONGEST:
        order = [order[at : at + size] for at in range(0, len(order), size)]
    stages: list[Tree | None] = []
    carried = Carried([items_in(batch) for batch in order], env, out)
    for at, batch in enumerate(order, 1):
        stage = stage_of(batch, env, outer, carried.leaving(at))
        have = put_shape(stage.out, only_parameters(env), X)
        beside = shape_of(fewer(compact(carried.beside(at, have)), env, stage.now))
        if beside is not None:
            both = core.pair(shape_node(stage.into), shape_node(beside))
            stages += [arr(emit(both, env)), Tree("first", [stage.network], stage.network.place)]
            env = put_shape(stage.out, only_parameters(env), ("x", ("fst",)))
            put_shape(beside, env, ("x", ("snd",)))
        else:
            stages += [arr(emit(shape_node(stage.into), env)) if stage.into is not None else None, stage.network]
            env = have
    return joined([*stages, arr(emit(out, env))])


def stage_of(batch: list, env: Env, outer: Env, wanted: list[Node]) -> Stage:
    """A part by itself, several side by side, or several stages; of what they give that is wanted leaves."""
    if isinstance(batch[0], list):
        leaving, entering = ends(items_in(batch), env, wanted)
        inside = put_shape(shape_of(entering), only_parameters(env), X)
        gone = shape_of(leaving)
        return Stage(shape_of(entering), wired(batch, inside, outer, shape_node(gone)), gone, entering)
    if len(batch) > 1:
        return batch_stage([items[0] for items, _ in batch], outer)
    items, cyclic = batch[0]
    if cyclic:
        return loop(items, env, outer, wanted)
    item = items[0]
    into = item.into if item.kind not in NO_INPUT else None
    return Stage(into, placed_text(item, outer), item.out, parts_of(item.feed()))


def ends(items: list[Item], env: Env, wanted: list[Node]) -> tuple[list[Node], list[Node]]:
    """What leaves a network of some items, of what is wanted, and what enters it."""
    leaving = without_small(compact(wanted) or [items[0].out], (), env)
    return leaving, fewer(compact(greatest([item.feed() for item in items] + leaving, Reach(env).has)), env)


def batch_stage(items: list[Item], outer: Env) -> Stage:
    """Parts of one type side by side: what goes into them and what they output are lists."""
    fed = [item.feed() for item in items]
    now = [part for one in fed for part in parts_of(one)]
    out = Pack(tuple(item.out for item in items))
    if items[0].kind == "cell":
        inits = shape_node(Pack(tuple(item.init for item in items if item.init is not None)))
        return Stage(Pack(tuple(fed)), Tree("iPre", [emit(inits, outer)], items[0].place), out, now)
    if all(one is fed[0] for one in fed):
        return Stage(fed[0], Tree("parB", [placed_text(item, outer) for item in items], items[0].place), out, now)
    members = [Tree(">>>", [Tree("arr", [element(at, item.feed())]), placed_text(item, outer)], item.place) for at, item in enumerate(items)]
    return Stage(Pack(tuple(fed)), Tree("parB", members, items[0].place), out, now)


def element(at: int, one: Node) -> Tree:
    return Tree("nth", [Tree("x"), Tree(str(at)), Tree(blank_text(one.ty))])


def placed_text(item: Item, outer: Env) -> Tree:
    made = item.text(outer)
    made.place, made.name = item.place, item.name
    return made


def loop(part: list[Item], env: Env, outer: Env, wanted: list[Node]) -> Stage:
    """A part with a cycle as a loopPre over its cells."""
    cells = [item for item in part if item.kind == "cell"]
    inner = components([item for item in part if item.kind != "cell"])
    for bad, cyclic in inner:
        if cyclic:
            raise Fault(bad[0].place, "each cycle of a rec must pass an iPre, and one through this does not")
    leaving, entering = ends([*cells, *part], env, wanted)
    inside = only_parameters(env)
    put_shape(shape_of(entering), inside, ("x", ("fst",)))
    put_shape(shape_of([cell.out for cell in cells]), inside, ("x", ("snd",)))
    gone = shape_of(leaving)
    news = shape_of([cell.out for cell in cells])
    fed = {cell.out: cell.feed() for cell in cells}
    body = pipeline(inner, inside, outer, core.pair(shape_node(gone), shape_node(replaced(news, fed))))
    inits = shape_node(replaced(news, {cell.out: cell.init for cell in cells}))
    return Stage(shape_of(entering), Tree("loopPre", [emit(inits, outer), body], cells[0].place, named(cells)), gone, entering)


def named(cells: list[Item]) -> str:
    """The name of the first of some cells that has one."""
    return next((cell.name for cell in cells if cell.name), "")


def replaced(shape: Shape, others: dict) -> Shape:
    """The shape with other nodes in the places of its own."""
    if isinstance(shape, tuple):
        return (replaced(shape[0], others), replaced(shape[1], others))
    if isinstance(shape, Node):
        return others[shape]
    return type(shape)(tuple([others[one] for one in shape.nodes]))
