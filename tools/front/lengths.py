"""Lists that keep their length: what is kept of a list of a known length may be taken apart as well."""
from __future__ import annotations

from collections.abc import Callable
from typing import Any

from front import core
from front.core import NOW, Node, real
from front.graph import Graph, Item
from front.values import as_node, elements


class Varies(Exception):
    """A list that is fed back doesn't keep the length that it begins with."""


def has_list(ty: Any) -> bool:
    ty = real(ty)
    return not isinstance(ty, core.Open) and (ty[0] == "List" or any(map(has_list, ty[1:])))


def note_lengths(out: Node, ways: list[Node], least: int = 0) -> None:
    """Notes the lengths of the lists in a value that is one of some others, where all of these have the same, which is no less than that."""
    ty = real(out.ty)
    if not has_list(ty):
        return
    if ty[0] == "Pair":
        for part in (core.fst, core.snd):
            note_lengths(part(out), [part(way) for way in ways], least)
    if ty[0] == "List":
        counts = {core.known_length(way) for way in ways}
        count = counts.pop()
        if counts or count is None or count < least:
            return
        if out.op != "list":
            NOW.lengths[out] = count
        if has_list(ty[1]):
            for inner in zip(elements(out, count), *[elements(way, count) for way in ways]):
                note_lengths(inner[0], list(inner[1:]), least)


def keeps(out: Node, new: Node) -> bool:
    """Whether the lists in a new value have the lengths that are noted of the old one."""
    ty = real(out.ty)
    if not has_list(ty):
        return True
    if ty[0] == "Pair":
        return all(keeps(part(out), part(new)) for part in (core.fst, core.snd))
    count = core.known_length(out) if ty[0] == "List" else None
    if count is None:
        return True
    if core.known_length(new) != count:
        return False
    return not has_list(ty[1]) or all(map(keeps, elements(out, count), elements(new, count)))


def steady(graph: Graph, work: Callable[[], Any]) -> Any:
    """What is done as if all lists that are fed back kept their lengths; then anew, without that of one that doesn't."""
    items, known = list(graph.items), dict(graph.known)
    while True:
        try:
            return work()
        except Varies:
            graph.items[:], graph.known = items, dict(known)


def cell(graph: Graph, init: Node) -> tuple[Node, Callable[[Any], None]]:
    """A memory of one sample, whose lists keep their lengths as far as can be: its output, and what feeds it."""
    made: Item = graph.cell(init)
    key = (NOW.here, init.id)
    if key not in NOW.varying:
        note_lengths(made.out, [init], 1)

    def feed(value: Any) -> None:
        made.into = as_node(value)
        core.unify(made.out.ty, made.into.ty)
        if not keeps(made.out, made.into):
            NOW.varying.add(key)
            raise Varies

    return made.out, feed
