"""The bytes of stack that compiled functions take, from what gcc tells of their frames and calls (`-fcallgraph-info=su`)."""
import re
from graphlib import CycleError, TopologicalSorter

from workbench.ending import UNREADABLE, Refused

FRAME = re.compile(r'^node: \{ title: "([^"]+)" label: "[^"]*\\n(\d+) bytes \(([^)]*)\)"', re.M)
CALL = re.compile(r'^edge: \{ sourcename: "([^"]+)" targetname: "([^"]+)"', re.M)


def deepest(graph: str) -> dict[str, int]:
    """Of each function the bytes of its frame and of those along the longest chain of calls below it. The C library's aren't told."""
    frames = {}
    for name, size, kind in FRAME.findall(graph):
        if kind == "dynamic":
            raise Refused(f"the frame of {name} has no bound", UNREADABLE)
        frames[name] = int(size)
    called: dict[str, set[str]] = {name: set() for name in frames}
    for caller, name in CALL.findall(graph):
        if caller in frames and name in frames:
            called[caller].add(name)
    try:
        order = list(TopologicalSorter(called).static_order())
    except CycleError as error:
        raise Refused(f"the code calls itself: {' '.join(error.args[1])}", UNREADABLE) from None
    taken: dict[str, int] = {}
    for name in order:
        taken[name] = frames[name] + max((taken[one] for one in called[name]), default=0)
    return taken
