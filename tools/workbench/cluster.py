"""Work that is handed to the workers of a Dask scheduler: what comes back does so in order, and a worker that dies loses nothing."""
import contextlib
import hashlib
import itertools
import logging
import sys
import warnings
from collections import deque
from collections.abc import Callable, Iterable, Iterator
from pathlib import Path
from typing import Any, TypeVar

from workbench import remote
from workbench.ending import UNREADABLE, Refused, missing
from workbench.program import path

# For each processor of the workers so many pieces are under way; a piece is begun anew where its worker dies.
IN_FLIGHT, RETRIES = 4, 3
One = TypeVar("One")
Back = TypeVar("Back")


def sent(data: bytes) -> remote.Sent:
    """What is sent along, with its sum."""
    return hashlib.sha256(data).hexdigest(), data


def program_bytes() -> bytes:
    """The program, which is sent along."""
    program = Path(path()).read_bytes()
    if not program.startswith(b"\x7fELF"):
        raise Refused("the program isn't built, so it can't be sent to a cluster: `./yampa --prove` builds it", UNREADABLE)
    return program


@contextlib.contextmanager
def connected(address: str) -> Iterator[Any]:
    """A client of the scheduler at that address."""
    try:
        import cloudpickle
        from distributed import Client
    except ImportError as error:
        raise missing("python3-distributed", error) from None
    cloudpickle.register_pickle_by_value(remote)
    # A worker that is gone, and a program of a megabyte, are nothing to tell of.
    logging.disable(logging.WARNING)
    warnings.simplefilter("ignore", UserWarning)
    try:
        client = Client(address, timeout=10, set_as_default=False)
    except (OSError, ValueError) as error:
        raise Refused(f"{address}: no scheduler answers: {last_line(str(error))}", UNREADABLE) from None
    with contextlib.closing(client):
        yield client


def in_order(client: Any, items: Iterable[One], begin: Callable[[One], Any], finish: Callable[[One, Any], Back]) -> Iterator[Back]:
    """What comes back of each item, in their order. Those that wait are taken back where this is interrupted."""
    waiting: deque = deque()
    workers = sum(client.nthreads().values())
    if not workers:
        print("yampa: the scheduler has no workers yet: this waits for the first", file=sys.stderr, flush=True)
    most = IN_FLIGHT * max(1, workers)
    left = iter(items)
    try:
        while True:
            for one in itertools.islice(left, most - len(waiting)):
                waiting.append((one, begin(one)))
            if not waiting:
                return
            yield finish(*waiting.popleft())
    finally:
        client.cancel([future for _, future in waiting])


def result_of(future: Any) -> Any:
    """What a worker answered, or why it didn't."""
    try:
        return future.result()
    except Exception as error:  # pylint: disable=broad-exception-caught
        raise Refused(f"the cluster gave no answer: {last_line(str(error))}", UNREADABLE) from None


def last_line(text: str) -> str:
    return (text.strip().splitlines() or [""])[-1]
