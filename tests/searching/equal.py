"""Pairs of networks that output the same by well-known laws of arrows, loops, switches, numbers and truths: what `certify` finds from each to the
other, and certificates by hand."""
from pathlib import Path

from searching.calls import steps_in, told_of

PAIRS = Path(__file__).resolve().parent / "equal"


def equal_pairs():
    """What each pair is, the input type, the two networks, and a certificate by hand, or an empty text."""
    found: list[list[str]] = []
    for line in PAIRS.read_text().splitlines():
        if line.startswith("laws "):
            found[-1][-1] = line
        elif line and not line.startswith("; "):
            found.append([*line.split(" | "), ""])
    return found


def equal_ends(caller, kind, first, second, certificate):
    """What is wrong with what `certify` prints of two networks, in both directions, and with the certificate by hand; and what it found: whether
    both, and whether the networks are derived at all."""
    nets = [caller.file(f"yampa 2\ninput {kind}\n{net}\n") for net in (first, second)]
    ways = [caller.certified(*nets), caller.certified(*nets[::-1])]
    faults = [fault for _, fault in ways if fault]
    if certificate:
        told = caller.call("check", *nets, caller.file(certificate))
        faults += [] if told == (0, f"accepted {steps_in(certificate)}\n", "") else [f"check: {told}"]
    found = [isinstance(steps, int) for steps, _ in ways]
    return faults, " and ".join(told_of(steps) for steps, _ in ways), {"equal pairs": (1, all(found), any(found) or bool(certificate))}
