"""Searches that lie, break or don't end, in the place of the one beside the program: no call may print what the program doesn't accept."""
import os
import re
from pathlib import Path

SOURCE, TARGET = "yampa 1 input Int (>>> identity integral)\n", "yampa 1 input Int integral\n"
REJECTED = r": the program rejects what the search proposed: certificate: {}"
ENDED = r": the search {}"
# What a search does, and what is told of it, with which status.
LIARS = {
    "a wrong step": ("printf 'laws 1\\n(step L2 forward (at))\\n'", REJECTED.format("no match at step 1"), 1),
    "a cut file": ("printf 'laws 1\\n(step L1 forwa'", REJECTED.format(r"syntax at byte \d+"), 1),
    "no certificate": ("echo accepted", REJECTED.format("header"), 1),
    "nothing": ("exit 0", REJECTED.format("header"), 1),
    "one that works on": ("while :; do :; done", ENDED.format(r"was ended by signal (9|24)"), 3),
    "one that waits": ("exec sleep 1000", ENDED.format("was ended by signal 9"), 3),
    "one that prints on": ("exec yes '(step L1 forward (at))'", ENDED.format(r"was ended by signal 25|: the search ended with status \d+"), 3),
    "one that breaks": ("kill -ABRT $$", ENDED.format("was ended by signal 6"), 3),
    "a status": ("exit 7", ENDED.format("ended with status 7"), 3),
    "another reason": ("echo because; exit 1", ENDED.format("ended with status 1"), 3),
}
# A step that is right, but not where another network is wanted.
ELSEWHERE = ("printf 'laws 1\\n(step E9 backward (at 0 0) (pair (fst x) (snd x)))\\n'", REJECTED.format(r"ill typed at step 1"), 1)


def liars():
    """What they are, their text, what is told, and the status."""
    for name, given in {**LIARS, "a step of another type": ELSEWHERE}.items():
        yield f"a search that lies: {name}", *given


def lies_found(caller, script, line, status):
    """What is wrong with what is told where the search is this script: both commands print nothing, and a line."""
    liar = Path(caller.file(f"#!/bin/sh\n{script}\n"))
    liar.chmod(0o755)
    source, target = caller.file(SOURCE), caller.file(TARGET)
    named = {"YAMPA_SEARCH": str(liar), "YAMPA_SEARCH_SECONDS": "1"}
    os.environ.update(named)
    told = [caller.call("certify", source, target), caller.call("improve", source)]
    for name in named:
        del os.environ[name]
    wanted = [f"certificate: none found({line})\n", f"network: not improved({line})\n"]
    faults = [f"{answer}" for answer, want in zip(told, wanted) if answer[:2] != (status, "") or not re.fullmatch(want, answer[2])]
    return faults, "rejected"
