"""`yampa falsify` and `yampa differ`: recordings that break what is expected, by z3 and by random tests."""
import contextlib
import sys
from argparse import Namespace
from dataclasses import replace

from model.texts import read_stream
from model.trees import shown
from workbench.batches import read_recording
from workbench.comparing import first_difference, said
from workbench.ending import INTERRUPTED, REFUSED, UNREADABLE, Refused, Words, stream_bytes, write
from workbench.program import call
from workbench.proposing import searcher
from workbench.proving.contract import contract_of, joined
from workbench.proving.deciding import (
    NOT_KNOWN,
    Decision,
    Limits,
    Verdict,
    Way,
    breaks,
    certifying,
    in_long_recordings,
    random_ways,
    ways_or_none,
    wishes_of,
)
from workbench.proving.explicit import by_states
from workbench.proving.question import ALIKE, Question
from workbench.proving.spelling import in_core
from workbench.proving.words import (
    Loaded,
    assumed,
    limits_of,
    loaded,
    pace_of,
    whole,
    with_assumptions,
    with_limits,
    with_paces,
)
from workbench.proving.worded import keeping_to, told
from workbench.streams import LENGTH, Recording, Wishes, stream_text

# How many random streams there must be before it is said that none was found.
ENOUGH = 1_000

FALSIFY = """Looks for a stream on which NET outputs `false`. NET outputs a Bool: it is an observer of a property,
such as whether a controller's output stays within its bounds.

z3 searches the first samples, if it is installed (Debian: python3-z3). Random streams are run on all
processors: numbers of the file and their neighbours, runs of one value, steps of its timers, and with
--from slightly changed recordings. A stream on which it outputs `false` is made as short and simple as
possible and printed, with its line on standard error; the status is 1. If none is found in the time, the
status is 0: that is no proof, and `yampa prove` looks for one. With under 1,000 random streams it isn't
known, status 4; if none was run, that is an error, status 3. Ctrl-C ends it, and prints the best stream
so far."""

DIFFER = """Says whether two networks of the same types write the same bytes on every stream.

  equal on every recording      status 0; by a certificate, which is a proof, or by z3, which isn't one of this project
  line 3: 2 and 1               status 1; a stream on which they differ is printed, and this line on standard error
  not known: ..                 status 4; what was tried; if no recording was run, status 3

`yampa certify` looks for a certificate, z3 for a recording and for a proof, and random streams are run."""


def falsify_main() -> None:
    words = Words("falsify", FALSIFY)
    words.add_argument("net", metavar="NET")
    with_assumptions(words)
    words.add_argument("--from", metavar="STREAM", action="append", default=[], dest="recordings", help="tries recordings like this one")
    words.add_argument("--length", type=whole(1, 100_000), metavar="N", help="random streams have at most N samples; by default 60, and some 2,048")
    with_paces(words)
    words.add_argument("--seed", type=int, default=1, metavar="N", help="another number tries other streams")
    with_limits(words, 30)
    given = words.parse_args()
    contract = contract_of(given.net, loaded(given.net))
    if not contract.goals:
        raise Refused(f"{given.net}: it guarantees nothing")
    pace = pace_of(given)
    assuming = assumed(given.assume, contract.loaded.given)
    question = contract.question(joined([goal.net for goal in contract.goals]), pace, assuming)
    wishes = wishes_for(given, question)
    long = {} if given.length else {"long": in_long_recordings(wishes)}
    verdict = searched("falsify", question, limits_of(given), long, given.seed, wishes)
    if not verdict.recording:
        sys.exit(told_of_none(verdict, given.seed))
    write(given.to, stream_text(verdict.recording))
    wrong = [goal.name for goal in contract.goals if goal.name and breaks(contract.question(goal.net, pace, assuming), verdict)]
    what = f"{' and '.join(wrong)} {'is' if len(wrong) == 1 else 'are'} false" if wrong else "false"
    for line in told(verdict.recording, contract.loaded.given):
        print(line, file=sys.stderr)
    print(f"yampa falsify: {what} at line {verdict.sample} ({verdict.random_streams()}, seed {given.seed})", file=sys.stderr)
    sys.exit(REFUSED)


def told_of_none(verdict: Verdict, seed: int) -> int:
    """Says that no recording was found, where enough were tried or it holds of all, and answers the status."""
    if holds := verdict.holds:
        told = f"it holds on every recording{holds.recordings}, by {holds.told()}: {holds.rests} ({verdict.random_streams()}, seed {seed})"
        print(f"yampa falsify: {told}", file=sys.stderr)
        return 0
    refuse_unrun(verdict)
    known = verdict.streams() >= ENOUGH
    print(f"yampa falsify: {'none found' if known else 'not known'}: {verdict.what_was_searched()} (seed {seed})", file=sys.stderr)
    return INTERRUPTED if verdict.interrupted else 0 if known else NOT_KNOWN


def refuse_unrun(verdict: Verdict) -> None:
    """Refuses to say anything where no recording was run."""
    if verdict.open_status() == UNREADABLE:
        raise Refused(f"no recording was run: {verdict.what_was_searched()}", UNREADABLE)


def wishes_for(given: Namespace, question: Question) -> Wishes:
    recordings = tuple(recording_in(name, question) for name in given.recordings)
    length = getattr(given, "length", None) or LENGTH
    return replace(wishes_of(question.pace), length=length, recordings=recordings)


def recording_in(name: str, question: Question) -> Recording:
    """The recording in a file of a stream, whole."""
    samples, fault = read_stream(stream_bytes(name), question.given)
    if fault or not samples:
        raise Refused(f"{name}: {'stream: ' + fault if fault else 'it has no sample'}")
    return read_recording(samples)


def searched(name: str, question: Question, limits: Limits, ways: dict[str, Way], seed: int, wishes: Wishes, proving: bool = False) -> Verdict:
    """What comes of a question by the given ways, those of z3 and random ones; where z3 isn't there that is told."""
    others = {"states": by_states, **random_ways(seed, question, wishes)}
    return Decision(question, limits).by({**ways, **ways_or_none(name, proving), **others})


def differ_main() -> None:
    words = Words("differ", DIFFER)
    words.add_argument("source", metavar="SRC")
    words.add_argument("target", metavar="TGT")
    with_assumptions(words)
    with_paces(words, total=None)
    words.add_argument("--from", metavar="STREAM", action="append", default=[], dest="recordings", help="tries recordings like this one")
    words.add_argument("--seed", type=int, default=1, metavar="N", help="another number tries other random streams")
    with_limits(words, 30)
    words.add_argument("--show", action="store_true", help="prints the invariants")
    given = words.parse_args()
    source, target = loaded(given.source), loaded(given.target)
    types = [(one.given, one.output) for one in (source, target)]
    if types[0] != types[1]:
        raise Refused("the two networks have other types: " + " and ".join(" -> ".join(map(shown, pair)) for pair in types))
    assuming, pace = (*keeping_to(source.given), *assumed(given.assume, source.given)), pace_of(given)
    question = Question(source.given, (source.net, target.net), ALIKE, assuming, pace=pace)
    wishes = wishes_for(given, question)
    with contextlib.suppress(Refused):
        searcher()  # built before the ways race, which are stopped where one has an answer
    ways = {"certify": certifying(source.name, target.name), "long": in_long_recordings(wishes)}
    verdict = searched("differ", question, limits_of(given), ways, given.seed, wishes, True)
    sys.exit(told_of_two(verdict, question, source, target, given))


def told_of_two(verdict: Verdict, question: Question, source: Loaded, target: Loaded, given: Namespace) -> int:
    """Says what is known of two networks, and answers the status."""
    if verdict.recording:
        stream = stream_text(verdict.recording)
        write(given.to, stream)
        number, mine, other = first_difference(*[call(["run", net.name], stream).output for net in (source, target)])
        print(f"yampa differ: line {number}: {said(mine, source.output)} and {said(other, source.output)}", file=sys.stderr)
        return REFUSED
    if verdict.certified:
        print(f"equal on every recording\nby {verdict.certified}: proved")
        return 0
    if verdict.holds:
        print(f"equal on every recording{' that keeps to what is assumed' if question.assumed else ''}{verdict.holds.recordings}")
        print(f"by {verdict.holds.told()}: {verdict.holds.rests}; {verdict.searched.get('certify', '`yampa certify` had not ended')}")
        for line in in_core(verdict.holds.invariants) if given.show else []:
            print(line)
        return 0
    refuse_unrun(verdict)
    print(f"not known: {verdict.what_was_searched()}")
    return verdict.open_status()
