"""What `prove` prints: of an observer some lines, of a file that says what should hold a row for each property and a count."""
import os
from argparse import Namespace
from typing import Optional

from workbench.ending import write
from workbench.origin import program_of
from workbench.proving.deciding import Verdict
from workbench.proving.question import Question
from workbench.proving.spelling import spelt
from workbench.proving.told import Holds
from workbench.proving.worded import told
from workbench.proving.words import Loaded
from workbench.streams import stream_text

# What a recording's file is called by what it shows, and what is said of a property whose recordings are all other ones.
FALSE, COVERED = "false", "covered"


class Rows:
    """Prints verdicts as they come; the names are those of all properties, the one of an observer is empty."""

    def __init__(self, given: Namespace, loaded: Loaded, names: list[str]):
        self.given, self.loaded, self.width = given, loaded, max(map(len, names), default=0)

    def of_goal(self, name: str, verdict: Verdict, question: Question, seconds: float, last: bool = True) -> None:
        """A guarantee, or the observer; the invariants stand behind the last one that rests on them."""
        if name:
            what = {FALSE: self.kept(name, verdict, FALSE), "holds": resting(verdict), "not known": verdict.what_was_searched()}
            self.row(word_of(verdict, FALSE, "holds"), name, seconds, what)
        elif verdict.recording:
            print(f"false {self.kept('', verdict, FALSE)}")
        elif verdict.holds:
            keeps = " that keeps to what is assumed" if question.assumed else ""
            print(f"holds on every recording{keeps}{verdict.holds.recordings}\nby {verdict.holds.told()}: {verdict.holds.rests}")
        else:
            print(f"not known: {verdict.what_was_searched()}")
        self.more(verdict, question, last)

    def of_cover(self, name: str, verdict: Verdict, question: Question, seconds: float) -> None:
        """A property that should be true at some sample: a recording on which it is, or that there is none."""
        what = {COVERED: self.kept(name, verdict, COVERED), "never": resting(verdict), "not known": verdict.what_was_searched()}
        self.row(word_of(verdict, COVERED, "never"), name, seconds, what)
        self.more(verdict, question, True)

    def row(self, word: str, name: str, seconds: float, what: dict[str, str]) -> None:
        print(f"{word:9}  {name:{self.width}}  {seconds:5.1f} s  {what[word]}")

    def more(self, verdict: Verdict, question: Question, last: bool) -> None:
        """The recording in the words of the file, where it has some; what a verdict is worth; what it rests on, if that is asked for."""
        lines = told(verdict.recording, question.given) if verdict.recording else []
        if verdict.unfair:
            lines.append(f"no recording of more than {verdict.unfair} sample{'s' * (verdict.unfair != 1)} keeps to what is assumed")
        if verdict.condition:
            lines.append(verdict.condition)
        if self.given.show and verdict.holds and last:
            lines += self.invariants(verdict.holds)
        print("\n".join(lines), end="\n" if lines else "", flush=True)

    def invariants(self, holds: Holds) -> list[str]:
        return spelt(holds.invariants, program_of(self.loaded.name), self.loaded.given, self.loaded.output)

    def kept(self, name: str, verdict: Verdict, what: str) -> str:
        """Puts a recording where it is asked for, or beside the file; where that is no file it is printed."""
        if not verdict.recording:
            return ""
        to = recording_name(self.given, name, what)
        write(to, stream_text(verdict.recording))
        return f"at sample {verdict.sample}" + (f": {to}" if to else "")


def word_of(verdict: Verdict, shown: str, holds: str) -> str:
    return shown if verdict.recording else holds if verdict.holds else "not known"


def resting(verdict: Verdict) -> str:
    """By what something holds, and on which recordings, where that isn't said of all below."""
    holds = verdict.holds
    return f"by {holds.told()}" + (f",{holds.recordings} alone" if holds.bounded else "") if holds else ""


def recording_name(given: Namespace, name: str, what: str) -> Optional[str]:
    beside = f"{given.observer}.{what}" if os.path.isfile(given.observer) else None
    to = given.to or beside
    return f"{to}.{name}" if to and name else to


def counted(goals: list[Verdict], question: Question) -> str:
    """How many guarantees are false, aren't known and hold, and what all of that is said of."""
    holds, wrong = sum(bool(one.holds) for one in goals), sum(bool(one.recording) for one in goals)
    return f"{wrong} false, {len(goals) - holds - wrong} not known, {holds} hold{'s' * (holds == 1)}{said_by('every', goals, question)}"


def counted_covers(covers: list[Verdict], question: Question) -> str:
    """The same of what should come about."""
    seen, never = sum(bool(one.recording) for one in covers), sum(bool(one.holds) for one in covers)
    return f"{seen} covered, {never} never, {len(covers) - seen - never} not known{said_by('no', covers, question)}"


def said_by(which: str, verdicts: list[Verdict], question: Question) -> str:
    """Of which recordings something holds, and who says so; nothing where nothing does."""
    rests = " and ".join(dict.fromkeys(one.holds.rests for one in verdicts if one.holds))
    keeps = " that keeps to what is assumed" if question.assumed else ""
    return f", on {which} recording{keeps}{question.told()}: {rests}" if rests else ""
