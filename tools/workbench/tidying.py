"""Streams from lines that are nearly one, or whose values are in a program's own words; and such lines from a stream."""
import re
import sys
from collections import Counter
from collections.abc import Iterator

from front.spell import shape_of
from workbench.ending import WRONG_WORDS, Refused, Words, writing
from workbench.program import again
from workbench.recording import sample, spelling, told, types_of
from workbench.streaming import MARK, lines, step_in

TIDY = """Makes a stream from lines that are nearly one: it removes a byte order mark, carriage returns, blank lines,
blanks at the ends and comments (from ; or # on), and says on standard error what it mended.

  yampa tidy < LINES > STREAM

With a file of Haskell the values of the lines are in its words, as `+1 Car {speed = 3, brake = False}`; and back:

  yampa tidy Cruise.hs < LINES > STREAM
  yampa tidy --back --input Cruise.hs < STREAM
  yampa timed Cruise.hs < STREAM | yampa tidy --back Cruise.hs"""


def tidied(untidy: Iterator[bytes], mended: Counter) -> Iterator[bytes]:
    """The lines of the stream that the lines are meant for; what was mended is counted."""
    for number, line in enumerate(untidy):
        if number == 0 and line.startswith(MARK):
            mended["byte order marks"] += 1
            line = line.removeprefix(MARK)
        if line.endswith(b"\r"):
            mended["carriage returns"] += 1
            line = line[:-1]
        if re.search(rb"[;#]", line):
            mended["comments"] += 1
            line = re.split(rb"[;#]", line, maxsplit=1)[0]
        bare = line.strip(b" \t")
        if not bare:
            mended["blank lines"] += 1
            continue
        mended["lines with blanks at their ends"] += bare != line
        yield bare + b"\n"


def from_words(given: Iterator[bytes], type_) -> Iterator[bytes]:
    """The lines of a stream whose values are spelt in the words of a program."""
    for number, line in enumerate(given, 1):
        step = step_in(line)
        value = line[len(step) :].rstrip(b"\n").decode(errors="replace")
        yield step + (b"=" if value == "=" else spelling(value, type_, f"line {number}").encode()) + b"\n"


def to_words(given: Iterator[bytes], type_) -> Iterator[bytes]:
    """The lines of a stream with their values in the words of a program."""
    value = None
    for number, line in enumerate(given, 1):
        line = line.rstrip(b"\n")
        try:
            _, value = sample(line, number, value, type_)
        except Refused as refused:
            raise Refused(f"line {number}: {refused}") from None
        yield step_in(line) + told(value, type_).encode() + b"\n"


def main() -> None:
    words = Words("tidy", TIDY)
    words.add_argument("net", metavar="NET", nargs="?", help="a file of Haskell, in whose words the values are")
    words.add_argument("--back", action="store_true", help="from a stream to lines in those words")
    words.add_argument("--input", action="store_true", help="with --back: the stream is of the input's type")
    words.add_argument("-o", metavar="FILE", dest="to", help="writes there")
    given = words.parse_args()
    if (given.back or given.input) and not given.net:
        raise Refused("--back and --input want a NET, in whose words the lines are", WRONG_WORDS)
    mended: Counter[str] = Counter()
    types = types_of(again(given.net)) if given.net else None
    with writing(given.to) as out:
        found = tidied(lines(out.flush), mended)
        if types:
            type_ = types[given.back and not given.input]
            if shape_of(type_) is None:
                raise Refused(f"{given.net}: only a file of Haskell has words for its values")
            found = (to_words if given.back else from_words)(found, type_)
        out.writelines(found)
    for what, count in mended.items():
        if count:
            print(f"yampa tidy: {what} taken off: {count}", file=sys.stderr)
