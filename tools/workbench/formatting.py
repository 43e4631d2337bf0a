"""Networks' files laid out, with their comments as they are."""
from workbench.ending import Refused, Words, read, write
from workbench.layout import laid_out
from workbench.source import read_words
from workbench.written import SyntaxFault

FMT = """Lays out a network's file in lines of at most 100 columns, and keeps its comments.

  yampa fmt FILE            prints it
  yampa fmt --write FILE    replaces the file

Files of Haskell are laid out by Haskell's own formatters."""


def formatted(data: bytes) -> bytes:
    """The file laid out, with its comments."""
    reader, version, given, net = read_words(data)
    yampa, number, word = reader.tokens[:3]
    lines = [*yampa.before, *yampa.behind, *number.before, *number.behind, f"yampa {version}"]
    lines += [*word.before, *word.behind, *given.comments]
    first, *rest = laid_out(given, len("input "))
    lines += [f"input {first}", *rest, *net.comments, *laid_out(net), *reader.left]
    return ("\n".join(line.rstrip(" ") for line in lines) + "\n").encode("latin-1")


def main() -> None:
    words = Words("fmt", FMT)
    words.add_argument("file", metavar="FILE")
    words.add_argument("--write", action="store_true", help="replaces the file")
    given = words.parse_args()
    data = read(given.file)
    try:
        text = formatted(data)
    except SyntaxFault as fault:
        raise Refused(fault.line(given.file, data)) from None
    write(given.file if given.write else None, text)
