"""The core network that a file of Haskell means, as a network's file."""
import importlib

from model.texts import FILE_BYTES
from model.trees import shown
from workbench.ending import Refused, Words, read, write
from workbench.layout import flat, laid_out
from workbench.origin import program_from
from workbench.written import SyntaxFault

EXPAND = """Prints the core network that a file of Haskell means, as a network's file. Of a core network's file it prints
the network laid out.

  yampa expand Cruise.hs
  yampa expand --of smooth --flat Cruise.hs
  yampa expand --try Cruise.hs

What `yampa run` is proved of is this network; certificates are about it. --of takes another network of the file
than the one that is named as its module. --try runs an interpreter of such files beside it, on 1,000 random
samples."""


def expanded(name: str, data: bytes, in_one_line: bool) -> bytes:
    """The network's file that a file means, laid out where that is no longer than a file may be."""
    file = program_from(name, data).file
    head = f"yampa {file.version}\ninput {shown(file.input)}\n"
    made = f"{head}{chr(10).join(laid_out(file.node))}\n".encode()
    return f"{head}{flat(file.node)}\n".encode() if in_one_line or len(made) > FILE_BYTES else made


def try_haskell(name: str, data: bytes, seed: int) -> None:
    """Tries the network of a file of Haskell beside the interpreter of such files."""
    program = program_from(name, data)
    if not program.is_haskell:
        raise Refused(f"{name}: --try is for a file of Haskell")
    agreeing = importlib.import_module("workbench.agreeing")  # it needs the interpreter, which nothing else here does
    agreeing.tried(program, seed)


def main() -> None:
    words = Words("expand", EXPAND)
    words.add_argument("file", metavar="FILE")
    words.add_argument("--flat", action="store_true", help="the network in one line")
    words.add_argument("-o", metavar="FILE", dest="to", help="writes the network there")
    words.add_argument("--try", action="store_true", dest="tries", help="a file of Haskell: whether its network outputs what an interpreter does")
    words.add_argument("--seed", type=int, default=1, metavar="N", help="with --try: another number tries other random samples")
    given = words.parse_args()
    data = read(given.file)
    if given.tries:
        try_haskell(given.file, data, given.seed)
        return
    try:
        text = expanded(given.file, data, given.flat)
    except SyntaxFault as fault:
        raise Refused(fault.line(given.file, data)) from None
    write(given.to, text)
