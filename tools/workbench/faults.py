"""What a fault line of the program means, where it stands in the files, and how to mend it."""
import re
from dataclasses import dataclass

from model.trees import at
from workbench.ending import read
from workbench.missteps import nothing_there, of_steps
from workbench.misread import of_stream
from workbench.mistyped import of_types
from workbench.origin import PROGRAMS, program_from
from workbench.source import read_steps
from workbench.written import SyntaxFault
from workbench.telling import Told, told_of


@dataclass
class Files:
    """The files of a call: their names by role, and the paths at which the program reads them."""

    names: dict
    paths: dict

    def program(self, role: str):
        """The network of a role."""
        path = self.paths[role]
        if path not in PROGRAMS:
            PROGRAMS[path] = program_from(self.names[role], read(path))
        return PROGRAMS[path]

    def certificate(self) -> tuple:
        """The certificate's name and bytes."""
        return self.names["certificate"], read(self.paths["certificate"])


def explained(line: str, files: Files, stream) -> Told:
    """What is told of a fault line; the stream is given by its name and its bytes, where there is one."""
    role, _, fault = line.partition(": ")
    if other := OTHERS.get(re.sub(r"^equal on [\d,]+ samples; ", "", line)):
        return Told(other)
    if role == "stream":
        return of_stream(fault, files, stream)
    if role not in files.names:
        return Told(line)
    name = files.names[role]
    if fault == "cannot be read":
        return unread(name)
    told = of_text(role, files)
    if told is None:
        told = of_steps(fault, files) if role == "certificate" else of_network(files.program(role), fault)
    return told or Told(line, name, notes=["the file is right as it stands here: is this the line of another file?"])


OTHERS = {
    "memory": "the machine had no more memory for this",
    "table full": "a network that runs may have 4,096 different expressions: let parts that compute the same be written alike",
    "no row": "the program has no closure for an expression of the network: this is a fault of its own",
    "stream: cannot be read": "a read of standard input failed",
    "stream: too many reads": "2^40 reads of standard input gave no further line",
    "output: cannot be written": "what reads it has closed it, or the disk is full",
    "the words are not UTF-8": "write the names of files in UTF-8",
    "--first: no number": "write how many of the steps are taken, in digits alone: --first 2",
    "--at: no position": "write a position as positions are printed, in quotes: --at '(at 1 0)'",
    "--name: no name": "write at most 32 letters and digits, first a letter, in parts with one `_` between: --name boiler",
    "--most: no number": "write how many elements a list of the input may have, from 1 to 32765: --most 100",
    "certificate: too many steps": "a certificate has at most 10,000 steps: cut it in two, with a network between",
    "no certificate found": "there may be one nevertheless, or `yampa differ` finds a stream that tells the networks apart",
}


def unread(name):
    """Why a file can't be read."""
    try:
        with open(name, "rb") as file:
            file.read(1)
    except OSError as error:
        why = {"No such file or directory": "no such file", "Is a directory": "this is a folder"}.get(error.strerror, error.strerror.lower())
        return Told(why, name)
    return Told("cannot be read", name)


def of_text(role: str, files: Files):
    """The first word of the file that doesn't fit, or None."""
    name, data = files.names[role], b""
    try:
        if role == "certificate":
            name, data = files.certificate()
            read_steps(data)
        else:
            data = files.program(role).data
            _ = files.program(role).file
    except SyntaxFault as fault:
        return told_of(fault, name, data)
    return None


def of_network(program, fault: str):
    """What is told of a network whose text is right."""
    large = re.fullmatch(r"state too large at (\(at[ 0-9]*\))(: give --most)?", fault)
    if large:
        note = "say how many elements a list of the input has at most: --most 100" if large.group(2) else "look for a long `delay`, or for an `rpSwitchB` in another"
        return Told(f"as C what the part at {large.group(1)} keeps takes over 64 MiB", program.name, notes=[note])
    found = re.fullmatch(r"no position \(at([ 0-9]*)\)", fault)
    if not found:
        return of_types(program, fault)
    position = tuple(map(int, found.group(1).split()))
    return Told(nothing_there(program.file.tree, position), program.name) if at(program.file.tree, position) is None else None
