"""What is told of a fault: the place in a file, the part underlined, and words."""
from dataclasses import dataclass, field

from model.trees import shown
from workbench.origin import Program
from front.spell import shown_type
from workbench.written import SyntaxFault, excerpt, place


@dataclass
class Told:
    """What is told of a fault: where, the part underlined, what is wrong, why and how to mend it."""

    why: str
    name: str = ""
    data: bytes = b""
    at: int = None
    length: int = 1
    notes: list = field(default_factory=list)
    also: list = field(default_factory=list)

    def text(self):
        lines = [f"{self.where()}{self.why}"]
        if self.at is not None:
            lines.append(excerpt(self.data, self.at, self.length))
        for at_byte, why in self.also:
            line, column = place(self.data, at_byte)
            lines += [f"{self.name}:{line}:{column}: {why}", excerpt(self.data, at_byte)]
        lines += [f"  {note}" for note in self.notes if note]
        return "\n".join(lines) + "\n"

    def where(self):
        if self.at is None:
            return f"{self.name}: " if self.name else ""
        line, column = place(self.data, self.at)
        return f"{self.name}:{line}:{column}: "


def told_at(program: Program, position: tuple, why: str, notes=()) -> Told:
    """What is told of the part at a position: where it is written the word, or the form."""
    place_of = program.place_of(position)
    return Told(why, place_of.text.name, place_of.text.data, place_of.start, place_of.end - place_of.start, list(notes))


def told_of(fault: SyntaxFault, name: str, data: bytes) -> Told:
    """What is told of a fault in the text of the file of that name."""
    return Told(fault.why, name, data, min(fault.at, len(data)), fault.length or 1, [fault.mend], fault.also)


def article(type_) -> str:
    """A type behind its article."""
    text = shown_type(type_)
    return f"{'an' if text.lstrip('(')[:1] in 'AEIO' else 'a'} {text}"


def short(tree) -> str:
    """The tree's text, or where that is long its beginning."""
    return shortened(shown(tree))


def shortened(text: str) -> str:
    return text if len(text) <= 60 else text[:56] + " ..)"


def spelt_at(program: Program, position: tuple) -> str:
    """The same of what is written for the part at a position."""
    return shortened(program.spelt(position))
