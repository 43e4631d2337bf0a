#!/usr/bin/env python3
"""Prints definitions of specs/ by name: the comment above each, its file, its text, and the definitions that it cites.

    docs/definitions.py NAME..      such as `docs/definitions.py meaning`; a part of a name lists the names that have it
    docs/definitions.py --check     lists names of docs/READING.md that no definition has
"""
import re
import signal
import sys
from pathlib import Path

TOP = Path(__file__).resolve().parent.parent
HEAD = re.compile(r"^( *)(?:abbrev |unfoldable )*pub (?:abbrev |unfoldable |record |data )*([^\s:({]+)")
WORD = re.compile(r"[^\s(){}\[\],;.:λ→×]+")
USE = re.compile(r"^use Rattle\.(\w+)\.specs\.([\w.]+)\.\{([^}]*)\}", re.M)


class Definition:
    """A definition: its name, its file, the comment above it and its lines."""

    def __init__(self, path, lines, at, margin, name):
        self.name, self.path = name, path
        first = at
        while first > 0 and re.search(r"^ *(--|(abbrev )?mutual$|infix)", lines[first - 1]):
            first -= 1
        self.comment = [line.strip() for line in lines[first:at] if line.strip().startswith("--")]
        end = at + 1
        while end < len(lines) and not ends(lines, end, margin, name):
            end += 1
        self.lines = lines[at:end]
        while self.lines and not self.lines[-1].strip():
            self.lines.pop()

    def cites(self, found):
        """The definitions of this repository that it names, each with its file."""
        words = {word for line in self.lines for word in WORD.findall(line.partition("--")[0])} - {self.name}
        here = {name: self.path for name in words & found.keys() if any(it.path == self.path for it in found[name])}
        for crate, file, names in USE.findall(self.path.read_text()):
            path = TOP / "crates" / crate / "specs" / (file.replace(".", "/") + ".antt")
            here.update({name: path for name in words & set(re.split(r",\s*", names)) if path.exists()})
        return [f"{name} ({path.parent.parent.name}/{path.stem})" for name, path in sorted(here.items())]


def ends(lines, at, margin, name):
    """Whether the definition of that name has ended before this line: at a comment, or at another word at its margin."""
    line = lines[at]
    if not line.strip() or len(line) - len(line.lstrip()) > len(margin):
        return False
    return not line.strip().startswith(name) and not line.strip().startswith("|")


def is_field(lines, at):
    """Whether this line is a field of a record: the first line above it that is less indented begins one."""
    margin = len(lines[at]) - len(lines[at].lstrip())
    above = (line for line in reversed(lines[:at]) if line.strip() and len(line) - len(line.lstrip()) < margin)
    return bool(re.match(r"^ *(abbrev |unfoldable )*pub record", next(above, "")))


def all_definitions():
    found = {}
    for path in sorted(TOP.glob("crates/*/specs/*.antt")):
        lines = path.read_text().split("\n")
        for at, line in enumerate(lines):
            head = HEAD.match(line)
            if head and head[2] != "mod" and not is_field(lines, at):
                found.setdefault(head[2], []).append(Definition(path, lines, at, head[1], head[2]))
    return found


def shown(definition, found):
    print(f"{definition.path.relative_to(TOP)}")
    print("\n".join([*definition.comment, *definition.lines]))
    print("cites: " + (", ".join(definition.cites(found)) or "none of ours") + "\n")


def main(words):
    found = all_definitions()
    if words == ["--check"]:
        told = re.findall(r"^- `([^`]+)`", (TOP / "docs/READING.md").read_text(), re.M)
        lacking = [name for name in told if name not in found]
        print("\n".join(lacking) or f"{len(told)} definitions, all there")
        return 1 if lacking else 0
    if not words:
        print(__doc__)
        return 2
    for word in words:
        for definition in found.get(word, []):
            shown(definition, found)
        if word not in found:
            near = [name for name in found if word.lower() in name.lower()]
            print(f"there is no definition {word}" + (f"; there are {', '.join(near)}" if near else ""))
            return 1
    return 0


if __name__ == "__main__":
    signal.signal(signal.SIGPIPE, signal.SIG_DFL)
    sys.exit(main(sys.argv[1:]))
