#!/usr/bin/env python3
"""Prints what a public call promises: the comment above it, its signature and its contract, from the code.

    docs/promises.py CRATE|NAME..   such as `docs/promises.py cert_check` or `docs/promises.py check`
    docs/promises.py --check        lists public calls without a comment or a contract, except those that tests share
"""
import re
import signal
import sys
from pathlib import Path

TOP = Path(__file__).resolve().parent.parent
EXPORT = re.compile(r"^pub use ([\w:]+)::(?:\{([^}]*)\}|(\w+));", re.M)
CALL = re.compile(r"^( *)pub (?:ghost )?(?:const )?fn (\w+)")
OWNER = re.compile(r"^(?:impl|pub trait)(?:<[^>]*>)? (?:\w+(?:<[^>]*>)? for )?(\w+)")
# What tests share.
OF_TESTS = {"row_texts", "net_rows"}
# Calls of which there is nothing to say but that they return.
FREE = {"sample_core::Sample::let_go", "stream_text::Printer::new", "stream_text::is_given"}


class Call:
    """A public call: its crate, the type that it belongs to or "", its name, its comment, and its signature with its contract."""

    def __init__(self, crate, owner, name, comment, head):
        self.crate, self.owner, self.name, self.comment, self.head = crate, owner, name, comment, head

    def full_name(self):
        return "::".join(part for part in [self.crate, self.owner, self.name] if part)

    def has_contract(self):
        return any(re.match(r" *(ensures|requires|ghost )", line) for line in self.head)

    def shown(self):
        return "\n".join([self.full_name(), *self.comment, *self.head])


def exported(crate):
    """The names that a crate's `lib.rt` passes on, and its modules that are public as a whole."""
    text = (TOP / "crates" / crate / "src/lib.rt").read_text()
    names = {name.strip().split(" as ")[-1] for found in EXPORT.finditer(text) for name in (found[2] or found[3]).split(",")}
    return names, set(re.findall(r"^pub mod (\w+);", text, re.M))


def calls_of(crate):
    """The public calls of a crate, in the order of its files."""
    names, modules = exported(crate)
    for path in sorted((TOP / "crates" / crate / "src").rglob("*.rt")):
        yield from (call for call in calls_in(crate, path) if path.stem in modules or (call.owner or call.name) in names)


def calls_in(crate, path):
    lines, owner = path.read_text().split("\n"), ""
    for at, line in enumerate(lines):
        if line and not line[0].isspace():
            owner = OWNER.match(line)[1] if OWNER.match(line) else owner if line[0] == "}" else ""
        found = CALL.match(line)
        if found:
            yield Call(crate, owner if found[1] else "", found[2], comment_above(lines, at), head_from(lines, at, found[1]))


def comment_above(lines, at):
    """The `///` lines above a call; attributes may stand between."""
    first = at
    while first > 0 and re.match(r" *(///|#\[)", lines[first - 1]):
        first -= 1
    return [line for line in lines[first:at] if line.lstrip().startswith("///")]


def head_from(lines, at, margin):
    """The call's lines before its body."""
    head = []
    for line in lines[at:]:
        if line == f"{margin}{{":
            break
        head.append(re.sub(r" \{(.*\})?$", "", line) if not head or line.startswith(f"{margin})") else line)
        if (line.endswith(" {") or line.endswith("{}") or line.endswith(";")) and re.match(rf"{margin}\S", line):
            break
    return head


def crates():
    return sorted(path.parent.parent.name for path in TOP.glob("crates/*/src/lib.rt"))


def checked():
    """A line for each public call that says too little."""
    for crate in crates():
        for call in calls_of(crate):
            if not call.comment:
                yield f"{call.full_name()}: no comment"
            if not call.has_contract() and crate not in OF_TESTS and call.full_name() not in FREE:
                yield f"{call.full_name()}: no contract"


def main(words):
    if not words or words[0] in ["-h", "--help"]:
        print(__doc__.strip())
        return 0
    if words == ["--check"]:
        told = list(checked())
        print("\n".join(told) or "each public call has a comment and a contract")
        return 1 if told else 0
    for word in words:
        found = [call for crate in crates() for call in calls_of(crate) if word in [crate, call.name, call.owner, call.full_name()]]
        if not found:
            print(f"no crate and no public call is named {word}", file=sys.stderr)
            return 1
        print("\n\n".join(call.shown() for call in found))
    return 0


if __name__ == "__main__":
    signal.signal(signal.SIGPIPE, signal.SIG_DFL)
    sys.exit(main(sys.argv[1:]))
