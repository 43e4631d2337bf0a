"""What the wrapper `yampa` adds to a line of the program: why a file can't be read, where in it a byte is, what a mistyped word may be meant
for, and which tools there are beside its commands."""
from __future__ import annotations

import difflib
import os
import re
import shlex
from pathlib import Path

LIST = Path(__file__).resolve().parents[1] / "list"
# How many files the words of each command name, and in which order those of a role come.
FILES = {"types": 1, "run": 1, "outline": 1, "laws": 1, "optimise": 1, "improve": 1, "apply": 2, "certify": 2, "check": 3, "run-checked": 3}
FILES |= {"compile": 1, "compile-checked": 3}
PLACES = {"network": 0, "source": 0, "target": 1, "certificate": -1}
# What else may be meant by a first word, and how like it a word must be.
OPTIONS = ["--version", "--help"]
ENOUGH = 0.65
# The options behind which a value stands.
VALUED = ["--at", "--first", "--name", "--most"]


def is_name(before: str, word: str) -> bool:
    """Whether a word would name a file: it is no option, and no option's value."""
    return before not in VALUED and (word == "-" or not word.startswith("-"))


def named_files(words: list[str]) -> tuple[list[int], bool]:
    """The places of the words that would name files, and whether they are as many as the command reads."""
    if not words or words[0] not in FILES:
        return [], False
    end = words.index("--") if "--" in words else len(words)
    asks_help = any(word in ["-h", "--help"] for word in words[:end])
    places = [i for i, word in enumerate(words) if i > end or (0 < i < end and is_name(words[i - 1], word))]
    return places, len(places) == FILES[words[0]] and not asks_help


def tools() -> dict[str, str]:
    """The tools by name, and what each does."""
    lines = [line.split(maxsplit=2) for line in LIST.read_text(encoding="utf-8").splitlines() if line[:1] not in ("", "#")]
    return {name: " ".join(rest[1:]) for name, *rest in lines}


def advice(said: str, words: list[str]) -> str | None:
    """What is added to what the program said of these words, in a line, or None."""
    role, _, fault = said.strip().partition(": ")
    if role in PLACES:
        places, _ = named_files(words)
        names = [words[place] for place in places]
        return unread(names[PLACES[role]]) if fault == "cannot be read" else placed(names, PLACES[role], fault)
    if not words:
        return "--help lists the commands, and the tools beside them"
    if wrong := re.search("unrecognized subcommand '(.*)'", said):
        near = difflib.get_close_matches(wrong[1], [*FILES, *tools(), *OPTIONS], 1, ENOUGH)
        return f"did you mean {near[0]}?" if near else f"there are tools beside the commands: {', '.join(tools())}"
    if words[0] == "-v":
        return "did you mean --version?"
    if words[0] == "laws" and "--at" in words:
        return "a position is one word: --at '(at 0 1)'"
    return None


def placed(names: list[str], number: int, fault: str) -> str | None:
    """Where the byte is that a fault names in one of these files, and which tool shows it there."""
    byte, name = re.search(r" at byte (\d+)$", fault), as_called(names[number])
    if byte is None or name.startswith("/dev/"):
        return None
    try:
        with open(names[number], "rb") as file:
            before = file.read(int(byte[1]))
    except OSError:
        return None
    line = before.count(b"\n") + 1
    column = len(before[before.rfind(b"\n") + 1 :].decode(errors="replace")) + 1
    # The tool takes a network, or all that a certificate is checked with, as files that can be read again.
    asked = names if len(names) == 3 else names[number : number + 1] if number == 0 else []
    is_kept = asked and all(os.path.isfile(name) and not name.startswith("/dev/") for name in asked)
    return f"{name}:{line}:{column}" + (f": ./yampa explain {shlex.join(asked)} shows it" if is_kept else "")


def tools_listed() -> str:
    """The lines that the wrapper adds to what `--help` prints."""
    width = max(map(len, tools()))
    lines = [f"  {name:{width}}  {about}" for name, about in tools().items()]
    return "\n".join(["", "Tools beside these commands, not proved; `yampa NAME --help` teaches each:", *lines, ""])


def as_called(name: str) -> str:
    """A file's name as the caller has it: `-` for what the wrapper has opened for that."""
    return "-" if name == os.environ.get("YAMPA_INPUT") else name


def unread(path: str) -> str:
    """Why a file can't be read."""
    name = as_called(path)
    if os.path.isdir(path):
        return f"{name}: this is a folder"
    if not os.path.exists(path):
        return f"{name}: there is no such file"
    return f"{name}: it is there, but may not be read"
