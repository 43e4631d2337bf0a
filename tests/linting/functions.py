"""Lists the functions of Rattle that are too large: with over six parameters, over sixty lines, or a third loop."""
import re
import sys
from pathlib import Path
from typing import Iterator, NamedTuple

CRATES = Path(__file__).resolve().parents[2] / "crates"
MOST_PARAMETERS, MOST_LINES, MOST_LOOPS = 6, 60, 2
SKIPPED = r'//[^\n]*|b?"(?:\\.|[^"\\])*"|b?\'(?:\\[^\']+|[^\'\\])\''
HEAD = re.compile(r"\bfn\s+(\w+)\s*(?:<[^(]*>)?\s*\(")
CLAUSE = re.compile(r"(?:requires|ensures)\b[^{;]*")


class Function(NamedTuple):
    place: str
    name: str
    parameters: int
    lines: int
    loops: int

    def is_too_large(self) -> bool:
        return self.parameters > MOST_PARAMETERS or self.lines > MOST_LINES or self.loops > MOST_LOOPS


def bare(text: str) -> str:
    """The text with spaces for its comments, strings and characters."""
    return re.sub(SKIPPED, lambda found: re.sub(r"[^\n]", " ", found[0]), text, flags=re.S)


def behind(text: str, at: int) -> int:
    """Where the text goes on behind the bracket that opens there."""
    depth = 0
    for k in range(at, len(text)):
        depth += (text[k] in "([{") - (text[k] in ")]}")
        if depth == 0:
            return k + 1
    return len(text)


def count_parameters(inside: str) -> int:
    """How many parameters these are, `self` with them: the commas outside all brackets part them."""
    depth, parts = 0, [""]
    for k, letter in enumerate(inside):
        is_arrow = letter == ">" and inside[k - 1] in "-="
        depth += (letter in "([{<") - (letter in ")]}>" and not is_arrow)
        if letter == "," and depth == 0:
            parts.append("")
        else:
            parts[-1] += letter
    return sum(1 for part in parts if part.strip())


def body_behind(text: str, at: int) -> str:
    """The body of the function whose parameters end there, behind its clauses; nothing, where a trait only names it."""
    while text[at] not in "{;":
        clause = CLAUSE.match(text, at)
        at = behind(text, clause.end()) if clause else behind(text, at) if text[at] in "([" else at + 1
    return text[at:behind(text, at)] if text[at] == "{" else ""


def functions_of(path: Path) -> Iterator[Function]:
    text = bare(path.read_text())
    for head in HEAD.finditer(text):
        end = behind(text, head.end() - 1)
        body = body_behind(text, end)
        place = f"{path.relative_to(CRATES.parent)}:{text.count(chr(10), 0, head.start()) + 1}"
        loops = len(re.findall(r"\bfor\b(?!\s*<)|\bwhile\b|\bloop\b", body))
        yield Function(place, head[1], count_parameters(text[head.end():end - 1]), max(0, body.count("\n") - 1), loops)


def main() -> None:
    large = [found for path in sorted(CRATES.glob("*/src/**/*.rt")) for found in functions_of(path) if found.is_too_large()]
    for found in large:
        print(f"{found.place}: {found.name} has {found.parameters} parameters, {found.lines} lines, {found.loops} loops")
    sys.exit(1 if large else 0)


if __name__ == "__main__":
    main()
