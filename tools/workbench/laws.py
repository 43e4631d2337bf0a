"""The laws, and where a tree first differs from a law's left side. Each law is a line of laws.tsv: its name, its two sides, and words on
the letters in them, if there are any; docs/LAWS.md tells the same."""
import re
from collections.abc import Iterator
from dataclasses import dataclass
from pathlib import Path

from model.trees import child_places, children, is_form, part_at

# What words in capitals stand for, in sides of laws.
MEANINGS = {
    "SWAP": "(pair (snd x) (fst x))",
    "UNASSOC": "(pair (pair (fst x) (fst (snd x))) (snd (snd x)))",
    "ASSOC": "(pair (fst (fst x)) (pair (snd (fst x)) (snd x)))",
    "CROSS": "(pair (pair (fst (fst x)) (snd x)) (snd (fst x)))",
    "HELD": "(on (fst x) (pair (snd x) (snd x)) (pair (snd x) (snd x)))",
    "HELD_ACCUM(g)": "(on (fst x) (pair (snd x) (snd x)) (then (pair (snd (fst x)) (snd x)) (then g (pair x x))))",
    "LEFT(g)": "(pair (then (fst x) g) (snd x))",
    "RIGHT(g)": "(pair (fst x) (then (snd x) g))",
    "MAP(g)": "(on x (none T) (event (then (snd x) g)))",
    "ACCUM(g)": "(on (fst x) (pair (none T) (snd x)) (then (pair (snd (fst x)) (snd x)) (then g (pair (event x) x))))",
}


@dataclass
class Law:
    """A law's sides as they are told, with what the words in them mean; and its left side with these words written out."""

    left: str
    right: str
    pattern: str


def law_of(left: str, right: str, note: str = "") -> Law:
    """The law of a line."""
    pattern, words = left, []
    for word, meaning in MEANINGS.items():
        if re.search(rf"\b{word.partition('(')[0]}\b", left + right):
            words.append(f"{word} being {meaning}")
        pattern = written_out(pattern, word, meaning)
    return Law(left, ", ".join([right, *words, *[f"where {note}"] * bool(note)]), pattern)


def written_out(side: str, word: str, meaning: str) -> str:
    """A side of a law with what a word in it means, there with the letter that stands behind it."""
    name, _, letter = word.partition("(")
    if not letter:
        return re.sub(rf"\b{name}\b", meaning, side)
    return re.sub(rf"\b{name}\((\w)\)", lambda found: re.sub(r"\bg\b", found[1], meaning), side)


def read_laws(text: str) -> dict:
    """The laws by name."""
    rows = [line.split("\t") for line in text.splitlines()]
    return {name: law_of(*rest) for name, *rest in rows}


LAWS = read_laws((Path(__file__).parent / "laws.tsv").read_text(encoding="utf-8"))


def unlike(law, tree):
    """The first position at which a tree hasn't the form of the law's left side, and what that has there; None where it has it, or
    where the left side is no single form."""
    pattern = LAWS[law].pattern
    if ".." in pattern or re.search(r"\bO\b", pattern):
        return None
    return unlike_form(tree_in(re.finditer(r"[()]|[^() ]+", pattern)), tree, {}, ())


def tree_in(found: Iterator[re.Match]) -> object:
    """The tree that begins with the next of these words and parentheses."""
    word = next(found).group()
    if word != "(":
        return word
    return tuple(iter(lambda: tree_in(found), ")"))


def unlike_form(pattern, tree, letters, position):
    """The same of a part; `letters` are the trees that the letters stand for so far."""
    if isinstance(pattern, str) and re.fullmatch("[a-wyzCT]", pattern):
        return None if letters.setdefault(pattern, tree) == tree else (position, letters[pattern])
    if not isinstance(pattern, tuple):
        return None if pattern == tree else (position, pattern)
    if not is_form(pattern[0], tree) or len(tree) != len(pattern):
        return position, pattern
    places = child_places(tree)
    for number, part in enumerate(children(tree)):
        found = unlike_form(part_at(pattern, places[number]), part, letters, (*position, number))
        if found:
            return found
    return None
