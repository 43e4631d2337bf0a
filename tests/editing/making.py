"""Makes edits in a crate's folder, and prints the functions that they change, as `rt check --only` wants them: `making.py EDIT..`.

Nothing is printed where one of them changes text outside all functions, since the whole crate is to be checked then.
"""
import re
import sys
from pathlib import Path

INSIDE = r"((?:[^<>]|<[^<>]*>)*)"
IMPL = re.compile(rf"impl(?:<{INSIDE}>)? (?:([\w:]+)(?:<{INSIDE}>)? for )?(.*) \{{")
FUNCTION = re.compile(r"( *)(?:pub(?:\([a-z]+\))? )?fn (\w+)")


def word_of(text: str) -> str:
    """The word that stands for a type: `Counted` for `Counted<T>`, `RefMut` for `&mut D`."""
    if text.startswith("&"):
        return "RefMut" if "mut " in text else "Ref"
    return text.partition("<")[0].rpartition("::")[2]


def words_of(texts: str, parameters: list[str]) -> list[str]:
    """The words that stand for types, but for lifetimes and an impl's own parameters."""
    return [word for word in map(word_of, texts.split(", ")) if word not in ["", *parameters] and not word.startswith("'")]


def module_of(file: str) -> str:
    """What stands before the names of a file's functions: nothing, for the root's."""
    name = file.removeprefix("src/").removesuffix(".rt").replace("/", "::")
    return "" if name in ("lib", "main") else name + "::"


def home_of(word: str, file: str) -> str:
    """The file that defines a type; this one, where none of the crate does."""
    defined = re.compile(rf"^(?:pub(?:\([a-z]+\))? )?(?:enum|struct) {word}\b", re.M)
    return next((str(path) for path in Path("src").rglob("*.rt") if defined.search(path.read_text(encoding="utf-8"))), file)


def path_of_impl(line: str, file: str) -> str:
    """What stands before the names of an impl's functions: of a trait's but Drop, `CountedWrite`; of a type's for some parts alone,
    `Net+Expr`; of a type's else its name, behind the module that defines it."""
    own, trait, given, subject = (part or "" for part in IMPL.match(line).groups())
    parameters, word = re.findall(r"(?:^|, )(\w+)", own), word_of(subject)
    if trait not in ("", "Drop"):
        return module_of(file) + "".join([word, word_of(trait), *words_of(given, parameters)])
    parts = words_of(subject[subject.find("<") + 1:-1] if "<" in subject else "", parameters)
    return module_of(file if parts else home_of(word, file)) + "+".join([word, *parts])


def function_at(file: str, lines: list[str], row: int) -> str:
    """The function of a row; nothing, where the row is in none, or in a trait."""
    head = next((k for k in range(row, -1, -1) if FUNCTION.match(lines[k])), row)
    found = FUNCTION.match(lines[head])
    if not found or found[1] + "}" in lines[head:row] or lines[head][-1] == "}" and head < row:
        return ""
    if not found[1]:
        return module_of(file) + found[2]
    around = next(line for line in lines[head::-1] if line[0:1] not in ("", " ", "/", "#"))
    return f"{path_of_impl(around, file)}::{found[2]}" if around.startswith("impl") else ""


def change(file: str, old: str, new: str) -> str:
    """Changes text that stands once in a file: the function that it is in, if it is in one."""
    text = Path(file).read_text(encoding="utf-8")
    if text.count(old) != 1:
        sys.exit(f"tests/edits: not once in {file}: {old}")
    Path(file).write_text(text.replace(old, new), encoding="utf-8")
    return function_at(file, text.split("\n"), text[:text.index(old)].count("\n"))


def make(name: str) -> list[str]:
    """Makes an edit, which is named with its ending or without: the function of each text that it changes."""
    found = [path for path in map(Path, (f"edits/{name}", f"edits/{name}.edit", f"must-fail/{name}", f"must-fail/{name}.edit")) if path.exists()]
    if not found:
        sys.exit(f"tests/edits: no edit {name}")
    functions, file, old = [], "", ""
    for key, _, text in (line.partition(": ") for line in found[0].read_text(encoding="utf-8").splitlines()):
        if key == "file":
            file = text
        elif key == "old":
            old = text
        elif key.removesuffix(":") == "new":
            functions.append(change(file, old, text))
    return functions


if __name__ == "__main__":
    changed = [name for edit in sys.argv[1:] for name in make(edit)]
    print(*dict.fromkeys(changed if all(changed) else []), sep="\n")
