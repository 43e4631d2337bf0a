"""A program of Haskell that runs networks of files: how their types are written and read, and one `main` for all of them."""
from __future__ import annotations

from pathlib import Path

from front.modules import Program
from front.syntax import Alias, Data, Made, Module, TypeTree, TypeVariable

EXTENSIONS = "{-# LANGUAGE ScopedTypeVariables #-}"
HEAD = ["import Data.Proxy (Proxy(..))", "import Wire", "import Yampa.Whole (Event)"]


def type_text(tree: TypeTree, own: dict[str, str]) -> str:
    """A type as Haskell writes it, with the modules of a program's own types."""
    if isinstance(tree, TypeVariable):
        return tree.word
    parts = [type_text(part, own) for part in tree.parts]
    if tree.word == "[]":
        return f"[{parts[0]}]"
    if tree.word.startswith("("):
        return f"({', '.join(parts)})"
    word = f"{own[tree.word]}.{tree.word}" if tree.word in own else {"Time": "Int", "DTime": "Int"}.get(tree.word, tree.word)
    return f"({' '.join([word, *parts])})" if parts else word


def instance_of(data: Data, module: str, own: dict[str, str]) -> list[str]:
    """How values of a `data` are written and read."""
    whole = f"({' '.join([f'{module}.{data.word}', *data.params])})"
    context = ", ".join(f"Wire {param}" for param in data.params)
    lines = [f"instance ({context}) => Wire {whole} where"]
    if len(data.constructors) > 1 and not any(made.parts for made in data.constructors):
        return lines + for_names(data, module)
    sides = [[f"blank (Proxy :: Proxy {type_text(type_, own)})" for _, type_ in made.parts] for made in data.constructors]
    blanks = [f"nested [{', '.join(side)}]" for side in sides]
    tagged = len(data.constructors) > 1
    there = [number for number, made in enumerate(data.constructors) if made.parts or not tagged]
    for number, made in enumerate(data.constructors):
        values = [f"v{place}" for place in range(len(made.parts))]
        own_side = f"nested [{', '.join(f'put {one}' for one in values)}]"
        texts = ([f'"{number}"'] if tagged else []) + [own_side if other == number else blanks[other] for other in there]
        lines.append(f"  put ({' '.join([f'{module}.{made.word}', *values])}) = nested [{', '.join(texts)}]")
    lines.append(f"  get x = {got(data, module, there)}")
    lines.append(f"  blank _ = nested [{', '.join((['put (0 :: Int)'] if tagged else []) + [blanks[other] for other in there])}]")
    return lines


def holds_functions(data: Data) -> bool:
    """Whether a part of a `data` is a function or a network, which no stream has."""
    left = [type_ for made in data.constructors for _, type_ in made.parts]
    while left:
        tree = left.pop()
        if isinstance(tree, TypeVariable):
            continue
        if tree.word in ("->", "SF"):
            return True
        left += tree.parts
    return False


def for_names(data: Data, module: str) -> list[str]:
    lines = [f'  put {module}.{made.word} = "{number}"' for number, made in enumerate(data.constructors)]
    cases = "; ".join(f"{number} -> {module}.{made.word}" for number, made in enumerate(data.constructors))
    return [*lines, f'  get x = case number x of {{ {cases}; _ -> error "no name" }}', '  blank _ = "0"']


def got(data: Data, module: str, there: list[int]) -> str:
    """The value that is read of `x`."""

    def built(made: Made, side: str) -> str:
        return " ".join([f"{module}.{made.word}", *[f"(get (parts {len(made.parts)} {side} !! {place}))" for place in range(len(made.parts))]])

    if len(data.constructors) == 1:
        return built(data.constructors[0], "x")
    count = 1 + len(there)
    cases = [
        f"{number} -> {built(made, f'(parts {count} x !! {1 + there.index(number)})' if number in there else 'x')}"
        for number, made in enumerate(data.constructors)
    ]
    return f"case number (head (parts {count} x)) of {{ {'; '.join(cases)}; _ -> error \"no constructor\" }}"


def network_of(module: Module) -> str:
    return module.name[:1].lower() + module.name[1:]


def main_of(programs: list[Program]) -> str:
    """The program: each module once."""
    owners = {module.name: (module, program) for program in programs for module in program.modules}
    lines = [EXTENSIONS, "module Main (main) where", *HEAD, *[f"import qualified {name}" for name in owners], ""]
    for module, program in owners.values():
        own = {one.word: other.name for other in program.modules for one in other.declarations if isinstance(one, (Data, Alias))}
        for one in module.declarations:
            lines += instance_of(one, module.name, own) if isinstance(one, Data) and not holds_functions(one) else []
    rows = ",\n  ".join(f'Case "{program.module.name}" {program.module.name}.{network_of(program.module)}' for program in programs)
    return "\n".join([*lines, "", "main :: IO ()", f"main = runAll [\n  {rows}]", ""])


def written(programs: list[Program], room: Path) -> None:
    """Puts the program into a folder, with the modules that it imports."""
    for program in programs:
        for module in program.modules:
            (room / f"{module.name}.hs").write_text(program.texts[module.file])
    (room / "Main.hs").write_text(main_of(programs))
