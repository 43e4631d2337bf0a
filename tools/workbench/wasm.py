"""Networks as WebAssembly: the C that `compile` prints, by clang, and where values have their parts in its memory.

All that depends on the names in that C is here. `compiled(networks, most)` answers the module of these networks, and for each a `Machine`.
"""
from __future__ import annotations

import contextlib
import hashlib
import os
import re
import shutil
import subprocess
import tempfile
from collections.abc import Iterator
from concurrent.futures import ThreadPoolExecutor
from dataclasses import dataclass
from pathlib import Path
from typing import Any

from front.shapes import Made
from front.spell import has_fields, named, parts_of, shape_of, shown_type
from model.trees import shown
from workbench.c_structs import rooms_in
from workbench.cache import cache_folder, keep
from workbench.ending import UNREADABLE, Refused
from workbench.native import STRING_H
from workbench.program import answered

PACKAGES = {"clang": "clang", "wasm-ld": "lld"}
COMPILE = ["clang", "--target=wasm32", "-mmutable-globals", "-mbulk-memory", "-O2", "-ffreestanding", "-nostdlib", "-w", "-I.", "-c"]
STACK = 64 << 20
LINK = ["wasm-ld", "--no-entry", "--stack-first", "-z", f"stack-size={STACK}", "--strip-all", "--export=__stack_pointer"]
# The C of a page, its module, and a network's input and output have at most so many bytes.
MOST_C, MOST_MODULE, MOST_VALUES = 8 << 20, 4 << 20, 16 << 20
TOO_LARGE = ("too large", "too big", "section size")
SHORTER = "--most makes lists shorter"
PLAIN = {"Unit": 1, "Bool": 1, "Int": 8}

# What the C wants of a C library: instructions of WebAssembly.
STRING_C = """#include "string.h"
void *memset(void *to, int byte, size_t count) { return __builtin_memset(to, byte, count); }
void *memcpy(void *to, const void *from, size_t count) { return __builtin_memcpy(to, from, count); }
"""
# What a script calls of a network: where its input, its output and its state are, and how large that is; to begin anew, and to go on.
GLUE = """
static struct NAME_state NAME_page_state;
static NAME_input NAME_page_input;
static NAME_output NAME_page_output;
_Static_assert(sizeof NAME_page_input == INPUT && sizeof NAME_page_output == OUTPUT, "where values have their parts");
#define EXPORTED(name) __attribute__((export_name("NAME_" name)))
EXPORTED("input_at") void *NAME_page_input_at(void) { return &NAME_page_input; }
EXPORTED("output_at") void *NAME_page_output_at(void) { return &NAME_page_output; }
EXPORTED("state_at") void *NAME_page_state_at(void) { return &NAME_page_state; }
EXPORTED("state_size") uint32_t NAME_page_state_size(void) { return sizeof NAME_page_state; }
EXPORTED("begin") void NAME_page_begin(void) { NAME_init(&NAME_page_state); }
EXPORTED("go") void NAME_page_go(int64_t step) { NAME_step(&NAME_page_state, step, &NAME_page_input, &NAME_page_output); }
"""


@dataclass(frozen=True)
class Machine:
    """A compiled network: the name before what it exports, and its types as a script reads them."""

    name: str
    input: dict
    output: dict


def described(type_: Any, rooms: dict[str, int] | None = None) -> dict:
    """A type for a script: its word, its parts, the names of the parts of nested pairs, which a record has given them, those of an
    enumeration's values, and what else makes one; of a type in a machine also how many bytes a value takes, at which multiples of bytes it
    stands, and where its parts are in it."""
    word, *parts = type_ if isinstance(type_, tuple) else (type_,)
    made = {"sort": str(word), "shown": shown_type(type_), "names": [name for name, _ in parts_of(type_)], "parts": [described(part, rooms) for part in parts]}
    made["is_record"] = has_fields(type_)
    shape = shape_of(type_)
    if shape is not None:
        made["shape"] = shape.sort
    if shape is not None and shape.sort == "record":
        made["record"] = {"name": shape.constructors[0].name, "fields": made["names"] if shape.constructors[0].is_named else []}
    if shape is not None and shape.sort == "names":
        made["values"] = [one.name for one in shape.constructors]
    if shape is not None and shape.sort == "sum":
        made["made"] = [constructor(one, rooms) for one in shape.constructors]
    if rooms is None:
        return made
    if word in PLAIN:
        return {**made, "size": PLAIN[word], "align": PLAIN[word]}
    if word == "List":
        made["room"] = rooms[shown(type_)]
    return {**made, **placed(made)}


def constructor(one: Made, rooms: dict[str, int] | None) -> dict:
    fields = [name for name, _ in one.parts] if one.is_named else []
    return {"name": one.name, "fields": fields, "parts": [described(named(part), rooms) for _, part in one.parts]}


def placed(made: dict) -> dict:
    """Where a struct of clang's has its parts."""
    kinds = {"Pair": [], "Event": [(1, 1, 1)], "List": [(4, 4, 1)]}[made["sort"]]
    kinds += [(part["size"], part["align"], made.get("room", 1)) for part in made["parts"]]
    at, places, align = 0, [], max(one[1] for one in kinds)
    for size, own, count in kinds:
        at = rounded(at, own)
        places.append(at)
        at += size * count
    return {"size": rounded(at, align), "align": align, "at": places}


def rounded(at: int, align: int) -> int:
    return (at + align - 1) // align * align


# ---- compiling


def compiled(networks: dict[str, tuple], most: int) -> tuple[bytes, list[Machine]]:
    """The module of networks by their names, each a file that the program reads with its types, and what it has of each. Lists of the
    first one's input have at most so many elements; the others take what the first one has."""
    units, machines = list[str](), list[Machine]()
    for name, (path, given, output) in networks.items():
        text = answered(["compile", "--no-main", "--name", name, "--most", str(most), path]).decode("latin-1")
        rooms = rooms_in(text)
        machine = Machine(name, described(given, rooms), described(output, rooms))
        values = machine.input["size"] + machine.output["size"]
        if values > MOST_VALUES:
            raise Refused(f"the network is too large for a page: its input and its output take {values:,} bytes, and a page has {MOST_VALUES:,} ({SHORTER})")
        sizes = {"NAME": name, "INPUT": str(machine.input["size"]), "OUTPUT": str(machine.output["size"])}
        units.append(text + re.sub("NAME|INPUT|OUTPUT", lambda found, named=sizes: named[found[0]], GLUE))
        machines.append(machine)
        most = max([most, *rooms.values()])
    size = sum(map(len, units))
    if size > MOST_C:
        raise Refused(f"the network is too large for a page: its C has {size:,} bytes, and a page takes {MOST_C:,}")
    return kept_module([*units, STRING_C]), machines


def kept_module(units: list[str]) -> bytes:
    """The module of some C, compiled where it isn't kept yet."""
    kept = cache_folder() / f"live-{hashlib.sha256(repr((COMPILE, LINK, units)).encode()).hexdigest()}.wasm"
    if kept.is_file():
        return kept.read_bytes()
    with tempfile.TemporaryDirectory(prefix="yampa-") as folder:
        made = module_of(units, Path(folder))
    with contextlib.suppress(OSError, Refused):
        keep(kept, made)
    return made


def module_of(units: list[str], folder: Path) -> bytes:
    for command, package in PACKAGES.items():
        if not shutil.which(command):
            raise Refused(f"there is no {command} on the path: install it (Debian: apt-get install {package})", UNREADABLE)
    (folder / "string.h").write_text(STRING_H)
    for number, unit in enumerate(units):
        (folder / f"{number}.c").write_bytes(unit.encode("latin-1"))
    with ThreadPoolExecutor(os.cpu_count()) as pool:
        list(pool.map(lambda number: told_by([*COMPILE, f"{number}.c"], folder), range(len(units))))
    told_by([*LINK, "-o", "page.wasm", *[f"{number}.o" for number in range(len(units))]], folder)
    made = (folder / "page.wasm").read_bytes()
    if len(made) > MOST_MODULE:
        raise Refused(f"the network is too large for a page: its WebAssembly has {len(made):,} bytes, and a page takes {MOST_MODULE:,}")
    return made


def told_by(command: list[str], folder: Path) -> None:
    ran = subprocess.run(command, cwd=folder, capture_output=True, check=False)
    if ran.returncode:
        raise Refused(f"{command[0]} doesn't compile the network: {next(faults_in(ran.stderr.decode(errors='replace')), f'status {ran.returncode}')}", UNREADABLE)


def faults_in(said: str) -> Iterator[str]:
    for line in said.splitlines():
        if "error" in line:
            yield f"its values are too large ({SHORTER})" if any(words in line for words in TOO_LARGE) else line
