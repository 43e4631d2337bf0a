"""The structs that printed C declares, and those that are types of the network, by their spelling: `#define P_pii P_t0 /* (Pair Int Int) */`."""
import re
from typing import NamedTuple

STRUCT = re.compile(r"^struct (\w+) \{\n(.*?)^\};", re.M | re.S)
MEMBER = re.compile(r"^ +(?:struct )?(\w+) (\w+)((?:\[\d+\])*);", re.M)
SCALARS = {"bool", "uint8_t", "int64_t", "uint32_t", "uint64_t"}
TYPE = re.compile(r"^#define (\w+) (\w+) /\* (.*) \*/$", re.M)


class Member(NamedTuple):
    """A member: its type without `struct`, its name, and how many of them there are, of arrays of arrays the outer ones first."""

    type: str
    name: str
    counts: tuple[int, ...]


def structs_in(text: str) -> dict[str, list[Member]]:
    """The members of each struct, by its name."""
    return {name: [Member(type_, member, counts_in(behind)) for type_, member, behind in MEMBER.findall(body)] for name, body in STRUCT.findall(text)}


def counts_in(behind: str) -> tuple[int, ...]:
    return tuple(int(count) for count in re.findall(r"\d+", behind))


def types_in(text: str) -> dict[str, tuple[str, str]]:
    """Of each type that is a struct, by its spelling: the name that C has for it, and the name of its struct."""
    return {spelling: (name, struct) for name, struct, spelling in TYPE.findall(text)}


def rooms_in(text: str) -> dict[str, int]:
    """How many elements the array of each type of lists has room for, by the type's spelling."""
    structs, rooms = structs_in(text), dict[str, int]()
    for spelling, (_, struct) in types_in(text).items():
        if spelling.startswith("(List "):
            rooms[spelling] = structs[struct][-1].counts[0]
    return rooms
