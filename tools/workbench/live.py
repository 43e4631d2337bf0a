"""`yampa live`: a page in which a network is played and watched, without further files: its script is live.js."""
from __future__ import annotations

import base64
import contextlib
import re
import sys
import tempfile
import webbrowser
from argparse import Namespace
from collections.abc import Iterator
from dataclasses import asdict
from html import escape
from pathlib import Path
from string import Template
from typing import Any

from front.spell import columns, shown_type
from model.texts import ValueFault, network_text, read_value
from model.trees import is_form
from workbench.ending import WRONG_WORDS, Refused, Words, stream_bytes, text_of, write
from workbench.origin import program_of
from workbench.outline import network_of
from workbench.plotting import beside, script_data
from workbench.parts import add_choice, chosen, named_parts, names_of, notes_on
from workbench.program import call, kept
from workbench.proving.contract import Said, said_of
from workbench.proving.words import Loaded, loaded, whole
from workbench.running import Tellers, refused, tellers_of
from workbench.signals import Both, Leaf, Members, Pack, in_members, leaves
from workbench.speaking import named_types
from workbench.wasm import compiled, described

ABOUT = """Writes a page in which NET is played: with a control for each input, a clock, values, plots that go on, and what was
played as a stream to save. It needs no other file, and no network. With STREAM that is replayed, until one takes over.

  yampa live NET -o page.html
  yampa live NET STREAM --open                   shows it in the browser, from a file that is kept
  yampa live NET --key space=fire --key left=move:-1
                                                 a key gives an event, holds a truth value true, or a number at that value
  yampa live NET --picture FILE.js               FILE.js has a function picture(output, canvas, before), which draws each output: records are
                                                 objects with the names of their fields, events null or their values; before(3) is
                                                 the output three samples before

The networks inside that have names are shown too, and with --all all others. What the file assumes and guarantees is shown by
lamps; where a guarantee is false the clock stops. Needs clang and lld (Debian's packages). The page is made by tools that are not proved."""

KEYS = {"space": " ", "left": "ArrowLeft", "right": "ArrowRight", "up": "ArrowUp", "down": "ArrowDown", "enter": "Enter", "escape": "Escape", "tab": "Tab"}
PARTS = {"style": "panels.css", "values": "values.js", "panels": "panels.js", "script": "live.js"}
# A page's sliders go at most so far.
MOST_NUMBER = 1 << 53


def main() -> None:
    words = Words("live", ABOUT)
    words.add_argument("net", metavar="NET")
    words.add_argument("stream", metavar="STREAM", nargs="?")
    words.add_argument("--key", metavar="KEY=INPUT[:VALUE]", action="append", default=[], help="a key that sets an input")
    words.add_argument("--picture", metavar="FILE.js", help="draws each output with its function picture(output, canvas, before)")
    words.add_argument("--most", metavar="N", type=whole(0, 32_765), default=1000, help="how many elements a list of the input may have (1000)")
    words.add_argument("--rate", metavar="N", type=whole(1, 100_000), default=10, help="samples a second at first (10)")
    add_choice(words)
    words.add_argument("--open", action="store_true", help="shows the page in the browser")
    words.add_argument("-o", metavar="FILE", dest="to", help="writes the page there")
    given = words.parse_args()
    made, fault = page(given)
    to = given.to
    if given.open and to in (None, "-"):
        with tempfile.NamedTemporaryFile(prefix="yampa-live-", suffix=".html", delete=False) as file:
            to = file.name
    write(to, made)
    if given.open and not webbrowser.open(Path(to).resolve().as_uri()):
        raise Refused(f"no browser can be opened: open {to}")
    if fault:
        raise Refused(fault)


def page(given: Namespace) -> tuple[str, str]:
    """The page, and the fault that ends the stream, if one does."""
    network = loaded(given.net)
    types = named_types(network.name)
    stream, fault = taken(network.name, given.stream)
    inside = signals_inside(network.name, given.everything)
    with contextlib.ExitStack() as files:
        networks, lamps = {"network": (network.name, *types)}, []
        for number, (kind, one) in enumerate(watching(network)):
            input_type = types[0] if kind == "assume" else ("Pair", *types)
            path = files.enter_context(kept(network_text(input_type, one.net)))
            networks[f"watch{number}"] = (path, input_type, "Bool")
            lamps.append({"name": one.name, "kind": kind})
        for number, teller in enumerate(inside.found):
            networks[f"inside{number}"] = (files.enter_context(kept(teller.text)), types[0], teller.pack.type)
        module, machines = compiled(networks, given.most)
    inputs = columns(types[0])
    signals, packs = told_inside(inside)
    data = {
        "machines": [asdict(machine) for machine in machines],
        "module": base64.b64encode(module).decode(),
        "inputs": [name for name, _ in inputs],
        "outputs": [name for name, _ in columns(types[1])],
        "signals": signals,
        "packs": packs,
        "lamps": lamps,
        "keys": [key_of(text, inputs) for text in given.key],
        "span": span_of(network.net),
        "stream": stream,
        "fault": fault,
        "rate": given.rate,
        "picture": given.picture or "",
    }
    told = f"{shown_type(types[0])} -> {shown_type(types[1])}"
    return filled(given.net, told, data, text_of(given.picture) if given.picture else None), fault


def signals_inside(net: str, everything: bool) -> Tellers:
    """What tells the signals of the networks that have names, or of all. A line says what is missing."""
    whole = network_of(net)
    made = tellers_of(whole, chosen(whole, True) if everything else named_parts(whole))
    for note in notes_on(made):
        print(f"yampa live: {note}", file=sys.stderr)
    return made


def told_inside(inside: Tellers) -> tuple[list, list]:
    """The signals as a page has them, and for each network that tells some how they are packed, by their numbers."""
    whole, names = inside.whole, names_of(inside.whole, inside.told)
    numbers = {position: number for number, position in enumerate(dict.fromkeys(inside.told.values()))}
    members = {position for teller in inside.found for position in in_members(teller.pack)}
    signals = []
    for position, by in inside.told.items():
        type_ = whole.program.signal_type(position, whole.output(by))
        signals.append({"name": names[position], "number": numbers[by], "type": described(type_), "members": by in members})
    return [one for one, by in zip(signals, inside.told.values()) if by not in inside.missing], [packed(teller.pack, numbers) for teller in inside.found]


def packed(pack: Pack, numbers: dict) -> Any:
    """A pack as a script reads it."""
    match pack:
        case Leaf():
            return numbers[pack.position]
        case Both():
            return [packed(pack.left, numbers), packed(pack.right, numbers)]
        case Members():
            return {"sort": "Members", "inner": packed(pack.inner, numbers), "leaves": [numbers[leaf.position] for leaf in leaves(pack)]}
    return {"sort": type(pack).__name__, "inner": packed(pack.inner, numbers)}


def taken(net: str, name: str | None) -> tuple[str, str]:
    """The lines of a stream that the program takes, and what it tells of the next."""
    if name is None:
        return "", ""
    stream = stream_bytes(name)
    told = call(["run", net], stream)
    if told.status and not told.line().startswith("stream: line"):
        raise refused(told)
    lines = stream.split(b"\n")[: told.output.count(b"\n")]
    return "".join(f"{line.decode()}\n" for line in lines), told.line()


def watching(network: Loaded) -> Iterator[tuple[str, Said]]:
    """What is assumed of the input, and guaranteed of the input and the output."""
    said = said_of(program_of(network.name))
    for kind in ("assume", "guarantee"):
        yield from ((kind, one) for one in said[kind])


def key_of(text: str, inputs: list) -> dict:
    """A key, and which input it sets, and to what."""
    found = re.fullmatch(r"(.+?)=([^:]+)(?::(.*))?", text)
    names = [name for name, _ in inputs]
    if not found or found[2] not in names:
        raise Refused(f"--key {text}: KEY=INPUT or KEY=INPUT:VALUE is wanted, and the inputs are {', '.join(names)}", WRONG_WORDS)
    key, name, value = found.groups()
    column, type_ = names.index(name), inputs[names.index(name)][1]
    is_set = type_ == "Bool" or is_form("Event", type_)
    if value is None and not is_set or value is not None and type_ == "Bool":
        raise Refused(f"--key {text}: {name} is {shown_type(type_)}: write {key}={name}{'' if type_ == 'Bool' else ':VALUE'}", WRONG_WORDS)
    if value is not None:
        try:
            read_value(value.encode(), type_[1] if is_form("Event", type_) else type_)
        except ValueFault as fault:
            raise Refused(f"--key {text}: {value or 'nothing'} is no value of {name}: {fault}", WRONG_WORDS) from None
    return {"key": KEYS.get(key, key.lower() if len(key) == 1 else key), "column": column, "value": value}


def span_of(tree: Any) -> list[str]:
    """The least and the greatest number of a network, and 0 among them."""
    left, least, most = [tree], 0, 0
    while left:
        one = left.pop()
        if isinstance(one, tuple):
            left += one
        elif isinstance(one, int) and abs(one) < MOST_NUMBER:
            least, most = min(least, one), max(most, one)
    return [str(least), str(most)]


def filled(title: str, told: str, data: dict, picture: str | None) -> str:
    """The page's text. What stands in a script ends it nowhere."""
    form = Template(beside("live.html"))
    drawn = "" if picture is None else f"globalThis.picture = (() => {{\n{picture}\nreturn picture;\n}})();".replace("</script", "<\\/script")
    parts = {part: beside(name) for part, name in PARTS.items()}
    return form.substitute(title=escape(title, False), told=escape(told, False), page=script_data(data), picture=drawn, **parts)
