"""One page on a network: its drawing, its parts with their types, its runs, and a certificate step by step."""
from __future__ import annotations

import re
from concurrent.futures import ThreadPoolExecutor
from pathlib import Path
from typing import Any, Callable

from model.trees import at_text, is_network
from workbench.diagram import Diagram
from workbench.drawing import WIDTH, picture_of
from workbench.ending import Refused, Words, missing, stream_bytes, write
from workbench.laws import LAWS
from workbench.layout import laid_out
from workbench.outline import Network
from workbench.parts import Look, looked_at, named, named_parts
from workbench.plotting import beside, panels_in_page
from workbench.program import again, answered, call
from front.spell import shown_type
from workbench.shorter import shortened
from workbench.speaking import spoken_types
from workbench.tracing import steps_shown
from workbench.watching import node_of

ABOUT = """Writes one self-contained page on NET and its run on STREAM: the drawing, a drawing of each name's network, the
outline with types, the plots, which can be zoomed and read at a sample; with TGT and CERT also each step of the certificate, with what was at its position
before and what is there then. A line says what is too large for the page.

  yampa report NET STREAM -o FILE.html
  yampa report NET STREAM TGT CERT -o FILE.html

The page is made by tools that are not proved; it marks what the program printed. Needs
graphviz and python3-jinja2 (Debian's packages)."""

ROWS, TEXT_BYTES, DEFINITIONS = 2_000, 200_000, 60


def template() -> Any:
    try:
        import jinja2
    except ImportError as error:
        raise missing("python3-jinja2", error) from None
    made = jinja2.Environment(autoescape=True, undefined=jinja2.StrictUndefined)
    return made.from_string((Path(__file__).parent / "page.html").read_text(encoding="utf-8")), jinja2.utils.markupsafe.Markup


def laid(tree: Any) -> str:
    """The lines of a tree; none where nothing is told of it."""
    if tree is None:
        return ""
    text = "\n".join(laid_out(node_of(shortened(tree) if is_network(tree) else tree)))
    return text if len(text) <= TEXT_BYTES else text[:TEXT_BYTES] + f"\n.. (the text has {len(text):,} characters)"


def picture(name: str, safe: Callable, make: Callable, **more: Any) -> dict:
    """A picture of the page, or why there is none."""
    try:
        text = make().decode()
    except Refused as refused:
        return {"name": name, "fault": str(refused), **more}
    return {"name": name, "fault": "", "svg": safe(text[text.index("<svg") :]), **more}


def drawing_of(whole: Network, position: tuple, links: dict) -> bytes:
    """A drawing that names none of its parts, so that there may be several in a page."""
    drawn = picture_of(whole, Diagram(whole, types=True), position, WIDTH, "svg", links)
    return re.sub(rb' id="[^"]*"', b"", drawn)


def drawings_of(whole: Network, safe: Callable) -> tuple:
    """The drawing of the whole, and those of what names stand for; where one has no room for them, only so many."""
    firsts: dict = {}
    for name, position in whole.program.signals:
        firsts.setdefault(re.sub(r"#\d+$", "", name), position)
    named = list(firsts.items())[:DEFINITIONS]
    links = {name: f"#name{number}" for number, (name, _) in enumerate(named)}
    with ThreadPoolExecutor(4) as pool:
        first = pool.submit(picture, "whole", safe, lambda: drawing_of(whole, (), links))
        others = [
            pool.submit(picture, f"name{number}", safe, lambda at=position: drawing_of(whole, at, links), title=f"{name} {at_text(position)}")
            for number, (name, position) in enumerate(named)
        ]
        return first.result(), [other.result() for other in others]


def outline(whole: Network) -> list:
    """A row for each part as the program's outline has it, indented by its depth."""
    named = whole.program.named_type
    return [(at_text(at), min(len(at), 40), row.word, shown_type(named(row.type)), row.weight) for at, row in list(whole.rows.items())[:ROWS]]


def certificate_of(net: str, target: str, name: str, files: tuple) -> dict:
    """What the check says, and each step up to one that is refused, with what the program shows at its place before and behind it."""
    said = call(["check", net, *files])
    verdict = said.output.decode().strip() if not said.status else f"refused: {said.fault()}"
    steps = []
    for number, step in enumerate(steps_shown(net, files[1]), 1):
        law, direction, position = re.findall(r"\(step (\w+) (\w+) (\(.*?\))", step.line)[0]
        told = {"title": f"{number}. {law} {direction} {position}", "left": LAWS[law].left, "right": LAWS[law].right}
        steps.append({**told, "before": laid(step.before), "after": laid(step.after)})
    return {"name": name, "target": target, "verdict": verdict, "steps": steps}


def plot(look: Look, safe: Callable) -> dict:
    """The panels of the run, or why there are none."""
    try:
        return {"fault": "", "html": safe(panels_in_page(look))}
    except Refused as refused:
        return {"fault": str(refused)}


def parts_by_name(whole: Network) -> list:
    """A row for each part that has a name, by these names."""
    rows, named_type = whole.rows, whole.program.named_type
    found = [(name, at_text(at), shown_type(named_type(rows[at].type)), rows[at].weight) for at, name in named(whole).items()]
    return sorted(found)[:ROWS]


def page(given: Any) -> str:
    form, safe = template()
    net = again(given.net)
    look = looked_at(net, stream_bytes(given.stream), named_parts)
    whole, count = look.whole, len(look.run.times)
    told = "; ".join(spoken_types(whole.program, answered(["types", net]).decode()).splitlines())
    drawing, definitions = drawings_of(whole, safe)
    files = (again(given.target), again(given.certificate)) if given.certificate else None
    return form.render(
        title=re.sub(r"\s+", " ", given.net),
        told=told,
        drawing=drawing,
        definitions=definitions,
        text=laid(whole.tree),
        stream=given.stream,
        run=f"{count:,} samples" + (f", up to {look.run.fault}" if look.run.fault else ""),
        plot=plot(look, safe),
        style=safe(beside("panels.css")),
        named=parts_by_name(whole),
        rows=outline(whole),
        left=f"The network has {len(whole.rows):,} parts; these are the first {ROWS:,}." if len(whole.rows) > ROWS else "",
        certificate=certificate_of(net, given.target, given.certificate, files) if files else None,
    )


def main() -> None:
    words = Words("report", ABOUT)
    words.add_argument("net", metavar="NET")
    words.add_argument("stream", metavar="STREAM")
    words.add_argument("target", metavar="TGT", nargs="?")
    words.add_argument("certificate", metavar="CERT", nargs="?")
    words.add_argument("-o", metavar="FILE", dest="to", help="writes the page there")
    given = words.parse_args()
    if given.target and not given.certificate:
        words.error("TGT wants a CERT behind it")
    write(given.to, page(given))
