"""Columns of a run as panels over time, which matplotlib draws; what has more samples than there are dots is thinned out."""
from __future__ import annotations

import io
from typing import Any, Iterator

from front.spell import is_told, parts_of, shape_of, shown_type
from model.trees import is_form
from workbench.ending import missing
from workbench.parts import Track, columns, reached
from workbench.signals import ABSENT, Several, spelt, told

# How many columns of dots a panel is thinned out to, how many of a list's places are drawn, and characters side by side.
DOTS = 1_600
PLACES = 16
CHARACTERS = 110
INCHES = 9.0
SHAPES = "os^vDXP|<>p*"
Axis = Any


def libraries() -> tuple:
    try:
        import matplotlib
        import numpy
    except ImportError as error:
        raise missing("python3-matplotlib", error) from None
    matplotlib.use("Agg")
    matplotlib.rcParams.update({"svg.hashsalt": "yampa", "svg.fonttype": "none", "text.parse_math": False, "figure.max_open_warning": 0})
    from matplotlib import pyplot

    return pyplot, numpy


def panels_of(track: Track) -> Iterator[Track]:
    """The panels of a column: one, but of a list of pairs one for each part of these."""
    listed = track.type if track.members else track.type[1] if is_form("List", track.type) else None
    if not parts_of(listed):
        yield track
        return
    for names, type_, way in columns(listed):
        values = [value if value is ABSENT else Several(reached(value, way)) for value in track.values]
        yield Track((*track.path, *names), type_, values, True)


def picture(times: list, found: list, title: str, ending: str) -> bytes:
    """The panels as a file of that ending."""
    plots, numpy = libraries()
    shown = [panel for track in found for panel in panels_of(track)]
    heights = [0.5 if panel.type in ("Bool", "Unit") and not panel.members else 1.0 for panel in shown] or [1.0]
    figure, axes = plots.subplots(
        len(heights), 1, sharex=True, squeeze=False, figsize=(INCHES, max(sum(heights) + 0.9, 2)), gridspec_kw={"height_ratios": heights}
    )
    for axis, panel in zip(axes[:, 0], shown):
        axis.tick_params(labelsize=7)
        axis.grid(True, axis="x", alpha=0.3)
        axis.set_ylabel(f"{cut(panel.name)}\n{cut(type_text(panel))}", rotation=0, ha="right", va="center", fontsize=8)
        if times:
            draw(axis, numpy, numpy.array(times, dtype=float), panel)
    if times:
        room = max((times[-1] - times[0]) * 0.01, 0.5)
        axes[-1, 0].set_xlim(times[0] - room, times[-1] + 2 * room)
    else:
        axes[0, 0].text(0.5, 0.5, "there are no samples", transform=axes[0, 0].transAxes, ha="center", va="center")
    axes[-1, 0].ticklabel_format(style="plain", axis="x", useOffset=False)
    axes[-1, 0].set_xlabel("time", fontsize=8)
    figure.suptitle(title, fontsize=9)
    figure.align_ylabels(axes[:, 0])
    figure.tight_layout()
    out = io.BytesIO()
    figure.savefig(out, format=ending, dpi=150, metadata={"Date": None} if ending == "svg" else {"CreationDate": None} if ending == "pdf" else None)
    plots.close(figure)
    return out.getvalue()


def cut(text: str) -> str:
    return text if len(text) <= 32 else text[:30] + ".."


def type_text(panel: Track) -> str:
    text = shown_type(panel.type)
    return f"each {text}" if panel.members else text


def data_of(panel: Track) -> dict:
    """A panel for the script of a page: how it is drawn, and its texts where they change, with the numbers of these samples."""
    texts = [told_at(panel, value) for value in panel.values]
    at = [number for number, text in enumerate(texts) if number == 0 or text != texts[number - 1]]
    of = panel.type if panel.members else panel.type[1] if is_form("List", panel.type) and not is_told(panel.type) else None
    found = {"name": panel.name, "at": at, "texts": [texts[number] for number in at], "isEvent": is_form("Event", panel.type) and not panel.members}
    if of is not None:
        return {**found, "draw": "dots" if of == "Int" and not is_told(of) else "marks"}
    if panel.type == "Int" and is_told(panel.type):
        return {**found, "draw": "steps", "words": [made.name for made in shape_of(panel.type).constructors]}
    return {**found, "draw": {"Int": "steps", "Bool": "bands", "Unit": "bands"}.get(panel.type if isinstance(panel.type, str) else "", "marks")}


def told_at(panel: Track, value: Any) -> str:
    """What is told of a value; of an event only its own, and nothing where there is none."""
    if is_form("Event", panel.type) and not is_told(panel.type) and not panel.members and value is not ABSENT:
        return "" if value is None else told(value[0], panel.type[1])
    return told(value, panel.type)


def draw(axis: Axis, numpy: Any, times: Any, panel: Track) -> None:
    """Draws a panel by its type."""
    end = times[-1] + max((times[-1] - times[0]) * 0.01, 0.5)
    if panel.members or panel.type in (("List", "Int"), ("List", "Bool")):
        places(axis, numpy, times, panel, end)
    elif is_told(panel.type) and panel.type == "Int":
        levels(axis, numpy, times, panel, end)
    elif panel.type == "Bool":
        bands(axis, numpy, times, panel.values, end)
    elif panel.type == "Int":
        line(axis, numpy, times, panel.values, end)
    elif is_form("Event", panel.type):
        there = [(time, value[0]) for time, value in zip(times, panel.values) if value is not ABSENT and value is not None]
        marks(axis, there, panel.type[1], "v", end - times[0])
        absent(axis, numpy, times, panel.values, end)
    else:
        changes = [number for number, value in enumerate(panel.values) if value is not ABSENT and (number == 0 or value != panel.values[number - 1])]
        marks(axis, [(times[number], panel.values[number]) for number in changes], panel.type, "|", end - times[0])
        absent(axis, numpy, times, panel.values, end)


# ---- numbers


def line(axis: Axis, numpy: Any, times: Any, values: list, end: float, **how: Any) -> None:
    """Numbers as steps, with a gap where there is none."""
    numbers = numpy.array([numpy.nan if value is ABSENT else float(value) for value in values])
    many = len(times) > 2 * DOTS
    times, numbers = thinned(numpy, numpy.append(times, end), numpy.append(numbers, numbers[-1]))
    how = {"linewidth": 1.2, **how}
    axis.step(times, numbers, where="post", **how)
    if not many:
        axis.plot(times[:-1], numbers[:-1], ".", markersize=3, color=axis.lines[-1].get_color())


def levels(axis: Axis, numpy: Any, times: Any, panel: Track, end: float) -> None:
    """Names as steps between levels, of which each has its name; the first of them is at the top."""
    names = [made.name for made in shape_of(panel.type).constructors]
    line(axis, numpy, times, panel.values, end)
    axis.set_yticks(range(len(names)), names, fontsize=6)
    axis.set_ylim(len(names) - 0.5, -0.5)


def thinned(numpy: Any, times: Any, numbers: Any) -> tuple:
    """The points of a line, of each column of dots the first, the least, the greatest and the last."""
    if len(times) <= 2 * DOTS:
        return times, numbers
    dots = numpy.floor((times - times[0]) / (times[-1] - times[0]) * DOTS)
    starts = numpy.flatnonzero(numpy.append(True, dots[1:] != dots[:-1]))
    ends = numpy.append(starts[1:], len(times)) - 1
    picked = [numbers[starts], numpy.fmin.reduceat(numbers, starts), numpy.fmax.reduceat(numbers, starts), numbers[ends]]
    return numpy.repeat(times[starts], 4), numpy.stack(picked, 1).ravel()


def places(axis: Axis, numpy: Any, times: Any, panel: Track, end: float) -> None:
    """The elements of lists by their places: numbers as lines, truth as bands, others as marks where they change."""
    of = panel.type if panel.members else panel.type[1]
    longest = max((len(value) for value in panel.values if value is not ABSENT), default=0)
    columns = [
        [value[place] if value is not ABSENT and place < len(value) else ABSENT for value in panel.values] for place in range(min(longest, PLACES))
    ]
    if of == "Int" and not is_told(of):
        for place, values in enumerate(columns):
            dots(axis, numpy, times, values, place)
        if 1 < len(columns):
            axis.legend(fontsize=6, loc="center left", bbox_to_anchor=(1, 0.5), ncols=1 + len(columns) // 7, frameon=False)
        return
    if of == "Bool":
        for place, values in enumerate(columns):
            bands(axis, numpy, times, values, end, place)
        axis.set_yticks(range(len(columns)))
        axis.set_ylim(-0.7, max(len(columns), 1) - 0.3)
        return
    there = [value if value is ABSENT else "[" + " ".join(spelt(one, of) for one in value) + "]" for value in panel.values]
    changes = [number for number, text in enumerate(there) if text is not ABSENT and (number == 0 or text != there[number - 1])]
    marks(axis, [(times[number], there[number]) for number in changes], None, "|", end - times[0])


def dots(axis: Axis, numpy: Any, times: Any, values: list, place: int) -> None:
    """The elements in one place of lists as dots, which nothing joins: the next list may have another one there. Each place has a shape of
    its own; dots that can't be told apart are one."""
    there = numpy.array([value is not ABSENT for value in values])
    at, numbers = times[there], numpy.array([float(value) for value in values if value is not ABSENT])
    if len(at) > DOTS:
        rows = numpy.stack([numpy.floor((at - times[0]) / (times[-1] - times[0]) * DOTS), numbers], 1)
        kept = numpy.unique(rows, axis=0, return_index=True)[1]
        at, numbers = at[kept], numbers[kept]
    axis.plot(at, numbers, SHAPES[place % len(SHAPES)], linestyle="none", markersize=3, label=str(place))


# ---- truth


def bands(axis: Axis, numpy: Any, times: Any, values: list, end: float, level: int = 0) -> None:
    """Truth as bands; where the part doesn't run a thin line is left out."""
    true = numpy.array([value is True or value == "unit" for value in values])
    axis.broken_barh(spans(numpy, times, true, end), (level - 0.4, 0.8), facecolors="tab:green", edgecolors="tab:green", linewidth=0.5)
    there = numpy.array([value is not ABSENT for value in values])
    axis.broken_barh(spans(numpy, times, there, end), (level - 0.42, 0.04), facecolors="#555555", linewidth=0)
    if level == 0:
        axis.set_ylim(-0.7, 0.7)
        axis.set_yticks([])


def spans(numpy: Any, times: Any, holds: Any, end: float) -> list:
    """Where something holds, from sample to sample: starts and lengths. Spans that one column of dots can't tell apart are one."""
    edges = numpy.flatnonzero(numpy.diff(numpy.concatenate(([False], holds, [False])).astype(int)))
    until = numpy.append(times, end)
    dot, found = (end - times[0]) / DOTS, list[tuple]()
    for start, stop in zip(until[edges[::2]], until[edges[1::2]]):
        if found and start - found[-1][0] - found[-1][1] < dot / 2:
            found[-1] = (found[-1][0], stop - found[-1][0])
        else:
            found.append((start, stop - start))
    return found


def absent(axis: Axis, numpy: Any, times: Any, values: list, end: float) -> None:
    """A thin line where the part runs, if it doesn't always."""
    there = numpy.array([value is not ABSENT for value in values])
    if not there.all():
        axis.broken_barh(spans(numpy, times, there, end), (-0.6, 0.06), facecolors="#555555", linewidth=0)


# ---- marks


def marks(axis: Axis, there: list, type_: Any, marker: str, span: float) -> None:
    """Marks with their values, as far as these have room beside one another in the panel's span of time."""
    axis.set_ylim(-1, 2)
    axis.set_yticks([])
    if not there:
        return
    dot = span / DOTS
    kept, texts, free = list[float](), list[tuple](), -float("inf")
    for time, value in there:
        if not kept or time - kept[-1] >= dot:
            kept.append(time)
        if time >= free:
            text = cut(value if type_ is None else spelt(value, type_))
            texts.append((time, text))
            free = time + (len(text) + 1.5) / CHARACTERS * span
    axis.plot(kept, [0] * len(kept), marker, color="tab:red", markersize=5, linestyle="none")
    for time, text in texts:
        axis.annotate(text, (time, 0), textcoords="offset points", xytext=(0, 6), ha="left", fontsize=6, annotation_clip=True)
