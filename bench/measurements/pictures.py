"""Draws the pictures of docs/speed as SVG, by matplotlib, in colours that colour-blind readers can distinguish. The title of a
picture is its message; its note says what the numbers are, and the exceptions to the message."""

import re
from collections.abc import Callable, Iterable
from functools import partial
from io import StringIO
from math import ceil, log
from textwrap import fill
from typing import NamedTuple

import matplotlib
import numpy as np
from matplotlib.axes import Axes
from matplotlib.colors import LinearSegmentedColormap, TwoSlopeNorm
from matplotlib.figure import Figure
from matplotlib.ticker import LogLocator, NullLocator

from measurements.page_tables import FULL, HASHED, MIXED, ONE_BY_ONE, RANDOM, RIVALS, SLOWEST_FAILING, SUFFIXES, Rows
from measurements.page_tables import cell_of, counts, means, rows_of, widths
from measurements.results import HERE, SECOND, THERE, Results, geometric, range_text

BLUE, ORANGE, GREY = "#0072b2", "#c04f00", "#6e7781"
MUTED, FAINT = "#57606a", "#c9ced4"

# Parts of the notes of heat maps.
SHADED = "Time divided by the Rust crate's: blue is faster, white equal, orange slower."
WITHOUT = "The means are without the question that fails, which is the slowest of nine."

# Colours of ratios. Ratios beyond these bounds have the strongest, on which black text is legible.
FASTER_TO_SLOWER = LinearSegmentedColormap.from_list("ratios", ["#5aa9e6", "#ffffff", "#f0883e"])
SHADES = TwoSlopeNorm(0, log(0.06), log(2.2))

WIDTH, HEAD, PANEL, ROW = 8.6, 0.7, 2.5, 0.21  # inches
SETTINGS = {
    "font.family": "sans-serif", "font.sans-serif": ["DejaVu Sans"], "font.size": 9,
    "svg.fonttype": "none", "svg.hashsalt": "tinystr",
    "axes.spines.top": False, "axes.spines.right": False, "axes.edgecolor": MUTED,
    "axes.titlelocation": "left", "axes.titlesize": 9, "axes.titleweight": "bold",
}  # fmt: skip

# Replacements that make a file smaller and show the same: no comments, no rotation by 0, no names of shapes, no name of a font
# but sans-serif, no group of a single text, two digits after a point outside of texts, and no line breaks in paths.
SMALLER = [
    (r"<!--.*?-->| transform=\"rotate\(-?0 .*?\)\"| id=\"(?:text|patch|line2d)_\d+\"|'DejaVu Sans', ", ""),
    (r"<g>\s*(<text.*?</text>)\s*</g>", r"\1"),
    (r"(\.\d\d)\d+(?!\d*<)", r"\1"),
    (r" ?\n(?=[LCQz\"])", ""),
    (r"\n\s+", "\n"),
]


class Line(NamedTuple):
    """A value for each place on the x axis. A line without a name is thin, and a bold one thick."""

    name: str
    color: str
    values: list[float]
    is_bold: bool = False


def draw_lines(axes: Axes, lines: list[Line], bounds: tuple[float, float], step: float) -> None:
    """The y axis is logarithmic. The labels of lines are at least `step` apart, as a fraction of the height."""
    axes.set(yscale="log", ylim=bounds)
    axes.yaxis.set(major_locator=LogLocator(subs=(1, 2, 5)), minor_locator=NullLocator(), major_formatter="{x:g}")
    axes.grid(axis="y", color=FAINT, linewidth=0.5)
    for line in lines:
        style = {"linewidth": 0.7, "alpha": 0.5}
        if line.name:
            style = {"linewidth": 3 if line.is_bold else 1.5, "marker": "o", "markersize": 4}
        axes.plot(line.values, color=line.color, linestyle="--" if line.color == ORANGE else "-", **style)
    named = [line for line in lines if line.name]
    places, last = {}, -step
    for line in sorted(named, key=lambda line: line.values[-1]):
        end = log(line.values[-1] / bounds[0]) / log(bounds[1] / bounds[0])
        last = places[line.name] = max(end, last + step)
    for line in named:
        axes.annotate(
            line.name, (len(line.values) - 1, line.values[-1]), (1.03, places[line.name]), textcoords="axes fraction",
            va="center", color=line.color, fontweight="bold" if line.is_bold else None,
            arrowprops={"arrowstyle": "-", "color": line.color, "linewidth": 0.5, "relpos": (0, 0.5)},
        )  # fmt: skip


def draw_panels(figure: Figure, labels: dict[str, str], x: list[str], panels: dict[str, list[Line]]) -> list[Axes]:
    """One panel, or two in each row, with the same axes."""
    columns = min(2, len(panels))
    rows = ceil(len(panels) / columns)
    height = PANEL if rows > 1 else 2 * PANEL
    figure.set_figheight(HEAD + rows * height)
    values = [value for lines in panels.values() for line in lines for value in line.values]
    all_axes = list(figure.subplots(rows, columns, squeeze=False).flat)
    for axes, (title, lines) in zip(all_axes, panels.items()):
        axes.set(title=title, **labels)
        axes.set_xticks(range(len(x)), x)
        draw_lines(axes, lines, (min(values) / 1.3, max(values) * 1.5), 0.15 / (height - 0.7))
    return all_axes


def capacities(figure: Figure, results: Results) -> tuple[str, str]:
    """How the ratios of all calls change with the capacity, on full texts. The calls of `named` have names."""
    rows = {call: list(row[FULL].values()) for call, row in rows_of(results).items()}
    x, failing = list(rows_of(results)[SLOWEST_FAILING][FULL]), rows.pop(SLOWEST_FAILING)
    of_all = [geometric(ratios) for ratios in zip(*rows.values())]
    named = ["==", "try_from_utf8", "to_ascii_lowercase"]
    lines = [Line("", GREY, row) for call, row in rows.items() if call not in named]
    lines += [Line(call, GREY, rows[call]) for call in named]
    lines += [Line("a question that fails\nat its first byte", ORANGE, failing), Line("mean", BLUE, of_all, is_bold=True)]
    [axes] = draw_panels(figure, {"xlabel": "capacity in bytes", "ylabel": "time divided by the Rust crate's"}, x, {"": lines})
    axes.axhspan(1, axes.get_ylim()[1], color="#fdf1e7")
    axes.annotate("slower than the Rust crate", (0.02, 0.97), xycoords="axes fraction", va="top", color=ORANGE)
    axes.annotate("faster than the Rust crate", (0.02, 0.03), xycoords="axes fraction", color=BLUE)
    return (
        f"From Cargo, a call takes {of_all[0]:.2f} of the Rust crate's time at capacity {x[0]}, and {of_all[-1]:.2f} at {x[-1]}",
        f"Geometric mean of {len(rows)} calls on texts that fill their capacity; each grey line is one call. A question that"
        f" fails at its first byte takes up to {max(failing):.2f} times as long, at capacity {x[failing.index(max(failing))]}.",
    )


def tables(figure: Figure, results: Results) -> tuple[str, str]:
    """Look-ups of random keys, a panel for each number of bytes."""
    cells = {width: [cell_of(width, count, RANDOM) for count in counts(results)] for width in widths(results)}
    names = {HERE: "sorted, in bulk", ONE_BY_ONE: "sorted, one by one", HASHED: "hashed"} | {rival: rival for rival in RIVALS}

    def line(width: str, whose: str) -> Line:
        values = [results.time(cell, whose) for cell in cells[width]]
        return Line(names[whose], ORANGE if whose in RIVALS else BLUE, values, whose == HERE)

    panels = {f"records of {width} bytes": [line(width, whose) for whose in names] for width in cells}
    x = [re.sub("000$", "k", re.sub("000000$", "M", count)) for count in counts(results)]
    draw_panels(figure, {"xlabel": "records in the table", "ylabel": "nanoseconds a key"}, x, panels)
    ranged = partial(range_text, results, sum(cells.values(), []))
    return (
        f"Looked up in bulk, a key of a sorted table takes {ranged(RIVALS[0])} of the time of {RIVALS[0]}",
        f"Random keys that are present. One by one, it takes {ranged(RIVALS[0], ONE_BY_ONE)} of that time, and a key of a hashed"
        f" table {ranged('HashSet', HASHED)} of HashSet's. Solid: this crate; dashed: Rust's std, the HashSet with a fast"
        " hasher.",
    )


def jobs(figure: Figure, results: Results) -> tuple[str, str]:
    work = {
        "identifiers": "read, sort, print", "tables": "pack, search, unpack", "columns": "read, change, print",
        "lists": "split, change, join", "lines": "parse, execute, answer", "awkward": "rare, difficult inputs",
    }  # fmt: skip
    series = [(HERE, "this crate", BLUE), (THERE, "a Rust program over the Rust crate", ORANGE)]
    figure.set_figheight(HEAD + 0.6 + ROW * (len(series) + 0.6) * len(results.times))
    axes, depth = figure.subplots(), 0.8 / len(series)
    for i, (whose, name, color) in enumerate(series):
        least, medians, most = np.array([results.range(cell, whose) for cell in results.times]).T / SECOND
        places = np.arange(len(medians)) + depth * i
        ranges = {"xerr": [medians - least, most - medians], "error_kw": {"linewidth": 1}}
        bars = axes.barh(places, medians, 0.9 * depth, color=color, label=name, alpha=0.75, **ranges)
        axes.bar_label(bars, [f"{median:#.3g}".rstrip(".") for median in medians], padding=4)
    names = [f"{job}:\n{work[job]}" for _, job, _ in results.times]
    axes.set_yticks([group + 0.4 - depth / 2 for group in range(len(names))], names)
    axes.tick_params(axis="y", length=0)
    axes.set(xlabel="seconds")
    axes.invert_yaxis()
    axes.legend(frameon=False, ncols=len(series), loc="lower right", bbox_to_anchor=(1, 1))
    title = f"A whole job takes {range_text(results, results.times, THERE)} of the time of a Rust program that does the same"
    return title, "A bar is the median of all runs; its black line goes from the fastest run to the slowest."


def heat_rows(rows: Rows, suffix: str) -> dict[str, list[list[float]]]:
    """For each call the ratios on full texts and on mixed ones, each with its mean at the end. The slowest on full texts comes
    first, and the means of all calls last. The names have a suffix."""
    names = sorted(rows, key=lambda name: geometric(rows[name][FULL].values()), reverse=True)
    found = {name + suffix: [list(rows[name].get(kind, {}).values()) for kind in (FULL, MIXED)] for name in names}
    both = [row for row in found.values() if all(row)]
    found["geometric mean" + suffix] = [[geometric(column) for column in zip(*of_kind)] for of_kind in zip(*both)]
    return {name: [[*of, geometric(of)] if of else [] for of in row] for name, row in found.items()}


def draw_section(axes: Axes, columns: list[str], rows: list[list[float]], last: list[int]) -> None:
    """The rows of means, which are the `last` of each block, and the last column are bold."""
    shades = [[log(ratio) for ratio in row] or [0] * len(columns) for row in rows]
    axes.pcolormesh(shades, cmap=FASTER_TO_SLOWER, norm=SHADES, edgecolors="white", linewidth=1, clip_on=False)
    for y, row in enumerate(rows):
        for x, ratio in enumerate(row):
            weight = "bold" if y in last or x == len(columns) - 1 else None
            axes.text(x + 0.5, y + 0.5, f"{ratio:.2f}", ha="center", va="center", fontweight=weight)
    for y in last:
        axes.plot([0, len(columns)], [[y, y + 1]] * 2, color=MUTED, linewidth=0.8)
    axes.set_xticks([x + 0.5 for x in range(len(columns))], columns)
    axes.tick_params(length=0)
    axes.spines[:].set_visible(False)


def draw_heat_map(figure: Figure, results: Results, suffixes: Iterable[str]) -> None:
    """The calls of each suffix, one block below the other."""
    rows, last = {}, []
    for suffix in suffixes:
        rows |= heat_rows(rows_of(results, suffix), suffix)
        last.append(len(rows) - 1)
    columns = [*rows_of(results)[SLOWEST_FAILING][FULL], "mean"]
    figure.set_figheight(HEAD + 0.7 + ROW * len(rows))
    panels = figure.subplots(1, 2, sharey=True)
    for i, (axes, title) in enumerate(zip(panels, ["full texts", "mixed texts"])):
        axes.set(title=title, xlabel="capacity in bytes")
        draw_section(axes, columns, [sections[i] for sections in rows.values()], last)
    panels[0].set_yticks([y + 0.5 for y in range(len(rows))], rows)
    for y in last:
        panels[0].get_yticklabels()[y].set_fontweight("bold")
    panels[0].set_ylim(len(rows), 0)


def calls(figure: Figure, results: Results) -> tuple[str, str]:
    draw_heat_map(figure, results, [""])
    full, mixed = means(results)
    title = f"A call takes {full:.2f} of the Rust crate's time on full texts, and {mixed:.2f} on mixed ones"
    return title, f"{SHADED} {WITHOUT}"


def cargo(figure: Figure, results: Results) -> tuple[str, str]:
    draw_heat_map(figure, results, SUFFIXES)
    (full, mixed), (full_alone, mixed_alone) = (means(results, suffix) for suffix in SUFFIXES)
    title = f"Crate for Cargo: calls over lists take {full:.2f} of the Rust crate's time on full texts, {mixed:.2f} on mixed"
    alone = f"Calls of one value at a time take {full_alone:.2f} on full texts, and {mixed_alone:.2f} on mixed ones."
    return title, f"{SHADED} {alone} {WITHOUT}"


def drawn(draw: Callable[[Figure, Results], tuple[str, str]], results: Results) -> tuple[str, str]:
    """The title of a picture, and its SVG."""
    with matplotlib.rc_context(SETTINGS):
        figure = Figure(figsize=(WIDTH, HEAD), layout="constrained")
        title, note = draw(figure, results)
        top = HEAD / figure.get_figheight()
        figure.get_layout_engine().set(rect=(0, 0, 1, 1 - top))
        figure.text(0.012, 1 - 0.1 * top, title, fontsize=11, fontweight="bold", va="top")
        figure.text(0.012, 1 - 0.5 * top, fill(note, 130), color=MUTED, va="top")
        file = StringIO()
        figure.savefig(file, format="svg", metadata=dict.fromkeys(["Creator", "Date", "Format", "Type"]))
    svg = file.getvalue()
    for needless, replacement in SMALLER:
        svg = re.sub(needless, replacement, svg)
    return title, svg


# What draws each picture, which has its name, and the file of its results.
PICTURES = {calls: "calls", capacities: "cargo", cargo: "cargo", jobs: "jobs", tables: "tables"}
