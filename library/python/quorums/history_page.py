"""A page of a table over time: one file that loads nothing, with a chart for each question and the snapshots below."""

from __future__ import annotations

import datetime
import html
import importlib
import os
import urllib.parse
from dataclasses import dataclass
from typing import Any, Iterator, Optional

from .summary import LISTS
from .tables import Row

COLOURS = ("#2f6fde", "#c2620a", "#0f8a5f", "#8a4fd0", "#b0307a", "#5d6b7a")
FORK, UNSURE = "#d3302f", "#8a8f98"
TITLES = {"blocking": "The fewest that can stop the network", "splitting": "The fewest that can fork it by lies"}
SAID = {
    "blocking": "Size of a smallest blocking set: if these are silent, nobody agrees on anything.",
    "splitting": "Size of a smallest splitting set: if these lie, two quorums need not share a node.",
    "top_tier": "Who is in any minimal quorum, and so in any minimal blocking set.",
    "smallest_quorum": "Nodes of a smallest quorum.",
    "nodes": "All nodes of the file, and those in the greatest quorum of the view.",
}
OPENING = """<!DOCTYPE html>
<html lang="en"><head><meta charset="utf-8"><meta name="viewport" content="width=device-width, initial-scale=1">
"""
STYLE = """
:root { color-scheme: light dark; --ink: #1c2128; --dim: #5b6470; --line: #d5dae1; --ground: #fff; --soft: #f4f6f8; }
@media (prefers-color-scheme: dark) { :root { --ink: #e6e9ee; --dim: #9aa4b1; --line: #363d47; --ground: #14171b;
--soft: #1d2127; } }
* { box-sizing: border-box; }
body { margin: 0 auto; max-width: 75rem; padding: 1.5rem 1rem 3rem; background: var(--ground); color: var(--ink);
font: 16px/1.5 system-ui, sans-serif; }
h1 { font-size: 1.6rem; line-height: 1.25; margin: 0 0 .3rem; }
h2 { font-size: 1.1rem; margin: 2.2rem 0 0; }
p { margin: .2rem 0 .6rem; color: var(--dim); max-width: 46rem; }
a { color: inherit; }
.verdict { color: var(--ink); font-size: 1.05rem; }
.bad { color: #d3302f; font-weight: 600; }
.now { display: grid; grid-template-columns: repeat(auto-fill, minmax(10rem, 1fr)); gap: .6rem; margin: 1.2rem 0 0; }
.now div { background: var(--soft); border-radius: .4rem; padding: .6rem .8rem; }
.now b { display: block; font-size: 1.5rem; line-height: 1.2; font-variant-numeric: tabular-nums; }
.now span { color: var(--dim); font-size: .85rem; }
.key { display: flex; flex-wrap: wrap; gap: .2rem 1.1rem; font-size: .85rem; margin: .3rem 0 .5rem; }
.key i { display: inline-block; width: 1.1rem; height: .25rem; border-radius: .1rem; margin-right: .4rem; }
.key i { vertical-align: middle; }
.key i.band { height: .8rem; }
.chart { position: relative; height: 13rem; margin: 0 .5rem 1.6rem 2.2rem; }
.chart svg { position: absolute; inset: 0; width: 100%; height: 100%; overflow: visible; }
.chart path, .chart line { vector-effect: non-scaling-stroke; fill: none; }
.chart .line { stroke-width: 2.2; stroke-linecap: round; stroke-linejoin: round; }
.chart .grid { stroke: var(--line); stroke-width: 1; }
.chart a:hover rect, .chart a:focus rect { fill: var(--ink); fill-opacity: .16; }
.y, .x { position: absolute; font-size: .75rem; color: var(--dim); white-space: nowrap; }
.y, .x { font-variant-numeric: tabular-nums; }
.y { right: calc(100% + .5rem); transform: translateY(-50%); }
.x { top: calc(100% + .3rem); transform: translateX(-50%); }
.x.first { transform: none; } .x.last { transform: translateX(-100%); }
.wide { overflow-x: auto; }
table { border-collapse: collapse; font-size: .8rem; font-variant-numeric: tabular-nums; margin-top: .6rem; }
th, td { text-align: right; padding: .2rem .6rem; border-bottom: 1px solid var(--line); white-space: nowrap; }
th { position: sticky; top: 0; background: var(--ground); font-weight: 600; text-align: right; }
th:first-child, td:first-child, th:nth-child(2), td:nth-child(2), td.fault { text-align: left; }
tr:target td { background: var(--soft); }
@media (max-width: 40rem) { .x.middle { display: none; } .chart { height: 10rem; } }
"""


@dataclass(frozen=True)
class Series:
    """A line of a chart: its name and the column that it shows."""

    name: str
    column: str


@dataclass(frozen=True)
class Chart:
    """What is shown together."""

    word: str
    title: str
    said: str
    series: tuple[Series, ...]


def kinds(rows: list[Row], head: str, tail: str = "") -> tuple[Series, ...]:
    """The columns of nodes and of each grouping that a table has."""
    columns = list(rows[0]) if rows else []
    found = [Series("nodes", head + tail)] if head + tail in columns else []
    start = head + "_by_"
    return (
        *found,
        *(
            Series("by " + it[len(start) : len(it) - len(tail)], it)
            for it in columns
            if it.startswith(start) and it.endswith(tail)
        ),
    )


def charts(rows: list[Row]) -> list[Chart]:
    """The charts of a table."""
    found = [Chart(name, TITLES[name], SAID[name], kinds(rows, name, "_smallest")) for name in LISTS]
    found.append(Chart("top_tier", "The top tier", SAID["top_tier"], kinds(rows, "top_tier")))
    found.append(
        Chart("smallest_quorum", "A smallest quorum", SAID["smallest_quorum"], (Series("nodes", "smallest_quorum"),))
    )
    found.append(
        Chart(
            "nodes",
            "The network",
            SAID["nodes"],
            (Series("nodes", "nodes"), Series("in the greatest quorum", "quorum")),
        )
    )
    return found


def number(row: Row, column: str) -> Optional[int]:
    """The number of a cell; none where it is a word, or the row has a fault."""
    cell = row.get(column, "")
    return int(cell) if cell.isdecimal() else None


def time_of(row: Row) -> Optional[float]:
    try:
        return datetime.datetime.fromisoformat(row["date"]).timestamp()
    except ValueError:
        return None


def places(rows: list[Row]) -> list[float]:
    """Where each snapshot stands from left to right, 0 to 1000: by its date if all have one, else by its place."""
    times = [time_of(row) for row in rows]
    known = [it for it in times if it is not None]
    if len(known) == len(rows) and known and known[-1] > known[0]:
        return [round(1000 * (it - known[0]) / (known[-1] - known[0]), 2) for it in known]
    return [round(1000 * at / max(1, len(rows) - 1), 2) for at in range(len(rows))]


def step_of(most: int) -> int:
    """The distance of two lines of the grid, of which there are at most six."""
    unit = 1
    while True:
        for step in (unit, 2 * unit, 5 * unit):
            if most <= 5 * step:
                return step
        unit *= 10


def bounds(at: int, xs: list[float]) -> tuple[float, float]:
    """From where to where a snapshot reaches: half way to those beside it."""
    left = 0.0 if at == 0 else (xs[at - 1] + xs[at]) / 2
    right = 1000.0 if at == len(xs) - 1 else (xs[at] + xs[at + 1]) / 2
    return left, right


class Drawn:
    """A chart as SVG that stretches: its lines keep their width, and its labels are texts beside it."""

    def __init__(self, chart: Chart, rows: list[Row], xs: list[float]) -> None:
        self.chart, self.rows, self.xs = chart, rows, xs
        numbers = [it for row in rows for one in chart.series if (it := number(row, one.column)) is not None]
        self.is_empty = not numbers
        self.step = step_of(max([*numbers, 1]))
        self.top = self.step * -(-max([*numbers, 1]) // self.step)

    def y(self, value: int) -> float:
        return round(100 - 100 * value / self.top, 2)

    def line(self, series: Series) -> str:
        """The path of a series: it holds each value until the next snapshot, and breaks where there is none."""
        parts, last = [], None
        for row, x in zip(self.rows, self.xs):
            value = number(row, series.column)
            if value is None:
                last = None
            elif last is None:
                parts.append(f"M{x:g} {self.y(value):g}h0")
            else:
                parts.append(f"H{x:g}" + (f"V{self.y(value):g}" if value != last else ""))
            last = value
        return "".join(parts)

    def bands(self, word: str, colour: str) -> str:
        """Where a fork is, or may be."""
        found = []
        for at, row in enumerate(self.rows):
            if row.get("fork") == word:
                left, right = bounds(at, self.xs)
                found.append((left, max(right - left, 2.5)))
        whole = "".join(f"M{left:g} 0h{width:g}v100h-{width:g}z" for left, width in found)
        edge = "".join(f"M{left:g} 97h{width:g}v3h-{width:g}z" for left, width in found)
        return (
            f'<path d="{whole}" style="fill:{colour};fill-opacity:.25"/><path d="{edge}" style="fill:{colour}"/>'
            if found
            else ""
        )

    def links(self) -> Iterator[str]:
        """For each snapshot a strip with its numbers, which leads to its row."""
        for at, row in enumerate(self.rows):
            left, right = bounds(at, self.xs)
            said = row["fault"] or "; ".join(f"{it.name} {row.get(it.column, '')}" for it in self.chart.series) + {
                "yes": "; it can fork",
                "unknown": "; whether it can fork is unknown",
            }.get(row.get("fork", ""), "")
            title = html.escape(f"{row['date'] or row['file']}: {said}")
            strip = f'<rect x="{left:g}" y="0" width="{right - left:g}" height="100" fill-opacity="0"/>'
            yield f'<a href="#s{at}" data-chart="{self.chart.word}"><title>{title}</title>{strip}</a>'

    def svg(self) -> str:
        levels = range(0, self.top + 1, self.step)
        grid = "".join(
            f'<line class="grid" x1="0" x2="1000" y1="{self.y(it):g}" y2="{self.y(it):g}"/>' for it in levels
        )
        lines = "".join(
            f'<path class="line" d="{self.line(it)}" style="stroke:{colour}"/>'
            for it, colour in zip(self.chart.series, COLOURS)
        )
        inside = grid + self.bands("yes", FORK) + self.bands("unknown", UNSURE) + lines + "".join(self.links())
        marks = "".join(f'<span class="y" style="top:{self.y(it):g}%">{it}</span>' for it in levels)
        opening = (
            f'<svg viewBox="0 0 1000 100" preserveAspectRatio="none" aria-label="{html.escape(self.chart.title)}">'
        )
        return f'<div class="chart">{opening}{inside}</svg>{marks}{self.dates()}</div>'

    def dates(self) -> str:
        """Up to five dates below the chart."""
        count = len(self.rows)
        if count < 2:
            return ""
        picked = sorted({round(it * (count - 1) / 4) for it in range(5)})
        found = []
        for at in picked:
            place = "first" if at == 0 else "last" if at == count - 1 else "middle"
            text = html.escape(self.rows[at]["date"][:10] or str(at + 1))
            found.append(f'<span class="x {place}" style="left:{self.xs[at] / 10:g}%">{text}</span>')
        return "".join(found)

    def key(self) -> str:
        parts = [
            f'<span><i style="background:{colour}"></i>{html.escape(it.name)}</span>'
            for it, colour in zip(self.chart.series, COLOURS)
        ]
        marks = [("yes", FORK, "it can fork"), ("unknown", UNSURE, "whether it can fork is unknown")]
        parts += [
            f'<span><i class="band" style="background:{colour};opacity:.4"></i>{said}</span>'
            for word, colour, said in marks
            if any(row.get("fork") == word for row in self.rows)
        ]
        return f'<div class="key">{"".join(parts)}</div>'

    def section(self) -> str:
        head = f"<h2>{html.escape(self.chart.title)}</h2><p>{html.escape(self.chart.said)}</p>"
        if self.is_empty:
            words = sorted({row.get(it.column, "") for row in self.rows for it in self.chart.series} - {""})
            return (
                head + f"<p>No snapshot has a number here: {html.escape(', '.join(words) or 'each has a fault')}.</p>"
            )
        return head + self.key() + self.svg()


class Links:
    """Where the certificates and the pages of single snapshots lie, from the page."""

    def __init__(self, table: str, page: str, reports: Optional[str]) -> None:
        self.here = os.path.dirname(os.path.abspath(page))
        self.certificates = os.path.splitext(os.path.abspath(table))[0] + "-certificates"
        self.reports = reports

    def to(self, path: str, text: str) -> str:
        """A link, if the file is there, and else the text."""
        if not os.path.exists(path):
            return html.escape(text)
        place = urllib.parse.quote(os.path.relpath(os.path.abspath(path), self.here))
        return f'<a href="{html.escape(place)}">{html.escape(text)}</a>'

    def certificate(self, row: Row, column: str, text: str) -> str:
        """A cell's text as a link to its certificate."""
        digest = row.get(column, "")
        return self.to(os.path.join(self.certificates, digest + ".cert"), text) if digest else html.escape(text)

    def report(self, row: Row) -> str:
        """The snapshot's name, as a link to its page."""
        name = os.path.basename(row["file"])
        return (
            html.escape(name)
            if self.reports is None
            else self.to(os.path.join(self.reports, os.path.splitext(name)[0] + ".html"), name)
        )


def table_columns(rows: list[Row]) -> list[tuple[str, str, str]]:
    """What the table of the page shows: the heading, the column, and that of the certificate."""
    found = [
        ("nodes", "nodes", ""),
        ("quorum", "quorum", ""),
        ("can fork", "fork", "fork_certificate"),
        ("whole file can fork", "file_fork", "file_fork_certificate"),
    ]
    found += [
        ("top tier" if it.name == "nodes" else f"top tier {it.name}", it.column, "") for it in kinds(rows, "top_tier")
    ]
    found.append(("smallest quorum", "smallest_quorum", "smallest_quorum_certificate"))
    for name in LISTS:
        for it in kinds(rows, name, "_smallest"):
            head = name if it.name == "nodes" else f"{name} {it.name}"
            stem = it.column.removesuffix("_smallest")
            found += [(head, it.column, stem + "_certificate"), (f"{head}: sets", stem + "_number", "")]
    return found


def table(rows: list[Row], links: Links) -> str:
    """All snapshots, each with its numbers and the links to its certificates."""
    columns = table_columns(rows)
    head = "".join(f"<th>{html.escape(it)}</th>" for it in ("date", "snapshot", *(head for head, _, _ in columns)))
    lines = []
    for at, row in enumerate(rows):
        first = f"<td>{html.escape(row['date'])}</td><td>{links.report(row)}</td>"
        if row["fault"]:
            rest = f'<td class="fault" colspan="{len(columns)}">{html.escape(row["fault"])}</td>'
        else:
            rest = "".join(
                f'<td data-column="{html.escape(column)}"{marked(row, column)}>'
                f'{links.certificate(row, proof, row.get(column, ""))}</td>'
                for _, column, proof in columns
            )
        lines.append(f'<tr id="s{at}">{first}{rest}</tr>')
    return f'<div class="wide"><table><thead><tr>{head}</tr></thead><tbody>{"".join(lines)}</tbody></table></div>'


def marked(row: Row, column: str) -> str:
    return ' class="bad"' if column in ("fork", "file_fork") and row.get(column) == "yes" else ""


def counted(count: int, one: str) -> str:
    return f"{count:,} {one}" + "s" * (count != 1)


def verdict(rows: list[Row]) -> str:
    """How many can fork, are unknown, or have a fault."""
    forks, unsure, faults = (
        (
            sum(it)
            for it in zip(
                *((row.get("fork") == "yes", row.get("fork") == "unknown", bool(row["fault"])) for row in rows)
            )
        )
        if rows
        else (0, 0, 0)
    )
    said = (
        f'<span class="bad">{counted(forks, "snapshot")} can fork</span>' if forks else "No snapshot is known to fork"
    )
    files = sum(row.get("file_fork") == "yes" and row.get("fork") != "yes" for row in rows)
    said += f"; {files:,} can as a whole file, of which a watcher on whom nobody depends is enough" * bool(files)
    said += f"; of {unsure:,} it is unknown" * bool(unsure) + f"; {faults:,} could not be read or asked" * bool(faults)
    return f'<p class="verdict">{said}.</p>'


def now(rows: list[Row], drawn: list[Chart]) -> str:
    """The last snapshot's numbers."""
    last = next((row for row in reversed(rows) if not row["fault"]), None)
    if last is None:
        return ""
    cells = [("can fork", last.get("fork", ""))]
    cells += [
        (f"{chart.word.replace('_', ' ')}, {it.name}", last.get(it.column, ""))
        for chart in drawn[:-1]
        for it in chart.series
    ]
    tiles = "".join(
        f"<div><b>{html.escape(value)}</b><span>{html.escape(name)}</span></div>"
        for name, value in cells
        if value not in ("", "not asked")
    )
    return f'<h2>{html.escape(last["date"] or last["file"])}, the last one</h2><div class="now">{tiles}</div>'


def page(rows: list[Row], table_path: str, page_path: str, reports: Optional[str] = None) -> str:
    """The page of a table's rows."""
    drawn, xs = charts(rows), places(rows)
    dates = [row["date"][:10] for row in rows if row["date"]]
    title = counted(len(rows), "snapshot") + (f", {dates[0]} to {dates[-1]}" if dates else "")
    asked = sorted({row["asked"] for row in rows})
    said = "Each number is an answer of the proved program; its certificate is linked in the table below."
    head = f'<h1>{html.escape(title)}</h1>{verdict(rows)}<p>{said} Asked: {html.escape("; ".join(asked))}.</p>'
    body = (
        head
        + now(rows, drawn)
        + "".join(Drawn(it, rows, xs).section() for it in drawn)
        + "<h2>All snapshots</h2>"
        + table(rows, Links(table_path, page_path, reports))
    )
    return f"{OPENING}<title>{html.escape(title)}</title><style>{STYLE}</style></head><body>{body}</body></html>\n"


def plots(rows: list[Row], folder: str) -> None:
    """Each chart as SVG and PNG, by matplotlib."""
    matplotlib: Any = importlib.import_module("matplotlib")
    matplotlib.use("Agg")
    matplotlib.rcParams["svg.hashsalt"] = "quorums"
    os.makedirs(folder, exist_ok=True)
    for chart in charts(rows):
        figure = plotted(importlib.import_module("matplotlib.pyplot"), chart, rows)
        figure.savefig(os.path.join(folder, chart.word + ".svg"), metadata={"Date": None})
        figure.savefig(os.path.join(folder, chart.word + ".png"), dpi=150)
        importlib.import_module("matplotlib.pyplot").close(figure)


def plotted(pyplot: Any, chart: Chart, rows: list[Row]) -> Any:
    """A chart as a figure of matplotlib."""
    figure, axes = pyplot.subplots(figsize=(10, 4), layout="constrained")
    dated = all(time_of(row) is not None for row in rows)
    xs: list[Any] = (
        [datetime.datetime.fromisoformat(row["date"]) for row in rows] if dated else list(range(1, len(rows) + 1))
    )
    for series, colour in zip(chart.series, COLOURS):
        values = [number(row, series.column) for row in rows]
        axes.step(
            xs, [float("nan") if it is None else it for it in values], where="post", color=colour, label=series.name
        )
    for word, colour, said in (("yes", FORK, "it can fork"), ("unknown", UNSURE, "unknown whether it can fork")):
        at = [x for x, row in zip(xs, rows) if row.get("fork") == word]
        if at:
            axes.plot(at, [0] * len(at), "|", color=colour, markersize=14, label=said)
    axes.set_title(chart.title, loc="left", pad=26)
    axes.set_ylim(bottom=0)
    axes.yaxis.get_major_locator().set_params(integer=True)
    axes.grid(True, alpha=0.3)
    axes.legend(loc="lower left", bbox_to_anchor=(0, 1), ncol=6, frameon=False, borderaxespad=0.2, handlelength=1.4)
    return figure
