"""The page of a table over time: its numbers are the table's, its links lead to files, and it loads nothing."""

from __future__ import annotations

import html.parser
import os
import re
from pathlib import Path
from typing import Any

import pytest
from drifting import make
from networks import as_json, flat

from quorums import bulk, history_page, tables
from quorums.summary import Asked

ASKED = Asked(("org", "country"), budget=2000)


class Read(html.parser.HTMLParser):
    """What a page has: the cells of each row, the titles of the strips of each chart, and all that is linked or
    loaded."""

    def __init__(self, text: str) -> None:
        super().__init__()
        self.rows: dict[str | None, dict[int | str, str]] = {}
        self.strips: dict[str, dict[str, str]] = {}
        self.links: list[str] = []
        self.loaded: list[Any] = []
        self.paths = 0
        self.row: Any = None
        self.cell: Any = None
        self.strip: Any = None
        self.feed(text)

    def handle_starttag(self, tag: str, attributes: list[tuple[str, str]]) -> None:
        held = dict(attributes)
        if tag == "tr":
            self.row = held.get("id")
            self.rows[self.row] = {}
        if tag == "td" and self.row:
            self.cell = held.get("data-column") or held.get("class") or len(self.rows[self.row])
            self.rows[self.row][self.cell] = ""
        if tag == "a":
            self.links.append(held["href"])
            self.strip = (held.get("data-chart"), held["href"])
        self.loaded += [held[it] for it in ("src", "srcset", "data", "poster") if it in held]
        self.loaded += [tag] * (tag in ("link", "script", "iframe", "image", "use"))
        self.paths += tag == "path"

    def handle_endtag(self, tag: str) -> None:
        if tag == "td":
            self.cell = None
        if tag == "a":
            self.strip = None

    def handle_data(self, data: str) -> None:
        if self.cell is not None:
            self.rows[self.row][self.cell] += data
        elif self.strip is not None and self.strip[0]:
            self.strips.setdefault(self.strip[0], {})[self.strip[1]] = data


@pytest.fixture(scope="module")
def made(tmp_path_factory: Any) -> tuple[Path, list[dict[str, str]], str]:
    """A table of snapshots, one of which can fork, one of which is unknown and one of which is broken; its page."""
    place = tmp_path_factory.mktemp("history")
    make(str(place / "nodes"), 6, 1, watchers=5, organisations=7)
    (place / "nodes" / "nodes-2022-03-01.json").write_bytes(as_json(flat(4, 2)))
    (place / "nodes" / "nodes-2022-03-02.json").write_bytes(as_json(flat(24, 13)))
    (place / "nodes" / "nodes-2022-03-03 <b>.json").write_bytes(b"[")
    (place / "reports").mkdir()
    (place / "reports" / "nodes-2022-01-02.html").write_text("a page")
    table = str(place / "table.csv")
    bulk.rows([str(place / "nodes")], table, ASKED, jobs=1)
    page = str(place / "history.html")
    with open(page, "w", encoding="utf-8") as it:
        it.write(history_page.page(tables.read(table), table, page, str(place / "reports")))
    return place, tables.read(table), page


def text_of(path: str) -> str:
    with open(path, encoding="utf-8") as it:
        return it.read()


def test_the_numbers_are_those_of_the_table(made: tuple[Path, list[dict[str, str]], str]) -> None:
    _, rows, page = made
    read = Read(text_of(page))
    assert [f"s{at}" for at in range(len(rows))] == [it for it in read.rows if it]
    shown = {column for _, column, _ in history_page.table_columns(rows)}
    assert {
        "fork",
        "top_tier",
        "top_tier_by_org",
        "smallest_quorum",
        "blocking_smallest",
        "blocking_by_country_smallest",
        "splitting_by_org_smallest",
    } <= shown
    for at, row in enumerate(rows):
        found = read.rows[f"s{at}"]
        if row["fault"]:
            assert found["fault"] == row["fault"]
        else:
            assert {column: found[column] for column in shown} == {column: row[column] for column in shown}


def test_each_point_of_a_chart_says_the_tables_numbers(made: tuple[Path, list[dict[str, str]], str]) -> None:
    _, rows, page = made
    read = Read(text_of(page))
    for chart in history_page.charts(rows):
        if all(history_page.number(row, it.column) is None for row in rows for it in chart.series):
            assert chart.word not in read.strips
            continue
        for at, row in enumerate(rows):
            said = read.strips[chart.word][f"#s{at}"]
            if row["fault"]:
                assert said.endswith(row["fault"])
                continue
            numbers = [f"{it.name} {row[it.column]}" for it in chart.series]
            assert said.split(": ", 1)[1].split("; ")[: len(numbers)] == numbers
            assert ("it can fork" in said) == (row["fork"] == "yes")


def test_the_lines_go_through_the_tables_numbers(made: tuple[Path, list[dict[str, str]], str]) -> None:
    """The path of each series, followed from left to right, is at the number of each snapshot."""
    _, rows, _ = made
    xs = history_page.places(rows)
    assert xs[0] == 0 and xs[-1] == 1000 and xs == sorted(xs)
    for chart in history_page.charts(rows):
        drawn = history_page.Drawn(chart, rows, xs)
        for series in chart.series:
            numbers = [history_page.number(row, series.column) for row in rows]
            assert followed(drawn.line(series), drawn.top) == [(x, it) for x, it in zip(xs, numbers) if it is not None]


def followed(path: str, top: int) -> list[tuple[float, int]]:
    """The places and numbers at which a path comes to a snapshot."""
    found: list[tuple[float, int]] = []
    x = None
    y = None
    for letter, numbers in re.findall(r"([MHV])([-\d. ]+)(?:h0)?", path):
        values = [float(it) for it in numbers.split()]
        if letter == "M":
            x, y = values
        elif letter == "H":
            x = values[0]
        else:
            y = values[0]
            found.pop()
        found.append((x, round((100 - y) * top / 100)))
    return found


def test_forks_unknowns_and_faults_are_marked(made: tuple[Path, list[dict[str, str]], str]) -> None:
    _, rows, page = made
    text = text_of(page)
    assert [row["fork"] for row in rows if not row["fault"]].count("yes") == 1
    assert "1 snapshot can fork" in text and "1 could not be read or asked" in text
    assert text.count('fill-opacity:.25"/>') >= 4
    assert "&lt;b&gt;" in text and "<b>.json" not in text


def test_links_lead_to_files_and_nothing_is_loaded(made: tuple[Path, list[dict[str, str]], str]) -> None:
    place, rows, page = made
    read = Read(text_of(page))
    assert not read.loaded and "url(" not in text_of(page) and "@import" not in text_of(page)
    files = [it for it in read.links if not it.startswith("#")]
    assert "reports/nodes-2022-01-02.html" in files
    assert sum(it.endswith(".cert") for it in files) >= 4 * 7
    for it in files:
        assert os.path.exists(os.path.join(place, it)), it
    for it in set(read.links) - set(files):
        assert it[1:] in read.rows


def test_a_table_without_rows_or_dates(tmp_path: Path) -> None:
    table = str(tmp_path / "t.csv")
    with open(table, "w", encoding="utf-8") as it:
        it.write(tables.as_text(tables.columns(ASKED), []))
    assert "0 snapshots" in history_page.page(tables.read(table), table, str(tmp_path / "h.html"))
    row = {"file": "a.json", "asked": "x", "fault": "config not-json"}
    with open(table, "w", encoding="utf-8") as it:
        it.write(tables.as_text(tables.columns(ASKED), [row, row]))
    assert "config not-json" in history_page.page(tables.read(table), table, str(tmp_path / "h.html"))


def test_plots_are_the_same_each_time(made: tuple[Path, list[dict[str, str]], str], tmp_path: Path) -> None:
    pytest.importorskip("matplotlib")
    _, rows, _ = made
    for folder in ("one", "two"):
        history_page.plots(rows, str(tmp_path / folder))
    names = sorted(os.listdir(tmp_path / "one"))
    assert names == sorted(f"{chart.word}.{kind}" for chart in history_page.charts(rows) for kind in ("png", "svg"))
    for name in names:
        data = [(tmp_path / folder / name).read_bytes() for folder in ("one", "two")]
        assert data[0] == data[1] and len(data[0]) > 5000
        assert data[0].startswith(b"\x89PNG" if name.endswith("png") else b"<?xml")
