"""Asks about many snapshots of a drifting network: in processes here and on a cluster, and beside the program alone.

On two and on four workers of dask.distributed, the first of which is ended by a signal half way, rows and certificates
are byte for byte those of the processes here. The history page is looked at in Chromium at two widths, and its numbers
are the table's. With -s it says what the table took by the clock beside the program's own seconds of processor for the
same questions, and what a call through the package takes beside a run of the program: at rest these are at most 1.3
times their share of the processes, and 10 ms. With --basetemp=FOLDER the table, the page and its pictures are kept.
"""

from __future__ import annotations

import json
import os
import resource
import shutil
import subprocess
import tempfile
import threading
import time
from collections.abc import Callable
from pathlib import Path
from typing import Any

import browser
import chosen
import drifting
import pytest
from test_bulk import Cluster, held

# (these are tried on the page here as well, whose fixture has the name of theirs)
from test_history import (  # noqa: F401
    test_each_point_of_a_chart_says_the_tables_numbers,
    test_the_lines_go_through_the_tables_numbers,
    test_the_numbers_are_those_of_the_table,
)

from quorums import Quorums, bulk, history_page
from quorums.summary import Asked

pytestmark = pytest.mark.long

QUESTIONS = Asked(("org", "country"))
WIDTHS = {"phone": 390, "desk": 1280}
# How wide and high a page is, and how many charts it has that lie inside.
MEASURES = """JSON.stringify([document.documentElement.scrollWidth, document.documentElement.scrollHeight,
  [...document.querySelectorAll('svg')].filter(it => it.getBoundingClientRect().right <= innerWidth).length])"""
NODES = 200
Made = tuple[Path, list[dict[str, Any]], str]


def own_seconds(table: str, cert: str, rows: list[dict[str, Any]]) -> float:
    """The program's seconds of processor for the questions of all rows that differ."""
    room = os.path.splitext(table)[0] + "-certificates/"
    began, units = used(), ["--budget", str(QUESTIONS.budget)]
    columns = ["config", "view", *(f"blocking_by_{by}_orgs" for by in QUESTIONS.by)]
    for config, view, *orgs in {tuple(row[it] for it in columns) for row in rows}:
        file, seen = f"{room}{config}.json", ["--from", view] if view else []
        asked = [["greatest", file], ["greatest", file, *seen], ["intersect", file, cert, *units]]
        asked += [["closure", file, "--node", view]] if view else []
        asked += [[word, file, cert, *seen, *units] for word in ("intersect", "blocking", "least")]
        asked += [["org-blocking", file, cert, "--orgs", f"{room}{it}.orgs.json", *seen, *units] for it in orgs]
        for words in asked:
            subprocess.run([chosen.path(), *words], stdout=subprocess.DEVNULL)
    return used() - began


def used() -> float:
    it = resource.getrusage(resource.RUSAGE_CHILDREN)
    return it.ru_utime + it.ru_stime


def least(call: Callable[[], Any], times: int = 30) -> float:
    """The least milliseconds of some calls."""
    took = []
    for _ in range(times):
        began = time.perf_counter()
        call()
        took.append(1000 * (time.perf_counter() - began))
    return min(took)


@pytest.fixture(scope="module")
def count(cases: Callable[[int, int], int]) -> int:
    return cases(1000, 1000)


@pytest.fixture(scope="module")
def made(program: str, count: int, tmp_path_factory: pytest.TempPathFactory) -> Made:
    """The snapshots, the rows of their table by processes here, and the history page."""
    place, jobs = tmp_path_factory.mktemp("snapshots"), len(os.sched_getaffinity(0))
    drifting.make(str(place / "nodes"), count, count * 3 // 10)
    table, page, began = str(place / "table.csv"), str(place / "history.html"), time.monotonic()
    rows = bulk.rows([str(place / "nodes")], table, QUESTIONS, jobs=jobs)
    took, load = time.monotonic() - began, os.getloadavg()[0]
    own = own_seconds(table, str(place / "asked.cert"), rows)
    share = own / jobs
    print(f"{len(rows)} rows by {jobs} processes took {took:.1f} s, load {load:.1f}; the program's own {own:.1f} s of")
    print(f"processor, a share of {share:.1f}: {took / share:.2f} times")
    with open(page, "w", encoding="utf-8") as it:
        it.write(history_page.page(rows, table, page))
    return place, rows, page


def test_each_snapshot_has_a_row(made: Made, count: int) -> None:
    assert len(made[1]) == count and not any(it["fault"] for it in made[1])


@pytest.mark.parametrize("workers", [2, 4])
def test_the_rows_are_the_same_on_a_cluster_that_loses_a_worker(made: Made, count: int, workers: int) -> None:
    pytest.importorskip("distributed")
    place = made[0] / f"cluster-{workers}"
    place.mkdir()
    cluster, table = Cluster(place, workers), str(place / "table.csv")

    def half() -> bool:
        try:
            with open(table + ".part", encoding="utf-8") as it:
                return len(it.readlines()) > count / 2
        except OSError:
            return False

    def kill() -> None:
        while not half():
            time.sleep(0.05)
        cluster.workers[0].kill()

    threading.Thread(target=kill, daemon=True).start()
    try:
        began = time.monotonic()
        bulk.rows([str(made[0] / "nodes")], table, QUESTIONS, scheduler=cluster.address)
        print(f"{workers} workers of a cluster, one of them ended half way, took {time.monotonic() - began:.1f} s")
        assert held(table) == held(str(made[0] / "table.csv"))
        assert cluster.workers[0].poll() is not None, "no worker was ended"
    finally:
        cluster.close()


@pytest.mark.browser
@pytest.mark.parametrize("width", WIDTHS)
def test_the_history_page_fits(made: Made, width: str) -> None:
    chromium = shutil.which("chromium")
    assert chromium
    with tempfile.TemporaryDirectory() as profile:
        seen = browser.Browser(chromium, profile)
        seen.open(made[2], WIDTHS[width], "light")
        across, high, charts = seen.told(MEASURES)
        seen.picture(str(made[0] / f"history-{width}.png"), min(high, 6000))
        seen.end()
    assert across <= WIDTHS[width] and charts >= 3, (across, charts)


def test_a_call_through_the_package_answers_as_the_program(program: str, tmp_path: Path) -> None:
    """Each the least of thirty; what they take is said."""
    network = drifting.Network(1, watchers=NODES - 21, organisations=7)
    config, cert = tmp_path / "one.json", str(tmp_path / "one.cert")
    data = json.dumps(network.nodes(1)).encode()
    config.write_bytes(data)
    asked: list[tuple[str, list[str]]] = [("greatest", []), ("intersect", [cert])]
    for word, more in asked:
        words = [program, word, str(config), *more]
        its = least(lambda: subprocess.run(words, stdout=subprocess.DEVNULL, check=True))
        package = least(lambda: getattr(Quorums(data), word)())
        print(f"{word} of {NODES} nodes: the program {its:.1f} ms, the package {package:.1f} ms")
