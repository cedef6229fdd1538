"""Many snapshots: the same rows and certificates however they are asked, and none lost or doubled."""

from __future__ import annotations

import json
import os
import signal
import subprocess
import sys
import threading
import time
from pathlib import Path
from typing import Any

import pytest
from chosen import PACKAGE
from drifting import make
from networks import as_json, flat, node

from quorums import bulk, tables
from quorums.summary import Asked

ASKED = Asked(("org", "country"), budget=2000)
ENVIRONMENT = {**os.environ, "PYTHONPATH": PACKAGE}


@pytest.fixture(scope="module")
def folder(tmp_path_factory: Any) -> str:
    """Some snapshots: drifting ones, equal ones, broken ones."""
    place = tmp_path_factory.mktemp("snapshots")
    make(str(place), 10, 3, watchers=6, organisations=7)
    (place / "nodes-2022-02-01.json").write_bytes(b"[{")
    (place / "nodes-2022-02-02.json").write_bytes(as_json([node("a", 1, ["a"]), node("a")]))
    (place / "nodes-2022-02-03.json").write_bytes(as_json([node("a", 1, ["a"], geoData={"countryCode": ["DE"]})]))
    (place / "nodes-2022-02-04.json").mkdir()
    (place / "undated.json").write_bytes(as_json(flat(4, 3)))
    return str(place)


def held(path: str) -> tuple[bytes, dict[str, bytes]]:
    """The bytes of a table, and of all its certificates by name."""
    with open(path, "rb") as it:
        table = it.read()
    room = os.path.splitext(path)[0] + "-certificates"
    files = {}
    for name in os.listdir(room):
        with open(os.path.join(room, name), "rb") as it:
            files[name] = it.read()
    return table, files


@pytest.fixture(scope="module")
def one(folder: str, tmp_path_factory: Any) -> str:
    """What one process makes of them."""
    table = str(tmp_path_factory.mktemp("one") / "table.csv")
    bulk.rows([folder], table, ASKED, jobs=1)
    return table


def test_a_row_for_each_file(one: str) -> None:
    rows = tables.read(one)
    assert len(rows) == 15
    faults = {row["file"][-15:]: row["fault"] for row in rows if row["fault"]}
    assert faults == {
        "2022-02-01.json": "config not-json",
        "2022-02-02.json": "config duplicate 1",
        "2022-02-03.json": "geoData.countryCode of a is no text, number or truth value",
        "2022-02-04.json": "Is a directory",
    }
    assert [row["date"] for row in rows[:3]] == ["2022-01-01", "2022-01-02", "2022-01-03"]
    assert (rows[-1]["file"][-12:], rows[-1]["date"], rows[-1]["blocking_smallest"]) == ("undated.json", "", "2")
    assert list(rows[0]) == tables.columns(ASKED)


def test_the_rows_are_those_of_the_summaries(one: str) -> None:
    from quorums.summary import cells, summary

    for row in tables.read(one)[:3]:
        with open(row["file"], "rb") as nodes, open(row["file"].replace(".json", "-orgs.json"), "rb") as orgs:
            assert {**row, **cells(summary(nodes.read(), orgs.read(), ASKED))} == row


def test_each_certificate_is_accepted(one: str) -> None:
    from quorums import Quorums

    _, files = held(one)
    checked = 0
    for row in tables.read(one):
        for column in row:
            if column.endswith("_certificate") and row[column]:
                orgs = files[row[column.replace("_certificate", "_orgs")] + ".orgs.json"] if "_by_" in column else b""
                assert Quorums(files[row["config"] + ".json"], orgs=orgs).check(files[row[column] + ".cert"]).kind
                checked += 1
    assert checked >= 11 * 3


def read_of(path: str) -> str:
    """What is read of a sound snapshot: keys, quorum sets and countries, and the file of organisations."""
    with open(path, encoding="utf-8") as it:
        nodes = {node["publicKey"]: [node["quorumSet"], node.get("geoData")] for node in json.load(it)}
    orgs = path.replace(".json", "-orgs.json")
    return json.dumps([nodes, held_table(orgs).decode() if os.path.exists(orgs) else ""], sort_keys=True)


def test_a_pipe_in_a_folder_is_no_snapshot(tmp_path: Path) -> None:
    os.mkfifo(tmp_path / "pipe.json")
    (tmp_path / "folder.json").mkdir()
    (tmp_path / "gone.json").symlink_to(tmp_path / "nowhere")
    (tmp_path / "2026-01-01.json").write_text("[]")
    found = [os.path.basename(it.path) for it in bulk.files_of([str(tmp_path)])]
    assert found == ["2026-01-01.json", "folder.json", "gone.json"]


def test_equal_snapshots_are_asked_once(folder: str, tmp_path: Path, monkeypatch: pytest.MonkeyPatch) -> None:
    asked: list[str] = []
    monkeypatch.setattr(
        bulk,
        "local",
        lambda tasks, questions, jobs: (
            (asked.append(it.key), (it.key, bulk.row_of(it.data, it.orgs, questions)))[1] for it in tasks  # type: ignore[func-returns-value]  # noqa: E501
        ),
    )
    bulk.rows([folder], str(tmp_path / "t.csv"), ASKED)
    sound = [row["file"] for row in tables.read(str(tmp_path / "t.csv")) if not row["fault"]]
    assert len(sound) > len({read_of(it) for it in sound}) == len(asked) == len(set(asked))


def test_more_processes_give_the_same_bytes(folder: str, one: str, tmp_path: Path) -> None:
    table = str(tmp_path / "table.csv")
    bulk.rows([folder], table, ASKED, jobs=3)
    assert held(table) == held(one)


def command(folder: str, table: str, *more: str) -> list[str]:
    return [
        sys.executable,
        "-m",
        "quorums",
        "bulk",
        folder,
        "-o",
        table,
        "--by",
        "org,country",
        "--budget",
        "2000",
        *more,
    ]


def workers_of(process: int) -> list[int]:
    found = subprocess.run(
        ["pgrep", "-P", str(process), "-f", "quorums.worker"], stdout=subprocess.PIPE
    ).stdout.split()
    return [int(it) for it in found]


def test_a_worker_that_is_killed_loses_no_row_and_doubles_none(folder: str, one: str, tmp_path: Path) -> None:
    table = str(tmp_path / "table.csv")
    running = subprocess.Popen(command(folder, table, "--jobs", "2"), env=ENVIRONMENT, stderr=subprocess.PIPE)
    killed = 0
    while running.poll() is None and killed < 3:
        for it in workers_of(running.pid)[:1]:
            os.kill(it, signal.SIGKILL)
            killed += 1
        time.sleep(0.02)
    running.communicate()
    assert (running.returncode, killed > 0) == (0, True)
    assert held(table) == held(one)


def test_a_run_that_is_ended_goes_on(folder: str, one: str, tmp_path: Path) -> None:
    table = str(tmp_path / "table.csv")
    running = subprocess.Popen(command(folder, table, "--jobs", "1"), env=ENVIRONMENT, stderr=subprocess.DEVNULL)
    for _ in range(600):
        if os.path.exists(table + ".part") and os.path.getsize(table + ".part") > 0:
            break
        time.sleep(0.1)
    running.kill()
    running.wait()
    with open(table + ".part", encoding="utf-8") as it:
        before = it.read()
    assert before and not os.path.exists(table)
    # (a row that was cut is none)
    with open(table + ".part", "a", encoding="utf-8") as it:
        it.write('{"date": "2022-01-')
    assert (
        subprocess.run(
            command(folder, table, "--jobs", "1", "--resume"), env=ENVIRONMENT, stderr=subprocess.PIPE
        ).returncode
        == 0
    )
    assert held(table) == held(one) and not os.path.exists(table + ".part")


def test_resuming_asks_nothing_that_is_there(folder: str, one: str, tmp_path: Path, monkeypatch: Any) -> None:
    table = str(tmp_path / "table.csv")
    with open(one, "rb") as it, open(table, "wb") as to:
        to.write(it.read())
    monkeypatch.setattr(
        bulk, "local", lambda tasks, questions, jobs: (pytest.fail(f"{it.key} is asked") for it in tasks)
    )
    bulk.rows([folder], table, ASKED, resume=True)
    assert held_table(table) == held_table(one)


def held_table(path: str) -> bytes:
    with open(path, "rb") as it:
        return it.read()


def test_two_runs_do_not_write_one_table(folder: str, tmp_path: Path) -> None:
    table = str(tmp_path / "table.csv")
    journal = bulk.Journal(table, False)
    with pytest.raises(bulk.Failed, match="another run writes"):
        bulk.rows([folder], table, ASKED, jobs=1)
    journal.file.close()


def test_dates_of_names() -> None:
    for name, date in (
        ("nodes-2024-03-05.json", "2024-03-05"),
        ("20240305.json", "2024-03-05"),
        ("x/2024-03-05T12-30-00Z.json", "2024-03-05T12:30:00"),
        ("2024-03-05_1230.json", "2024-03-05T12:30:00"),
        ("nodes.json", ""),
        ("2024-13-05.json", ""),
        ("99991234567.json", ""),
    ):
        assert tables.date_of(name) == date


def test_a_table_as_a_frame(one: str) -> None:
    pandas = pytest.importorskip("pandas")
    frame = tables.frame(one)
    rows = tables.read(one)
    assert len(frame) == len(rows)
    assert frame["date"].iloc[0] == pandas.Timestamp("2022-01-01") and frame["date"].isna().sum() == 1
    for row, (_, found) in zip(rows, frame.iterrows()):
        known = row["blocking_smallest"].isdecimal()
        assert (
            (found["blocking_smallest"] == int(row["blocking_smallest"]))
            if known
            else pandas.isna(found["blocking_smallest"])
        )
        assert found["blocking_smallest_status"] == ("known" if known else row["blocking_smallest"])
        assert pandas.isna(found["fork"]) if row["fault"] else found["fork"] == (row["fork"] == "yes")
        if not row["fault"] and row["splitting_smallest"] == "not asked":
            assert found["splitting_smallest_status"] == "not asked"


# ---- a cluster of dask.distributed, as processes on this machine


class Cluster:
    """A scheduler and some workers."""

    def __init__(self, place: Any, count: int) -> None:
        self.place, self.file = place, str(place / "scheduler.json")
        # (a busy machine answers late)
        bulk.REACHED = 120
        self.scheduler = self.start(
            "distributed.cli.dask_scheduler", "--port", "0", "--no-dashboard", "--scheduler-file", self.file
        )
        for _ in range(1200):
            if os.path.exists(self.file) and os.path.getsize(self.file):
                break
            time.sleep(0.1)
        with open(self.file, encoding="utf-8") as it:
            self.address = json.load(it)["address"]
        self.workers = [
            self.start(
                "distributed.cli.dask_worker",
                self.address,
                "--nthreads",
                "1",
                "--no-nanny",
                "--no-dashboard",
                "--local-directory",
                str(place),
            )
            for _ in range(count)
        ]

    def start(self, module: Any, *words: str) -> Any:
        code = f"import sys; sys.argv[0] = '{module}'; from {module} import main; main()"
        with open(self.place / "log", "ab") as log:
            return subprocess.Popen([sys.executable, "-c", code, *words], env=ENVIRONMENT, stdout=log, stderr=log)

    def close(self) -> None:
        for it in [*self.workers, self.scheduler]:
            it.kill()
            it.wait()


@pytest.mark.parametrize("count", [2, 4])
def test_a_cluster_gives_the_same_bytes(folder: str, one: str, tmp_path: Path, count: int) -> None:
    pytest.importorskip("distributed")
    cluster = Cluster(tmp_path, count)
    try:
        table = str(tmp_path / "table.csv")
        bulk.rows([folder], table, ASKED, scheduler=cluster.address)
        assert held(table) == held(one)
    finally:
        cluster.close()


def test_a_worker_of_a_cluster_that_is_killed_loses_no_row(folder: str, one: str, tmp_path: Path) -> None:
    pytest.importorskip("distributed")
    cluster = Cluster(tmp_path, 2)
    try:
        table = str(tmp_path / "table.csv")

        def kill() -> None:
            for _ in range(600):
                if os.path.exists(table + ".part") and os.path.getsize(table + ".part") > 0:
                    break
                time.sleep(0.05)
            cluster.workers[0].kill()

        killing = threading.Thread(target=kill)
        killing.start()
        bulk.rows([folder], table, ASKED, scheduler=cluster.address)
        killing.join()
        assert held(table) == held(one)
    finally:
        cluster.close()


def test_a_scheduler_that_cannot_be_reached_is_one_line(folder: str, tmp_path: Path) -> None:
    pytest.importorskip("distributed")
    for address in ("tcp://127.0.0.1:1", "nonsense://x", ""):
        ran = subprocess.run(
            command(folder, str(tmp_path / "t.csv"), "--scheduler", address),
            env=ENVIRONMENT,
            stdout=subprocess.PIPE,
            stderr=subprocess.PIPE,
            timeout=120,
        )
        lines = ran.stderr.decode().splitlines()
        assert (
            ran.returncode == 6
            and len(lines) == 1
            and lines[0].startswith(f"quorums: the scheduler {address} cannot be reached")
        ), lines
