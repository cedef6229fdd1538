"""Runs the program on files that were made to break it, and searches whose certificates find no room."""

from __future__ import annotations

import os
import resource
import signal
from pathlib import Path
from typing import Any

import pytest
from malicious import OLD, THREE, TOGETHER, Row, every_row

SEARCHES = [
    "intersect config made",
    "intersect config made --faulty a",
    "blocking config made",
    "quorums config made",
    "least config made",
    "org-blocking config made --orgs orgs",
]


@pytest.mark.parametrize("row", every_row(), ids=lambda row: row.name)
def test_a_file_made_to_break_the_program_gets_its_one_answer(run: Any, tmp_path: Path, row: Row) -> None:
    for name, data in row.files.items():
        (tmp_path / name).write_bytes(data() if callable(data) else data)
    assert run(*row.words, cwd=tmp_path) == (row.status, row.text, "")
    # (some are great, and pytest keeps the folders of its last three runs)
    for name in row.files:
        (tmp_path / name).unlink()


@pytest.mark.parametrize("line", SEARCHES)
def test_a_certificate_without_room_leaves_the_old_file(run: Any, tmp_path: Path, line: str) -> None:
    """Behind so many bytes, for each number below its length; and its first bytes are refused as truncated."""
    made, front, words = tmp_path / "made", tmp_path / "front", line.split()
    beside = words[-2:] if "--orgs" in words else []
    (tmp_path / "config").write_bytes(THREE)
    (tmp_path / "orgs").write_bytes(TOGETHER)
    made.write_bytes(OLD)
    run(*words, cwd=tmp_path)
    whole = made.read_bytes()
    made.write_bytes(OLD)
    files = os.listdir(tmp_path)
    for most in range(len(whole)):

        def no_room() -> None:
            signal.signal(signal.SIGXFSZ, signal.SIG_IGN)
            resource.setrlimit(resource.RLIMIT_FSIZE, (most, most))

        ended = run(*words, cwd=tmp_path, preexec_fn=no_room)
        assert ended == (7, "", ""), f"room for {most} bytes"
        assert (made.read_bytes(), os.listdir(tmp_path)) == (OLD, files), f"room for {most} bytes"
        if most % 8 == 0:
            refused = f"refused truncated {1 + whole[:most].count(10)}\n"
            front.write_bytes(whole[:most])
            assert run("check", "config", "front", *beside, cwd=tmp_path) == (
                5,
                refused,
                "",
            ), f"the first {most} bytes"
            front.unlink()
