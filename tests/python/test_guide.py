"""Each example of docs/ANALYSTS.md prints what stands there, in order in one folder."""

from __future__ import annotations

import os
import re
import shutil
import subprocess
import sys
from collections.abc import Iterator
from pathlib import Path
from typing import Any

import pytest
from chosen import PACKAGE, TOP


def blocks() -> list[tuple[str, str]]:
    with open(os.path.join(TOP, "docs", "ANALYSTS.md"), encoding="utf-8") as it:
        return re.findall(r"^```(\w*)\n(.*?)^```", it.read(), re.M | re.S)


def examples() -> Iterator[tuple[str, str, list[str] | None]]:
    """Each command with the lines that it prints, and the code in Python."""
    for language, text in blocks():
        if language == "python":
            yield "python", text, None
        for part in re.split(r"^\$ ", text, flags=re.M)[1:]:
            command, *lines = part.splitlines()
            yield "shell", command, lines


def matches(wanted: list[str], found: str) -> bool:
    """Whether the lines are those of the document, in which `..` stands for what is left out."""
    pattern = "".join(
        r"(?:.*\n)*" if it == ".." else re.escape(it[:-2]) + r".*\n" if it.endswith("..") else re.escape(it) + r"\n"
        for it in wanted
    )
    return re.fullmatch(pattern, found) is not None


@pytest.fixture(scope="module")
def place(tmp_path_factory: Any) -> Path:
    """A folder with the examples, and the command on the path."""
    found = tmp_path_factory.mktemp("guide")
    os.symlink(os.path.join(TOP, "examples"), found / "examples")
    (found / "bin").mkdir()
    command = found / "bin" / "quorums"
    command.write_text(f'#!/bin/sh\nexec "{sys.executable}" -m quorums "$@"\n')
    command.chmod(0o755)
    return found


def test_the_examples(place: Path) -> None:
    environment = {**os.environ, "PYTHONPATH": PACKAGE, "PATH": f"{place / 'bin'}{os.pathsep}{os.environ['PATH']}"}
    ran = 0
    for language, text, wanted in examples():
        if language == "python":
            pytest.importorskip("pandas")
            ended = subprocess.run(
                [sys.executable, "-c", text],
                cwd=place,
                env=environment,
                stdout=subprocess.PIPE,
                stderr=subprocess.STDOUT,
                timeout=300,
            )
            assert ended.returncode == 0, ended.stdout.decode()
            assert all(it in ended.stdout.decode() for it in ("alder", "['org:alder', 'org:beech']", "2024-01-03"))
        elif not (" jq " in text and not shutil.which("jq")):
            ended = subprocess.run(
                ["bash", "-c", text],
                cwd=place,
                env=environment,
                stdin=subprocess.DEVNULL,
                stdout=subprocess.PIPE,
                stderr=subprocess.PIPE,
                timeout=300,
            )
            assert matches(wanted, ended.stdout.decode()), (text, ended.stdout.decode(), ended.stderr.decode())
        ran += 1
    assert ran >= 15


def test_an_example_that_prints_something_else_is_seen() -> None:
    assert (
        matches(["a", ".."], "a\nb\nc\n")
        and matches(["a.."], "ab\n")
        and not matches(["a"], "b\n")
        and not matches([], "a\n")
    )
