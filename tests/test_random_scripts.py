"""Holds `whatif` against a fresh reading of the edited text after each edit, on random systems and scripts.

What is printed of each system has to be what `greatest` and `available` print of a file with its text, which
tests/plain_checker.py makes edit by edit; a script with a faulty line has to end at that line, with its fault.
"""

from __future__ import annotations

import os
import random
from collections.abc import Callable
from pathlib import Path
from typing import Any

import chosen
import fuzz
import plain_checker as plain


def said(*words: str) -> tuple[int, str]:
    """The status and the text of a run."""
    return chosen.run(*words)[:2]


def written(folder: str, name: str, data: bytes) -> str:
    path = os.path.join(folder, name)
    with open(path, "wb") as it:
        it.write(data)
    return path


def state(folder: str, number: int, system: dict[str, tuple[int, list[Any]] | None], names: str) -> str:
    """What is so of a system, read from its text."""
    config = written(folder, "edited", plain.text_of(system))
    return f"edit {number}\n" + said("greatest", config)[1] + said("available", config, "--set=" + names)[1]


def wanted(
    folder: str, system: dict[str, tuple[int, list[Any]] | None], lines: list[bytes], names: str
) -> tuple[int, str]:
    """The status and the text of a script: of each system that its edits make, or of its first fault."""
    text = state(folder, 0, system, names)
    for number, line in enumerate(lines, 1):
        try:
            system = plain.edited(system, line)
        except plain.Fault as fault:
            return 10, f"script {fault} {number}\n"
        text += state(folder, number, system, names)
    return 0, text


def test_each_edit_is_answered_as_its_text_read_anew(
    program: str, tmp_path: Path, cases: Callable[[int, int], int], seed: Callable[[int], int]
) -> None:
    rng, folder = random.Random(seed(1)), str(tmp_path)
    for case in range(cases(60, 1000)):
        config = fuzz.random_config(rng)
        system = plain.system_of(config)
        script = fuzz.random_script(rng, system)
        names = ",".join(rng.sample(sorted(system), rng.randint(0, min(3, len(system)))))
        files = [written(folder, "config", config), written(folder, "script", script)]
        found, right = said("whatif", *files, "--set=" + names), wanted(
            folder, system, script.split(b"\n")[:-1], names
        )
        assert found == right, f"case {case}: {config!r}, {script!r}, --set={names}"
