#!/usr/bin/env python3
"""The table of memory: the program on the files of tests/memory.py without a limit, `show` beside `jq -c length`; and
its stack.

A run that takes no more than SMALL megabytes has no row.
"""
from __future__ import annotations

import os
import sys
import tempfile
from collections.abc import Iterator
from typing import Any

TOP = os.path.dirname(os.path.dirname(os.path.abspath(__file__)))
sys.path[:0] = [os.path.join(TOP, "bench"), os.path.join(TOP, "tests")]
import malicious
import memory
import runs


SMALL = 100


def right(ended: Any, answer: Any, name: str) -> None:
    if (ended.status, ended.text) != answer:
        raise SystemExit(f"{name}: status {ended.status}, {ended.text[:100]!r}")


def show(trial: memory.Folder, name: str, data: bytes, text: str) -> Any:
    trial.put("config", data)
    ended = memory.Ended([trial.program, "show", "config"], trial.folder)
    right(ended, (0, text), name)
    its = runs.run(["jq", "-c", "length", os.path.join(trial.folder, "config")])
    return ended.memory, runs.row(
        ["`show`, " + name, f"{ended.memory:.0f}", f"{ended.time:.2f}", its.memory, f"{its.seconds:.2f}"]
    )


def check(trial: memory.Folder, name: str, pieces: Any, answer: Any) -> Any:
    trial.put("config", malicious.TWO)
    ended = memory.Ended([trial.program, "check", "config", "/dev/stdin"], trial.folder, pieces=pieces)
    right(ended, answer, name)
    return ended.memory, runs.row(["`check`, " + name, f"{ended.memory:.0f}", f"{ended.time:.2f}", "-", "-"])


def stack_line(trial: memory.Folder) -> str:
    rows = trial.stack_rows()
    for size, less in zip(memory.STACKS, memory.STACKS[1:]):
        bad = trial.fails_under(less, rows)
        if bad:
            return (
                f"Under a stack of {size} kB every file is answered; under {less} kB the system ends"
                f" `{' '.join(bad[0][0])}`."
            )
    return f"Under a stack of {memory.STACKS[-1]} kB every file is answered."


def measured(trial: memory.Folder, quick: Any) -> Iterator[Any]:
    """The largest memory of each run, and its row."""
    configurations = list(memory.configurations())
    for name, data, text in configurations[-1:] if quick else configurations:
        yield show(trial, name, data, text)
    for name, pieces, answer in [] if quick else memory.certificates():
        yield check(trial, name, pieces, answer)


def made(program: str, quick: Any) -> Iterator[Any]:
    """The lines of the table, one by one."""
    yield from runs.head(["run", "memory, MB", "s", "`jq`: MB", "s"])
    with tempfile.TemporaryDirectory() as folder:
        trial = memory.Folder(folder, program)
        yield from (row for most, row in measured(trial, quick) if most > SMALL or quick)
        yield ""
        yield f"All others take at most {SMALL} MB."
        yield stack_line(trial)
