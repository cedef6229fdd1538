#!/usr/bin/env python3
"""A run of a program: what it prints, its processor time and its largest memory; and the cells of tables made of
these."""
from __future__ import annotations

import os
import shutil
import subprocess
import sys
import tempfile
from dataclasses import dataclass
from typing import Any, BinaryIO

TOP = os.path.dirname(os.path.dirname(os.path.abspath(__file__)))
sys.path.append(os.path.join(TOP, "tests"))
import chosen

PROGRAM = chosen.path()
# a folder whose files lie in memory, if there is one
MEMORY = "/dev/shm" if os.access("/dev/shm", os.W_OK) else None
MOST_SECONDS = 900
# Starts a program under a limit of seconds, and tells how it ended. It is small, since the memory of who starts a
# program counts as the program's own.
STARTER = """
import os, resource, sys
pid = os.fork()
if not pid:
    limit = int(sys.argv[1])
    resource.setrlimit(resource.RLIMIT_CPU, (limit, limit + 1))
    os.dup2(os.open(os.devnull, os.O_WRONLY), 2)
    os.execvp(sys.argv[2], sys.argv[2:])
_, ended, used = os.wait4(pid, 0)
os.write(2, b"%d %d %f" % (ended, used.ru_maxrss, used.ru_utime + used.ru_stime))
"""


@dataclass
class Run:
    """A run that ended, or was ended after `limit` seconds of processor time."""

    text: str
    seconds: float
    memory: int
    ended: bool
    limit: int


def started(words: list[str], limit: int = MOST_SECONDS, **files: Any) -> tuple[int, int, float]:
    """Runs a program to its end: how that was, its largest memory in MB, and its seconds of processor time."""
    starter = [sys.executable, "-S", "-c", STARTER, str(limit), *words]
    ended, memory, took = subprocess.run(starter, stderr=subprocess.PIPE, **files).stderr.split()
    return int(ended), int(memory) // 1024, float(took)


def run(words: list[str], limit: int = MOST_SECONDS, given: str = "", out: BinaryIO | None = None) -> Run:
    """Runs a program on a text; what it prints goes to `out`, or is kept."""
    with tempfile.TemporaryFile(dir=MEMORY) as source, tempfile.TemporaryFile(dir=MEMORY) as told:
        source.write(given.encode())
        source.seek(0)
        ended, memory, took = started(words, limit, stdin=source, stdout=out or told)
        told.seek(0)
        text = told.read().decode(errors="replace")
    return Run(text, took, memory, not os.WIFSIGNALED(ended), limit)


def least(words: list[str], times: int = 5, out: BinaryIO | None = None) -> Run:
    """The run of least processor time of some, which other work on the machine hardly changes."""
    return min((run(words, out=out) for _ in range(times)), key=lambda it: it.seconds)


def has(tool: str) -> bool:
    return shutil.which(tool) is not None


# ---- cells


def seconds(it: Run) -> str:
    """A time in seconds, or that it did not end."""
    if not it.ended:
        return f"over {it.limit}"
    return f"{it.seconds:.3f}" if it.seconds < 0.1 else f"{it.seconds:.2f}"


def beside(ours: Run, its: Run | None) -> str:
    """Another program's time, and in brackets how many times it ours is, unless one did not end or both are too short
    to compare."""
    if its is None:
        return "-"
    if max(ours.seconds, its.seconds) < 0.02 or not (ours.ended and its.ended):
        return seconds(its)
    ratio = ours.seconds / its.seconds
    return "%s (%s)" % (seconds(its), f"{ratio:.0f}" if ratio >= 10 else f"{ratio:.2g}")


def megabytes(count: int) -> str:
    return f"{count / 1e6:.1f}" if count < 10e6 else f"{count / 1e6:.0f}"


def row(cells: Any) -> str:
    return "| " + " | ".join(str(it) for it in cells) + " |"


def head(cells: list[str]) -> list[str]:
    return [row(cells), "|---" * len(cells) + "|"]
