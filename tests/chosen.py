"""What the tests run: the program that QUORUM_CLI names by its path, else the one that ./quorum_cli runs; and the
library of the same sources."""

from __future__ import annotations

import functools
import os
import subprocess
from typing import Any, NamedTuple

TOP = os.path.dirname(os.path.dirname(os.path.abspath(__file__)))
DIST = os.path.join(TOP, "dist")
PACKAGE = os.path.join(TOP, "library", "python")


@functools.cache
def path() -> str:
    """The program. If there is none, tools/build/program makes it."""
    named = os.environ.get("QUORUM_CLI", "")
    if "/" in named:
        return os.path.abspath(named)
    return said("program") or os.path.join(TOP, "no program")


@functools.cache
def library() -> str:
    """The library that QUORUM_LIBRARY names, else that of dist/ if it is of these sources, else the one built here."""
    named = os.environ.get("QUORUM_LIBRARY", "")
    if named:
        return os.path.abspath(named)
    is_of_dist = (
        os.path.dirname(path() if "/" in os.environ.get("QUORUM_CLI", "") else said("program", "--proved")) == DIST
    )
    return os.path.join(DIST if is_of_dist else os.path.join(TOP, "library", "out"), "libquorum.so")


def is_of_dist() -> bool:
    """Whether the program is that of dist/, so that what else is there is of the same sources."""
    return os.path.dirname(path()) == DIST


def said(tool: str, *words: str) -> str:
    asked = [os.path.join(TOP, "tools", "build", tool), *words]
    return subprocess.run(asked, stdin=subprocess.DEVNULL, stdout=subprocess.PIPE, text=True).stdout.strip()


class Ran(NamedTuple):
    """How a program ended, and what it put out."""

    status: int
    out: str
    error: str


def run(*words: str, **how: Any) -> Ran:
    """Runs the program on these words; further arguments are those of subprocess.run."""
    how = {"stdin": subprocess.DEVNULL, "stdout": subprocess.PIPE, "stderr": subprocess.PIPE, "timeout": 300, **how}
    ended = subprocess.run([path(), *words], **how)
    return Ran(ended.returncode, (ended.stdout or b"").decode(), (ended.stderr or b"").decode())
