#!/usr/bin/env python3
"""Runs all tests that need no proof by pytest, side by side on all processors, on the program that ./quorum_cli runs
and on the files of dist/.

usage: tests/run.py [--long] [--jobs N] [--cases N] [--seed N] [GROUP..]

A group is a file of tests: process is tests/test_process.py, and python is all of tests/python. A line says how each
ended and what it took; what failed is shown in full, and what was skipped with its reason. With --long the groups that
make up their cases make many more, and those run that take long or need tools from outside. pytest alone runs the same
tests, one after another: `pytest tests`, `pytest tests/test_process.py`.

It needs python3 with pytest, and a C compiler for the callers of the library. The last line is 'N passed, M failed,
K skipped'. Status 0 if nothing failed, else 1.
"""

from __future__ import annotations

import argparse
import collections
import concurrent.futures
import os
import re
import subprocess
import sys
import tempfile
import threading
import time
import xml.etree.ElementTree
from collections.abc import Iterator

sys.dont_write_bytecode = True

TOP = os.path.dirname(os.path.dirname(os.path.abspath(__file__)))
TESTS = os.path.join(TOP, "tests")
MOST_SECONDS = 3600
# A group interrupts what it runs, and that heeds it also where this script was begun with signals ignored (nohup, a
# job in the background).
HEEDING = ["env", "--default-signal=HUP,INT,TERM"]
PYTEST = ["-m", "pytest", "-q", "-rs", "-p", "no:cacheprovider", "--color=no"]
NO_PYTEST = "there is no pytest: apt-get install python3-pytest"
# The dearest come first.
DEAREST = (
    "memory fail_alloc python/many_snapshots network_report web_page web_modules library lint malicious script wrapper"
    " summary browser process replacing answers coverage/cases python/bulk python/command"
).split()
# What takes longer than the others together on the other processors runs in so many parts, side by side.
PARTS = {"web_page": 2}
# What needs no program, so that none is made for it.
WITHOUT_PROGRAM = {"dist", "documents", "lint", "web_modules", "wrapper"}
# A file all of whose tests take long.
ALL_LONG = re.compile(r"^pytestmark = pytest\.mark\.long$|^pytestmark = \[.*\bpytest\.mark\.long\b.*\]$", re.M)


def groups() -> dict[str, str]:
    """Each group by its file, the dearest first."""
    found = {}
    for folder, inner, names in os.walk(TESTS):
        inner.sort()
        for name in sorted(names):
            if re.fullmatch(r"test_\w+\.py", name):
                path = os.path.join(folder, name)
                found[os.path.relpath(path, TESTS).removesuffix(".py").replace("test_", "")] = path
    first = [it for it in DEAREST if it in found]
    return {name: found[name] for name in [*first, *(it for it in found if it not in first)]}


def takes_long(path: str) -> bool:
    with open(path, encoding="utf-8") as it:
        return ALL_LONG.search(it.read()) is not None


def with_pytest() -> str | None:
    """A Python that has pytest: this one, or the system's, for which Debian's package is; else none."""
    for it in (sys.executable, "/usr/bin/python3"):
        asked = [it, "-c", "import pytest"]
        if os.path.exists(it) and subprocess.run(asked, stderr=subprocess.DEVNULL).returncode == 0:
            return it
    return None


class Ended:
    """How a group ended: its counts, why something was skipped, and all that it said."""

    def __init__(self, name: str, status: int, said: str, report: str, seconds: float) -> None:
        self.name, self.said, self.seconds = name, said.rstrip("\n"), seconds
        self.passed = self.failed = self.skipped = 0
        self.why: collections.Counter[str] = collections.Counter()
        for case in cases(report):
            skipped = case.find("skipped")
            if skipped is not None:
                self.skipped += 1
                self.why[skipped.get("message", "")] += 1
            elif case.find("failure") is not None or case.find("error") is not None:
                self.failed += 1
            else:
                self.passed += 1
        # (one that ends badly, or has run nothing, has failed)
        if (status and not self.failed) or not self.passed + self.failed + self.skipped:
            self.failed += 1

    def line(self) -> str:
        return f"{self.name:<20} {self.seconds:7.1f} s  {counts(self.passed, self.failed, self.skipped)}"


def cases(report: str) -> Iterator[xml.etree.ElementTree.Element]:
    """The tests of a report in the form of JUnit, which pytest writes; none if it could not."""
    if os.path.exists(report) and os.path.getsize(report):
        yield from xml.etree.ElementTree.parse(report).iter("testcase")


def counts(passed: int, failed: int, skipped: int) -> str:
    return f"{passed} passed, {failed} failed, {skipped} skipped"


class Runner:
    def __init__(self, python: str, program: str | None, words: list[str], folder: str) -> None:
        self.python, self.words, self.folder = python, words, folder
        self.env = {**os.environ, "PYTHONDONTWRITEBYTECODE": "1"}
        if program:
            self.env["QUORUM_CLI"] = program
        self.printing = threading.Lock()

    def run(self, name: str, path: str, part: str | None = None) -> Ended:
        name += f" {part}" * bool(part)
        report, began = os.path.join(self.folder, name.replace("/", " ") + ".xml"), time.monotonic()
        own = [f"--part={part}"] * bool(part)
        words = [*HEEDING, self.python, *PYTEST, f"--junitxml={report}", *self.words, *own, path]
        with tempfile.TemporaryFile() as out:
            try:
                status = subprocess.run(
                    words,
                    env=self.env,
                    cwd=TOP,
                    stdin=subprocess.DEVNULL,
                    stdout=out,
                    stderr=subprocess.STDOUT,
                    timeout=MOST_SECONDS,
                ).returncode
            except subprocess.TimeoutExpired:
                status = 1
            out.seek(0)
            said = out.read().decode("utf-8", "replace")
        ended = Ended(name, status, said, report, time.monotonic() - began)
        with self.printing:
            if ended.failed:
                print("\n".join("  " + it for it in ended.said.split("\n")))
            print(ended.line(), flush=True)
        return ended

    def all(self, wanted: dict[str, str], jobs: int) -> list[Ended]:
        with concurrent.futures.ThreadPoolExecutor(jobs) as pool:
            begun = [pool.submit(self.run, *it, part) for it in wanted.items() for part in parts(it[0])]
            return [it.result() for it in begun]


def parts(group: str) -> list[str | None]:
    """The parts in which a group runs, as --part names them: none if it runs whole."""
    count = PARTS.get(group, 1)
    return [None] if count == 1 else [f"{it}/{count}" for it in range(1, count + 1)]


def program() -> str:
    """The program that ./quorum_cli runs; none where it can be neither found nor made."""
    return (
        subprocess.run(
            [os.path.join(TOP, "tools", "build", "program")], stdin=subprocess.DEVNULL, stdout=subprocess.PIPE
        )
        .stdout.decode()
        .rstrip("\n")
    )


def asked() -> tuple[argparse.Namespace, dict[str, str]]:
    """The words, and the groups that they ask for."""
    words = argparse.ArgumentParser(prog="run.py", description="Runs all tests that need no proof.")
    words.add_argument("--long", action="store_true", help="more cases, and what takes long")
    words.add_argument(
        "--jobs", type=int, default=len(os.sched_getaffinity(0)), help="groups at a time (default: one a processor)"
    )
    words.add_argument("--cases", type=int, help="how many cases are made up")
    words.add_argument("--seed", type=int, help="from which number")
    words.add_argument("group", nargs="*", help="only these")
    found, every = words.parse_args(), groups()
    for it in found.group:
        if not any(is_in(name, it) for name in every):
            words.error(f"there is no group {it}; the groups are {' '.join(every)}")
    return found, {
        name: path
        for name, path in every.items()
        if (found.long or not takes_long(path)) and (not found.group or any(is_in(name, it) for it in found.group))
    }


def is_in(name: str, group: str) -> bool:
    return name == group or name.startswith(group + "/")


def main() -> int:
    words, wanted = asked()
    python, began = with_pytest(), time.monotonic()
    if not python:
        print(f"{NO_PYTEST}\n{counts(0, 0, len(wanted))}")
        return 0
    found = None
    if not {*wanted} <= WITHOUT_PROGRAM:
        found = program()
        if not found:
            print(counts(0, 1, 0))
            return 1
        subprocess.run([os.path.join(TOP, "quorum_cli"), "--about"])
    more = ["--long"] * words.long
    more += [f"--{it}={getattr(words, it)}" for it in ("cases", "seed") if getattr(words, it) is not None]
    with tempfile.TemporaryDirectory() as folder:
        ended = Runner(python, found, more, folder).all(wanted, words.jobs)
    for group in ended:
        for why, times in group.why.items():
            print(f"skipped: {group.name}: {why}" + (f" ({times} tests)" if times > 1 else ""))
    print(f"{len(wanted)} groups in {time.monotonic() - began:.0f} s by {words.jobs} at a time")
    print(counts(*(sum(getattr(it, what) for it in ended) for what in ("passed", "failed", "skipped"))))
    return 1 if any(it.failed for it in ended) else 0


if __name__ == "__main__":
    sys.exit(main())
