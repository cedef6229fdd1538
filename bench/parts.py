#!/usr/bin/env python3
"""The table of parts: `check` of searches that a budget ended, each beside a whole one of about as many bytes.

A part is asked of each lemma whether a held clause covers it, which a whole refutation is not, so the time of a byte
is what the two are compared by. A figure of `check` is the least of three runs; of a run of more than a minute, that
one. The searches take most of the time and leave 4 GB, so the certificates are kept in the folder PARTS, if that is
set, and those there are taken. BESIDE names other programs that check the same certificates up to MOST_BESIDE lemmas,
as "before=PATH"; each gets three columns. JOBS rows are made at a time, one without it; a run ends after LIMIT seconds
of processor time.
"""
from __future__ import annotations

import json
import multiprocessing
import os
import tempfile
from collections.abc import Iterator
from dataclasses import dataclass
from typing import Any

import growth
import lists
import runs
import trials

FEW, MANY, LIST = "random:60:12:7:1", "random:185:12:7:1", "5 (3), each 3 of 5"
# A system and the budget of its search; and a system whose whole search leaves about as many bytes.
PAIRS = [
    ("random:44:12:7:1", 40_000, "random:41:12:7:1"),
    (FEW, 40_000, "random:41:12:7:1"),
    (MANY, 40_000, "random:47:12:7:1"),
    (FEW, 200_000, "random:50:12:7:1"),
    (MANY, 200_000, "random:54:12:7:1"),
    (LIST, 120_000, LIST),
    (FEW, 1_000_000, "random:56:12:7:1"),
    (MANY, 1_000_000, "random:56:12:7:1"),
]
QUICK = [("random:44:12:7:1", 4_000, "random:40:10:6:1")]
WHOLE = 4_000_000_000
LIMIT = int(os.environ.get("LIMIT", runs.MOST_SECONDS))
BESIDE = dict(it.split("=", 1) for it in os.environ.get("BESIDE", "").split())
# These check no part of more lemmas.
MOST_BESIDE = 200_000
# A run of so many seconds is not repeated.
LONG = 60


@dataclass
class Searched:
    """A search's certificate with the configuration: what it holds, in literals and bytes."""

    system: str
    config: str
    cert: str
    lemmas: int
    literals: int
    size: int

    def check(self, program: str) -> Any:
        """The run of `check` of least processor time."""
        words = [program, "check", self.config, self.cert]
        least = runs.run(words, LIMIT)
        for _ in range(2 if least.seconds < LONG else 0):
            least = min(least, runs.run(words, LIMIT), key=lambda it: it.seconds)
        if least.ended and not least.text.startswith("accepted"):
            raise SystemExit(f"{self.system} by {program}: {least.text!r}")
        return least


def lemmas_of(cert: Any) -> tuple[int, int]:
    """The number of lemmas of a certificate, and of their literals; a set that is listed is one too."""
    lemmas = literals = 0
    with open(cert, "rb") as it:
        for line in it:
            words = line[: line.find(b" 0")].split() if line[:1].isdigit() else line.split()
            if words[0] in (b"q", b"b") or words[0].isdigit() and words[1:2] not in ([b"d"], []):
                lemmas += 1
                literals += len(words) - (1 if words[0].isdigit() else 2)
    return lemmas, literals


def searched(program: str, system: str, budget: int, folder: str) -> Any:
    """The search of a system up to a budget, or what an earlier run left of it."""
    command = "blocking" if system in lists.BLOCKING else "intersect"
    stem = os.path.join(folder, "".join(it if it.isalnum() else "-" for it in f"{system} {budget}"))
    config, cert = stem + ".json", stem + ".cert"
    with open(config, "w", encoding="utf-8") as it:
        it.write(json.dumps(lists.BLOCKING[system]) if command == "blocking" else trials.configuration(system))
    if not os.path.exists(cert):
        made = runs.run([program, command, config, cert + ".new", "--budget", str(budget)], 4 * 3600)
        if not made.ended:
            raise SystemExit(f"{system}: the search did not end")
        os.rename(cert + ".new", cert)
    lemmas, literals = lemmas_of(cert)
    return Searched(system, config, cert, lemmas, literals, os.path.getsize(cert))


@dataclass
class Pair:
    """A part and a whole search, and of each program the runs of `check` on the one and on the other."""

    part: Searched
    whole: Searched
    checks: list

    def times(self, part_check: Any, whole_check: Any) -> str:
        """How many times as long as a byte of the whole one a byte of the part takes."""
        ratio = (part_check.seconds / self.part.size) / (whole_check.seconds / self.whole.size)
        return f"{'' if part_check.ended else 'over '}{ratio:.1f}"

    def row(self) -> Any:
        it = self.part
        cells = [
            it.system,
            "{:,}".format(it.lemmas),
            f"{it.literals / max(it.lemmas, 1):.0f}",
            runs.megabytes(it.size),
            runs.megabytes(self.whole.size),
        ]
        for part_check, whole_check in self.checks:
            cells += [runs.seconds(part_check), runs.seconds(whole_check), self.times(part_check, whole_check)]
        cells += ["-"] * (3 * (1 + len(BESIDE) - len(self.checks)))
        return runs.row([*cells, self.checks[0][0].memory])


def measured(task: Any) -> Any:
    """A pair, made of a program, a row of PAIRS and a folder."""
    program, (system, budget, whole_system), folder = task
    part = searched(program, system, budget, folder)
    programs = [program, *(BESIDE.values() if part.lemmas <= MOST_BESIDE else [])]
    part_checks = [part.check(it) for it in programs]
    whole = searched(program, whole_system, WHOLE, folder)
    return Pair(part, whole, list(zip(part_checks, [whole.check(it) for it in programs])))


def growth_line(system: Any, pairs: Any) -> str:
    """How the time of each program grows from the smallest part of a system to the largest."""
    powers = []
    for at, name in enumerate(("`check`", *BESIDE)):
        found = [
            (it.part.lemmas, it.checks[at][0].seconds)
            for it in pairs
            if it.part.system == system and at < len(it.checks) and it.checks[at][0].ended
        ]
        if len(found) > 1:
            powers.append(f"{name} as n^{growth.power(found):.2f} up to {'{:,}'.format(found[-1][0])}")
    return f"On `{system}` time grows: {', '.join(powers)}."


def made(program: str, quick: Any) -> Iterator[Any]:
    """The lines of the table, one by one."""
    head = ["part of", "lemmas", "literals each", "MB", "whole, MB", "`check`, s", "whole, s", "times"]
    for name in BESIDE:
        head += [name + ", s", "whole, s", "times"]
    yield from runs.head([*head, "memory, MB"])
    with tempfile.TemporaryDirectory() as folder, multiprocessing.Pool(int(os.environ.get("JOBS", "1"))) as pool:
        tasks = [(program, it, os.environ.get("PARTS", folder)) for it in (QUICK if quick else PAIRS)]
        pairs = []
        for pair in pool.imap(measured, tasks):
            pairs.append(pair)
            yield pair.row()
    if not quick:
        yield ""
        yield from (growth_line(system, pairs) for system in (FEW, MANY))
