#!/usr/bin/env python3
"""The table of checking: `check` on long certificates, beside `sha256sum` of the same bytes.

The first is the log of a search. The others are refutations of examples/two.json: two begin with the first lemma that
is known of it ten million times, under rising ids, in the second of them each deleted, by a line of its own, when the
next one has come, so that few are held at a time. In the last that lemma stands once, and after its conflict come
130,000,000 bytes of hints on the same line. Each figure is of the least of three runs.
"""
from __future__ import annotations

import hashlib
import os
import tempfile
from collections.abc import Iterator
from typing import Any

import runs
import trials

CONFIG = os.path.join(runs.TOP, "examples", "two.json")
CLAUSES = 16
LEMMAS = 10_000_000
LINE_BYTES = 130_000_000
# the search, and a quick one
SEARCHED, SHORT = "random:80:8:5:1", "random:40:10:6:1"


def write_head(cert: Any) -> None:
    with open(CONFIG, "rb") as config:
        digest = hashlib.sha256(config.read()).hexdigest()
    cert.write(f"fbas-cert 1\nconfig {digest}\nfrom\nfaulty\nkind refutation\nformula 8 {CLAUSES}\n")


def write_line(path: str, size: int) -> None:
    """One lemma with hints after its conflict, all on one line."""
    hints = " 7 6 3 4 2" * 1000
    with open(path, "w") as cert:
        write_head(cert)
        cert.write("17 -1 0 7 6 3 4 2")
        for _ in range(size // len(hints)):
            cert.write(hints)
        cert.write(" 0\n18 0 17 1 10 8 0\nend\n")


def write_lemmas(path: str, lemmas: Any, deletes: Any) -> None:
    with open(path, "w") as cert:
        write_head(cert)
        last = CLAUSES
        for step in range(lemmas):
            last += 1
            cert.write(f"{last} -1 0 7 6 3 4 2 0\n")
            if deletes and step > 0:
                cert.write(f"{last} d {last - 1} 0\n")
        cert.write(f"{last + 1} 0 {last} 1 10 8 0\nend\n")


def write_log(program: str, config: str, cert: Any, system: Any) -> None:
    with open(config, "w", encoding="utf-8") as it:
        it.write(trials.configuration(system))
    runs.run([program, "intersect", config, cert])


def row(program: Any, name: str, config: str, cert: Any) -> Any:
    checked = runs.least([program, "check", config, cert], 3)
    if not checked.text.startswith("accepted refutation"):
        raise SystemExit(f"{name}: {checked.text!r}")
    return runs.row(
        [
            name,
            runs.megabytes(os.path.getsize(cert)),
            runs.seconds(checked),
            checked.memory,
            runs.beside(checked, runs.least(["sha256sum", cert], 3)),
        ]
    )


def made(program: str, quick: Any) -> Iterator[Any]:
    """The lines of the table, one by one."""
    yield from runs.head(["certificate", "MB", "`check`, s", "memory, MB", "`sha256sum`, s"])
    share = 100 if quick else 1
    searched = SHORT if quick else SEARCHED
    files = {
        "ten million lemmas": lambda path: write_lemmas(path, LEMMAS // share, False),
        "ten million lemmas, each deleted after the next": lambda path: write_lemmas(path, LEMMAS // share, True),
        "one line of hints": lambda path: write_line(path, LINE_BYTES // share),
    }
    with tempfile.TemporaryDirectory(dir=runs.MEMORY) as folder:
        config, cert = os.path.join(folder, "config"), os.path.join(folder, "cert")
        write_log(program, config, cert, searched)
        yield row(program, "the search of " + searched, config, cert)
        for name, write in files.items():
            write(cert)
            yield row(program, name + (" (a hundredth)" if quick else ""), CONFIG, cert)
