#!/usr/bin/env python3
"""Makes the tables and pictures of docs/PERFORMANCE.md anew, in place.

usage: bench/tables.py [--quick] [PART ..]

The parts, with the minutes that each takes of one processor at rest:

    reading   1   `show` beside jq
    searches  9   `intersect` beside minisat, cadical, cryptominisat and clasp, and docs/growth-random.svg
    networks  9   the same on networks of organisations, and docs/growth.svg
    lists     2   `blocking`, `quorums` and `least` beside clasp
    check     2   `check` beside sha256sum
    parts    30   `check` of parts of searches beside whole ones, by the byte
    whatif    2   scripts of edits
    memory    4   memory beside jq, and the stack

Without a part all are made, one after another. Each figure is the processor time of one run, or the least of several
where its script says so; in brackets how many times another program's time ours is, in the same pass. Wants the
program built by ./quorum_cli, and Debian's packages jq, minisat, cadical, cryptominisat, clasp and gringo; a solver
that is missing has a `-`. With --quick a part has a few small rows, takes less than a minute, and is printed; no file
is changed.
"""
from __future__ import annotations

import os
import re
import sys
import time
from typing import Any, TYPE_CHECKING

import certificates
import edits
import lists
import memory_use
import parts
import reading
import runs
import trials

if TYPE_CHECKING:
    from network_page.findings import Part

PARTS = {
    "reading": reading.made,
    "searches": trials.searches,
    "networks": trials.networks,
    "lists": lists.made,
    "check": certificates.made,
    "parts": parts.made,
    "whatif": edits.made,
    "memory": memory_use.made,
}
DOCUMENT = os.path.join(runs.TOP, "docs", "PERFORMANCE.md")


def text_of(path: str) -> Any:
    with open(path, encoding="utf-8") as it:
        return it.read()


def write(path: str, text: str) -> None:
    with open(path, "w", encoding="utf-8") as it:
        it.write(text)


def machine() -> str:
    """The processor and how many there are."""
    names = re.findall(r"^model name\s*: (.*)$", text_of("/proc/cpuinfo"), re.M)
    name = re.sub(r"\(R\)|\(TM\)|\b(CPU|Processor)\b|@", "", names[0]) if names else os.uname().machine
    return f"{os.cpu_count()} × {' '.join(name.split())}"


def caption(part: Part) -> Any:
    """The command, the version, the day, the machine and its load."""
    return "`bench/tables.py %s`: version %s, %s, %s, load %.1f." % (
        part,
        text_of(os.path.join(runs.TOP, "VERSION")).strip(),
        time.strftime("%Y-%m-%d"),
        machine(),
        os.getloadavg()[0],
    )


def made(part: Any, quick: Any) -> Any:
    """The lines of a part, and its pictures by their names."""
    out, pictures = [caption(part), ""], {}
    for line in PARTS[part](runs.PROGRAM, quick):
        if isinstance(line, tuple):
            pictures[line[0]] = line[1]
        else:
            out.append(line)
            print(line, flush=True)
    return "\n".join(out).rstrip("\n"), pictures


def put(part: Any, text: str) -> None:
    """Puts the lines of a part into the document, between its two marks."""
    marks = re.compile(rf"(<!-- tables.py {part} -->\n).*?(\n<!-- end -->)", re.S)
    document = text_of(DOCUMENT)
    if not marks.search(document):
        raise SystemExit(f"docs/PERFORMANCE.md has no place for {part}")
    write(DOCUMENT, marks.sub(lambda found: found[1] + text + found[2], document))


def main(words: list[str]) -> int:
    quick = words[:1] == ["--quick"]
    asked = words[quick:] or list(PARTS)
    if not set(asked) <= set(PARTS):
        print(__doc__.split("\n\n")[1], file=sys.stderr)
        return 2
    for part in asked:
        text, pictures = made(part, quick)
        if not quick:
            put(part, text)
            for name, picture in pictures.items():
                write(os.path.join(runs.TOP, "docs", name), picture)
    return 0


if __name__ == "__main__":
    sys.exit(main(sys.argv[1:]))
