#!/usr/bin/env python3
"""Writes the first corpus: rows of tests/malicious.py, questions of tests/library_cases.py, the examples, and made-up
cases of tests/fuzz.py.

usage: tests/coverage/seeds.py FOLDER [--cases N] [--seed S]

A file TARGET.cases for each target of tests/coverage/cases.py, of cases up to 8 kB; tests/coverage/cases.py --merge
keeps of such files what reaches more.
"""

import argparse
import os
import random
import sys
import tempfile
from collections.abc import Iterator

TESTS = os.path.dirname(os.path.dirname(os.path.abspath(__file__)))
sys.path[:0] = [TESTS, os.path.join(os.path.dirname(TESTS), "library", "python")]
sys.dont_write_bytecode = True
import chosen  # noqa: E402
import commands  # noqa: E402
import fuzz  # noqa: E402
import library_cases  # noqa: E402
import malicious  # noqa: E402

MOST_BYTES = 8192
FILES = ("config", "orgs", "script", "cert")
LISTS = ("blocking", "partial-blocking", "quorums", "partial-quorums")
TARGETS = {"pair": "pair", "refutation": "refutation", "partial": "refutation"}
TARGETS |= {"least": "least", "partial-least": "least"}
TARGETS |= {it: "list" for it in LISTS} | {"org-blocking": "groups", "partial-org-blocking": "groups"}
Files = dict[str, bytes]


def case_of(words: list[str], files: Files) -> bytes:
    parts = [b"\0".join(map(os.fsencode, words)), *(files.get(name, b"") for name in FILES)]
    return b"case " + b" ".join(b"%d" % len(it) for it in parts) + b"\n" + b"".join(parts) + b"\n"


def target_of(words: list[str], files: Files) -> str:
    command = os.fsdecode(words[0]) if words else ""
    if command == "check":
        lines = files.get("cert", b"").split(b"\n")
        kinds = [line[5:].decode("latin-1") for line in lines if line.startswith(b"kind ")]
        return TARGETS.get(kinds[0] if kinds else "", "pair")
    if command in ("check-lrat", "whatif"):
        return {"check-lrat": "lrat", "whatif": "script"}[command]
    if any(os.fsdecode(it).startswith("--orgs") for it in words):
        return "orgs"
    if command in commands.SEARCHES or command == "trial":
        return "search"
    return "config" if len(words) < 3 or command in ("greatest", "blocks") else "words"


def made_up(count: int, seed: int) -> Iterator[tuple[list[str], Files]]:
    """Cases of tests/fuzz.py, by the names of the library's files."""
    rng = random.Random(seed)
    with tempfile.TemporaryDirectory() as folder:
        maker = fuzz.Maker(rng, fuzz.Program(chosen.path(), folder))
        for _ in range(count):
            it = maker.case()
            yield list(it.words), {name: it.files.get(name, b"") for name in FILES}


def every(count: int, seed: int) -> Iterator[tuple[list[str], Files]]:
    for row in malicious.every_row():
        yield list(row.words), {name: data for name, data in row.files.items() if isinstance(data, bytes)}
    for words, files in library_cases.questions():
        yield list(words), {name: files.get(name, b"") for name in FILES}
    yield from made_up(count, seed)


def main() -> int:
    words = argparse.ArgumentParser(description="Writes the first corpus.")
    words.add_argument("folder")
    words.add_argument("--cases", type=int, default=1500)
    words.add_argument("--seed", type=int, default=1)
    asked = words.parse_args()
    os.makedirs(asked.folder, exist_ok=True)
    found: dict[str, list[bytes]] = {}
    for given, files in every(asked.cases, asked.seed):
        names = library_cases.named_as_made(given) if given else given
        case = case_of(names, files)
        kept = found.setdefault(target_of(names, files), [])
        if len(case) <= MOST_BYTES and case not in kept:
            kept.append(case)
    for target, cases in sorted(found.items()):
        with open(os.path.join(asked.folder, f"{target}.cases"), "wb") as it:
            it.write(b"".join(cases))
        print(f"seeds: {target}: {len(cases)} cases, {sum(map(len, cases))} bytes")
    return 0


if __name__ == "__main__":
    sys.exit(main())
