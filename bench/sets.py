#!/usr/bin/env python3
"""Times the calls of sets and of systems: bench/sets.py [FOLDER].

Builds crates/sets_bench (with its proofs, some minutes the first time), and prints for each call of sets of 16,384
nodes, and for each call of the systems of `bench/configurations.py` that are written into FOLDER, the least processor
time of three runs of many calls, of which what the rounds themselves cost, or the reading, is taken off.
"""
from __future__ import annotations

import os
import resource
import subprocess
import sys
from typing import Any

TOP = os.path.dirname(os.path.dirname(os.path.abspath(__file__)))
CRATE = os.path.join(TOP, "crates", "sets_bench")
PROGRAM = os.path.join(CRATE, "out", "sets_bench")
FILES = [
    "whole",
    "chain-up",
    "chain-down",
    "zigzag-large",
    "zigzag-even",
    "behind",
    "most-few",
    "most-whole",
    "most-chain",
    "most-behind",
]
CALLS = ["has", "least", "count", "meets", "minus", "join", "copy", "copy_from", "members"]
ROUNDS = 1_000_000
SYSTEM_ROUNDS = 10


def spent(words: list[str], path: str = os.devnull) -> Any:
    """The least processor time of three runs, in seconds."""
    best = None
    for _ in range(3):
        with open(path, "rb") as given:
            before = resource.getrusage(resource.RUSAGE_CHILDREN)
            subprocess.run([PROGRAM] + words, stdin=given, stdout=subprocess.DEVNULL, check=True)
            after = resource.getrusage(resource.RUSAGE_CHILDREN)
        took = after.ru_utime + after.ru_stime - before.ru_utime - before.ru_stime
        best = took if best is None else min(best, took)
    return best


def main() -> None:
    folder = sys.argv[1] if len(sys.argv) > 1 else "/tmp/gemzulat-bench"
    subprocess.run(["rt", "run"], cwd=CRATE, stdout=subprocess.DEVNULL, check=True)
    subprocess.run([os.path.join(TOP, "bench", "configurations.py"), folder], check=True)
    print("| call | time |\n|---|---|")
    for call in CALLS:
        rounds = ROUNDS // 20 if call == "members" else ROUNDS
        took = spent([call, str(rounds)]) - spent(["nothing", str(rounds)])
        print(f"| `{call}` | {took / rounds * 1e9:.1f} ns |")
    print("\n| file | reading | `greatest` | `blocks` | `closure` |\n|---|---|---|---|---|")
    for name in FILES:
        path = os.path.join(folder, name + ".json")
        reading = spent(["system", "nothing", "1"], path)
        row = [
            (spent(["system", call, str(SYSTEM_ROUNDS)], path) - reading) / SYSTEM_ROUNDS
            for call in ["greatest", "blocks", "closure"]
        ]
        print("| %s.json | %.2f s | %s |" % (name, reading, " | ".join(f"{took * 1e3:.2f} ms" for took in row)))


if __name__ == "__main__":
    main()
