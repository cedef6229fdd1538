#!/usr/bin/env python3
"""The tables of searches: `intersect` beside SAT solvers on the same formulas.

usage: bench/trials.py [--limit SECONDS] [SYSTEM ..]      prints the table of these systems

A SYSTEM is a number of organisations, whose configuration is the one that `trial` speaks of, or as a file above 100; a
kind of bench/organisations.py with its arguments, as rotated:30; a network of tests/watchers.py, as watchers:seven;
the path of a configuration; or random:NODES:SIZE:THRESHOLD:SEED, in which each node wants `threshold` of itself and
`size - 1` others, drawn at random. A row has the lemmas learnt, the processor time and the largest memory of one run
of the search with its certificate on a file in memory, and of `check`; then the time of each other solver (Debian's
packages, their own settings) on the formula that `export` writes. A run ends after SECONDS of processor time. Answers
that differ end the script with status 1.
"""
from __future__ import annotations

import json
import math
import os
import random
import re
import sys
import tempfile
from collections.abc import Iterator
from typing import Any

TOP = os.path.dirname(os.path.dirname(os.path.abspath(__file__)))
sys.path[:0] = [os.path.join(TOP, "bench"), os.path.join(TOP, "tests")]
import growth
import organisations
import runs
import watchers


SEARCHES = (
    "16 watchers:seven watchers:split random:40:10:6:1 random:40:12:7:1 random:50:10:6:1 "
    "random:60:8:5:1 random:70:8:5:1 random:80:8:5:1"
).split()
# what the mean of the ratios to minisat is taken over
RANDOM = [
    f"random:{form}:{seed}"
    for form in ("40:10:6", "40:12:7", "50:10:6", "60:8:5", "70:8:5", "80:8:5")
    for seed in range(1, 5)
]
NETWORKS = (
    "50 100 150 200 250 apart:30 beside:30 rotated:30 apart:60 tiers:50:50 mixed:40:5:1 flat:50:34 flat:100:67 "
    "flat:300:201 shuffled:16:16:1 shuffled:30:30:1"
).split()
SOLVERS = {
    "minisat": ["minisat", "{}", os.devnull],
    "cadical": ["cadical", "{}"],
    "cryptominisat": ["cryptominisat5", "--verb", "1", "{}"],
    "clasp": ["clasp", "{}"],
}
LIMIT = 20


def is_trial(system: str) -> bool:
    """Whether `trial` makes the system itself."""
    return system.isdigit() and int(system) <= 100


def trial(count: Any) -> str:
    """The trial configuration of `count` organisations of three nodes, as the program's text."""
    names = [f"t{i:03d}" for i in range(3 * count)]
    inner = [{"innerQuorumSets": [], "threshold": 2, "validators": names[i : i + 3]} for i in range(0, 3 * count, 3)]
    common = {"innerQuorumSets": inner, "threshold": count - (count - 1) // 3, "validators": []}
    return json.dumps([{"publicKey": name, "quorumSet": common} for name in names], separators=(",", ":"))


def drawn(nodes: int, size: int, threshold: int, seed: int) -> str:
    """A configuration in which each node wants `threshold` of itself and `size - 1` others, drawn at random."""
    choice = random.Random(seed)
    names = [f"n{i:03d}" for i in range(nodes)]

    def quorum_set(name: str) -> dict[str, Any]:
        others = choice.sample([it for it in names if it != name], size - 1)
        return {"threshold": threshold, "validators": sorted([name, *others]), "innerQuorumSets": []}

    return json.dumps([{"publicKey": name, "quorumSet": quorum_set(name)} for name in names])


def configuration(system: Any) -> str:
    if system.isdigit():
        return trial(int(system))
    kind, *arguments = system.split(":")
    if kind == "random":
        return drawn(*map(int, arguments))
    if kind == "watchers":
        return json.dumps(watchers.Made(*arguments).nodes)
    if kind in organisations.KINDS:
        return organisations.text(kind, *arguments)
    with open(system, encoding="utf-8") as it:
        return it.read()


class Asked:
    """A system with what the program and the solvers made of it: runs, the lemmas and the bytes of the certificate."""

    def __init__(self, program: str, system: str, solvers: dict[str, list[str]], limit: int, folder: str) -> None:
        config, cnf, self.cert = (os.path.join(folder, name) for name in ("config", "cnf", "cert"))
        with open(config, "w", encoding="utf-8") as it:
            it.write(configuration(system))
        self.system = system
        self.search = runs.run(
            [program, "trial", system, self.cert] if is_trial(system) else [program, "intersect", config, self.cert],
            limit,
        )
        self.check = runs.run([program, "check", config, self.cert], limit) if self.search.ended else self.search
        if self.search.ended and not self.check.text.startswith("accepted"):
            raise SystemExit(f"{system}: the certificate is not accepted: {self.check.text!r}")
        self.lemmas, self.size = self.counted()
        with open(cnf, "wb") as it:
            if not runs.run([program, "export", config], limit, out=it).ended:
                raise SystemExit(f"{system}: export did not end")
        self.others = {name: self.asked(name, cnf, limit) if runs.has(SOLVERS[name][0]) else None for name in solvers}

    def counted(self) -> Any:
        if not self.search.ended:
            return "-", 0
        with open(self.cert, "rb") as it:
            lemmas = sum(
                1 for line in it if line[:1].isdigit() and b" d " not in line and line.split(b" ", 2)[1] != b"0"
            )
        return lemmas, os.path.getsize(self.cert)

    def asked(self, name: str, cnf: str, limit: int) -> runs.Run:
        """Another solver's run, whose answer is ours."""
        made = runs.run([it.format(cnf) for it in SOLVERS[name]], limit)
        verdict = re.search(r"\b(UN)?SATISFIABLE\b", made.text)
        ours = re.search(r"^intersects (yes|no)$", self.search.text, re.M)
        if made.ended and verdict and ours and bool(verdict.group(1)) != (ours.group(1) == "yes"):
            raise SystemExit(f"{self.system}: {name} answers otherwise")
        made.ended = made.ended and verdict is not None
        return made

    def row(self) -> str:
        answer = re.search(r"^intersects (\w+)", self.search.text, re.M)
        name = os.path.basename(self.system) + (" (no)" if answer and answer.group(1) == "no" else "")
        cells = [
            name,
            self.lemmas,
            runs.seconds(self.search),
            self.search.memory,
            runs.megabytes(self.size),
            runs.seconds(self.check),
        ]
        return runs.row(cells + [runs.beside(self.search, it) for it in self.others.values()])


def asked(program: str, system: str, solvers: Any = SOLVERS, limit: int = LIMIT) -> Asked:
    with tempfile.TemporaryDirectory(dir=runs.MEMORY) as folder:
        return Asked(program, system, solvers, limit, folder)


def head() -> list[str]:
    return runs.head(
        ["system", "lemmas", "s", "MB", "certificate, MB", "`check`, s", *(name + ", s" for name in SOLVERS)]
    )


def point(size: int, it: runs.Run) -> Any:
    return size, it.seconds if it.ended else it.limit, it.ended


def lines(found: Any) -> Any:
    """For the pictures: of each program its times by the size, which is the first number in a system's name."""
    sized = sorted((int(re.search(r"\d+", it.system).group()), it) for it in found)
    out = {"quorum_cli": [point(size, it.search) for size, it in sized]}
    for name in [it for it in SOLVERS if it != "clasp" and runs.has(SOLVERS[it][0])]:
        out[name] = [point(size, it.others[name]) for size, it in sized]
    return out


def mean_line(program: str, systems: Any) -> str:
    """The geometric mean of our time to minisat's over random systems."""
    ratios = []
    for system in systems:
        found = asked(program, system, ["minisat"])
        its = found.others["minisat"]
        if its is not None and its.ended and found.search.ended:
            ratios.append(math.log(found.search.seconds / max(its.seconds, 0.001)))
    if not ratios:
        return "Of the random systems none ended."
    mean, least, most = math.exp(sum(ratios) / len(ratios)), math.exp(min(ratios)), math.exp(max(ratios))
    return (
        f"Over {len(ratios)} random systems of 40 to 80 nodes the geometric mean of our time to minisat's is"
        f" {mean:.2f} ({least:.2f} to {most:.2f})."
    )


def searches(program: str, quick: Any) -> Iterator[Any]:
    """The lines of the table of searches; and the picture of random systems by nodes."""
    yield from head()
    found = []
    for system in SEARCHES[:2] + SEARCHES[3:4] + SEARCHES[7:8] if quick else SEARCHES:
        found.append(asked(program, system))
        yield found[-1].row()
    yield ""
    yield mean_line(program, RANDOM[:2] if quick else RANDOM)
    random_ones = [it for it in found if re.fullmatch(r"random:\d+:8:5:1", it.system)]
    if len(random_ones) > 1:
        yield "growth-random.svg", growth.picture(
            "Time of a search of random systems by their nodes",
            "nodes, each of which wants 5 of 8",
            lines(random_ones),
        )


def growth_line(found: Any) -> Any:
    """How lemmas, bytes and time grow from the first of these trials to the last."""
    if len(found) < 2:
        return "Of the trials fewer than two ended."
    counts = [int(it.system) for it in found]
    powers = [
        growth.power(list(zip(counts, values)))
        for values in zip(*((it.lemmas, it.size, it.search.seconds) for it in found))
    ]
    return "From %d to %d organisations lemmas grow as n^%.1f, bytes as n^%.1f, time as n^%.1f." % (
        counts[0],
        counts[-1],
        *powers,
    )


def networks(program: str, quick: Any) -> Iterator[Any]:
    """The lines of the table of networks of organisations, how they grow, and the picture of that."""
    yield from head()
    found = []
    for system in NETWORKS[:2] if quick else NETWORKS:
        found.append(asked(program, system, limit=8))
        yield found[-1].row()
    trials = [it for it in found if it.system.isdigit()]
    yield ""
    yield growth_line([it for it in trials if it.search.ended and int(it.system) >= (50 if quick else 100)])
    yield "growth.svg", growth.picture(
        "Time of a search by the number of organisations", "organisations of three nodes", lines(trials)
    )


def main(words: list[str]) -> None:
    limit = runs.MOST_SECONDS
    if words[:1] == ["--limit"]:
        limit, words = int(words[1]), words[2:]
    if not words or words[0].startswith("-"):
        raise SystemExit(__doc__.strip())
    print("\n".join(head()))
    for system in words:
        print(asked(runs.PROGRAM, system, limit=limit).row(), flush=True)


if __name__ == "__main__":
    main(sys.argv[1:])
