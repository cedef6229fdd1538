"""Compares exported formulas with the definition, on small random systems.

With and without faulty nodes and a trust closure, minisat (Debian's package) says of the formula that `export` writes
whether it is satisfiable; trying all sets of nodes says whether two quorums are disjoint.
"""

from __future__ import annotations

import itertools
import json
import os
import random
import shutil
import subprocess
from collections.abc import Callable
from pathlib import Path
from typing import Any

import chosen
import pytest

pytestmark = pytest.mark.long


def random_set(names: list[str], depth: int) -> dict[str, Any]:
    validators = [random.choice(names) for _ in range(random.randint(0, 4))]
    inner = [random_set(names, depth - 1) for _ in range(random.randint(0, 2))] if depth else []
    return {
        "threshold": random.randint(0, len(validators) + len(inner) + (random.random() < 0.1)),
        "validators": validators,
        "innerQuorumSets": inner,
    }


def random_system() -> tuple[list[str], list[dict[str, Any]]]:
    names = [f"n{i}" for i in range(random.randint(1, 7))]
    nodes: list[dict[str, Any]] = [{"publicKey": n} for n in names]
    for node in nodes:
        if random.random() < 0.9:
            node["quorumSet"] = random_set(names, 2)
    return names, nodes


def mentioned(quorum_set: dict[str, Any]) -> set[str]:
    found = set(quorum_set["validators"])
    for inner in quorum_set["innerQuorumSets"]:
        found |= mentioned(inner)
    return found


def closure(sets: dict[str, dict[str, Any] | None], node: str) -> set[str]:
    reached = {node}
    while True:
        more = set().union(reached, *(mentioned(sets[v]) for v in reached if sets.get(v)))
        if more == reached:
            return reached
        reached = more


def satisfied(quorum_set: dict[str, Any], members: set[str]) -> bool:
    met = sum(v in members for v in quorum_set["validators"])
    met += sum(satisfied(inner, members) for inner in quorum_set["innerQuorumSets"])
    return 1 <= quorum_set["threshold"] <= met


def has_disjoint_quorums(
    names: list[str], sets: dict[str, dict[str, Any] | None], faulty: set[str], part: set[str]
) -> bool:
    left = sorted(part - faulty)
    quorums = []
    for size in range(1, len(left) + 1):
        for picked in itertools.combinations(left, size):
            members = set(picked)
            if all(sets.get(v) and satisfied(sets[v], members | (faulty & part)) for v in picked):
                quorums.append(members)
    return any(not (u & w) for u, w in itertools.combinations(quorums, 2))


def asked() -> tuple[list[str], list[dict[str, Any]], set[str], str | None]:
    """A random system, its faulty nodes and the node whose trust closure is asked about, if any."""
    names, nodes = random_system()
    faulty = {n for n in names if random.random() < 0.15}
    return names, nodes, faulty, random.choice(names) if random.random() < 0.3 else None


def is_satisfiable(folder: Path, nodes: list[dict[str, Any]], faulty: set[str], start: str | None) -> bool:
    """What minisat says of the formula that is exported."""
    config, formula = folder / "config.json", folder / "formula.cnf"
    config.write_text(json.dumps(nodes))
    words = ["export", str(config), "--faulty=" + ",".join(sorted(faulty))] + (["--from", start] if start else [])
    ended = chosen.run(*words)
    assert ended.status == 0, ended
    formula.write_text(ended.out)
    solved = subprocess.run(["minisat", "-verb=0", str(formula), os.devnull], stdout=subprocess.DEVNULL)
    return {10: True, 20: False}[solved.returncode]


@pytest.mark.skipif(not shutil.which("minisat"), reason="there is no minisat")
def test_a_formula_is_satisfiable_exactly_if_two_quorums_are_disjoint(
    program: str, tmp_path: Path, cases: Callable[[int, int], int], seed: Callable[[int], int]
) -> None:
    random.seed(seed(1))
    for case in range(cases(300, 300)):
        names, nodes, faulty, start = system = asked()
        sets = {it["publicKey"]: it.get("quorumSet") for it in nodes}
        part = closure(sets, start) if start else set(names)
        found = is_satisfiable(tmp_path, nodes, faulty, start)
        assert found == has_disjoint_quorums(names, sets, faulty, part), f"case {case}: {system!r}"
