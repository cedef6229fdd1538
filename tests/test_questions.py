"""Asks `intersect` of networks of 30 to 100 nodes, checks each certificate, and compares with minisat (Debian's
package) on the exported formula.

The networks are of organisations of three nodes: `all` has organisations that all want the same share of each other,
`core` a core of seven organisations and watchers that follow it, `two` two groups of organisations that overlap in
one.
"""

from __future__ import annotations

import json
import os
import shutil
import subprocess
from collections.abc import Callable
from pathlib import Path
from typing import Any

import pytest

pytestmark = pytest.mark.long

# what minisat's status means for the answer and the certificate
MEANT = {10: ("intersects no", "accepted pair"), 20: ("intersects yes", "accepted refutation")}


def organisation(o: int) -> dict[str, Any]:
    return {"threshold": 2, "validators": [f"N{3 * o + i:03d}" for i in range(3)], "innerQuorumSets": []}


def node(number: int, threshold: int, organisations: Any) -> dict[str, Any]:
    quorum_set = {
        "threshold": threshold,
        "validators": [],
        "innerQuorumSets": [organisation(o) for o in organisations],
    }
    return {"publicKey": f"N{number:03d}", "quorumSet": quorum_set}


def everyone(count: int, threshold: int) -> list[dict[str, Any]]:
    """Each node wants `threshold` of all organisations."""
    return [node(v, threshold, range(count)) for v in range(3 * count)]


def core(count: int, threshold: int) -> list[dict[str, Any]]:
    """Each node wants `threshold` of the first seven organisations, whether it is in one of them or not."""
    return [node(v, threshold, range(7)) for v in range(3 * count)]


def two_groups(count: int, threshold: int) -> list[dict[str, Any]]:
    """The organisations of each half want `threshold` of their half, to which the first of the other half belongs."""
    half = count // 2
    groups = [list(range(half)) + [half], list(range(half, count)) + [0]]
    return [node(v, threshold, groups[v // 3 >= half]) for v in range(3 * count)]


MADE = {
    "all 10, 7 needed": everyone(10, 7),
    "all 12, 7 needed": everyone(12, 7),
    "all 14, 7 needed": everyone(14, 7),
    "all 16, 11 needed": everyone(16, 11),
    "all 33, 16 needed": everyone(33, 16),
    "core of 12, 5 needed": core(12, 5),
    "core of 33, 5 needed": core(33, 5),
    "core of 33, 3 needed": core(33, 3),
    "two of 12, 5 needed": two_groups(12, 5),
    "two of 16, 7 needed": two_groups(16, 7),
}


@pytest.mark.skipif(not shutil.which("minisat"), reason="there is no minisat")
@pytest.mark.parametrize("name", MADE)
def test_the_answer_and_its_certificate_are_what_minisat_says(
    run: Callable[..., Any], tmp_path: Path, name: str
) -> None:
    (tmp_path / "config").write_text(json.dumps(MADE[name]))
    found = [
        run(*words, cwd=tmp_path, timeout=3000)
        for words in (("intersect", "config", "cert"), ("check", "config", "cert"))
    ]
    with open(tmp_path / "formula.cnf", "w") as it:
        it.write(run("export", "config", cwd=tmp_path).out)
    solved = subprocess.run(["minisat", str(tmp_path / "formula.cnf"), os.devnull], stdout=subprocess.DEVNULL)
    assert tuple(it.out.split("\n")[0] for it in found) == MEANT[solved.returncode]
