"""Shuffles the elements of quorum sets at every depth, and asks before and after it.

A configuration is a random small one (tests/fuzz.py) or a network of organisations (bench/organisations.py). Of both
texts 'export' must say the same numbers of variables and clauses, and 'intersect' the same status and first line;
'check' must accept both certificates.
"""

from __future__ import annotations

import os
import random
from collections.abc import Callable
from pathlib import Path
from typing import Any

import chosen
import fuzz
import organisations

# Of how many configurations one is a network of organisations.
LARGE = 4


def small_network(rng: random.Random) -> list[dict[str, Any]]:
    """A network of organisations of a kind that a choice takes, with few enough that each question is decided."""
    count, kinds, seed = rng.randint(4, 7), rng.randint(1, 3), rng.randrange(1000)
    arguments = {
        "flat": (rng.randint(4, 12), rng.randint(3, 9)),
        "tiers": (rng.randint(4, 5), rng.randint(1, 3)),
        "mixed": (count, kinds, seed),
        "sizes": (rng.randint(4, 6), seed),
        "shuffled": (count, kinds, seed),
    }
    kind = rng.choice(list(organisations.KINDS))
    made: list[dict[str, Any]] = organisations.KINDS[kind](*arguments.get(kind, (count,)))
    return made


def reordered(rng: random.Random, quorum_set: dict[str, Any]) -> dict[str, Any]:
    """The quorum set with its validators and its inner sets in another order, and theirs."""
    inner = [reordered(rng, it) for it in quorum_set.get("innerQuorumSets", [])]
    validators = list(quorum_set["validators"])
    rng.shuffle(inner)
    rng.shuffle(validators)
    return {**quorum_set, "validators": validators, "innerQuorumSets": inner}


def with_orders(rng: random.Random, nodes: list[dict[str, Any]]) -> list[dict[str, Any]]:
    return [{**it, "quorumSet": reordered(rng, it["quorumSet"])} if "quorumSet" in it else it for it in nodes]


def said(*words: str) -> tuple[int, list[str]]:
    """The status, and the lines that are put out."""
    ended = chosen.run(*words, timeout=600)
    return ended.status, ended.out.splitlines()


def answers(folder: str, nodes: list[dict[str, Any]], options: list[str]) -> dict[str, Any]:
    """What is said of these nodes and must not depend on an order."""
    config, cert = os.path.join(folder, "config"), os.path.join(folder, "cert")
    with open(config, "wb") as it:
        it.write(fuzz.compact(nodes))
    exported, lines = said("export", config, *options)
    found, answer = said("intersect", config, cert, *options)
    checked, shown = said("check", config, cert)
    sizes = [it for it in lines if it.startswith("p cnf ")]
    return {"export": (exported, sizes), "intersect": (found, answer[:1]), "check": (checked, shown[:1])}


def is_whole(answer: dict[str, Any]) -> bool:
    """Whether there is a formula, and a decided answer of which the check says the same."""
    of_answer = {"intersects yes": "accepted refutation", "intersects no": "accepted pair"}
    (exported, sizes), (_, lines), check = answer["export"], answer["intersect"], answer["check"]
    return exported == 0 and len(sizes) == 1 and check == (0, [of_answer.get("".join(lines))])


def test_no_answer_and_no_size_of_a_formula_depends_on_the_order_inside_a_quorum_set(
    program: str, tmp_path: Path, cases: Callable[[int, int], int], seed: Callable[[int], int]
) -> None:
    rng = random.Random(seed(1))
    for case in range(cases(60, 3000)):
        nodes = small_network(rng) if case % LARGE == 0 else fuzz.random_nodes(rng)
        keys = [it["publicKey"] for it in nodes]
        options = [f"--faulty={','.join(rng.sample(keys, rng.randint(0, 2) % len(keys)))}"]
        options += [f"--from={rng.choice(keys)}"] if rng.random() < 0.3 else []
        before, after = (answers(str(tmp_path), it, options) for it in (nodes, with_orders(rng, nodes)))
        assert before == after, f"case {case}: {options} of {fuzz.compact(nodes).decode()}"
        assert is_whole(before), f"case {case}: {options} of {fuzz.compact(nodes).decode()}"
