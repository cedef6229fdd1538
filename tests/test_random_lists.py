"""Compares `blocking`, `quorums`, `least` and `org-blocking` with trying all sets of nodes or of organisations, on
small random systems.

These have up to 12 nodes; the listed sets have to be the minimal ones in name order, the set of `least` a quorum with
as few nodes as any, and `check` has to accept each certificate and print the same. The organisations overlap, lack
members, or name strangers; some nodes lie, and some systems are the trust closure of a node.
"""

from __future__ import annotations

import json
import os
import random
from collections.abc import Callable, Iterable
from pathlib import Path
from typing import Any

import chosen
import pytest

pytestmark = pytest.mark.long


# ---- systems: for each node a quorum set (threshold, nodes, inner sets) or None


def random_set(n: int, depth: int) -> tuple[int, list[int], list[tuple[int, list[Any], list[Any]]]]:
    validators = random.sample(range(n), random.randint(0, min(n, 6)))
    inner = [random_set(n, depth - 1) for _ in range(random.randint(0, 2))] if depth else []
    if not validators and not inner:
        validators = [random.randrange(n)]
    return random.randint(1, len(validators) + len(inner)), validators, inner


def random_system() -> list[tuple[int, list[int], list[tuple[Any, ...]]] | None]:
    n = random.randint(1, 12)
    if random.random() < 0.5:
        shared = [random_set(n, 1) for _ in range(2)]
        return [random.choice(shared) if random.random() < 0.9 else None for _ in range(n)]  # type: ignore[misc]
    return [None if random.random() < 0.1 else random_set(n, 1) for _ in range(n)]  # type: ignore[misc]


def named(v: int) -> str:
    return f"n{v:03d}"


def as_json(system: Any) -> str:
    def of(quorum_set: Any) -> dict[str, Any]:
        threshold, validators, inner = quorum_set
        return {
            "threshold": threshold,
            "validators": [named(v) for v in validators],
            "innerQuorumSets": [of(it) for it in inner],
        }

    return json.dumps([{"publicKey": named(v), "quorumSet": it and of(it)} for v, it in enumerate(system)])


# ---- all sets of nodes, each as the bits of a number


def satisfied(quorum_set: Any, nodes: int) -> bool:
    threshold, validators, inner = quorum_set
    return sum(nodes >> v & 1 for v in validators) + sum(satisfied(it, nodes) for it in inner) >= threshold


def is_quorum(
    system: list[tuple[int, list[int], list[tuple[Any, ...]]] | None], nodes: int, members: int | None = None
) -> bool:
    """Whether each of the nodes, or of these among them, has a slice inside them, and there is one."""
    members = nodes if members is None else members
    return members != 0 and all(
        system[v] is not None and satisfied(system[v], nodes) for v in range(len(system)) if members >> v & 1
    )


def minimal(sets: Iterable[Any]) -> list[int]:
    found: list[int] = []
    for nodes in sorted(sets, key=lambda it: bin(it).count("1")):
        if not any(nodes & it == it for it in found):
            found.append(nodes)
    return found


def minimal_quorums(system: list[tuple[int, list[int], list[tuple[Any, ...]]] | None]) -> list[int]:
    return minimal(it for it in range(1 << len(system)) if is_quorum(system, it))


def minimal_blocks(system: list[tuple[int, list[int], list[tuple[Any, ...]]] | None]) -> list[int]:
    quorums = minimal_quorums(system)
    return minimal(it for it in range(1 << len(system)) if all(it & quorum for quorum in quorums))


def lines(word: str, sets: list[int], n: int) -> list[str]:
    """What the program prints of these sets."""
    members = sorted([v for v in range(n) if it >> v & 1] for it in sets)
    return [f"{word} {len(members)}"] + ["set" + "".join(" " + named(v) for v in it) for it in members]


# ---- organisations: an id, and its nodes, some of which are not there


def random_orgs(n: int) -> list[tuple[str, list[int]]]:
    ids = random.sample("ABCDEF", random.randint(0, 6))
    return [(it, random.sample(range(n + 3), random.randint(0, min(5, n)))) for it in ids]


def orgs_as_json(orgs: list[tuple[str, list[int]]]) -> str:
    return json.dumps(
        [dict({"id": it}, **({"validators": [named(v) for v in members]} if members else {})) for it, members in orgs]
    )


def closure_of(system: list[tuple[int, list[int], list[tuple[Any, ...]]] | None], v: int) -> int:
    """The node and those in its quorum set, in theirs, and so on."""

    def mentioned(quorum_set: Any) -> set[int]:
        return set(quorum_set[1]).union(*map(mentioned, quorum_set[2])) if quorum_set else set()

    nodes, fresh = {v}, [v]
    while fresh:
        new = mentioned(system[fresh.pop()]) - nodes
        nodes |= new
        fresh += new
    return sum(1 << v for v in nodes)


def groups_of(orgs: list[tuple[str, list[int]]], n: int, part: int) -> list[tuple[str, int]]:
    """The texts and the members of the groups, in order: the organisations, and the nodes of the part that are in
    none."""
    masks = {"org:" + it: sum(1 << v for v in members if v < n) for it, members in orgs}
    loose = [v for v in range(n) if part >> v & 1 and not any(it >> v & 1 for it in masks.values())]
    return sorted([(text, it & part) for text, it in masks.items()] + [("node:" + named(v), 1 << v) for v in loose])


def minimal_group_blocks(
    system: list[tuple[int, list[int], list[tuple[Any, ...]]] | None],
    faulty: int,
    part: int,
    groups: list[tuple[str, int]],
) -> list[int]:
    """The minimal blocking sets of groups, as the bits of their numbers: the quorums are those of the part that hold
    no faulty node."""
    quorums = minimal(
        it
        for it in range(1 << len(system))
        if it and not it & ~part and not it & faulty and is_quorum(system, it | faulty & part, it)
    )

    unions = [0]
    for _, members in groups:
        unions += [it | members & ~faulty for it in unions]
    return minimal(it for it, nodes in enumerate(unions) if all(nodes & quorum for quorum in quorums))


def agrees_by_groups(folder: str, system: list[tuple[int, list[int], list[tuple[Any, ...]]] | None]) -> bool:
    """Whether `org-blocking` lists these sets, and `check` beside the same organisations says so, some nodes lying and
    in the trust closure of a node."""
    n = len(system)
    orgs = random_orgs(n)
    start = random.randrange(n) if random.random() < 0.3 else None
    part = closure_of(system, start) if start is not None else (1 << n) - 1
    faulty = sum(1 << v for v in range(n) if random.random() < 0.1)
    config, cert, given = (os.path.join(folder, it) for it in ("config", "cert", "orgs"))
    for name, text in ((config, as_json(system)), (given, orgs_as_json(orgs))):
        with open(name, "w") as it:
            it.write(text)
    groups = groups_of(orgs, n, part)
    sets = sorted(
        [groups[k][0] for k in range(len(groups)) if it >> k & 1]
        for it in minimal_group_blocks(system, faulty, part, groups)
    )
    wanted = [f"org-blocking {len(sets)}"] + ["set" + "".join(" " + text for text in it) for it in sets]
    lying = [named(v) for v in range(n) if faulty >> v & 1]
    found = said(
        "org-blocking",
        config,
        cert,
        "--orgs",
        given,
        "--faulty=" + ",".join(lying),
        *(["--from", named(start)] if start is not None else []),
    )
    head = [
        "from" + (" " + named(start) if start is not None else ""),
        "faulty" + "".join(" " + named(v) for v in range(n) if (faulty & part) >> v & 1),
    ]
    return found == wanted and said("check", config, cert, "--orgs", given) == [
        "accepted " + wanted[0],
        *head,
        *wanted[1:],
    ]


def said(*words: str) -> list[str]:
    return chosen.run(*words).out.splitlines()


def agrees(
    folder: str, system: list[tuple[int, list[int], list[tuple[Any, ...]]] | None], word: str, sets: list[int]
) -> bool:
    """Whether the list, and what `check` says of its certificate, are the sets."""
    config, cert = os.path.join(folder, "config"), os.path.join(folder, "cert")
    with open(config, "w") as it:
        it.write(as_json(system))
    wanted = lines(word, sets, len(system))
    return said(word, config, cert) == wanted and said("check", config, cert) == [
        "accepted " + wanted[0],
        "from",
        "faulty",
        *wanted[1:],
    ]


def names_least(
    folder: str, system: list[tuple[int, list[int], list[tuple[Any, ...]]] | None], quorums: list[int]
) -> bool:
    """Whether the set of `least` is a smallest quorum, or none is where there is no quorum, and `check` says the
    same."""
    config, cert = os.path.join(folder, "config"), os.path.join(folder, "cert")
    found = said("least", config, cert)
    if not found or said("check", config, cert) != ["accepted " + found[0], "from", "faulty", *found[1:]]:
        return False
    if not quorums:
        return found == ["least none"]
    nodes = sum(1 << int(name[1:]) for name in found[1].split(" ")[1:])
    size = min(bin(it).count("1") for it in quorums)
    return found[0] == f"least {size}" and bin(nodes).count("1") == size and is_quorum(system, nodes)


def test_each_list_is_that_of_trying_all_sets(
    program: str, tmp_path: Path, cases: Callable[[int, int], int], seed: Callable[[int], int]
) -> None:
    random.seed(seed(1))
    folder = str(tmp_path)
    for case in range(cases(500, 500)):
        system = random_system()
        quorums = minimal_quorums(system)
        assert agrees(folder, system, "blocking", minimal_blocks(system)), f"case {case}: {as_json(system)}"
        assert agrees(folder, system, "quorums", quorums), f"case {case}: {as_json(system)}"
        assert names_least(folder, system, quorums), f"case {case}: {as_json(system)}"
        assert agrees_by_groups(folder, system), f"case {case}: {as_json(system)}"
