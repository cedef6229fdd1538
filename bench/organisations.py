#!/usr/bin/env python3
"""Networks of organisations to time: bench/organisations.py KIND ARGUMENT .. > CONFIG.

The kinds are the functions below, each with its arguments, all numbers. But where it is said, an organisation has
three nodes, of which two are needed.
"""
from __future__ import annotations

import json
import random
import sys
from collections.abc import Callable, Sequence
from typing import Any


def inner(members: list[str], threshold: int = 2) -> dict[str, Any]:
    return {"threshold": threshold, "validators": list(members), "innerQuorumSets": []}


def outer(threshold: int, sets: list[dict[str, Any]], validators: Sequence[str] = ()) -> dict[str, Any]:
    return {"threshold": threshold, "validators": list(validators), "innerQuorumSets": list(sets)}


def members(organisation: int, size: int = 3) -> list[str]:
    return ["%03d%c" % (organisation, 97 + i) for i in range(size)]


def two_thirds(count: int) -> int:
    """The least number that is more than two thirds of so many, less one."""
    return count - (count - 1) // 3


def network(quorum_sets: list[dict[str, Any]]) -> list[dict[str, Any]]:
    """A configuration in which the nodes of the i-th organisation have the i-th of these quorum sets."""
    return [
        {"publicKey": name, "quorumSet": quorum_set} for i, quorum_set in enumerate(quorum_sets) for name in members(i)
    ]


def organisations(count: int) -> list[dict[str, Any]]:
    return [inner(members(i)) for i in range(count)]


def flat(count: int, threshold: int) -> Any:
    """So many nodes, each of which wants so many of all."""
    names = [f"t{i:04d}" for i in range(count)]
    return [{"publicKey": name, "quorumSet": outer(threshold, [], names)} for name in names]


def apart(count: int) -> Any:
    """Each organisation leaves itself out, and wants two thirds of the others."""
    sets = organisations(count)
    return network([outer(two_thirds(count - 1), sets[:i] + sets[i + 1 :]) for i in range(count)])


def beside(count: int) -> Any:
    """Each organisation stands beside the others: it wants two thirds of them, and two of its own nodes."""
    sets = organisations(count)
    return network([outer(2, [sets[i], outer(two_thirds(count - 1), sets[:i] + sets[i + 1 :])]) for i in range(count)])


def rotated(count: int) -> list[dict[str, Any]]:
    """All want two thirds of all; each lists its own organisation first."""
    sets = organisations(count)
    return network([outer(two_thirds(count), [sets[i]] + sets[:i] + sets[i + 1 :]) for i in range(count)])


def tiers(core: Any, more: str) -> Any:
    """A core that wants two thirds of itself, and outer organisations that want the same and two of their own
    nodes."""
    sets = organisations(core + more)
    common = outer(two_thirds(core), sets[:core])
    return network([common] * core + [outer(2, [it, common]) for it in sets[core:]])


def mixed(count: int, kinds: int, seed: int) -> Any:
    """So many kinds of quorum sets, with thresholds from two thirds up, each of which leaves out up to two
    organisations."""
    choice, sets, forms = random.Random(seed), organisations(count), []
    for kind in range(kinds):
        gone = set(choice.sample(range(count), choice.randint(0, 2)))
        part = [it for i, it in enumerate(sets) if i not in gone]
        forms.append(outer(min(len(part), two_thirds(len(part)) + kind % 3), part))
    return network([forms[i % kinds] for i in range(count)])


def sizes(count: int, seed: int) -> Any:
    """Organisations of one to seven nodes, of which a majority or two thirds are needed; all want two thirds of
    them."""
    choice = random.Random(seed)
    names = [members(i, choice.choice([1, 3, 3, 3, 4, 5, 7])) for i in range(count)]
    sets = [inner(it, choice.choice([len(it) // 2 + 1, two_thirds(len(it))])) for it in names]
    return [{"publicKey": name, "quorumSet": outer(two_thirds(count), sets)} for it in names for name in it]


def shuffled(count: int, kinds: int, seed: int) -> list[dict[str, Any]]:
    """All want two thirds of all, and list them in one of so many orders."""
    choice, sets = random.Random(seed), organisations(count)
    orders = [choice.sample(sets, count) for _ in range(kinds)]
    return network([outer(two_thirds(count), orders[i % kinds]) for i in range(count)])


def halves(count: int) -> Any:
    """Half of the organisations are enough: two disjoint quorums exist."""
    return network([outer(count // 2, organisations(count))] * count)


KINDS: dict[str, Callable[..., Any]] = {
    it.__name__: it for it in (flat, apart, beside, rotated, tiers, mixed, sizes, shuffled, halves)  # type: ignore[misc]  # noqa: E501
}


def text(kind: str, *arguments: str) -> str:
    return json.dumps(KINDS[kind](*map(int, arguments)), separators=(",", ":"))


if __name__ == "__main__":
    if len(sys.argv) < 2 or sys.argv[1] not in KINDS:
        raise SystemExit(__doc__.strip() + "\n" + "\n".join(f"{name}: {it.__doc__}" for name, it in KINDS.items()))
    print(text(*sys.argv[1:]))
