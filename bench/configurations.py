#!/usr/bin/env python3
"""Configurations in stellarbeat's shape that are slow to read or to answer: bench/configurations.py FOLDER writes
them."""
from __future__ import annotations

import json
import os
import sys
from collections.abc import Callable, Iterable
from typing import Any


def key(number: int) -> str:
    """A key as long as Stellar's: 56 bytes, in an order that is not that of the numbers."""
    return f"G{(number * 2654435761) % 10_000_019:07d}" + "A" * 48


def ordered_key(number: int) -> Any:
    return f"G{number:07d}" + "A" * 48


def node(name: str, quorum_set: dict[str, Any]) -> dict[str, Any]:
    return {
        "publicKey": name,
        "name": "node " + name[:8],
        "isValidating": True,
        "geoData": {"latitude": 1.25, "longitude": -3.5},
        "quorumSet": quorum_set,
    }


def short_key(number: int) -> str:
    """A key of four bytes, so that a million entries fit into 16 MiB."""
    return f"{number * 40503 % 65536:04x}"


def dense(nodes: int, entries: int, name: Callable[..., Any]) -> list[dict[str, Any]]:
    """Each node lists as many others as make this many entries in all, in inner quorum sets of 50.

    Each lists those after it, round and round, so that the trust closure of each is all.
    """
    names = [name(v) for v in range(nodes)]
    share = entries // nodes
    extra = entries - share * nodes
    out = []
    for v in range(nodes):
        rest = share + (1 if v < extra else 0)
        inner, at = [], v + 1
        while rest > 0:
            count = min(50, rest - 1)
            if count <= 0:
                break
            members = [names[(at + i) % nodes] for i in range(count)]
            inner.append({"threshold": count // 2 + 1, "validators": members, "innerQuorumSets": []})
            at += count
            rest -= count + 1
        validators = [names[(at + i) % nodes] for i in range(rest)]
        total = len(inner) + len(validators)
        quorum_set = {"threshold": total // 2 + 1, "validators": validators, "innerQuorumSets": inner}
        out.append(node(names[v], quorum_set))
    return out


def chain(nodes: int, name: Any, step: Any) -> Any:
    """Node v needs node v + step, so that one node without a slice takes all others with it.

    The trust closure of the node at the other end is the whole chain, reached node by node.
    """
    out = []
    for v in range(nodes):
        after = v + step
        if 0 <= after < nodes:
            out.append(node(name(v), {"threshold": 1, "validators": [name(after)], "innerQuorumSets": []}))
        else:
            out.append({"publicKey": name(v)})
    return out


def zigzag(nodes: int, entries: Any) -> Any:
    """A chain whose next node stands in the upper and in the lower half of the names in turn, so that sweeps take out
    one each.

    The node at place i of the chain needs the one before it, named entries(i) times.
    """
    name = [f"{nodes // 2 + i // 2 if i % 2 == 0 else i // 2:04x}" for i in range(nodes)]
    out = [{"publicKey": name[0]}]
    for i in range(1, nodes):
        out.append(node(name[i], {"threshold": 1, "validators": [name[i - 1]] * entries(i), "innerQuorumSets": []}))
    return out


def behind(nodes: int, share: Any) -> Any:
    """Each node needs one of the next `share` nodes by name, and the last has no quorum set.

    So the nodes fall from the last to the first, each when all that it names have fallen, and those that name one that
    falls are looked at again from the first of them on: all in vain but the last.
    """
    out = []
    for v in range(nodes):
        after = [f"{w:04x}" for w in range(v + 1, min(nodes, v + 1 + share))]
        out.append(
            node(f"{v:04x}", {"threshold": 1, "validators": after, "innerQuorumSets": []})
            if after
            else {"publicKey": f"{v:04x}"}
        )
    return out


def write(path: str, nodes: list[dict[str, Any]]) -> None:
    with open(path, "w") as file:
        json.dump(nodes, file, separators=(",", ":"))


# The last node of zigzag-large has almost all of a million entries, each of zigzag-even has its share of them. Those
# that begin with `most` have as many nodes as there may be: with ten entries each, with a million in all, in a chain,
# and looked at again in vain.
FILES = {
    "half": lambda: dense(4096, 500_000, short_key),
    "whole": lambda: dense(4096, 1_000_000, short_key),
    "long-keys": lambda: dense(4096, 250_000, key),
    "chain-up": lambda: chain(4096, ordered_key, 1),
    "chain-down": lambda: chain(4096, ordered_key, -1),
    "zigzag-large": lambda: zigzag(4096, lambda i: 995_900 if i == 4095 else 1),
    "zigzag-even": lambda: zigzag(4096, lambda i: 244),
    "behind": lambda: behind(4096, 244),
    "most-few": lambda: dense(16384, 163_840, short_key),
    "most-whole": lambda: dense(16384, 1_000_000, short_key),
    "most-chain": lambda: chain(16384, ordered_key, 1),
    "most-behind": lambda: behind(16384, 61),
}


def write_all(folder: str, names: Iterable[str] = FILES) -> None:
    os.makedirs(folder, exist_ok=True)
    for name in names:
        write(os.path.join(folder, name + ".json"), FILES[name]())


if __name__ == "__main__":
    write_all(sys.argv[1])
