#!/usr/bin/env python3
"""Makes networks as an operator meets them: seven organisations of three to five validators, and a hundred watchers.

    tests/watchers.py FOLDER [KIND..]

writes for each kind (seven, needed and old, if none is given; split is one that can fork) KIND.json and
KIND-orgs.json, in the shape that stellarbeat publishes. A third of the watchers say nothing of whom they trust, a
third have the validators' quorum set, and each of the others wants three of five validators of its own choice.
"""

from __future__ import annotations

import base64
import hashlib
import json
import os
import sys
from collections.abc import Iterator, Sequence
from typing import Any

# Name, domain, number of validators.
ORGANISATIONS = [
    ("Northwind Foundation", "northwind.example", 3),
    ("Halcyon Labs", "halcyon.example", 3),
    ("Lobster & Sons", "lobster.example", 5),
    ("Satoshi<Pay>", "satoshi.example", 4),
    ("Kettle Bank", "kettle.example", 3),
    ("Público Nœud", "publico.example", 3),
    ("Franklin Trust", "franklin.example", 4),
]
WATCHERS = 100
# One as it should be, one with an organisation that all need, one with quorum sets of before the last two
# organisations joined.
KINDS = ["seven", "needed", "old"]


def chosen(text: str, most: int) -> int:
    """A number below `most` that the text decides."""
    return int.from_bytes(hashlib.sha256(text.encode()).digest()[:8], "big") % most


def key(text: str) -> str:
    """A key in the shape of Stellar's: 56 letters and digits."""
    return "G" + base64.b32encode(hashlib.sha256(text.encode()).digest() * 2).decode()[:55]


def quorum_set(
    threshold: int, validators: Sequence[str] = (), inner: tuple[()] | list[dict[str, Any]] = ()
) -> dict[str, Any]:
    return {"threshold": threshold, "validators": list(validators), "innerQuorumSets": list(inner)}


def majority(keys: list[str]) -> dict[str, Any]:
    return quorum_set(len(keys) // 2 + 1, keys)


class Made:
    """A network of one kind: its organisations with their keys, and its nodes."""

    def __init__(self, kind: str) -> None:
        self.kind = kind
        self.orgs = [
            (name, domain, [key(f"{kind} {name} {at}") for at in range(1, count + 1)])
            for name, domain, count in ORGANISATIONS
        ]
        self.sets = [majority(keys) for _, _, keys in self.orgs]
        self.nodes = [node for at in range(len(self.orgs)) for node in self.validators(at)]
        self.nodes += [self.watcher(at) for at in range(1, WATCHERS + 1)]
        self.nodes.sort(key=lambda node: node["publicKey"][::-1])

    def usual(self) -> dict[str, Any]:
        """The quorum set of most: five of seven organisations, or three, or one that all need with four of the other
        six."""
        if self.kind == "needed":
            return quorum_set(2, [], [self.sets[0], quorum_set(4, [], self.sets[1:])])
        return quorum_set(3 if self.kind == "split" else 5, [], self.sets)

    def validator_set(self, org: int, at: int) -> dict[str, Any]:
        """Where it is old, one validator of three organisations still has the quorum set of before the last two
        joined."""
        if self.kind == "old" and at == 1 and org < 3:
            return quorum_set(4, [], self.sets[:5])
        return self.usual()

    def validators(self, org: int) -> Iterator[dict[str, Any]]:
        name, domain, keys = self.orgs[org]
        for at, own in enumerate(keys, 1):
            yield self.node(own, f"{name} {at}", domain, self.validator_set(org, at))

    def watcher(self, at: int) -> dict[str, Any]:
        own = key(f"{self.kind} watcher {at}")
        if at % 3 == 0:
            wanted = None
        elif at % 3 == 1:
            wanted = self.usual()
        else:
            wanted = quorum_set(
                3,
                sorted((it for _, _, keys in self.orgs for it in keys), key=lambda it: chosen(own + it, 1 << 60))[:5],
            )
        return self.node(own, f"watcher {at}" if at % 2 else None, None, wanted)

    @staticmethod
    def node(own: str, name: str | None, domain: str | None, wanted: dict[str, Any] | None) -> dict[str, Any]:
        made = {
            "ip": "192.0.2.1",
            "port": 11625,
            "publicKey": own,
            "active": True,
            "isValidator": domain is not None,
            "statistics": {"active30DaysPercentage": 99.5},
        }
        made.update(
            {
                word: held
                for word, held in (("name", name), ("homeDomain", domain), ("quorumSet", wanted))
                if held is not None
            }
        )
        return made

    def organisations(self) -> list[dict[str, Any]]:
        return [
            {
                "id": hashlib.sha256(name.encode()).hexdigest()[:32],
                "name": name,
                "homeDomain": domain,
                "validators": keys,
            }
            for name, domain, keys in self.orgs
        ]


def write(folder: str, kinds: list[str] = KINDS) -> dict[str, list[str]]:
    """The paths of the files of each kind: its nodes and its organisations."""
    paths = {}
    for kind in kinds:
        made = Made(kind)
        paths[kind] = [os.path.join(folder, kind + ".json"), os.path.join(folder, kind + "-orgs.json")]
        for path, held in zip(paths[kind], (made.nodes, made.organisations())):
            with open(path, "w", encoding="utf-8") as it:
                json.dump(held, it, ensure_ascii=False, indent=1)
                it.write("\n")
    return paths


def main() -> int:
    if len(sys.argv) < 2 or not set(sys.argv[2:]) <= {*KINDS, "split"}:
        print(__doc__.strip(), file=sys.stderr)
        return 2
    os.makedirs(sys.argv[1], exist_ok=True)
    write(sys.argv[1], sys.argv[2:] or KINDS)
    return 0


if __name__ == "__main__":
    sys.exit(main())
