#!/usr/bin/env python3
"""Makes snapshots of a drifting network, as stellarbeat would publish one a day.

    tests/python/drifting.py FOLDER COUNT [EQUAL] [SEED]

Six to eight organisations of three validators and watchers beside them, some 150 nodes. From day to day watchers come
and go and change
whom they trust, validators stop and start, and now and then an organisation joins or leaves or a threshold is
mistaken. EQUAL of
the snapshots have the quorum sets of the day before: half of these the same bytes, the others with other statistics.
"""

from __future__ import annotations

import base64
import datetime
import hashlib
import json
import os
import random
import sys
from collections.abc import Sequence
from typing import Any

COUNTRIES = ["DE", "US", "FI", "SG", "CA", "FR"]
ISPS = ["Hetzner Online GmbH", "Amazon.com, Inc.", "OVH SAS", "Google LLC", None]


def key(text: str) -> str:
    return "G" + base64.b32encode(hashlib.sha256(text.encode()).digest() * 2).decode()[:55]


def quorum_set(
    threshold: int, validators: Sequence[str] = (), inner: tuple[()] | list[dict[str, Any]] = ()
) -> dict[str, Any]:
    return {"threshold": threshold, "validators": list(validators), "innerQuorumSets": list(inner)}


class Network:
    """A network that changes from day to day."""

    def __init__(self, seed: int, watchers: int = 125, organisations: int = 7) -> None:
        self.random = random.Random(seed)
        self.count = 0
        self.orgs = [self.organisation() for _ in range(organisations)]
        self.watchers = [self.watcher() for _ in range(watchers)]
        self.mistaken: Any = None
        self.down: set[str] = set()

    def organisation(self) -> dict[str, Any]:
        self.count += 1
        name = f"organisation {self.count}"
        country, isp = self.random.choice(COUNTRIES), self.random.choice(ISPS)
        # (most have all validators in one country)
        return {
            "name": name,
            "keys": [key(f"{name} {at}") for at in range(3)],
            "country": [self.random.choice(COUNTRIES) if self.random.random() < 0.2 else country for _ in range(3)],
            "isp": isp,
        }

    def watcher(self) -> dict[str, Any]:
        self.count += 1
        return {
            "key": key(f"watcher {self.count}"),
            "kind": self.random.randrange(3),
            "seed": self.random.random(),
            "country": self.random.choice([*COUNTRIES, None]),
        }

    def drift(self) -> None:
        """One day."""
        draw = self.random.random
        for _ in range(self.random.randrange(min(4, len(self.watchers)))):
            self.watchers.pop(self.random.randrange(len(self.watchers)))
        for _ in range(self.random.randrange(4) if len(self.watchers) < 130 else 0):
            self.watchers.append(self.watcher())
        if draw() < 0.02 and len(self.orgs) < 8:
            self.orgs.append(self.organisation())
        if draw() < 0.02 and len(self.orgs) > 6:
            self.orgs.pop(self.random.randrange(len(self.orgs)))
        self.mistaken = self.random.randrange(2, 4) if draw() < 0.02 else self.mistaken if draw() < 0.7 else None
        self.down = {it for org in self.orgs for it in org["keys"] if draw() < 0.03}
        for it in self.watchers:
            if draw() < 0.01:
                it["seed"] = draw()

    def usual(self) -> dict[str, Any]:
        inner = [quorum_set(2, org["keys"]) for org in self.orgs]
        return quorum_set(self.mistaken or len(inner) - (len(inner) - 1) // 3, [], inner)

    def wanted(self, watcher: dict[str, Any]) -> dict[str, Any] | None:
        """The quorum set of a watcher: none, the usual one, or some validators of its own choice."""
        if watcher["kind"] == 0:
            return None
        if watcher["kind"] == 1:
            return self.usual()
        keys = [it for org in self.orgs for it in org["keys"]]
        return quorum_set(3, random.Random(watcher["seed"]).sample(keys, 5))

    def nodes(self, noise: int) -> list[dict[str, Any]]:
        found = []
        for org in self.orgs:
            for at, own in enumerate(org["keys"]):
                found.append(
                    self.node(
                        own,
                        f"{org['name']} {at + 1}",
                        org["country"][at],
                        noise,
                        self.usual(),
                        isp=org["isp"],
                        homeDomain=org["name"].replace(" ", "") + ".example",
                        organizationId=hashlib.sha256(org["name"].encode()).hexdigest()[:32],
                        isValidating=own not in self.down,
                    )
                )
        for it in self.watchers:
            found.append(self.node(it["key"], None, it["country"], noise, self.wanted(it), isValidating=False))
        return found

    @staticmethod
    def node(
        own: str, name: str | None, country: str | None, noise: int, wanted: dict[str, Any], **more: Any
    ) -> dict[str, Any]:
        return {
            "publicKey": own,
            "name": name,
            "active": True,
            "geoData": {"countryCode": country} if country else {},
            "statistics": {"active24HoursPercentage": noise},
            "quorumSet": wanted,
            **more,
        }

    def organisations(self) -> list[dict[str, Any]]:
        return [
            {"id": hashlib.sha256(it["name"].encode()).hexdigest()[:32], "name": it["name"], "validators": it["keys"]}
            for it in self.orgs
        ]


def put(path: str, held: list[dict[str, Any]]) -> None:
    with open(path, "w", encoding="utf-8") as it:
        json.dump(held, it)


def make(folder: str, count: int, equal: int = 0, seed: int = 1, **size: int) -> list[str]:
    """Writes the snapshots; the paths, by date."""
    os.makedirs(folder, exist_ok=True)
    network, paths = Network(seed, **size), []
    same = set(random.Random(seed).sample(range(1, count), equal))
    for day in range(count):
        path = os.path.join(folder, f"nodes-{datetime.date(2022, 1, 1) + datetime.timedelta(day)}.json")
        paths.append(path)
        if day not in same:
            network.drift()
            noise = day
        elif day % 2:
            noise = day
        put(path, network.nodes(noise))
        put(path.replace(".json", "-orgs.json"), network.organisations())
    return paths


if __name__ == "__main__":
    if len(sys.argv) < 3:
        sys.exit(__doc__.strip())
    make(sys.argv[1], *map(int, sys.argv[2:]))
