"""The networks that the tests ask about: the examples, those that tests/watchers.py makes up, and small ones, each
node with its quorum set."""

from __future__ import annotations

import json
import os
from collections.abc import Sequence
from typing import Any

import watchers

TOP = os.path.dirname(os.path.dirname(os.path.abspath(__file__)))
EXAMPLES = os.path.join(TOP, "examples")


class Networks:
    """Files of networks by their paths; made-up ones are written once, when they are first asked for."""

    def __init__(self, folder: str) -> None:
        self.folder = folder
        self.written: dict[str, list[str]] = {}

    @staticmethod
    def example(name: str) -> str:
        """The path of a file of examples/, as network.json."""
        return os.path.join(EXAMPLES, name)

    def made(self, kind: str) -> tuple[str, str]:
        """The paths of the nodes and organisations of a kind of tests/watchers.py: seven, needed, old, split."""
        if kind not in self.written:
            self.written.update(watchers.write(self.folder, [kind]))
        nodes, orgs = self.written[kind]
        return nodes, orgs


def example(name: str) -> bytes:
    """What a file of examples/ holds."""
    with open(os.path.join(EXAMPLES, name), "rb") as it:
        return it.read()


def node(
    key: str, threshold: int | None = None, validators: Sequence[str] = (), inner: Sequence[Any] = (), **more: Any
) -> dict[str, Any]:
    """A node of a configuration, with a quorum set if it has a threshold."""
    held: dict[str, Any] = {"publicKey": key, **more}
    if threshold is not None:
        held["quorumSet"] = {"threshold": threshold, "validators": list(validators), "innerQuorumSets": list(inner)}
    return held


def as_json(nodes: Any) -> bytes:
    return json.dumps(nodes).encode()


def flat(count: int, threshold: int, **more: Any) -> list[dict[str, Any]]:
    """Nodes that each want so many of all."""
    keys = [f"n{at:02d}" for at in range(count)]
    return [node(it, threshold, keys, **more) for it in keys]
