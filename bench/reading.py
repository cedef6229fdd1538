#!/usr/bin/env python3
"""The table of reading: `show` beside `jq -c length` on generated configurations, the least processor time of five
runs."""
from __future__ import annotations

import json
import os
import tempfile
from collections.abc import Iterator
from typing import Any

import configurations
import runs

FILES = ["whole", "long-keys", "zigzag-even", "behind"]


def counted(path: str) -> tuple[int, int]:
    """How many nodes a configuration has, and how many entries in all."""

    def entries(quorum_set: dict[str, Any]) -> int:
        inner = quorum_set.get("innerQuorumSets") or []
        return len(quorum_set.get("validators") or []) + len(inner) + sum(map(entries, inner))

    with open(path, encoding="utf-8") as it:
        nodes = json.load(it)
    return len(nodes), sum(entries(node["quorumSet"]) for node in nodes if node.get("quorumSet"))


def made(program: str, quick: Any) -> Iterator[Any]:
    """The lines of the table, one by one."""
    yield from runs.head(
        ["file", "nodes", "entries", "MB", "`show`, s", "its memory, MB", "`jq`, s", "its memory, MB"]
    )
    with tempfile.TemporaryDirectory(dir=runs.MEMORY) as folder:
        names = FILES[:1] + FILES[-1:] if quick else FILES
        configurations.write_all(folder, names)
        for name in names:
            path = os.path.join(folder, name + ".json")
            ours, its = (runs.least(words) for words in ([program, "show", path], ["jq", "-c", "length", path]))
            sizes = ["{:,}".format(it) for it in counted(path)]
            yield runs.row(
                [
                    f"`{name}`",
                    *sizes,
                    runs.megabytes(os.path.getsize(path)),
                    runs.seconds(ours),
                    ours.memory,
                    runs.beside(ours, its),
                    its.memory,
                ]
            )
