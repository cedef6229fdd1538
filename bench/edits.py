#!/usr/bin/env python3
"""The table of edits: what the scripts of `whatif` cost beyond reading, on generated systems. bench/edits.py [PROGRAM]
prints it.

What a script costs is the processor time of `whatif` with it less that with an empty script, which reads the same
system and says what is so of it once; each is the least of three runs, and prints to /dev/null.
"""
from __future__ import annotations

import os
import sys
import tempfile
from collections.abc import Callable, Iterator
from typing import Any

import configurations
import reading
import runs

# a threshold above the entries of each quorum set here, so that it has no choice
TOO_HIGH = 99


def names_of(system: Any) -> list[str]:
    return [node["publicKey"] for node in system]


def changing(system: list[dict[str, Any]], count: int) -> list[str]:
    """Edits of which each second one changes the greatest quorum.

    Of each four the first takes a node out of it and the third brings the node back; the second names that node once
    more in an inner quorum set of the next, and the fourth drops it there.
    """
    names, out = names_of(system), []
    for turn in range(count // 4):
        at = 2 * turn % len(names)
        node, other, threshold = names[at], names[at + 1], system[at]["quorumSet"]["threshold"]
        out += [
            f"threshold {node} . {TOO_HIGH}",
            f"add {other} .0 {node}",
            f"threshold {node} . {threshold}",
            f"drop {other} .0 {node}",
        ]
    return out


def keeping(system: list[dict[str, Any]], count: int) -> list[str]:
    """Edits that change no answer: a name more and the same name less, and the threshold of an inner quorum set down
    and up."""
    names, out = names_of(system), []
    for turn in range(count // 4):
        at = 2 * turn % len(names)
        node, other, threshold = names[at], names[at + 1], system[at]["quorumSet"]["innerQuorumSets"][0]["threshold"]
        out += [
            f"add {node} .0 {other}",
            f"threshold {node} .0 {threshold - 1}",
            f"threshold {node} .0 {threshold}",
            f"drop {node} .0 {other}",
        ]
    return out


def bringing(system: list[dict[str, Any]], count: int, name: Callable[..., Any]) -> list[str]:
    """Edits that bring a name each: in turn a node with a quorum set, and an entry of a quorum set."""
    names = names_of(system)
    new = [name(len(names) + at) for at in range(count)]
    return [f"add {names[at % len(names)]} .0 {it}" if at % 2 else "declare " + it for at, it in enumerate(new)]


def chained(nodes: int, name: Any) -> Any:
    """A chain in which each node needs the next one, and the last itself."""
    last = {"threshold": 1, "validators": [name(nodes - 1)], "innerQuorumSets": []}
    return configurations.chain(nodes, name, 1)[:-1] + [configurations.node(name(nodes - 1), last)]


def toppling(system: list[dict[str, Any]], count: int) -> Any:
    """Edits of the last node of a chain, which take all nodes out of the greatest quorum and bring them back in
    turn."""
    return [f"threshold {names_of(system)[-1]} . {at % 2 or 2}" for at in range(count)]


def small() -> list[dict[str, Any]]:
    return configurations.dense(202, 8_612, configurations.key)


def large() -> list[dict[str, Any]]:
    return configurations.dense(16_384, 983_040, configurations.short_key)


def with_room() -> Any:
    """Nearly as large, and a thousand nodes below the limit."""
    return configurations.dense(15_384, 980_000, configurations.short_key)


# what the edits are, the system, and the script's lines
ROWS = [
    ("half change the quorum", small, lambda system: changing(system, 10_000)),
    ("each names a node", small, lambda system: bringing(system, 1_000, configurations.key)),
    ("half change the quorum", large, lambda system: changing(system, 1_000)),
    ("none does", large, lambda system: keeping(system, 1_000)),
    ("each names a node", with_room, lambda system: bringing(system, 1_000, configurations.short_key)),
    (
        "a chain falls or rises",
        lambda: chained(16_384, configurations.short_key),
        lambda system: toppling(system, 100),
    ),
]
QUICK = 3


def written(folder: str, row: tuple[str, Callable[..., Any], Callable[..., Any]]) -> tuple[str, str, int, str]:
    """Writes the system and the script of a row; gives their paths, how many edits there are, and a name of the
    system."""
    _, system_of, lines_of = row
    system = system_of()
    lines = lines_of(system)
    config, script = os.path.join(folder, "config"), os.path.join(folder, "script")
    configurations.write(config, system)
    with open(script, "w", encoding="utf-8") as it:
        it.writelines(line + "\n" for line in lines)
    return config, script, len(lines), names_of(system)[-1]


def cost(program: str, config: str, script: str, names: str) -> tuple[runs.Run, float]:
    """The run of a script, and the seconds that it takes beyond reading."""
    with open(os.devnull, "wb") as out:
        ours, without = (
            runs.least([program, "whatif", config, it, "--set=" + names], 3, out) for it in (script, os.devnull)
        )
    return ours, max(0.0, ours.seconds - without.seconds)


def made(program: str, quick: bool) -> Iterator[str]:
    """The lines of the table, one by one."""
    yield from runs.head(["edits", "of them", "nodes", "entries", "s beyond reading", "memory, MB"])
    for row in ROWS[:QUICK] if quick else ROWS:
        with tempfile.TemporaryDirectory(dir=runs.MEMORY) as folder:
            config, script, count, name = written(folder, row)
            nodes, entries = reading.counted(config)
            ours, seconds = cost(program, config, script, name)
            yield runs.row(
                [
                    "{:,}".format(count),
                    row[0],
                    "{:,}".format(nodes),
                    "{:,}".format(entries),
                    f"{seconds:.2f}",
                    ours.memory,
                ]
            )


def main(program: str) -> None:
    for line in made(program, False):
        print(line, flush=True)


if __name__ == "__main__":
    main(*(sys.argv[1:] or [runs.PROGRAM]))
