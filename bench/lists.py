#!/usr/bin/env python3
"""The tables of lists and of `least` beside clasp (Debian's packages clasp and gringo).

For blocking sets clasp enumerates the subset-minimal sets, of nodes or of organisations, that meet the quorums which
our run has listed; for quorums the subset-minimal answer sets of the system as a logic program, and for `least` it
minimizes over these. It proves nothing, and gringo's time is not counted. A row has single runs: processor time and
largest memory of the list with its certificate, and of `check`. Both numbers of sets have to agree.
"""
from __future__ import annotations

import json
import os
import re
import subprocess
import sys
import tempfile
from collections.abc import Iterator
from typing import Any

TOP = os.path.dirname(os.path.dirname(os.path.abspath(__file__)))
sys.path[:0] = [os.path.join(TOP, "bench"), os.path.join(TOP, "tests")]
import runs
import watchers


BUDGET = "1000000000"
LIMIT = 300


def quorum_set(
    threshold: int, validators: list[Any] | range, inner: tuple[()] | list[dict[str, Any]] = ()
) -> dict[str, Any]:
    return {"threshold": threshold, "validators": [f"n{v:03d}" for v in validators], "innerQuorumSets": list(inner)}


def network(nodes: Any, wanted: dict[str, Any]) -> list[dict[str, Any]]:
    return [{"publicKey": f"n{v:03d}", "quorumSet": wanted} for v in range(nodes)]


def organisations(count: int, needed: int, size: int, threshold: int) -> list[dict[str, Any]]:
    """All nodes want `needed` of `count` organisations, and `threshold` of the `size` nodes of each."""
    inner = [quorum_set(threshold, range(size * o, size * o + size)) for o in range(count)]
    return network(count * size, quorum_set(needed, [], inner))


BLOCKING = {
    "7 organisations (5 needed), each 2 of 3": organisations(7, 5, 3, 2),
    "8 (6), each 2 of 3": organisations(8, 6, 3, 2),
    "4 (4), each 9 of 10": organisations(4, 4, 10, 9),
    "5 (3), each 3 of 5": organisations(5, 3, 5, 3),
}
QUORUMS = {
    "5 organisations (4 needed), each 2 of 3": organisations(5, 4, 3, 2),
    "6 (5), each 2 of 3": organisations(6, 5, 3, 2),
    "7 (5), each 2 of 3": organisations(7, 5, 3, 2),
    "watchers:seven": watchers.Made("seven").nodes,
}
LEAST = {
    "5 organisations (4 needed), each 2 of 3": organisations(5, 4, 3, 2),
    "7 (5), each 2 of 3": organisations(7, 5, 3, 2),
    "8 (6), each 2 of 3": organisations(8, 6, 3, 2),
    "10 (7), each 2 of 3": organisations(10, 7, 3, 2),
    "11 of 16 nodes": network(16, quorum_set(11, range(16))),
}


def owned(names: list[str], size: int) -> list[dict[str, Any]]:
    """Organisations of so many of the nodes each, in order."""
    return [{"id": f"o{at // size:04d}", "validators": names[at : at + size]} for at in range(0, len(names), size)]


def grouped(count: int, needed: int, size: int, threshold: int) -> tuple[list[dict[str, Any]], list[dict[str, Any]]]:
    """The same organisations as nodes and as a file of them."""
    nodes = organisations(count, needed, size, threshold)
    return nodes, owned([node["publicKey"] for node in nodes], size)


def apart(count: int, size: int) -> tuple[list[dict[str, Any]], list[dict[str, Any]]]:
    """Organisations that agree each by itself."""
    names = [f"n{v:05d}" for v in range(count * size)]
    wanted = [{"threshold": size - 1, "validators": names[at : at + size]} for at in range(0, count * size, size)]
    return [{"publicKey": name, "quorumSet": wanted[v // size]} for v, name in enumerate(names)], owned(names, size)


SEVEN = watchers.Made("seven")
ORGS = {
    "7 organisations (5 needed), each 2 of 3": grouped(7, 5, 3, 2),
    "16 (11), each 2 of 3": grouped(16, 11, 3, 2),
    "watchers:seven": (SEVEN.nodes, SEVEN.organisations()),
    "4,096 apart, each 3 of 4": apart(4096, 4),
}


class Listed:
    """An answer with its certificate: the number that is printed, the runs, the units, and the quorums of the
    certificate."""

    def __init__(self, program: str, word: str, nodes: list[dict[str, Any]], folder: str, orgs: Any) -> None:
        config, cert, given = (os.path.join(folder, it) for it in ("config", "cert", "orgs"))
        for path, tree in ((config, nodes), (given, orgs)):
            with open(path, "w") as it:
                json.dump(tree, it)
        more = ["--orgs", given] if orgs is not None else []
        self.run = runs.run([program, word, config, cert, *more, "--budget", BUDGET], LIMIT)
        if not self.run.ended:
            return
        self.check = runs.run([program, "check", config, cert, *more])
        said, again = self.run.text.splitlines(), self.check.text.splitlines()
        if again[:1] != ["accepted " + said[0]] or again[3:] != said[1:]:
            raise SystemExit(f"check says {again[:4]}")
        self.sets, self.size = int(said[0].split()[1]), os.path.getsize(cert)
        self.units, self.quorums = 0, []
        with open(cert) as it:
            for words in (line.split() for line in it):
                self.units += words[0] in "qb" or (words[0].isdigit() and words[1] not in ("d", "0"))
                self.quorums += [words[2:]] if words[0] == "q" else []


def hitting(names: list[str], quorums: Any) -> str:
    """A logic program whose minimal answer sets are those that meet each quorum."""
    numbers = {name: i for i, name in enumerate(names)}
    met = [":- " + ", ".join(f"not v({numbers[name]})" for name in quorum) + "." for quorum in quorums]
    return "\n".join([f"{{v(0..{len(names) - 1})}}.", "#show v/1.", *met])


def logic(nodes: list[dict[str, Any]]) -> Any:
    """A logic program whose answer sets are the quorums: the nodes of which in(..) holds."""
    numbers = {node["publicKey"]: i for i, node in enumerate(nodes)}
    out = []
    sets: list[Any] = []
    known: dict[str, Any] = {}

    def name(wanted: dict[str, Any]) -> Any:
        at = len(sets)
        sets.append(None)
        inner = [name(it) for it in wanted.get("innerQuorumSets") or []]
        entries = [
            f"{i} : in({numbers[it]})" if it in numbers else None
            for i, it in enumerate(wanted.get("validators") or [])
        ]
        entries += [f"{1000 + i} : s({it})" for i, it in enumerate(inner)]
        if 0 < wanted["threshold"] <= len(entries):
            out.append(f"s({at}) :- #count {{ {'; '.join(it for it in entries if it)} }} >= {wanted['threshold']}.")
        return at

    for node in nodes:
        if node.get("quorumSet") is not None:
            text = json.dumps(node["quorumSet"], sort_keys=True)
            known[text] = known[text] if text in known else name(node["quorumSet"])
            out.append(
                f"{{in({numbers[node['publicKey']]})}}. :- in({numbers[node['publicKey']]}), not s({known[text]})."
            )
    return "\n".join(out) + "\nany :- in(X). :- not any. #show in/1.\n"


def clasp(program: str, options: Any, word: str, wanted: Any) -> Any:
    """Clasp's run on a logic program, which has to print the same number."""
    ground = subprocess.run(["gringo"], input=program, capture_output=True, text=True, check=True).stdout
    made = runs.run(["clasp", "0", "--quiet=2", *options], LIMIT, ground)
    found = re.findall(rf"^{word} +: (\d+)", made.text, re.M)[-1:]
    if made.ended and found != [str(wanted)]:
        raise SystemExit(f"clasp finds {found} and not {wanted}")
    return made


def minimal(program: str, mod: Any, wanted: Any) -> Any:
    """Its run to all minimal answer sets."""
    return clasp(program, ["--heuristic=Domain", "--enum-mode=domRec", "--dom-mod=" + mod], "Models", wanted)


def smallest(program: str, wanted: Any) -> Any:
    """Its run to an answer set with as few nodes as any, core-guided."""
    return clasp(program + "#minimize { 1,X : in(X) }.\n", ["--opt-strategy=usc"], "Optimization", wanted)


def by_group(quorums: Any, orgs: list[dict[str, Any]]) -> Any:
    """The organisations that have a node in each quorum, and its nodes that are in none."""
    owners: dict[str, Any] = {}
    for org in orgs:
        for name in org["validators"]:
            owners.setdefault(name, []).append("org:" + org["id"])
    return [sorted({text for name in quorum for text in owners.get(name, ["node:" + name])}) for quorum in quorums]


def beside(word: str, nodes: list[dict[str, Any]], it: Any, orgs: Any) -> Any:
    """Clasp's run on the same question."""
    if word == "quorums":
        return minimal(logic(nodes), "5,16", it.sets)
    if word == "least":
        return smallest(logic(nodes), it.sets)
    quorums = it.quorums if orgs is None else by_group(it.quorums, orgs)
    return minimal(hitting(sorted({name for quorum in quorums for name in quorum}), quorums), "false,show", it.sets)


def listed(program: str, word: str, name: str, nodes: list[dict[str, Any]], orgs: Any = None) -> Any:
    with tempfile.TemporaryDirectory(dir=runs.MEMORY) as folder:
        it = Listed(program, word, nodes, folder, orgs)
    if not it.run.ended:
        return runs.row([name, "-", "-", runs.seconds(it.run), it.run.memory, "-", "-", "-"])
    its = beside(word, nodes, it, orgs) if runs.has("clasp") and runs.has("gringo") else None
    cells = [
        name,
        "{:,}".format(it.sets),
        "{:,}".format(it.units),
        runs.seconds(it.run),
        it.run.memory,
        runs.megabytes(it.size),
        runs.seconds(it.check),
    ]
    return runs.row([*cells, runs.beside(it.run, its)])


def made(program: str, quick: Any) -> Iterator[Any]:
    """The lines of the tables, one by one."""
    for word, systems in (("blocking", BLOCKING), ("org-blocking", ORGS), ("quorums", QUORUMS), ("least", LEAST)):
        yield from runs.head(
            [
                f"`{word}` of",
                "nodes" if word == "least" else "sets",
                "units",
                "s",
                "MB",
                "certificate, MB",
                "`check`, s",
                "clasp, s",
            ]
        )
        for name in list(systems)[: 1 if quick else None]:  # type: ignore[call-overload]
            yield listed(program, word, name, *(systems[name] if word == "org-blocking" else (systems[name],)))  # type: ignore[index]  # noqa: E501
        yield ""
