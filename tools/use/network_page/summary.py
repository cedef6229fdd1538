"""The summary as data: which sentences are said, and of what.

web/words/summary.js decides the same; tests/test_summary.py holds both against trying all sets.
"""

from __future__ import annotations

from typing import Any, TYPE_CHECKING

if TYPE_CHECKING:
    from network_page.findings import Found, Part, Together
    from network_page.network import Network, Organisation


def says(line: str, say: str, **data: Any) -> dict[str, Any]:
    return {"line": line, "say": say, **data}


def texts(sets: list[frozenset[Organisation | str]]) -> list[list[str]]:
    """Sets of organisations and nodes as texts: `org:` and an id, or `node:` and a key; in order."""
    return sorted(
        (sorted("node:" + it if isinstance(it, str) else "org:" + it.id for it in some) for some in sets),
        key=lambda some: (len(some), some),
    )


def summary(network: Network, found: Found) -> dict[str, list[dict[str, Any]]]:
    """The lines about the whole file, and those of each part."""
    return {"lines": whole_lines(network, found), "parts": [part(network, found, it) for it in found.parts]}


def whole_lines(network: Network, found: Found) -> list[dict[str, Any]]:
    lines = []
    if network.lost():
        lines.append(says("orgs", "lost", lost=network.lost(), of=network.listed))
    without = [org.id for org in network.orgs if not org.keys]
    if without:
        lines.append(says("orgs", "without", without=without))
    own = found.parts[0].own
    if own is not None and own.key not in found.parts[0].greatest:
        lines.append(says("speaks", "outside" if network.sets.get(own.key) else "unknown", node=own.key))
    return lines + fork_lines(network, found)


def fork_lines(network: Network, found: Found) -> list[dict[str, Any]]:
    forks, unknown = found.forks, network.unknown()
    if forks.word == "none":
        lines = [says("fork", "none-known" if unknown else "none")]
    elif forks.word == "networks":
        lines = [says("fork", "networks", count=len(found.networks), first=forks.first, second=forks.second)]
    elif forks.word == "yes":
        lines = [says("fork", "yes", first=forks.first, second=forks.second)]
    else:
        lines = [says("fork", forks.word)]
    if forks.split:
        lines.append(says("fork", "split", of=len(network.watchers()), count=len(forks.split), keys=forks.split))
    if unknown:
        lines.append(
            says("fork", "unknown", count=len(unknown), named=sum(1 for key in unknown if key in network.named))
        )
    return lines


def part(network: Network, found: Found, it: Part) -> dict[str, Any]:
    """What is said of one view, with each organisation lying, silent and leaving."""
    lines = [
        *seen_lines(network, found, it),
        *lies_lines(network, found, it),
        *stop_lines(found, it),
        *now_lines(network, found, it),
        *node_lines(network, it),
    ]
    turns = [
        {
            "org": turn.org.id,
            "lies": turn.word,
            "split": list(turn.split),
            "stops": turn.stops,
            "left": len(set(turn.goes_on)),
        }
        for turn in it.turns
    ]
    left = [
        {
            "org": one.org.id,
            "left": len(one.left()),
            "then": texts(one.then.sets) if one.then is not None and one.left() else None,
        }
        for one in it.leaving
    ]
    return {"from": it.view.node, "greatest": sorted(it.greatest), "lines": lines, "turns": turns, "leaving": left}


def seen_lines(network: Network, found: Found, it: Part) -> list[dict[str, Any]]:
    """As one node sees it: of one's own, of each of several networks, and where the whole file is not decided."""
    node = it.own.key if it.own is not None else it.view.node
    if node is None or (it.own is None and len(found.parts) == 1 and found.forks.word in ("no", "none")):
        return []
    if it.verdict is None:
        return [says("seen", "none-known" if set(network.unknown()) & it.view.keys else "none", node=node)]
    if it.verdict.word == "no":
        return [says("seen", "yes", node=node, first=it.verdict.first, second=it.verdict.second)]
    return [says("seen", {"yes": "no"}.get(it.verdict.word, "undecided"), node=node)]


def lies_lines(network: Network, found: Found, it: Part) -> list[dict[str, Any]]:
    """What the lies of one organisation do."""
    if not network.orgs:
        return [says("lies", "unknown")]
    if not it.orgs:
        return [says("lies", "nowhere")]
    if not it.greatest:
        return [says("lies", "none")]
    if it.forks():
        return [says("lies", "forked")]
    by = {word: [turn.org.id for turn in it.turns if turn.word == word] for word in ("yes", "elsewhere", "undecided")}
    split = [[turn.org.id, len(turn.split)] for turn in it.turns if turn.split]
    lines = []
    if by["yes"]:
        lines.append(
            says(
                "lies",
                "each" if len(by["yes"]) == len(it.turns) > 1 else "some",
                count=len(by["yes"]),
                of=len(it.turns),
                orgs=by["yes"],
            )
        )
    for word in ("elsewhere", "undecided"):
        if by[word]:
            lines.append(says("lies", word, orgs=by[word]))
    if not lines:
        lines.append(says("lies", "nobody" if found.forks.word == "no" else "nobody-here", of=len(it.turns)))
    return lines + ([says("lies", "split", of=len(network.watchers()), orgs=split)] if split else [])


def stop_lines(found: Found, it: Part) -> list[dict[str, Any]]:
    if it.stopping is None or (not it.stopping.sets and it.stopping.most is None):
        return [says("stop", "none")]
    lines = [sets_line("stop", it.stopping)]
    if it.blocking is not None and it.blocking.is_whole() and not found.is_now:
        lines.append(says("stop", "nodes", count=len(it.blocking.sets), least=min(map(len, it.blocking.sets))))
    return lines


def sets_line(line: str, together: Together) -> dict[str, Any]:
    """Sets that stop it: all of them, or those of few."""
    sets = texts(together.sets)
    if together.most is not None:
        return says(line, "found" if sets else "open", sets=sets, most=together.most)
    return says(line, "alone" if len(sets[0]) == 1 else "sets", sets=sets)


def now_lines(network: Network, found: Found, it: Part) -> list[dict[str, Any]]:
    """Both margins: what the nodes that are down leave of it."""
    if not network.has_marks():
        return []
    if not it.down:
        return [says("now", "none")]
    lines = [says("now", "down", count=len(it.down), of=len(set(network.named) & it.view.keys), keys=it.down)]
    if it.stopped:
        return [*lines, says("now", "stopped")]
    return [*lines, sets_line("now", it.stopping_now)] if it.stopping_now is not None else lines


def node_lines(network: Network, it: Part) -> list[dict[str, Any]]:
    own = it.own
    if own is None:
        return []
    if own.key not in it.greatest:
        return [says("node", "outside" if network.sets.get(own.key) else "unknown", node=own.key)]
    lines, others = [says("node", "inside", node=own.key)], [
        turn.org for turn in it.turns if own.key not in turn.org.keys
    ]
    stopped = [org.id for org in others if org not in own.goes_on_without]
    if stopped:
        lines.append(says("node", "stopped", orgs=stopped))
    elif others:
        lines.append(says("node", "goes-on"))
    if own.v_blocking.sets:
        lines.append(says("node", "blocked", sets=texts(own.v_blocking.sets)))
    return lines
