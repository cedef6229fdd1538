"""What the summary of both pages has to say of a network, by trying every set of nodes; four networks of which it once
said what is not so; and random ones.

Expected follows docs/DEFINITIONS.md in plain Python: each sentence with what stands in it, whose view it is, and each
organisation lying, silent and leaving.
"""

from __future__ import annotations

import itertools
import json
import random
from collections.abc import Callable, Iterable, Sequence
from typing import Any


# The four networks.


def quorum_set(
    threshold: int, validators: Sequence[str] = (), inner: tuple[()] | list[dict[str, Any]] = ()
) -> dict[str, Any]:
    return {"threshold": threshold, "validators": list(validators), "innerQuorumSets": list(inner)}


def declared(key: str, wanted: dict[str, Any] | None, **more: bool) -> dict[str, Any]:
    return {"publicKey": key, **more, "quorumSet": wanted}


def organisation(name: str, keys: list[str]) -> dict[str, Any]:
    return {"id": name.lower().replace(" ", "-"), "name": name, "validators": keys}


def uniform() -> tuple[list[dict[str, Any]], list[dict[str, Any]]]:
    """Five validators that want four of all five, of which the first has no quorum set: it is down, or was not
    crawled."""
    keys = [f"a{at}" for at in range(1, 6)]
    nodes = [declared(key, quorum_set(4, keys) if key != "a1" else None, isValidating=key != "a1") for key in keys]
    return nodes, [organisation(f"Org {at}", [key]) for at, key in enumerate(keys, 1)]


def halves() -> tuple[list[dict[str, Any]], list[dict[str, Any]]]:
    """Two halves of four organisations each, whose validators want three of their own four."""
    nodes, orgs = [], []
    for half in ("East", "West"):
        keys = [f"{half[0].lower()}{at}" for at in range(1, 5)]
        nodes += [declared(key, quorum_set(3, keys)) for key in keys]
        orgs += [organisation(f"{half} {at}", [key]) for at, key in enumerate(keys, 1)]
    return nodes, orgs


def held_up() -> tuple[list[dict[str, Any]], list[dict[str, Any]]]:
    """One organisation that all need, with four of five others: that one stops it, or any two of the others."""
    own, others = ["k1", "k2", "k3"], [f"v{at}" for at in range(1, 6)]
    wanted = quorum_set(2, [], [quorum_set(2, own), quorum_set(4, others)])
    return [declared(key, wanted) for key in own + others], [
        organisation("Kettle Bank", own),
        *(organisation(f"Vault {at}", [key]) for at, key in enumerate(others, 1)),
    ]


def uncrawled() -> tuple[list[dict[str, Any]], list[dict[str, Any]]]:
    """Nine validators of three organisations, and 41 nodes whose quorum sets are not known: one of them is named by
    all."""
    keys = [[f"{org}{at}" for at in (1, 2, 3)] for org in "abc"]
    wanted = quorum_set(2, ["u00"], [quorum_set(2, it) for it in keys])
    nodes = [declared(key, wanted) for some in keys for key in some] + [
        declared(f"u{at:02d}", None) for at in range(41)
    ]
    return nodes, [organisation(name, some) for name, some in zip(("Ash", "Birch", "Cherry"), keys)]


# Of each network the words, what the summary has to say and what it may not, and what may stand nowhere on the page.
FOUR: dict[str, tuple[Callable[[], Any], list[Any], list[str], list[str]]] = {
    "uniform": (
        uniform,
        [],
        [
            "It cannot fork.",
            "Quorum sets that are not known: of 1 node, 1 of them named by others.",
            "4 sets: each of Org 2, Org 3, Org 4, Org 5 alone",
            (
                "Down: 1 of 5 validators here, a1. Beyond these it is stopped by 4 sets: each of Org 2, Org 3, Org 4,"
                " Org 5 alone."
            ),
        ],
        ["nothing is ever agreed", "There is no quorum", "never agrees"],
    ),
    "uniform-node": (
        uniform,
        ["a1"],
        [
            "This page speaks for a1, whose quorum set is not known.",
            "It cannot fork.",
            "The quorum set of a1 is not known, so nothing is known of what it agrees on.",
        ],
        ["never agrees", "nothing is ever agreed"],
    ),
    "halves": (
        halves,
        [],
        [
            "It can fork: it is 2 networks that do not depend on one another. e",
            " against ",
            "6 sets: any 2 of these 4 together: East 1, East 2, East 3, East 4.",
            "6 sets: any 2 of these 4 together: West 1, West 2, West 3, West 4.",
        ],
        ["It cannot fork", "none can fork it", "would be split off", "could be split off"],
    ),
    "held-up": (
        held_up,
        [],
        [
            "It cannot fork.",
            "11 sets: Kettle Bank alone; or any 2 of these 5 together: Vault 1, Vault 2, Vault 3, Vault 4, Vault 5.",
            "By single nodes: 13 sets, the smallest of 2.",
        ],
        ["Down: ", "not known"],
    ),
    "uncrawled": (
        uncrawled,
        [],
        [
            "It cannot fork.",
            (
                "Quorum sets that are not known: of 41 nodes, 1 of them named by others. These count as agreeing with"
                " nobody."
            ),
            "3 sets: any 2 of these 3 together: Ash, Birch, Cherry.",
        ],
        ["never agrees", "nothing is ever agreed", "There is no quorum", "Down: "],
    ),
    "uncrawled-node": (
        uncrawled,
        ["u07"],
        ["This page speaks for u07, whose quorum set is not known.", "It cannot fork."],
        ["never agrees", "in no quorum"],
    ),
}


# The definitions, by trying all sets.


class Tried:
    """A network with all its quorums, after deletion of some nodes, inside some nodes."""

    def __init__(self, nodes: list[dict[str, Any]]) -> None:
        self.trees = {it["publicKey"]: it.get("quorumSet") for it in nodes}
        self.mentions = {key: set(self.in_tree(tree)) if tree else set() for key, tree in self.trees.items()}
        self.keys = sorted(set(self.trees).union(*self.mentions.values()))
        self.named = {key for own, some in self.mentions.items() for key in some - {own}}
        self.held: dict[frozenset[str], list[frozenset[str]]] = {}

    def in_tree(self, tree: dict[str, Any]) -> list[str]:
        return tree["validators"] + [key for it in tree["innerQuorumSets"] for key in self.in_tree(it)]

    def has_choice(self, tree: dict[str, Any], inside: set[str]) -> bool:
        """Whether some choice lies inside: so many entries as the threshold, no threshold of 0 and none above the
        entries."""
        met = sum(key in inside for key in tree["validators"]) + sum(
            self.has_choice(it, inside) for it in tree["innerQuorumSets"]
        )
        return 1 <= tree["threshold"] <= met

    def quorums(self, lying: frozenset[str] = frozenset()) -> list[frozenset[str]]:
        """Each set outside the lying ones, that is not empty, of which each member has a slice inside it and them."""
        if lying not in self.held:
            found, honest = [], [key for key in self.keys if key not in lying]
            for size in range(1, len(honest) + 1):
                for some in itertools.combinations(honest, size):
                    inside = set(some) | lying
                    if all(self.trees.get(key) and self.has_choice(self.trees[key], inside) for key in some):
                        found.append(frozenset(some))
            self.held[lying] = found
        return self.held[lying]

    def inside(
        self, view: frozenset[str], lying: frozenset[str] = frozenset(), without: frozenset[str] = frozenset()
    ) -> list[frozenset[str]]:
        return [it for it in self.quorums(lying) if it <= view - without]

    def closure(self, key: str) -> frozenset[str]:
        found = {key}
        while True:
            more = found.union(*(self.mentions.get(it, set()) for it in found))
            if more == found:
                return frozenset(found)
            found = more

    def validators(self, greatest: frozenset[str]) -> frozenset[str]:
        """The nodes that others name, unless none of them is in a quorum."""
        return frozenset(self.named if self.named & greatest else self.keys)

    def networks(self, greatest: frozenset[str]) -> list[frozenset[str]]:
        """The sets inside the greatest quorum out of which none of its members leads, and in which each leads to
        each."""

        def reach(key: str) -> frozenset[str]:
            found = {key}
            while True:
                more = found.union(*(self.mentions[it] & greatest for it in found))
                if more == found:
                    return frozenset(found)
                found = more

        sets = {key: reach(key) for key in greatest}
        return sorted(
            {
                sorted(some)[0]: some
                for some in sets.values()
                if all(sets[it] == some for it in some) and some & self.validators(greatest)
            }.values(),
            key=sorted,
        )

    def most_named(self, keys: frozenset[str]) -> str:
        return min(keys, key=lambda key: (-sum(key in some - {own} for own, some in self.mentions.items()), key))


def disjoint(quorums: list[frozenset[str]]) -> bool:
    return any(not a & b for a, b in itertools.combinations(quorums, 2))


def union(quorums: Iterable[frozenset[str]]) -> frozenset[str]:
    return frozenset().union(*quorums)


def minimal(items: dict[str, frozenset[str]], holds: Callable[..., Any]) -> list[list[str]]:
    """The minimal sets of items, each a text with its keys, for which a thing holds, in order."""
    found: list[tuple[str, ...]] = []
    for size in range(1, len(items) + 1):
        for some in itertools.combinations(sorted(items), size):
            if not any(set(it) <= set(some) for it in found) and holds(union([items[it] for it in some])):
                found.append(some)
    return sorted((list(it) for it in found), key=lambda it: (len(it), it))


class Expected:
    """What the summary has to say of a network."""

    def __init__(
        self, nodes: list[dict[str, Any]], orgs: list[dict[str, Any]], node: str | None, is_now: bool
    ) -> None:
        self.nodes, self.orgs, self.node = nodes, [(it["id"], it["validators"]) for it in orgs], node
        self.real = Tried(nodes)
        self.keys, self.named = self.real.keys, self.real.named
        self.whole = frozenset(self.keys)
        self.marked = any(isinstance(it.get(word), bool) for it in nodes for word in ("isValidating", "active"))
        self.down = frozenset(
            it["publicKey"]
            for it in nodes
            if it["publicKey"] in self.named and (it.get("isValidating") is False or it.get("active") is False)
        )
        self.is_now = is_now and bool(self.down)
        # As things are now no quorum has a node that is down.
        self.silent = self.down if self.is_now else frozenset()
        self.greatest = union(self.quorums(self.whole))
        self.networks = self.real.networks(self.greatest)
        self.own = {its: frozenset(keys) & self.whole for its, keys in self.orgs}
        self.unknown = [key for key in self.keys if not self.real.trees.get(key)]
        self.watchers = self.whole - self.named

    def quorums(
        self, view: frozenset[str], lying: frozenset[str] = frozenset(), without: frozenset[str] = frozenset()
    ) -> list[frozenset[str]]:
        return self.real.inside(view, lying, (without | self.silent) - lying)

    def views(self) -> list[tuple[str | None, frozenset[str]]]:
        views = [(self.node, self.real.closure(self.node))] if self.node else []
        at = (
            [self.real.most_named(it) for it in self.networks]
            if len(self.networks) > 1
            else [self.real.most_named(self.greatest)] if self.greatest and not self.node else []
        )
        for key in at:
            if not any(key in keys for _, keys in views):
                views.append((key, self.real.closure(key)))
        return [(None if keys == self.whole else key, keys) for key, keys in views] or [(None, self.whole)]

    def forks(self, lying: frozenset[str] = frozenset()) -> tuple[str, list[str]]:
        """Of the validators; and which watchers could be split off."""
        validators = self.real.validators(self.greatest)
        if disjoint(self.quorums(validators, lying)):
            return "yes", []
        split = (
            union(self.quorums(self.whole - validators, lying)) if disjoint(self.quorums(self.whole, lying)) else []
        )
        return "no", sorted(split)

    def data(self) -> dict[str, list[dict[str, Any]]]:
        views = self.views()
        self.word, split = ("none", []) if not self.greatest else self.forks()
        if len(self.networks) > 1:
            self.word = "networks"
        own = self.node and (self.node, self.node in union(self.quorums(views[0][1])))
        lines, listed = [], set().union(*(keys for _, keys in self.orgs))
        if listed - self.whole:
            lines.append({"line": "orgs", "say": "lost", "lost": len(listed - self.whole), "of": len(listed)})
        if not all(self.own.values()):
            lines.append(
                {"line": "orgs", "say": "without", "without": [its for its, _ in self.orgs if not self.own[its]]}
            )
        if own and not own[1]:
            lines.append(
                {
                    "line": "speaks",
                    "say": "outside" if self.real.trees.get(self.node) else "unknown",
                    "node": self.node,
                }
            )
        fork: dict[str, Any] = {
            "line": "fork",
            "say": "none-known" if self.word == "none" and self.unknown else self.word,
        }
        if self.word == "networks":
            fork["count"] = len(self.networks)
        lines.append(fork)
        if split:
            lines.append(
                {"line": "fork", "say": "split", "of": len(self.watchers), "count": len(split), "keys": split}
            )
        if self.unknown:
            lines.append(
                {
                    "line": "fork",
                    "say": "unknown",
                    "count": len(self.unknown),
                    "named": len(set(self.unknown) & self.named),
                }
            )
        return {
            "lines": lines,
            "parts": [self.part(at, view, key, len(views)) for at, (key, view) in enumerate(views)],
        }

    def part(self, at: int, view: frozenset[str], key: str | None, count: int) -> dict[str, Any]:
        own = self.node if at == 0 else None
        greatest = union(self.quorums(view))
        fork = disjoint(self.quorums(view))
        orgs = [its for its, _ in self.orgs if self.own[its] & view]
        turns = [self.turn(its, view, greatest, fork) for its in orgs]
        lines = [
            *self.seen(view, key, own, greatest, fork, count),
            *self.lies(orgs, turns, greatest, fork),
            *self.stop(view),
            *self.now(view),
            *self.node_lines(view, own, orgs, greatest),
        ]
        return {
            "from": key,
            "greatest": sorted(greatest),
            "lines": lines,
            "turns": turns,
            "leaving": [self.leave(its, view) for its in orgs] if greatest else [],
        }

    def turn(self, its: str, view: frozenset[str], greatest: frozenset[str], fork: bool) -> dict[str, Any]:
        lying = self.own[its]
        word = None
        split: list[Any] = []
        left = union(self.quorums(view, without=lying))
        if greatest and not fork:
            word = "yes" if disjoint(self.quorums(view, lying)) else "no"
            if word == "no" and self.word not in ("yes", "networks"):
                other, split = self.forks(lying)
                word = "no" if other == "no" else "yes" if view == self.whole else "elsewhere"
        return {"org": its, "lies": word, "split": split, "stops": not left, "left": len(left)}

    def seen(
        self, view: frozenset[str], key: str | None, own: str | None, greatest: frozenset[str], fork: bool, count: int
    ) -> list[dict[str, str]]:
        key = own or key
        if key is None or (own is None and count == 1 and self.word in ("no", "none")):
            return []
        word = "yes" if fork else "no" if greatest else "none-known" if set(self.unknown) & view else "none"
        return [{"line": "seen", "say": word, "node": key}]

    def lies(
        self, orgs: list[str], turns: list[dict[str, Any]], greatest: frozenset[str], fork: bool
    ) -> list[dict[str, Any]]:
        if not self.orgs or not orgs or not greatest or fork:
            return [
                {
                    "line": "lies",
                    "say": (
                        "unknown" if not self.orgs else "nowhere" if not orgs else "none" if not greatest else "forked"
                    ),
                }
            ]
        by = {word: [it["org"] for it in turns if it["lies"] == word] for word in ("yes", "elsewhere")}
        lines = []
        if by["yes"]:
            lines.append(
                {
                    "line": "lies",
                    "say": "each" if len(by["yes"]) == len(turns) > 1 else "some",
                    "count": len(by["yes"]),
                    "of": len(turns),
                    "orgs": by["yes"],
                }
            )
        if by["elsewhere"]:
            lines.append({"line": "lies", "say": "elsewhere", "orgs": by["elsewhere"]})
        if not lines:
            lines.append({"line": "lies", "say": "nobody" if self.word == "no" else "nobody-here", "of": len(turns)})
        split = [[it["org"], len(it["split"])] for it in turns if it["split"]]
        return lines + ([{"line": "lies", "say": "split", "of": len(self.watchers), "orgs": split}] if split else [])

    def items(self, view: frozenset[str]) -> dict[str, frozenset[str]]:
        """What may fall silent: organisations, and nodes of none."""
        nodes = view - union(self.own.values())
        return {
            **{"org:" + its: keys for its, keys in self.own.items()},
            **{"node:" + key: frozenset([key]) for key in nodes},
        }

    def stopping(self, view: frozenset[str], silent: frozenset[str]) -> list[list[str]]:
        return minimal(self.items(view), lambda keys: not self.real.inside(view, without=keys | silent))

    def sets(self, line: str, sets: list[list[str]]) -> dict[str, Any]:
        return {"line": line, "say": "alone" if len(sets[0]) == 1 else "sets", "sets": sets}

    def stop(self, view: frozenset[str]) -> list[dict[str, Any]]:
        if not self.real.inside(view):
            return [{"line": "stop", "say": "none"}]
        lines = [self.sets("stop", self.stopping(view, frozenset()))]
        if not self.is_now:
            nodes = minimal(
                {key: frozenset([key]) for key in view}, lambda keys: not self.real.inside(view, without=keys)
            )
            lines.append({"line": "stop", "say": "nodes", "count": len(nodes), "least": min(map(len, nodes))})
        return lines

    def now(self, view: frozenset[str]) -> list[dict[str, Any]]:
        down = sorted(self.down & view)
        if not self.marked or not down:
            return [{"line": "now", "say": "none"}] if self.marked else []
        if not self.real.inside(view) and not self.is_now:
            return [{"line": "now", "say": "down", "count": len(down), "of": len(self.named & view), "keys": down}]
        lines = [{"line": "now", "say": "down", "count": len(down), "of": len(self.named & view), "keys": down}]
        if not self.real.inside(view, without=self.down):
            return [*lines, {"line": "now", "say": "stopped"}]
        return [*lines, self.sets("now", self.stopping(view, self.down))]

    def node_lines(
        self, view: frozenset[str], own: str | None, orgs: list[str], greatest: frozenset[str]
    ) -> list[dict[str, Any]]:
        if own is None:
            return []
        if own not in greatest:
            return [{"line": "node", "say": "outside" if self.real.trees.get(own) else "unknown", "node": own}]
        lines: list[dict[str, Any]] = [{"line": "node", "say": "inside", "node": own}]
        others = [its for its in orgs if own not in self.own[its]]
        stopped = [its for its in others if own not in union(self.quorums(view, without=self.own[its]))]
        if others:
            lines.append(
                {"line": "node", "say": "stopped", "orgs": stopped} if stopped else {"line": "node", "say": "goes-on"}
            )
        blocked = minimal(
            {"org:" + its: self.own[its] for its in others},
            lambda keys: not self.real.has_choice(self.real.trees[own], self.whole - keys),
        )
        return lines + ([{"line": "node", "say": "blocked", "sets": blocked}] if blocked else [])

    def leave(self, its: str, view: frozenset[str]) -> dict[str, Any]:
        gone = self.own[its]
        left = union(self.quorums(view, without=gone))
        rest = {name: keys - gone for name, keys in self.items(view).items() if name != "org:" + its}
        then = minimal(rest, lambda keys: not self.quorums(view, without=keys | gone)) if left else None
        return {"org": its, "left": len(left), "then": then}

    def compare(self, data: dict[str, list[dict[str, Any]]]) -> str:
        """What differs; the sets of a fork are tried, since any two quorums that share no node are right."""
        data = json.loads(json.dumps(data))
        wanted = json.loads(json.dumps(self.data()))
        views = [(self.whole, data["lines"])] + [
            (keys, part["lines"]) for (_, keys), part in zip(self.views(), data["parts"])
        ]
        for view, lines in views:
            for it in lines:
                if "first" in it:
                    pair = [frozenset(it.pop(side)) for side in ("first", "second")]
                    if pair[0] & pair[1] or not set(pair) <= set(self.quorums(view)):
                        return f"no two disjoint quorums: {pair}"
        return (
            ""
            if data == wanted
            else "\n".join(f"{a}\n  not {b}" for a, b in zip(parts_of(data), parts_of(wanted)) if a != b)
            or "another number of parts"
        )


def parts_of(data: Any) -> Any:
    return [json.dumps(it, sort_keys=True) for it in data["lines"]] + [
        json.dumps(it, sort_keys=True)
        for part in data["parts"]
        for it in [part["from"], *part["lines"], *part["turns"], *part["leaving"]]
    ]


# Random networks.


def random_network(chance: random.Random) -> tuple[list[dict[str, Any]], list[dict[str, Any]]]:
    """A network of four to eight nodes in organisations, as operators make them and as they break them."""
    count = chance.randint(4, 8)
    keys = [f"n{at}" for at in range(1, count + 1)]
    orgs, left = [], keys[:]
    while left and chance.random() < 0.9:
        orgs.append([left.pop() for _ in range(min(len(left), chance.randint(1, 3)))])
    kind = chance.choice(["flat", "flat", "inner", "inner", "halves", "own"])
    shared = None

    def wanted(key: str) -> dict[str, Any]:
        if kind == "flat":
            some = keys if chance.random() < 0.5 else chance.sample(keys, chance.randint(1, count))
            return quorum_set(chance.randint(1, len(some)), some)
        if kind == "halves":
            some = [it for it in keys if (int(it[1:]) <= count // 2) == (int(key[1:]) <= count // 2)] + (
                [chance.choice(keys)] if chance.random() < 0.15 else []
            )
            return quorum_set(max(1, len(some) * 2 // 3), some)
        inner = [
            quorum_set(len(some) // 2 + 1, some) for some in orgs if kind == "inner" or chance.random() < 0.7
        ] or [quorum_set(1, [key])]
        return quorum_set(chance.randint(1, len(inner)), left if chance.random() < 0.2 else [], inner)

    nodes = []
    for key in keys:
        if shared is None or chance.random() < 0.4:
            shared = wanted(key)
        held = shared if kind != "halves" else wanted(key)
        marks = (
            {"isValidating": chance.random() < 0.7}
            if chance.random() < 0.3
            else {"active": False} if chance.random() < 0.05 else {}
        )
        nodes.append(declared(key, held if chance.random() < 0.9 else None, **marks))
    for at in range(chance.choice([0, 0, 1, 2])):
        some = chance.sample(keys, min(count, 3))
        nodes.append(
            declared(f"w{at}", quorum_set(chance.randint(1, 2), some + ([f"w{at}"] if chance.random() < 0.3 else [])))
        )
    if chance.random() < 0.1:
        nodes = [it for it in nodes if it["publicKey"] != keys[-1]]
    listed = [
        {
            "id": f"o{at}",
            "name": f"Org {at}",
            "validators": sorted(some) + ([f"gone{at}"] if chance.random() < 0.1 else []),
        }
        for at, some in enumerate(orgs)
    ]
    if chance.random() < 0.1:
        listed.append({"id": "lost", "name": "Lost", "validators": ["x"]})
    chance.shuffle(nodes)
    return nodes, listed
