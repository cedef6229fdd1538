"""The names of a network: the keys with stellarbeat's names, the organisations with their keys, and the quorum
sets."""

from __future__ import annotations

import hashlib
import json
import re
import unicodedata
import urllib.parse
from collections.abc import Sequence
from typing import Any

MOST_LETTERS = 60
# What turns, hides or has no letter of its own: shown as an escape.
UNSEEN = {"Cc", "Cf", "Cs", "Co", "Zl", "Zp"}


class Organisation:
    """An organisation, with those of its keys that are nodes of the network."""

    def __init__(self, at: int, its_id: str, name: str, keys: set[str] | list[str]) -> None:
        self.id = its_id
        self.name = name
        self.keys = sorted(keys)
        self.mark = f"{at + 1:02d}-{self.id}"


class QuorumSet:
    """A quorum set, the same whatever the order of its entries."""

    def __init__(self, tree: dict[str, Any]) -> None:
        self.threshold = tree["threshold"]
        self.validators = sorted(tree.get("validators") or [])
        self.inner = sorted((QuorumSet(it) for it in tree.get("innerQuorumSets") or []), key=QuorumSet.same_as)

    def same_as(self) -> str:
        """What is equal of equal quorum sets."""
        return repr((self.threshold, self.validators, [it.same_as() for it in self.inner]))

    def named(self) -> set[str]:
        """The keys that stand in it."""
        return set(self.validators).union(*(it.named() for it in self.inner))


class Network:
    """The keys of a configuration that the program has read, in name order, and what they are called."""

    def __init__(self, config: str, orgs: str | None) -> None:
        with open(config, "rb") as it:
            text = it.read()
        self.digest = hashlib.sha256(text).hexdigest()
        self.elements = json.loads(text)
        self.sets = {
            it["publicKey"]: QuorumSet(it["quorumSet"]) if it.get("quorumSet") else None for it in self.elements
        }
        self.mentions = {key: held.named() if held else set() for key, held in self.sets.items()}
        self.keys = sorted(set(self.sets).union(*self.mentions.values()))
        self.named = self.how_often_named()
        self.place = {key: at for at, key in enumerate(self.keys)}
        self.names = names_of(self.elements, self.keys)
        self.has_orgs_file = orgs is not None
        self.listed = 0
        self.orgs = self.read_orgs(orgs) if orgs is not None else self.by_domain()
        self.org_of = {key: org for org in reversed(self.orgs) for key in org.keys}

    def how_often_named(self) -> dict[str, int]:
        """Of each key that stands in another node's quorum set, in how many of them. The other nodes are watchers:
        nobody waits for them."""
        often: dict[str, int] = {}
        for own, mentioned in self.mentions.items():
            for key in mentioned - {own}:
                often[key] = often.get(key, 0) + 1
        return often

    def most_named(self, keys: list[str]) -> str:
        """The key of these that most quorum sets name."""
        return min(keys, key=lambda key: (-self.named.get(key, 0), key))

    def watchers(self) -> list[str]:
        """The nodes that no other node's quorum set names."""
        return [key for key in self.keys if key not in self.named]

    def validators(self, greatest: list[str]) -> set[str]:
        """The nodes that others name; where none of those can agree on anything, all."""
        return set(self.named) if set(self.named) & set(greatest) else set(self.keys)

    def unknown(self) -> list[str]:
        """The nodes without a quorum set: they have none, or it is not known."""
        return [key for key in self.keys if not self.sets.get(key)]

    def has_marks(self) -> bool:
        """Whether the file says of its nodes which are down."""
        return any(isinstance(it.get(word), bool) for it in self.elements for word in ("isValidating", "active"))

    def down(self) -> list[str]:
        """The nodes that others name and the file marks as down; a watcher need not validate."""
        return sorted(
            it["publicKey"]
            for it in self.elements
            if it["publicKey"] in self.named and (it.get("isValidating") is False or it.get("active") is False)
        )

    def networks(self, greatest: list[str]) -> list[list[str]]:
        """The parts of a greatest quorum that depend on nobody outside of them, each a quorum: the sinks of who names
        whom. A watcher that waits for itself alone is none, where others are validators."""
        left, found = set(greatest), []
        after = {key: self.mentions.get(key, set()) & left for key in left}
        before: dict[str, set[str]] = {key: set() for key in left}
        for key in left:
            for other in after[key]:
                before[other].add(key)
        while left:
            at = min(left)
            inside: set[str] | None = None
            back: set[str] = set()
            while inside != back:
                inside = reached(at, after)
                back = reached(at, before) & inside
                at = min(inside - back, default=at)
            found.append(sorted(inside or ()))
            left -= reached(at, before)
        return sorted(keys for keys in found if set(keys) & self.validators(greatest))

    def read_orgs(self, path: str) -> list[Organisation]:
        with open(path, "rb") as it:
            try:
                return self.organisations(json.load(it))
            except (ValueError, KeyError, TypeError, AttributeError) as why:
                raise ValueError(
                    f"{path} is no list of organisations with `id` and `validators`, as stellarbeat publishes it:"
                    f" {why}"
                ) from None

    def organisations(self, elements: Any) -> list[Organisation]:
        own, self.listed = set(self.keys), len(set().union(*(it.get("validators") or [] for it in elements)))
        called = [
            next((shown(text) for text in (it.get("name"), it.get("homeDomain")) if is_text(text)), shown(it["id"]))
            for it in elements
        ]
        names = [
            name if called.count(name) == 1 else f"{name} ({short(shown(it['id']))})"
            for name, it in zip(called, elements)
        ]
        return [
            Organisation(at, it["id"], names[at], set(it.get("validators") or []) & own)
            for at, it in enumerate(elements)
        ]

    def by_domain(self) -> list[Organisation]:
        """The nodes that quorum sets name, by the home domain that each says of itself."""
        domains: dict[str, list[str]] = {}
        for it in self.elements:
            if is_text(it.get("homeDomain")) and it["publicKey"] in self.named:
                domains.setdefault(shown(it["homeDomain"]), []).append(it["publicKey"])
        return [
            Organisation(at, id_of(domain, at), domain, domains[domain]) for at, domain in enumerate(sorted(domains))
        ]

    def lost(self) -> int:
        """How many validators of the file of organisations are no nodes."""
        return self.listed - len(self.org_of) if self.has_orgs_file else 0

    def outside(self) -> list[str]:
        """The keys that no organisation has."""
        return [key for key in self.keys if key not in self.org_of]

    def distinct_sets(self) -> list[tuple[QuorumSet | None, list[str]]]:
        """Each quorum set with the keys that have it, the most frequent one first; None for the keys that have
        none."""
        having: dict[str, tuple[QuorumSet | None, list[str]]] = {}
        for key in self.keys:
            held = self.sets.get(key)
            having.setdefault(held.same_as() if held else "", (held, []))[1].append(key)
        return sorted(having.values(), key=lambda it: (-len(it[1]), it[1]))

    def validators_text(self, validators: set[str], is_now: bool) -> str:
        """The validators as a configuration of their own: they depend on nobody else."""
        return self.text_of(validators, self.down() if is_now else ())

    def now_text(self) -> str:
        """The configuration in which the nodes that are down have thresholds that nobody meets, so no quorum has them;
        who depends on whom is the same."""
        return self.text_of(self.sets, self.down())

    def text_of(self, keys: dict[str, Any] | set[str], down: Sequence[str]) -> str:
        nodes = [(it["publicKey"], it.get("quorumSet") or None) for it in self.elements if it["publicKey"] in keys]
        return json.dumps(
            [{"publicKey": key, "quorumSet": never(tree) if key in down else tree} for key, tree in nodes],
            separators=(",", ":"),
            ensure_ascii=False,
        )


def never(tree: dict[str, Any] | None) -> dict[str, Any] | None:
    """A quorum set with the same entries and one more wanted."""
    return (
        {**tree, "threshold": 1 + len(tree.get("validators") or []) + len(tree.get("innerQuorumSets") or [])}
        if tree
        else None
    )


def reached(start: str, after: dict[str, set[str]]) -> set[str]:
    """The keys to which steps lead from one, itself among them."""
    found, waiting = {start}, [start]
    while waiting:
        more = after[waiting.pop()] - found
        found |= more
        waiting += more
    return found


def is_text(it: str | None) -> bool:
    return isinstance(it, str) and shown(it) != ""


def shown(name: str) -> str:
    """A name as it is shown: short, and with an escape for each sign that turns or hides what stands beside it."""
    return "".join(
        escape(sign) if unicodedata.category(sign) in UNSEEN else sign for sign in name[:MOST_LETTERS]
    ).strip()


def escape(sign: str) -> str:
    return f"\\u{ord(sign):04x}" if ord(sign) < 0x10000 else f"\\u{{{ord(sign):x}}}"


def natural(name: str) -> list[tuple[int, int, str]]:
    """By which names are sorted: numbers in them count as numbers."""
    return [
        (0, int(part), "") if part.isdigit() and part.isascii() else (1, 0, part)
        for part in re.split("([0-9]+)", name.lower())
        if part
    ]


def id_of(domain: str, at: int) -> str:
    """A home domain as the id of an organisation, for which it may have signs that a name lacks, or be too long."""
    text = urllib.parse.quote(domain, safe="")
    return text if len(text) <= 128 else f"domain-{at + 1}"


def short(key: str) -> str:
    """A key as it can be read aloud: its ends."""
    return key if len(key) <= 12 else key[:5] + "…" + key[-4:]


def names_of(elements: list[dict[str, Any]], keys: list[str]) -> dict[str, str]:
    """What each key is called: its `name` where it has one of its own, with the key's ends where two have the same."""
    given = {it["publicKey"]: shown(it["name"]) for it in elements if is_text(it.get("name"))}
    often: dict[str, int] = {}
    for name in given.values():
        often[name] = often.get(name, 0) + 1
    return {
        key: (
            short(key)
            if key not in given
            else given[key] if often[given[key]] == 1 else f"{given[key]} ({short(key)})"
        )
        for key in keys
    }
