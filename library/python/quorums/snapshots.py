"""A file of nodes as stellarbeat publishes it: what the program reads of it, and by what its nodes are grouped."""

from __future__ import annotations

import collections
import hashlib
import json
import urllib.parse
from dataclasses import dataclass
from typing import TYPE_CHECKING, Any, Iterator, Optional

from .asking import Refused
from .network import Quorums

if TYPE_CHECKING:
    import pandas

# The members that the groups of these names are made from; any other name is a member itself, with dots from an
# object into it.
MEMBERS = {"org": "organizationId", "country": "geoData.countryCode", "isp": "isp", "homeDomain": "homeDomain"}
# An id of the program has at most this many bytes, none of them a space, a comma or beyond ASCII.
MOST_ID = 128
# The status of a configuration that is refused.
CONFIG = 4


def digest(data: bytes) -> str:
    return hashlib.sha256(data).hexdigest()


def shown(text: str) -> str:
    """A text of a file without characters that could turn or hide others."""
    return "".join(it if it.isprintable() else ascii(it)[1:-1] for it in text)


def compact(value: Any) -> bytes:
    """A JSON text that is the same wherever it is made."""
    return json.dumps(value, ensure_ascii=True, sort_keys=True, separators=(",", ":")).encode()


def group_id(text: str) -> str:
    """An id of the program for the value of a member."""
    found = urllib.parse.quote(text, safe="!\"#$&'()*+-./:;<=>?@[\\]^_`{|}~")
    return found if len(found) <= MOST_ID else found[: MOST_ID - 17] + "~" + digest(text.encode())[:16]


@dataclass(frozen=True)
class Groups:
    """The nodes by a member: the file of organisations that says so, how many groups there are, and who has no such
    member."""

    by: str
    orgs: bytes
    names: dict[str, str]
    members: dict[str, tuple[str, ...]]
    alone: tuple[str, ...]


class Snapshot:
    """The nodes of a file, which the program accepts as a configuration."""

    def __init__(self, data: bytes, orgs: bytes = b"") -> None:
        # Raises Refused with the program's own line; what it accepts is JSON of the shape that is read below.
        self.show = Quorums(data).show()
        self.data, self.orgs = data, orgs
        self.nodes: list[dict[str, Any]] = sorted(json.loads(data), key=lambda node: str(node["publicKey"]))
        if orgs:
            Quorums(data, orgs=orgs).greatest(faulty_orgs=[])
        self.given: list[dict[str, Any]] = json.loads(orgs) if orgs else []

    @property
    def keys(self) -> list[str]:
        return [it["publicKey"] for it in self.nodes]

    def silent(self) -> list[str]:
        """The nodes that the file says do not validate now."""
        return [it["publicKey"] for it in self.nodes if it.get("isValidating") is False]

    def reduced(self, as_is: bool = False) -> bytes:
        """What the program reads of the file, in key order: equal for files that differ in other members alone.

        With `as_is` the silent nodes have no quorum set, so that no quorum has one of them.
        """
        silent = set(self.silent()) if as_is else set()
        return compact(
            [
                {
                    "publicKey": it["publicKey"],
                    "quorumSet": None if it["publicKey"] in silent else read_set(it.get("quorumSet")),
                }
                for it in self.nodes
            ]
        )

    def names(self) -> dict[str, str]:
        """What each node is called: its name, with its key if another has that name too; without one the key."""
        named = {
            it["publicKey"]: it["name"] for it in self.nodes if isinstance(it.get("name"), str) and it["name"].strip()
        }
        count = collections.Counter(named.values())
        return {key: shown(name) if count[name] == 1 else f"{shown(name)} ({key})" for key, name in named.items()}

    def value(self, node: dict[str, Any], by: str) -> Optional[str]:
        """The text of a member, if the node has it."""
        found: Any = node
        for part in MEMBERS.get(by, by).split("."):
            found = found.get(part) if isinstance(found, dict) else None
        if found is None or found == "":
            return None
        if isinstance(found, (dict, list)):
            raise Refused(CONFIG, f"{MEMBERS.get(by, by)} of {node['publicKey']} is no text, number or truth value")
        return found if isinstance(found, str) else json.dumps(found)

    def groups(self, by: str) -> Groups:
        """The groups by `org`, `country`, `isp`, `homeDomain` or any other member; by `org` those of the file of
        organisations, if there is one."""
        if by == "org" and self.given:
            return self.given_groups()
        members: dict[str, list[str]] = {}
        alone = []
        for node in self.nodes:
            value = self.value(node, by)
            if value is None:
                alone.append(node["publicKey"])
            else:
                members.setdefault(value, []).append(node["publicKey"])
        made = [{"id": group_id(value), "name": value, "validators": members[value]} for value in sorted(members)]
        names = {group_id(value): shown(value) for value in members}
        return Groups(
            by, compact(made), names, {group_id(value): tuple(keys) for value, keys in members.items()}, tuple(alone)
        )

    def given_groups(self) -> Groups:
        """The groups of the file of organisations, without the members that only people read."""
        made = [{"id": it["id"], "validators": it.get("validators") or []} for it in self.given]
        known = set(self.keys)
        members = {it["id"]: tuple(key for key in it["validators"] if key in known) for it in made}
        names = {
            it["id"]: shown(it["name"]) for it in self.given if isinstance(it.get("name"), str) and it["name"].strip()
        }
        inside = {key for keys in members.values() for key in keys}
        return Groups("org", compact(made), names, members, tuple(key for key in self.keys if key not in inside))

    def named(self) -> collections.Counter[str]:
        """By the quorum sets of how many other nodes each is named."""
        count: collections.Counter[str] = collections.Counter()
        for node in self.nodes:
            count.update(set(mentioned(node.get("quorumSet"))) - {node["publicKey"]})
        return count

    def central(self, greatest: tuple[str, ...]) -> Optional[str]:
        """The node inside the greatest quorum that the quorum sets of most other nodes name, the first of these by
        its key."""
        count = self.named()
        return min(greatest, key=lambda key: (-count[key], key)) if greatest else None


def read_set(held: Optional[dict[str, Any]]) -> Optional[dict[str, Any]]:
    """A quorum set with the members that are read."""
    if held is None:
        return None
    return {
        "threshold": held["threshold"],
        "validators": held.get("validators") or [],
        "innerQuorumSets": [read_set(it) for it in held.get("innerQuorumSets") or []],
    }


def mentioned(held: Optional[dict[str, Any]]) -> Iterator[str]:
    """The nodes that a quorum set names, also in inner ones."""
    if held is not None:
        yield from held.get("validators") or []
        for it in held.get("innerQuorumSets") or []:
            yield from mentioned(it)


def node_frame(network: Quorums) -> pandas.DataFrame:
    """The nodes as a DataFrame by their keys."""
    import pandas

    snapshot = Snapshot(network.config, network.orgs)
    names, named, greatest = snapshot.names(), snapshot.named(), set(network.greatest()["greatest"])
    groups = {by: {key: name for name, keys in snapshot.groups(by).members.items() for key in keys} for by in MEMBERS}
    rows = []
    for node in snapshot.nodes:
        key, held = node["publicKey"], node.get("quorumSet")
        row = {
            "key": key,
            "name": names.get(key),
            **{by: groups[by].get(key) for by in MEMBERS},
            "validating": node.get("isValidating"),
        }
        rows.append(
            {
                **row,
                "threshold": None if held is None else held["threshold"],
                "named_by": named[key],
                "in_greatest": key in greatest,
            }
        )
    return pandas.DataFrame(
        rows, columns=["key", "name", *MEMBERS, "validating", "threshold", "named_by", "in_greatest"]
    ).set_index("key")
