"""Every value of a summary on random small networks, beside trying all sets in plain Python."""

from __future__ import annotations

import json
import os
import random
from typing import Any

import pytest
from networks import as_json, example, flat, node

from quorums import Refused
from quorums.summary import LISTS, Asked, Kept, cells, summary
from quorums.tables import HEAD, columns

COUNT = int(os.environ.get("QUORUMS_NETWORKS", "300"))
KEYS = "abcdefg"


# ---- random networks


def random_set(draw: random.Random, keys: list[str], depth: int) -> dict[str, Any]:
    validators = draw.sample(keys, draw.randint(0, min(len(keys), 5)))
    inner = [random_set(draw, keys, depth - 1) for _ in range(draw.randint(0, 2))] if depth else []
    entries = len(validators) + len(inner)
    threshold = draw.randint(0, entries + 1) if draw.random() < 0.1 else draw.randint(1, max(1, entries))
    return {"threshold": threshold, "validators": validators, "innerQuorumSets": inner}


def random_network(draw: random.Random) -> tuple[list[dict[str, Any]], list[dict[str, Any]] | None]:
    keys = list(KEYS[: draw.randint(1, len(KEYS))])
    shared = [random_set(draw, keys, 1) for _ in range(2)]
    alike = draw.random() < 0.6
    nodes = []
    for key in keys:
        held = {
            "publicKey": key,
            "quorumSet": None if draw.random() < 0.1 else draw.choice(shared) if alike else random_set(draw, keys, 1),
        }
        if draw.random() < 0.7:
            held["geoData"] = {"countryCode": draw.choice(["DE", "US", "a b,c%"])}
        if draw.random() < 0.3:
            held["isValidating"] = draw.random() < 0.5  # type: ignore[assignment]
        if draw.random() < 0.5:
            held["organizationId"] = draw.choice(["A", "B"])
        nodes.append(held)
    draw.shuffle(nodes)
    orgs = [
        {"id": it, "validators": draw.sample([*keys, "stranger"], draw.randint(0, min(3, len(keys))))}
        for it in draw.sample("ABCD", draw.randint(1, 4))
    ]
    return nodes, orgs if draw.random() < 0.5 else None


# ---- the same by trying all sets, each a frozen set of keys


def subsets(some: set[str] | dict[str, set[str]]) -> list[frozenset[str]]:
    some = sorted(some)  # type: ignore[assignment]
    return [frozenset(it for at, it in enumerate(some) if number >> at & 1) for number in range(1 << len(some))]


def satisfied(held: dict[str, Any], inside: frozenset[str]) -> bool:
    count = sum(it in inside for it in held["validators"]) + sum(
        satisfied(it, inside) for it in held["innerQuorumSets"]
    )
    # (a threshold of 0 has no choice)
    return held["threshold"] > 0 and count >= held["threshold"]


def mentioned(held: dict[str, Any]) -> set[str]:
    return set(held["validators"]).union(*map(mentioned, held["innerQuorumSets"])) if held else set()


def closure(sets: dict[str, dict[str, Any]], start: str) -> set[str]:
    found, fresh = {start}, [start]
    while fresh:
        new = mentioned(sets.get(fresh.pop())) - found
        found |= new
        fresh += new
    return found


def minimal(sets: list[frozenset[str]]) -> set[frozenset[str]]:
    return {it for it in sets if not any(other < it for other in sets)}


def blocking(quorums: list[frozenset[str]], groups: dict[str, set[str]]) -> set[frozenset[str]]:
    """The minimal sets of groups with a member in each quorum."""
    blocks = [some for some in subsets(groups) if all(any(groups[it] & quorum for it in some) for quorum in quorums)]
    return minimal(blocks)


def groups_of(
    nodes: list[dict[str, Any]], orgs: list[dict[str, Any]] | None, by: str, part: set[str]
) -> tuple[dict[str, set[str]], list[str], dict[str, set[str]]]:
    """The members of each group, and the nodes of the whole file that are in none."""
    members = {}
    if by == "org" and orgs is not None:
        members = {it["id"]: set(it["validators"]) for it in orgs}
    else:
        for it in nodes:
            value = it.get("geoData", {}).get("countryCode") if by == "country" else it.get("organizationId")
            if value is not None:
                members.setdefault(value.replace("%", "%25").replace(" ", "%20").replace(",", "%2C"), set()).add(
                    it["publicKey"]
                )
    inside = set().union(*members.values()) if members else set()
    alone = sorted(it["publicKey"] for it in nodes if it["publicKey"] not in inside)
    whole = {"org:" + it: keys & part for it, keys in members.items()}
    whole.update({"node:" + it: {it} for it in alone if it in part})
    return members, alone, whole


def tried(nodes: list[dict[str, Any]], orgs: list[dict[str, Any]] | None, asked: Asked) -> dict[str, Any]:
    """The values of a summary by trying all sets."""
    keys = {it["publicKey"] for it in nodes}
    silent = {it["publicKey"] for it in nodes if asked.as_is and it.get("isValidating") is False}
    sets = {
        it["publicKey"]: it["quorumSet"]
        for it in nodes
        if it["quorumSet"] is not None and it["publicKey"] not in silent
    }

    def quorums_in(part: set[str]) -> list[frozenset[str]]:
        return [it for it in subsets(part) if it and all(key in sets and satisfied(sets[key], it) for key in it)]

    view, of_file = asked.from_node, quorums_in(keys)
    in_file = frozenset().union(*of_file)
    if view is None and not asked.whole:
        greatest = in_file
        named = {key: sum(key in mentioned(it["quorumSet"]) for it in nodes if it["publicKey"] != key) for key in keys}
        view = min(greatest, key=lambda key: (-named[key], key)) if greatest else None
    part = keys if view is None else closure(sets, view)
    quorums = quorums_in(part)
    greatest = frozenset().union(*quorums)
    least = minimal(quorums)
    tier = frozenset().union(*least)
    found = {
        "view": view,
        "nodes": {
            "number": len(keys),
            "in_view": len(part),
            "quorum": len(greatest),
            "outside": sorted(keys - in_file),
        },
        "fork": any(not one & other for one in quorums for other in quorums),
        "file_fork": any(not one & other for one in of_file for other in of_file),
        "tier": sorted(tier),
        "least": min(map(len, least), default=None),
        "blocking": {"node": blocking(quorums, {it: {it} for it in part})},
        "groups": {},
        "tier_by": {},
        "quorums": set(of_file),
        "smallest": least,
    }
    for by in asked.by:
        members, alone, whole = groups_of(nodes, orgs, by, part)
        found["groups"][by] = {"number": len(members), "alone": alone}  # type: ignore[index]
        found["blocking"][by] = blocking(quorums, whole)  # type: ignore[index]
        found["tier_by"][by] = sorted(it for it, inside in whole.items() if inside & tier)  # type: ignore[index]
    return found


def compare(found: dict[str, Any], wanted: dict[str, Any]) -> None:
    assert found["view"] == wanted["view"]
    assert found["nodes"] == wanted["nodes"]
    assert found["groups"] == wanted["groups"]
    for name in ("fork", "file_fork"):
        fork = found[name]
        assert (fork["status"], fork["value"]) == ("known", wanted[name])
        if wanted[name]:
            one, other = frozenset(fork["first"]), frozenset(fork["second"])
            assert not one & other and {one, other} <= wanted["quorums"]
    least = found["smallest_quorum"]
    assert (least["status"], least["size"]) == ("known", wanted["least"])
    assert least["size"] is None and least["set"] is None or frozenset(least["set"]) in wanted["smallest"]
    tier = found["top_tier"]
    assert (tier["status"], tier["size"], tier["nodes"], tier["by"]) == (
        "known",
        len(wanted["tier"]),
        wanted["tier"],
        wanted["tier_by"],
    )
    assert set(found["blocking"]) == set(wanted["blocking"])
    for by, sets in wanted["blocking"].items():
        listed = found["blocking"][by]
        assert listed["status"] == "known"
        assert (listed["number"], listed["smallest"]) == (len(sets), min(map(len, sets), default=None))
        assert {frozenset(it) for it in listed["sets"]} == sets


def test_every_value_beside_trying_all_sets() -> None:
    draw = random.Random(75)
    for number in range(COUNT):
        nodes, orgs = random_network(draw)
        view = {1: {"from_node": nodes[0]["publicKey"]}, 2: {"whole": True}}.get(number % 3, {})
        asked = Asked(("org", "country"), as_is=number % 2 == 1, **view)
        data, given = as_json(nodes), b"" if orgs is None else json.dumps(orgs).encode()
        kept = Kept()
        found = summary(data, given, asked, kept)
        compare(found, tried(nodes, orgs, asked))
        silent = sum(it.get("isValidating") is False for it in nodes)
        assert found["in_file"] == {"without_set": sum(it["quorumSet"] is None for it in nodes), "silent": silent}
        row = cells(found)
        assert [it for it in columns(asked) if it not in HEAD] == list(row)
        compare_row(row, found)


def compare_row(row: dict[str, str], found: dict[str, Any]) -> None:
    """The cells of the table are the values of the summary."""
    for name in ("fork", "file_fork"):
        assert row[name] == ("yes" if found[name]["value"] else "no")
    counts = [found["nodes"][it] for it in ("number", "in_view", "quorum")]
    assert [int(row[it]) for it in ("nodes", "in_view", "quorum", "outside")] == [
        *counts,
        len(found["nodes"]["outside"]),
    ]
    assert int(row["top_tier"]) == found["top_tier"]["size"]
    assert row["smallest_quorum"] == str(found["smallest_quorum"]["size"]).replace("None", "none")
    assert (int(row["blocking_smallest"]), int(row["blocking_number"])) == (
        found["blocking"]["node"]["smallest"],
        found["blocking"]["node"]["number"],
    )
    for by in ("org", "country"):
        assert (int(row[f"blocking_by_{by}_smallest"]), int(row[f"blocking_by_{by}_number"])) == (
            found["blocking"][by]["smallest"],
            found["blocking"][by]["number"],
        )
        assert (int(row[f"groups_by_{by}"]), int(row[f"alone_by_{by}"]), int(row[f"top_tier_by_{by}"])) == (
            found["groups"][by]["number"],
            len(found["groups"][by]["alone"]),
            len(found["top_tier"]["by"][by]),
        )


def test_each_certificate_is_accepted_over_what_is_kept() -> None:
    from quorums import Quorums

    kept = Kept()
    found = summary(example("network.json"), example("orgs.json"), Asked(("org",)), kept)
    config = kept.files[found["config"] + ".json"]
    wanted = {"fork": "refutation", "smallest_quorum": "least"}
    for name, kind in wanted.items():
        assert Quorums(config).check(kept.files[found[name]["certificate"] + ".cert"]).kind == kind
    assert Quorums(config).check(kept.files[found["blocking"]["node"]["certificate"] + ".cert"]).kind == "blocking"
    orgs = kept.files[found["blocking"]["org"]["orgs"] + ".orgs.json"]
    assert (
        Quorums(config, orgs=orgs).check(kept.files[found["blocking"]["org"]["certificate"] + ".cert"]).kind
        == "org-blocking"
    )


def test_unknown_is_said_and_not_left_out() -> None:
    config = as_json(flat(12, 7))
    found = summary(config, b"", Asked(("org",), budget=1))
    assert found["fork"]["status"] == "unknown" and found["fork"]["ended"] == "budget"
    assert (found["blocking"]["node"]["status"], found["blocking"]["node"]["units"]) == ("unknown", 1)
    assert found["top_tier"] == {"status": "unknown"}
    row = cells(found)
    assert {
        row[it]
        for it in ("fork", "top_tier", "top_tier_by_org", "smallest_quorum", "blocking_smallest", "blocking_number")
    } == {"unknown"}


def test_the_time_of_a_question_is_bounded() -> None:
    found = summary(as_json(flat(24, 13)), b"", Asked(("org",), budget=4000000000, seconds=1))
    assert found["blocking"]["node"]["status"] == "unknown"
    assert found["nodes"]["quorum"] == 24


def test_splitting_is_asked_where_the_program_can(monkeypatch: Any) -> None:
    from quorums import usage

    found = summary(example("three.json"))
    for name in LISTS[1:]:
        for by, command in (("node", name), ("org", "org-" + name)):
            is_there = command in usage.commands()
            assert (found[name][by]["status"] == "not asked") == (not is_there)


def test_as_is_tells_todays_margin_from_the_configured_one() -> None:
    nodes = flat(4, 3)
    nodes[0]["isValidating"] = False
    configured, today = (summary(as_json(nodes), b"", Asked(as_is=it)) for it in (False, True))
    assert (configured["blocking"]["node"]["smallest"], today["blocking"]["node"]["smallest"]) == (2, 1)
    assert configured["in_file"]["silent"] == today["in_file"]["silent"] == 1


def test_a_node_that_is_not_there_is_refused() -> None:
    with pytest.raises(Refused, match="unknown-name"):
        summary(example("three.json"), b"", Asked(from_node="z"))


def test_a_member_of_another_type_is_named_with_its_node() -> None:
    for held in ({"isp": {"name": "x"}}, {"isp": ["x"]}):
        with pytest.raises(Refused, match="isp of b is no text, number or truth value"):
            summary(as_json([node("a", 1, ["a"]), node("b", 1, ["a"], **held)]), b"", Asked(("isp",)))  # type: ignore[arg-type]  # noqa: E501
