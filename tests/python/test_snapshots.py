"""What is read of a file of nodes, its groups and its names."""

from __future__ import annotations

import json

from networks import as_json, example, flat, node

from quorums import Quorums
from quorums.snapshots import Snapshot, group_id


def test_files_that_say_the_same_are_equal() -> None:
    nodes = flat(4, 3)
    more = [{**it, "statistics": {"x": at}, "name": f"n {at}"} for at, it in enumerate(reversed(nodes))]
    assert Snapshot(as_json(nodes)).reduced() == Snapshot(as_json(more)).reduced()
    changed = [*more[:-1], {**more[-1], "quorumSet": None}]  # type: ignore[arg-type]
    assert Snapshot(as_json(nodes)).reduced() != Snapshot(as_json(changed)).reduced()


def test_the_reduced_file_is_the_same_system() -> None:
    for name in ("network.json", "three.json", "trial.json"):
        whole, reduced = Quorums(example(name)), Quorums(Snapshot(example(name)).reduced())
        assert whole.show().text == reduced.show().text
        assert whole.blocking().text == reduced.blocking().text


def test_silent_nodes_are_in_no_quorum() -> None:
    nodes = flat(4, 3)
    nodes[1]["isValidating"] = False
    nodes[2]["isValidating"] = None
    assert Quorums(Snapshot(as_json(nodes)).reduced(True)).greatest().value == ("n00", "n02", "n03")


def test_groups_by_members() -> None:
    nodes = [
        node(
            "a",
            1,
            ["a"],
            isp="Amazon.com, Inc.",
            geoData={"countryCode": "DE"},
            organizationId="o1",
            homeDomain="x.example",
            ledgerVersion=22,
        ),
        node("b", 1, ["a"], isp="Amazon.com, Inc.", geoData={"countryCode": None}, ledgerVersion=21),
        node("c", 1, ["a"], geoData=None, isp="", ledgerVersion=21),
    ]
    snapshot = Snapshot(as_json(nodes))
    isp = snapshot.groups("isp")
    assert (isp.members, isp.names, isp.alone) == (
        {"Amazon.com%2C%20Inc.": ("a", "b")},
        {"Amazon.com%2C%20Inc.": "Amazon.com, Inc."},
        ("c",),
    )
    assert snapshot.groups("country").members == {"DE": ("a",)}
    assert snapshot.groups("country").alone == ("b", "c")
    assert snapshot.groups("org").members == {"o1": ("a",)}
    assert snapshot.groups("homeDomain").members == {"x.example": ("a",)}
    assert snapshot.groups("ledgerVersion").members == {"22": ("a",), "21": ("b", "c")}
    assert snapshot.groups("geoData.countryCode").members == {"DE": ("a",)}
    assert json.loads(isp.orgs) == [
        {"id": "Amazon.com%2C%20Inc.", "name": "Amazon.com, Inc.", "validators": ["a", "b"]}
    ]
    assert Quorums(as_json(nodes), orgs=isp.orgs).org_blocking().sets


def test_ids_are_those_of_the_program() -> None:
    values = ["a b", "a,b", "a%20b", "é", "x" * 300, "x" * 299 + "y", "\u202e", "~", '"\\']
    ids = [group_id(it) for it in values]
    assert len(set(ids)) == len(values)
    assert all(len(it) <= 128 and all("!" <= c <= "~" and c != "," for c in it) for it in ids)


def test_names_that_could_mislead_are_escaped_and_told_apart() -> None:
    nodes = [
        node("a", 1, ["a"], name="one"),
        node("b", 1, ["a"], name="one"),
        node("c", 1, ["a"], name="x\u202ey\n"),
        node("d", 1, ["a"], name=" "),
        node("e", 1, ["a"], name=7),
    ]
    assert Snapshot(as_json(nodes)).names() == {"a": "one (a)", "b": "one (b)", "c": "x\\u202ey\\n"}


def test_nodes_as_a_frame() -> None:
    import pytest

    pytest.importorskip("pandas")
    frame = Quorums(example("network.json"), orgs=example("orgs.json")).frame()
    assert list(frame.index) == sorted(frame.index) and len(frame) == 10
    assert frame.loc["GAAA1", "org"] == "alder" and frame.loc["GAAA1", "named_by"] == 8
    assert frame["in_greatest"].sum() == 9
