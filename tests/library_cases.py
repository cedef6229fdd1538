"""Questions to the library: words, and the files that they name, over the examples and the files of three nodes."""

from __future__ import annotations

from collections.abc import Iterator

import fail_alloc
from networks import example

FILES = ("config", "orgs", "script", "cert")


def questions() -> Iterator[tuple[list[str], dict[str, bytes]]]:
    """Words and the files that they name: each command, refusals among them, over the examples and the files of three
    nodes."""
    three, two = {"config": example("three.json")}, {"config": example("two.json")}
    network = {"config": example("network.json"), "orgs": example("orgs.json"), "script": example("leaving.script")}
    trial = {"config": example("trial.json")}
    faulty: list[list[str]] = [[], ["--help"], ["show"], ["show", "config"]]
    for words in faulty:
        yield words, {}
    yield ["show", "missing"], three
    yield from [(["show", "config"], it) for it in (three, network, trial, {"config": b"[{}]"}, {"config": b"\xff"})]
    yield from [(["show", "config", "--node", "\u00e9"], three), (["closure", "config", "--node", "\u00e9"], three)]
    orgs = {**three, "cert": example("groups.cert"), "orgs": example("groups.json")}
    yield from [
        (["check", "config", "cert"], orgs),
        (["check", "config", "cert", "--orgs=orgs"], orgs),
        (["check", "config", "cert", "--orgs=orgs"], {**orgs, "orgs": b"[]"}),
    ]
    for cert, files in (("pair.cert", three), ("blocking.cert", three), ("least.cert", three), ("two.cert", two)):
        yield ["check", "config", "cert"], {**files, "cert": example(cert)}
        yield ["check", "config", "cert"], {**files, "cert": example(cert)[:-9]}
    yield ["check-lrat", "config", "cert"], {**two, "cert": example("two.lrat")}
    yield ["trial", "4", "made"], {}
    yield ["trial", "101", "made"], {}
    for search in (
        ["intersect", "config", "made"],
        ["blocking", "config", "made"],
        ["quorums", "config", "made"],
        ["least", "config", "made"],
    ):
        for files in (three, two, network):
            yield search, files
            yield [*search, "--budget", "2"], files
    yield ["intersect", "config", "made", "--faulty", "a"], three
    yield ["intersect", "config", "made", "--orgs", "orgs", "--faulty-orgs", "alder"], network
    some: list[list[str]] = [[], ["--faulty-orgs", "alder"], ["--budget", "2"]]
    yield from [(["org-blocking", "config", "made", "--orgs", "orgs", *more], network) for more in some]
    yield ["whatif", "config", "script", "--set", "GWATCH"], network
    for line, config, written in fail_alloc.RUNS:
        if " faulty" not in line.replace("--faulty", ""):
            yield named_as_made(line.split()), {
                "config": config,
                "cert": written,
                "orgs": fail_alloc.ORGS,
                "script": fail_alloc.SCRIPT,
            }


def named_as_made(words: list[str]) -> list[str]:
    """The words, by which a search makes its certificate under the one name that the library gives back."""
    return words if words and words[0].startswith("check") else ["made" if it == "cert" else it for it in words]
