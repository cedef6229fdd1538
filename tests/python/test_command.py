"""The command `quorums`: its forms, its files and its faults, each with its status."""

from __future__ import annotations

import csv
import hashlib
import io
import json
import os
import shutil
import subprocess
import sys
from collections.abc import Callable
from pathlib import Path
from typing import Any

import pytest
from chosen import PACKAGE, TOP
from networks import as_json, example, flat

from quorums import usage
from quorums.command import main

EXAMPLES = os.path.join(TOP, "examples")


@pytest.fixture
def run(tmp_path: Path, monkeypatch: Any, capsys: Any) -> Callable[..., Any]:
    """Runs the command in a folder with the examples, and gives its status and what it printed."""
    shutil.copytree(EXAMPLES, tmp_path / "examples")
    monkeypatch.chdir(tmp_path)

    def run_words(*words: str) -> tuple[int, str, str]:
        status = main(words)
        said = capsys.readouterr()
        return status, said.out, said.err

    return run_words


def digest(path: str) -> str:
    with open(path, "rb") as it:
        return hashlib.sha256(it.read()).hexdigest()


def test_names_keys_and_tables(run: Callable[..., Any]) -> None:
    words = ("intersect", "examples/network.json", "--faulty", "GAAA1")
    status, named, said = run(*words)
    assert (status, said) == (1, "") and named.startswith("intersects no\nfirst gaaa2, gbbb1")
    status, keyed, _ = run(*words, "--keys")
    assert (status, keyed.splitlines()[1].split()[:3]) == (1, ["first", "GAAA2", "GBBB1"])
    status, table, _ = run(*words, "--csv")
    rows = list(csv.DictReader(io.StringIO(table)))
    assert rows[0] == {"line": "1", "word": "intersects", "value": "no", "name": ""}
    assert rows[1] == {"line": "2", "word": "first", "value": "GAAA2", "name": "gaaa2"}
    assert [row["value"] for row in rows if row["word"] == "first"] == keyed.splitlines()[1].split()[1:]


def test_every_command_of_the_table(run: Callable[..., Any]) -> None:
    """Each row can be asked, and says what the program says."""
    values = {"--node": "a", "--set": "a", "--orgs": "examples/groups.json"}
    files = {
        "CONFIG": "examples/three.json",
        "N": "2",
        "CERT": "examples/pair.cert",
        "LRAT": "examples/two.lrat",
        "SCRIPT": "examples/leaving.script",
    }
    from quorums import binding

    for row in usage.commands().values():
        places = [files[it] for it in (row.files[:1] if row.is_search else row.files)]
        options = [it for option in row.options if option.needed for it in (option.flag, values[option.flag])]
        status, out, _ = run(row.word, *places, *options, "--keys")
        inside = {
            "examples/three.json": "config",
            "examples/groups.json": "orgs",
            "examples/pair.cert": "cert",
            "examples/two.lrat": "cert",
            "examples/leaving.script": "script",
        }
        plain = [
            row.word,
            *(inside.get(it, it) for it in places),
            *["made"] * row.is_search,
            *(inside.get(it, it) for it in options),
        ]
        second = (
            {}
            if row.is_search or row.second is None
            else {"script" if row.second == "SCRIPT" else "cert": open(places[1], "rb").read()}
        )
        wanted = binding.answer(plain, example("three.json"), orgs=example("groups.json"), **second)  # type: ignore[arg-type]  # noqa: E501
        assert (status, out) == (wanted[0], wanted[1].decode()), row.word


def test_a_document(run: Callable[..., Any]) -> None:
    status, out, _ = run("intersect", "examples/three.json", "t.cert", "--faulty", "a", "--json")
    document = json.loads(out)
    assert (status, document["status"], document["schema"], document["value"]) == (1, 1, "quorums/answer/1", False)
    assert document["certificate"] == {
        "path": "t.cert",
        "sha256": digest("t.cert"),
        "bytes": os.path.getsize("t.cert"),
    }
    assert document["files"]["config"] == {
        "path": "examples/three.json",
        "sha256": digest("examples/three.json"),
        "as_is": False,
    }
    assert document["text"] == "intersects no\nfirst b\nsecond c\n"
    assert document["lines"][1] == {"word": "first", "values": ["b"]}
    status, out, _ = run("check", "examples/three.json", "t.cert", "--json")
    assert (status, json.loads(out)["value"]) == (0, "pair")
    status, out, _ = run("least", "examples/three.json", "--json")
    assert (
        json.loads(out)["lines"][0] == {"word": "least", "values": [2]}
        and json.loads(out)["certificate"]["path"] is None
    )
    status, out, _ = run("blocking", "examples/three.json", "--budget", "1", "--json")
    assert (status, json.loads(out)["known"], json.loads(out)["units"], json.loads(out)["value"]) == (
        2,
        False,
        1,
        None,
    )
    status, out, _ = run("greatest", "examples/three.json", "--faulty", "zz", "--json")
    assert (status, json.loads(out)["status"], json.loads(out)["text"]) == (3, 3, "usage unknown-name --faulty 1\n")


def test_documents_are_of_the_schema(run: Callable[..., Any]) -> None:
    jsonschema = pytest.importorskip("jsonschema")
    status, text, _ = run("schema")
    schema = json.loads(text)
    jsonschema.Draft7Validator.check_schema(schema)
    for words in (
        ["show", "examples/network.json"],
        ["greatest", "examples/network.json"],
        ["blocking", "examples/network.json"],
        ["least", "examples/network.json"],
        ["blocking", "examples/network.json", "--budget", "1"],
        ["greatest", "examples/network.json", "--from", "zz"],
        ["trial", "2"],
        ["summary", "examples/network.json", "--orgs", "examples/orgs.json"],
        ["summary", "examples/network.json", "--budget", "1", "--by", "country,isp", "--whole"],
        ["groups", "examples/network.json", "--by", "country"],
    ):
        _, out, _ = run(*words, "--json")
        jsonschema.validate(json.loads(out), schema)
        with pytest.raises(jsonschema.ValidationError):
            jsonschema.validate({**json.loads(out), "schema": "quorums/answer/0"}, schema)


def test_sets_by_groups_are_one_word(run: Callable[..., Any]) -> None:
    status, out, said = run(
        "blocking", "examples/network.json", "b.cert", "--by", "org", "--orgs", "examples/orgs.json"
    )
    assert (status, out, said) == (0, "org-blocking 3\nset Alder, Beech\nset Alder, Cedar\nset Beech, Cedar\n", "")
    # (the certificate speaks of the file that was made, which lies beside it)
    assert run("check", "examples/network.json", "b.cert", "--orgs", "b.cert.orgs.json", "--keys")[1].startswith(
        "accepted org-blocking 3\n"
    )
    status, out, said = run("blocking", "examples/network.json", "--by", "country")
    assert (status, out.splitlines()[0], said) == (
        0,
        "org-blocking 27",
        "quorums: no node of examples/network.json is in a group by country: each stands alone\n",
    )
    status, out, said = run(
        "intersect", "examples/network.json", "--by", "org", "--orgs", "examples/orgs.json", "--faulty-orgs", "alder"
    )
    assert (status, out.splitlines()[0]) == (1, "intersects no")


def test_as_is(run: Callable[..., Any], tmp_path: Path) -> None:
    nodes = flat(4, 3)
    nodes[0]["isValidating"] = False
    (tmp_path / "down.json").write_bytes(as_json(nodes))
    assert run("blocking", "down.json")[1].splitlines()[0] == "blocking 6"
    assert run("blocking", "down.json", "now.cert", "--as-is")[1] == "blocking 3\nset n01\nset n02\nset n03\n"
    assert run("check", "now.cert.config.json", "now.cert")[0] == 0
    status, reduced, _ = run("reduce", "down.json", "--as-is")
    with open("now.cert.config.json", encoding="utf-8") as it:
        assert (status, reduced) == (0, it.read())


def test_a_summary_in_lines_and_its_certificates(run: Callable[..., Any]) -> None:
    status, out, said = run(
        "summary", "examples/network.json", "--orgs", "examples/orgs.json", "--certificates", "kept"
    )
    assert (status, said) == (0, "")
    assert "can fork: no\n" in out and "blocking by org: 3 minimal, the smallest of 2: Alder, Beech\n" in out
    status, out, _ = run("summary", "examples/network.json", "--orgs", "examples/orgs.json", "--json")
    document = json.loads(out)
    certificate = document["fork"]["certificate"]
    assert digest(f"kept/{certificate}.cert") == certificate
    assert run("check", f"kept/{document['config']}.json", f"kept/{certificate}.cert", "--keys")[:2] == (
        0,
        "accepted refutation\nfrom GAAA1\nfaulty\n",
    )
    status, table, _ = run("summary", "examples/network.json", "--orgs", "examples/orgs.json", "--csv")
    assert next(csv.DictReader(io.StringIO(table)))["blocking_by_org_smallest"] == "2"


def test_groups(run: Callable[..., Any]) -> None:
    status, out, _ = run(
        "groups", "examples/network.json", "--by", "org", "--orgs", "examples/orgs.json", "-o", "made.json"
    )
    assert (status, out) == (0, "Alder: 3\nBeech: 3\nCedar: 3\nin none: 1\n")
    with open("made.json", encoding="utf-8") as it:
        assert [row["id"] for row in json.load(it)] == ["alder", "beech", "cedar"]
    assert (
        run("groups", "examples/network.json", "--by", "isValidator", "--csv")[1]
        == "group,name,nodes\nfalse,false,1\ntrue,true,9\n"
    )


@pytest.mark.parametrize(
    "words, status, said",
    [
        ((), 3, "which command?"),
        (("blokcing",), 3, "no command is called blokcing: blocking is one"),
        (("zzz",), 3, "no command is called zzz ("),
        (("closure", "examples/three.json"), 3, "--node"),
        (("intersect", "examples/three.json", "--sing", "x"), 3, "--sing"),
        (("intersect", "examples/three.json", "--faul", "a"), 3, "--faul"),
        (("intersect", "examples/three.json", "--budget", "x"), 3, "--budget is a whole number, and not x"),
        (("intersect", "examples/three.json", "--seconds", "x"), 3, "--seconds"),
        (("intersect", "examples/three.json", "--by", "org"), 3, "--by has no use here"),
        (("trial", "x"), 3, "N is a whole number, and not x"),
        (("org-blocking", "examples/three.json"), 3, "org-blocking needs --orgs or --by"),
        (("show", "nowhere.json"), 6, "a file could not be read: nowhere.json: No such file or directory"),
        (("show", "examples"), 6, "a file could not be read: examples: Is a directory"),
        (("check", "examples/three.json", "nowhere.cert"), 6, "nowhere.cert"),
        (
            ("intersect", "examples/three.json", "no/t.cert"),
            7,
            "no/t.cert could not be written: No such file or directory",
        ),
        (
            ("intersect", "examples/three.json", "examples/two.json"),
            7,
            "examples/two.json is no certificate: it stays as it is",
        ),
        (("summary", "examples/three.json", "--by", "org,,isp"), 3, "--by takes names of members"),
        (("summary", "examples/three.json", "--from", "a", "--whole"), 3, "not allowed with"),
        (("bulk", "examples", "-o", "no/table.csv"), 7, "No such file or directory"),
        (("bulk", "examples", "-o", "t.csv", "--jobs", "0"), 3, "--jobs"),
        (("bulk", "examples", "-o", "t.csv", "--dates", "examples/pair.cert"), 3, "has no file,date on line 1"),
        (("history", "examples/three.json", "-o", "h.html"), 6, "is no table"),
        (("history", "nowhere.csv", "-o", "h.html"), 6, "nowhere.csv"),
    ],
)
def test_a_fault_is_one_line_with_its_status(
    run: Callable[..., Any], words: tuple[str, ...], status: int, said: str
) -> None:
    before = sorted(os.listdir("."))
    found, out, err = run(*words)
    assert (found, out, err.count("\n")) == (status, "", 1), err
    assert err.startswith("quorums: ") and said in err, err
    assert sorted(os.listdir(".")) == before


@pytest.mark.parametrize(
    "words, status, said",
    [
        (("show", "examples/orgs.json"), 4, "config bad-key 0\n"),
        (("summary", "examples/orgs.json"), 4, "config bad-key 0\n"),
        (("groups", "examples/orgs.json", "--by", "org"), 4, "config bad-key 0\n"),
        (("blocking", "examples/orgs.json", "--by", "org"), 4, "config bad-key 0\n"),
        (("reduce", "examples/orgs.json"), 4, "config bad-key 0\n"),
        (("summary", "examples/three.json", "--orgs", "examples/three.json"), 4, "orgs bad-org 0\n"),
        (("summary", "examples/three.json", "--from", "z"), 3, "usage unknown-name --from 1\n"),
        (
            ("blocking", "examples/three.json", "--by", "quorumSet"),
            4,
            "quorumSet of a is no text, number or truth value\n",
        ),
        (("check", "examples/two.json", "examples/pair.cert"), 5, "refused digest"),
    ],
)
def test_a_refusal_is_the_programs_line(
    run: Callable[..., Any], words: tuple[str, ...], status: int, said: str
) -> None:
    found, out, err = run(*words)
    assert (found, err) == (status, "") and out.startswith(said) and out.count("\n") == 1


def test_a_question_ends_after_its_seconds(run: Callable[..., Any], tmp_path: Path) -> None:
    (tmp_path / "large.json").write_bytes(as_json(flat(24, 13)))
    status, out, said = run("quorums", "large.json", "q.cert", "--seconds", "10", "--budget", "4000000000")
    assert (status, said) == (2, "") and out.startswith("quorums unknown ")
    assert run("check", "large.json", "q.cert")[0] == 2
    status, out, said = run("quorums", "large.json", "--seconds", "0")
    # (a first part may be there before the clock is read)
    assert (status, out, said) in (
        (2, "", "quorums: not answered in 0.0 s\n"),
        (2, "quorums unknown 100\n", ""),
    )


def test_a_closed_output_is_said() -> None:
    ran = subprocess.run(
        [sys.executable, "-m", "quorums", "show", f"{EXAMPLES}/three.json"],
        env={**os.environ, "PYTHONPATH": PACKAGE},
        stdout=open("/dev/full", "wb"),
        stderr=subprocess.PIPE,
    )
    assert (ran.returncode, ran.stderr) == (7, b"quorums: an output could not be written: No space left on device\n")
