"""Runs each tool on wrong words and on files that a slip hands it, without a toolchain: it ends with the status that
it promises, puts out nothing, and says in one line what is wrong. With --help it puts out the text at its top."""

from __future__ import annotations

import os
import subprocess
import sys
from pathlib import Path

import pytest

TOP = os.path.dirname(os.path.dirname(os.path.abspath(__file__)))
NETWORK = os.path.join(TOP, "examples", "network.json")
NO_TOOLCHAIN = "the toolchain's command rt is not on the path; README.md ('What you need') says which"
# What lies in the folder of each run; `folder` is one, and `none` is not there.
FILES = {
    "empty": b"",
    "bytes": bytes(range(256)),
    "object.json": b'{"a": 1}',
    "cut.cnf": b"c formula 3\nc config sha256 00\nc from\nc faulty\nc 1 a GAAA1\n",
    "header.cnf": b"c formula 3\nc config sha256 00\nc from\nc faulty\nc 1 a GAAA1\np cnf 2\n",
    "comment.cnf": b"c formula 3\nc config sha256 00\nc from\nc faulty\nc one a GAAA1\np cnf 2 1\n",
    "two.cnf": b"p cnf 2 1\n1 2 0\n",
    "no-step.drat": b"c a comment\n-1 0\n",
}
# A tool, its words, its status, and what stands in its one line.
Row = tuple[str, str, int, str]
ROWS: list[Row] = [
    ("tools/use/hints", "", 2, "hints: two files are wanted: tools/use/hints F.cnf F.drat > F.lrat"),
    ("tools/use/hints", "two.cnf none", 1, "hints: none: no such file or directory"),
    ("tools/use/hints", "two.cnf folder", 1, "hints: folder: is a directory"),
    ("tools/use/hints", "two.cnf bytes", 1, "hints: bytes is binary: give the solver --no-binary"),
    ("tools/use/hints", "bytes empty", 1, "line 1 of bytes is no list of literals"),
    ("tools/use/hints", "two.cnf empty", 1, "empty does not come to the empty lemma"),
    ("tools/use/hints", "two.cnf no-step.drat", 1, "line 2 of no-step.drat: the lemma [-1] is no step"),
    *[
        row
        for tool in ("tools/use/pair", "tools/use/refutation")
        for row in (
            (tool, "two.cnf", 2, f"two files are wanted: {tool} F.cnf "),
            (tool, "none none", 1, "none: no such file or directory"),
            (tool, "folder folder", 1, "folder: is a directory"),
            (tool, "bytes bytes", 1, "bytes is not what `quorum_cli export` puts out"),
            (tool, "two.cnf bytes", 1, "two.cnf is not what `quorum_cli export` puts out"),
            (tool, "cut.cnf bytes", 1, "cut.cnf is cut off: it has no line `p cnf VARIABLES CLAUSES`"),
            (tool, "header.cnf bytes", 1, "header.cnf has no line `p cnf VARIABLES CLAUSES`, but `p cnf 2`"),
            (tool, "comment.cnf bytes", 1, "its comment `one a GAAA1`"),
        )
    ],
    ("tools/use/network-report", "", 2, "the following arguments are required: CONFIG, -o"),
    ("tools/use/network-report", f"{NETWORK} -o x.html --seconds soon", 2, "argument --seconds: invalid"),
    ("tools/use/network-report", f"{NETWORK} -o none/x.html", 2, "-o none/x.html: there is no folder none"),
    ("tools/use/network-report", f"{NETWORK} -o x.html --json none/x", 2, "--json none/x: there is no folder none"),
    ("tools/use/network-report", "none -o x.html", 1, "none could not be read: No such file"),
    ("tools/use/network-report", f"{NETWORK} --orgs folder -o x.html", 1, "folder could not be read: Is a directory"),
    (
        "tools/use/network-report",
        f"{NETWORK} --node A -o x.html --program ./none",
        1,
        "the program ./none could not be run",
    ),
    ("tools/build/dist", "--prove --compare", 2, "not allowed with argument"),
    *[("tools/build/dist", words, 70, f"dist: {NO_TOOLCHAIN}") for words in ("", "--prove", "--to new")],
    ("tools/build/first-build", "again", 2, "takes no word but --unproved, and not again"),
    ("tools/build/library", "--bulit", 2, "library: unrecognized arguments: --bulit"),
    ("tools/build/library", "--built", 1, f"library: {NO_TOOLCHAIN}"),
    ("tools/build/program", "--prove", 2, "takes no word but --proved, and not --prove"),
    ("tools/build/rt", "check", 2, NO_TOOLCHAIN),
    ("tools/build/rt", "--kit none check", 2, "--kit names no toolchain's folder: there is no none/bin/rt"),
    ("tools/build/web-page", "", 2, "the following arguments are required: -o"),
    ("tools/build/web-page", "-o none/x.html", 1, "web-page: none: no such folder"),
    ("tools/build/web-page", "-o folder --module bytes", 1, "web-page: folder is a folder: name the file itself"),
    ("tools/build/web-page", "-o x.html --module none", 1, "web-page: none: no such file or directory"),
    ("tools/build/web-page", "-o x.html --bitcode none", 1, "web-page: none: no such file of bitcode"),
    ("tools/build/web-page", "-o x.html", 1, f"web-page: {NO_TOOLCHAIN}"),
    ("tools/maintain/arguments", "nocrate", 2, "the program has no crate nocrate"),
    ("tools/maintain/twice", "nocrate", 2, "the program has no crate nocrate"),
    ("tools/maintain/uses", "nocrate", 2, "crates.txt has no crate nocrate"),
    ("tools/maintain/edits", "", 2, "CRATE [EDIT..]"),
    ("tools/maintain/edits", "fbas_core", 2, NO_TOOLCHAIN),
    *[
        (tool, "--chekc", 2, "unrecognized arguments: --chekc")
        for tool in (
            "tools/maintain/callers",
            "tools/maintain/commands",
            "tools/maintain/crates-picture",
            "tools/maintain/knows",
            "tools/maintain/limits",
            "tools/maintain/memory-answers",
            "tools/maintain/packaging",
            "tools/maintain/specification",
        )
    ],
    ("tools/maintain/knows", "--all", 2, "--all needs a WORD"),
    ("tools/maintain/knows", "quorum", 2, "quorum is none of the words show closure "),
    ("tools/maintain/gate.py", "", 1, "the toolchain's command rt, which runs the gate, is not on the path"),
    ("tools/maintain/gate.py", "--show none", 2, "none is no file that --add has kept"),
    ("tools/maintain/gate.py", "--show bytes", 1, "bytes: no figures that gate.py --add has kept"),
    ("tools/maintain/gate.py", "--watch soon", 2, "argument --watch: invalid int value: 'soon'"),
    ("tools/maintain/plain_search.py", "", 2, "the following arguments are required: FOLDER"),
    (
        "tools/maintain/search_clauses.py",
        "none new",
        2,
        "none is no system that bench/trials.py knows, and no configuration",
    ),
    ("tools/maintain/search_clauses.py", "object.json new", 2, "object.json is no system that bench/trials.py knows"),
]
TOOLS = sorted({tool for tool, *_ in ROWS} - {"tools/build/rt"})


def ran(tool: str, words: list[str], folder: Path) -> subprocess.CompletedProcess[str]:
    for name, held in FILES.items():
        (folder / name).write_bytes(held)
    (folder / "folder").mkdir(exist_ok=True)
    # (no toolchain, and this Python)
    (folder / "bin").mkdir(exist_ok=True)
    (folder / "bin" / "python3").symlink_to(sys.executable)
    env = {**os.environ, "PATH": os.pathsep.join([str(folder / "bin"), "/usr/bin", "/bin"])}
    words = [os.path.join(TOP, tool), *words]
    return subprocess.run(
        words, cwd=folder, env=env, stdin=subprocess.DEVNULL, capture_output=True, text=True, timeout=300
    )


@pytest.mark.parametrize("tool, words, status, said", ROWS)
def test_a_fault_is_told_in_one_line(tool: str, words: str, status: int, said: str, tmp_path: Path) -> None:
    ended = ran(tool, words.split(), tmp_path)
    assert (ended.returncode, ended.stderr.count("\n")) == (status, 1), ended.stderr
    assert said in ended.stderr
    assert tool.endswith("hints") or ended.stdout == ""


@pytest.mark.parametrize("tool", TOOLS)
def test_help_is_put_out(tool: str, tmp_path: Path) -> None:
    ended = ran(tool, ["--help"], tmp_path)
    assert (ended.returncode, ended.stderr) == (0, "")
    assert ended.stdout.count("\n") > 1


def test_an_output_that_is_closed_ends_a_tool_quietly(tmp_path: Path) -> None:
    words = f"{os.path.join(TOP, 'tools/maintain/knows')} --help | true"
    ended = subprocess.run(["bash", "-c", words], stderr=subprocess.PIPE, text=True)
    assert ended.stderr == ""
