"""Tries tools/maintain/edits on a crate of six functions, in a repository of its own.

Bodies that are wrong, in one check and over two functions that call one another; bodies that are right, edits that
cannot be read and edits that only take away a name which a proof cites: of these each is said to fail. Wrong words, a
crate that is not proved, and an interrupt, which leaves all as it was.
"""

from __future__ import annotations

import hashlib
import os
import re
import shutil
import signal
import subprocess
import sys
import tempfile
import time
from collections.abc import Iterator
from typing import Any

import pytest
from chosen import TOP

pytestmark = [pytest.mark.long, pytest.mark.toolchain]

NAMES = ["one", "two", "three", "four", "five"]
HEAD = """//! Sums of small numbers.
#![tactic(auto)]

ghost use Rattle.std.specs.Prelude.{◌≡◌, ◌≤◌, ◌+◌};

/// The sum of two numbers.
pub fn plus(a: u32, b: u32) -> u32
    requires a_is_small { a ≤ 1000 }
    requires b_is_small { b ≤ 1000 }
    ensures { result ≡ a + b }
{
    a + b
}
"""
FUNCTION = """
/// The sum of two numbers and NUMBER.
pub fn NAME(a: u32, b: u32) -> u32
    requires a_is_small { a ≤ 500 }
    requires b_is_small { b ≤ 500 }
    ensures { result ≡ a + b + NUMBER }
{
    let sumNUMBER = plus(a, b);
    sumNUMBER + NUMBER
}
"""
# A proof that names the sum, so that a body with another name has none.
ANSWER = """use Rattle.std.proofs.Common.{arith}
use Rattle.tiny.proofs.NAME.Goals as goal

pub returns : goal.returns
returns c = omega (arith, c.plus-sumNUMBER.ensures)
"""
WRONG = {name: [(f"sum{at} + {at}", f"sum{at} + {at + 1}")] for at, name in enumerate(NAMES, 1)}
RIGHT = {name: [(f"sum{at} + {at}", f"{at} + sum{at}")] for at, name in enumerate(NAMES, 1)}
UNREAD = {
    "one": [("sum1 + 1", "sum1 + absent")],
    "two": [("sum2 + 2", "sum2 + true")],
    "three": [("sum3 + 3", "(sum3 + 3")],
    "four": [("sum4 + 4", "sum4.absent() + 4")],
    "five": [("a + b + 5 }", "a + b + absent }")],
}
RENAMED = {
    name: [(f"let sum{at} = plus", f"let sun{at} = plus"), (f"sum{at} + {at}", f"sun{at} + {at}")]
    for at, name in enumerate(NAMES, 1)
}
# Those that call it are not judged beside it.
LOWEST = [("    a + b", "    a + (b - b)")]


def edit(pairs: Any, file: str = "src/lib.rt") -> Any:
    return f"file: {file}\n" + "".join("old: %s\nnew: %s\n" % it for it in pairs)


class Repository:
    """A repository with the tool and one crate."""

    def __init__(self, folder: str) -> None:
        self.folder = folder
        os.mkdir(os.path.join(folder, ".git"))
        os.mkdir(os.path.join(folder, "tmp"))
        for name in ("maintain/edits", "build/toolchain.py", "build/rt"):
            self.write("tools/" + name, open(os.path.join(TOP, "tools", name), encoding="utf-8").read())
        self.write("crates.txt", "tiny:\n")
        self.write("crates/tiny/src/lib.rt", HEAD + "".join(self.of(FUNCTION, *it) for it in enumerate(NAMES, 1)))
        for at, name in enumerate(NAMES, 1):
            self.write(f"crates/tiny/proofs/{name}/Answers.antt", self.of(ANSWER, at, name))

    @staticmethod
    def of(text: str, number: int, name: str) -> str:
        return text.replace("NUMBER", str(number)).replace("NAME", name)

    def write(self, name: str, text: str) -> None:
        path = os.path.join(self.folder, name)
        os.makedirs(os.path.dirname(path), exist_ok=True)
        with open(path, "w", encoding="utf-8") as it:
            it.write(text)

    def words(self, *words: str) -> Any:
        return [sys.executable, os.path.join(self.folder, "tools/maintain/edits"), *words]

    def how(self) -> Any:
        return {
            "cwd": self.folder,
            "env": {**os.environ, "TMPDIR": os.path.join(self.folder, "tmp")},
            "stdin": subprocess.DEVNULL,
            "text": True,
            "errors": "replace",
        }

    def put(self, edits: Any) -> None:
        """Writes these edits, and no others."""
        shutil.rmtree(os.path.join(self.folder, "crates/tiny/must-fail"), ignore_errors=True)
        for name, text in edits.items():
            self.write(f"crates/tiny/must-fail/{name}.edit", text)

    def edits(self, edits: Any) -> Any:
        """Tries these alone: what is said of each, the last line and the status."""
        self.put(edits)
        ended = subprocess.run(self.words("tiny"), stdout=subprocess.PIPE, stderr=subprocess.PIPE, **self.how())
        lines = re.findall(r"^must-fail tiny/(\w+)\.edit: (.*)$", ended.stdout, re.M)
        return dict(lines), ended.stdout.rstrip("\n").split("\n")[-1], ended.returncode

    def rows(self, name: str, edits: Any, word: str, status: int, checks: Any = None) -> Any:
        said, last, ended = self.edits({it: edit(pairs) for it, pairs in edits.items()})
        for it in edits:
            found = said.get(it, "nothing")
            assert (word if word in found else found) == word, f"{name}: {it}"
        refused = len(edits) if not status else 0
        assert last.startswith(f"edits: tiny: {refused} of {len(edits)} refused, in {checks or ''}"), (
            name + ": the last line"
        )
        assert ended == status, name + ": the status"
        return said

    def sums(self) -> Any:
        """Of all files of the repository, and the names in the folder for temporary files."""
        found = {}
        for at, _, names in os.walk(self.folder):
            for name in names:
                with open(os.path.join(at, name), "rb") as it:
                    found[os.path.join(at, name)] = hashlib.sha256(it.read()).hexdigest()
        return found


@pytest.fixture(scope="module")
def tiny() -> Iterator[Repository]:
    """One for all, in this order: what is proved of it is kept, and the last makes it wrong."""
    with tempfile.TemporaryDirectory() as folder:
        yield Repository(folder)


def test_wrong_bodies_are_refused_each_by_its_own_function(tiny: Repository) -> None:
    said = tiny.rows("wrong bodies", WRONG, "refused, as it must be", 0, "1 checks")
    assert [said[it].partition("[by ")[2] for it in NAMES] == [
        f"tiny::{it}]" for it in NAMES
    ], "each by its own function"
    # the lowest is wrong in what the others rest on
    said = tiny.rows(
        "and one that the others call", {"lowest": LOWEST, "one": WRONG["one"]}, "refused, as it must be", 0
    )
    assert "[by tiny::plus" in said["lowest"], "the one below by itself"


def test_what_is_not_refused_is_named_with_its_reason(tiny: Repository) -> None:
    tiny.rows("right bodies", RIGHT, "NOT REFUSED", 1)
    said = tiny.rows("not to be read", UNREAD, "BAD EDIT: ", 1)
    # the first four are no Rust; the last is a contract with a word that nobody has said
    assert ["it did not reach the prover" in said[it] for it in NAMES] == [True] * 4 + [False], "why"
    tiny.rows("only a name is gone", RENAMED, "says little of the contract", 1)
    said, _, status = tiny.edits(
        {
            "wrong": edit(WRONG["one"]),
            "right": edit(RIGHT["two"]),
            "unread": edit(UNREAD["four"]),
            "renamed": edit(RENAMED["five"]),
            "gone": edit([("nothing", "")]),
        }
    )
    words = {
        "wrong": "refused, as it must be",
        "right": "NOT REFUSED",
        "unread": "BAD EDIT: it did not reach the prover",
        "renamed": "says little",
        "gone": "BAD EDIT: an 'old:' text is in src/lib.rt 0 times",
    }
    assert ([it for it, word in words.items() if word in said.get(it, "")], status) == (
        list(words),
        1,
    ), "one of each together"
    assert "says little" not in said["wrong"], "a wrong one beside them"


def test_wrong_words_are_named(tiny: Repository) -> None:
    tiny.put({"one": edit(WRONG["one"])})
    for name, words, said in [
        ("no words", [], "usage: tools/maintain/edits"),
        ("a crate that is not there", ["none"], "tools/maintain/edits: there is no crate none\n"),
        ("an edit that is not there", ["tiny", "none"], "tools/maintain/edits: there is no edit none.edit\n"),
    ]:
        ended = subprocess.run(tiny.words(*words), stdout=subprocess.PIPE, stderr=subprocess.PIPE, **tiny.how())  # type: ignore[misc]  # noqa: E501
        assert (ended.returncode, ended.stdout, ended.stderr[: len(said)]) == (2, "", said), name


def test_an_interrupt_leaves_all_as_it_was(tiny: Repository) -> None:
    tiny.put({name: edit(pairs) for name, pairs in WRONG.items()})
    subprocess.run(  # type: ignore[call-overload]
        [sys.executable, os.path.join(tiny.folder, "tools/build/rt"), "check"],
        stdout=subprocess.DEVNULL,
        **{**tiny.how(), "cwd": os.path.join(tiny.folder, "crates/tiny")},
    )
    before = tiny.sums()
    for number in (signal.SIGINT, signal.SIGTERM):
        started = subprocess.Popen(
            tiny.words("tiny"),
            stdout=subprocess.DEVNULL,
            stderr=subprocess.DEVNULL,
            start_new_session=True,
            **tiny.how(),
        )
        out = os.path.join(tiny.folder, "tmp")
        for _ in range(600):
            if any(it.startswith("rt-edit-") for it in os.listdir(out)):
                break
            time.sleep(0.1)
        os.kill(started.pid, number)
        assert started.wait(timeout=60) == 128 + number, f"stopped by {number.name}"
        assert tiny.sums() == before, f"as it was after {number.name}"


def test_a_crate_that_is_not_proved_is_named(tiny: Repository) -> None:
    path = os.path.join(tiny.folder, "crates/tiny/src/lib.rt")
    with open(path, encoding="utf-8") as it:
        text = it.read()
    tiny.write("crates/tiny/src/lib.rt", text.replace("sum1 + 1", "sum1 + 7"))
    tiny.write("crates/tiny/must-fail/right.edit", edit(RIGHT["two"]))
    ended = subprocess.run(tiny.words("tiny", "right"), stdout=subprocess.PIPE, stderr=subprocess.PIPE, **tiny.how())
    assert (ended.returncode, ended.stdout, "itself is not proved" in ended.stderr) == (2, "", True)
