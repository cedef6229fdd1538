"""docs/TRUSTED.md beside what the check of the program says that it rests on.

It is asked where the program is proved and built. Of the C functions those that it marks as
reached, of the libraries those that it loads as statements: each stands in the document once, and nothing else does.
"""

from __future__ import annotations

import os
import re
import subprocess

import pytest

pytestmark = [pytest.mark.long, pytest.mark.toolchain]

TOP = os.path.dirname(os.path.dirname(os.path.abspath(__file__)))
DOCUMENT = os.path.join(TOP, "docs", "TRUSTED.md")
REACHED = re.compile(r"^  (\S+)   reached$", re.M)
STATED = re.compile(r"^statements (\w+): ", re.M)


def rows_under(text: str, head: str) -> list[str]:
    """The names in backquotes in the first cell of each row of the table below a heading."""
    (part,) = re.findall(rf"^## {re.escape(head)}\n(.*?)(?=^## |\Z)", text, re.M | re.S)
    rows = [line.split("|")[1] for line in part.splitlines() if line.startswith("| `")]
    return [name for row in rows for name in re.findall(r"`([^`]+)`", row)]


@pytest.fixture(scope="module")
def said() -> str:
    """What the check says of the program itself, after what it says of crates below it that it has to build first."""
    if not os.path.exists(os.path.join(TOP, "crates", "quorum_cli", "out", "quorum_cli")):
        pytest.skip("the program is not proved and built here, and its check would prove all crates first")
    ran = subprocess.run(
        ["rt", "check", "--list-axioms"],
        cwd=os.path.join(TOP, "crates", "quorum_cli"),
        stdout=subprocess.PIPE,
        stderr=subprocess.STDOUT,
    )
    text = ran.stdout.decode()
    text = text[max(text.rfind("\nlogic /"), 0) :]
    assert "logic=proved" in text, "the check of the program does not say that it is proved"
    return text


@pytest.mark.parametrize(
    "pattern, head", [(REACHED, "C functions"), (STATED, "Libraries")], ids=["C functions", "libraries"]
)
def test_the_document_has_what_the_check_says_once(pattern: re.Pattern[str], head: str, said: str) -> None:
    with open(DOCUMENT, encoding="utf-8") as it:
        assert sorted(rows_under(it.read(), head)) == sorted(set(pattern.findall(said)))
