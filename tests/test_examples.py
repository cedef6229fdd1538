"""Runs every example of the documents and compares what it prints.

An example is a line `$ COMMAND` of a code block, and the lines up to the next one are what it prints: `..` alone
stands for any lines, and at the end of a line for the rest of it. In a table of examples each row has the words in its
first cell, the first line that they print in its second, and the exit status in its third. The examples of a document
run in order in one new folder, with the program, the examples and the tools in it. What needs a tool that is missing
is skipped.
"""

from __future__ import annotations

import os
import re
import shutil
import subprocess
from collections.abc import Iterator
from pathlib import Path
from typing import Any

import pytest
from chosen import TOP

DOCUMENTS = ["README.md", "docs/GUIDE.md", "docs/FORMATS.md"]
# Tools from outside that an example may need.
TOOLS = ["minisat", "cadical", "sha256sum", "jq"]
# What an example does not run: the tests themselves, and what installs.
NOT_RUN = (".ci/run", "rt ", "apt-get ", "make ")


def blocks(text: str) -> list[list[str]]:
    """The code blocks, each the list of its lines."""
    return [block.split("\n")[1:-1] for block in re.findall(r"^```.*?^```", text, re.S | re.M)]


def commands(lines: list[str]) -> list[tuple[str, list[str]]]:
    """The commands of a block, each with the lines that it prints."""
    found: list[tuple[str, list[str]]] = []
    for line in lines:
        if line.startswith("$ "):
            found.append((line[2:], []))
        elif found:
            found[-1][1].append(line)
    return found


def rows(text: str) -> list[tuple[str, str, str]]:
    """The rows of a table of examples: the words, the first line that is printed, and the status."""
    tables = re.findall(r"^\| Example \|.*\n\|[-|]+\n((?:\|.*\n)*)", text, re.M)
    return re.findall(r"^\| `([^|`]*)` \| `([^|`]*)` \| (\d+) \|", "".join(tables), re.M)


def matches(wanted: list[str], found: list[str]) -> bool:
    """Whether the lines are those of the document, in which `..` stands for what is left out."""
    if not wanted:
        return not found
    if wanted[0] == "..":
        return any(matches(wanted[1:], found[at:]) for at in range(len(found) + 1))
    if not found:
        return False
    same = found[0].startswith(wanted[0][:-2]) if wanted[0].endswith("..") else wanted[0] == found[0]
    return same and matches(wanted[1:], found[1:])


def text_of(document: str) -> str:
    with open(os.path.join(TOP, document), encoding="utf-8") as it:
        return it.read()


def examples() -> Iterator[Any]:
    """The code blocks of all documents, in order."""
    for document in DOCUMENTS:
        for at, lines in enumerate(blocks(text_of(document)), 1):
            held = [it for it in commands(lines) if not it[0].startswith(NOT_RUN)]
            if held:
                yield pytest.param(document, held, id=f"{document}, block {at}: {held[0][0][:60]}")


@pytest.fixture(scope="module")
def folders(program: str, tmp_path_factory: pytest.TempPathFactory) -> dict[str, Path]:
    """A folder for each document, with the program, the examples and the tools in it."""
    made = {}
    for document in DOCUMENTS:
        made[document] = tmp_path_factory.mktemp("examples")
        for name in ("quorum_cli", "examples", "tools"):
            (made[document] / name).symlink_to(os.path.join(TOP, name))
    return made


def run(folder: Path, command: str) -> tuple[int, str]:
    ended = subprocess.run(
        ["bash", "-c", command],
        cwd=folder,
        stdin=subprocess.DEVNULL,
        stdout=subprocess.PIPE,
        stderr=subprocess.PIPE,
        timeout=600,
    )
    return ended.returncode, ended.stdout.decode("utf-8", "replace")


@pytest.mark.parametrize("document, held", examples())
def test_an_example_prints_what_stands_there(
    folders: dict[str, Path], document: str, held: list[tuple[str, list[str]]]
) -> None:
    for command, wanted in held:
        lacking = [tool for tool in TOOLS if re.search(rf"\b{tool}\b", command) and not shutil.which(tool)]
        if lacking:
            pytest.skip(f"there is no {lacking[0]}, from `{command}` of {document} on")
        _, text = run(folders[document], command)
        assert matches(wanted, text.split("\n")[:-1]), f"`{command}` printed {text}"


@pytest.mark.parametrize(
    "document, words, first, status", [(document, *row) for document in DOCUMENTS for row in rows(text_of(document))]
)
def test_a_row_of_a_table_prints_its_line_and_ends_with_its_status(
    folders: dict[str, Path], document: str, words: str, first: str, status: str
) -> None:
    found, text = run(folders[document], "./quorum_cli " + words)
    assert (found, matches([first], text.split("\n")[:1])) == (int(status), True), text
