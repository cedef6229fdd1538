#!/usr/bin/env python3
"""Holds what is written outside the crates against a linter: lint.py flake8|mypy|shellcheck|eslint

flake8 and mypy read every file of Python, shellcheck every script of bash, and eslint every module of JavaScript. A
linter that is not installed is skipped, and so is eslint where there are no settings for it. Status 0 if nothing is
found, else 1. tests/test_lint.py asks the same.
"""

import os
import re
import shutil
import subprocess
import sys
from collections.abc import Iterator

TOP = os.path.dirname(os.path.dirname(os.path.abspath(__file__)))
# Folders of what is made, and of Rattle, which these linters do not read.
LEFT_OUT = {"out", "__pycache__", "node_modules", "crates", "dist", "docs", "examples"}
SHEBANG = re.compile(rb"#!.*\b(python3|bash|sh)\n")
KINDS = {b"python3": "python", b"bash": "shell", b"sh": "shell"}
SUFFIXES = {".py": "python", ".bash": "shell", ".sh": "shell", ".js": "script", ".mjs": "script"}
# The folders whose files mypy reads together, since these import one another by their bare names, with its further
# words. What one imports from another folder is found, and its faults are told where that is read. In tests None is
# not told from what is there: where it should not be, the test fails anyway.
IN_TESTS = ["--disallow-untyped-defs", "--no-strict-optional"]
PARTS: dict[str, list[str]] = {
    "library/python": ["--strict"],
    "library": ["--strict"],
    "share": ["--strict"],
    "tools": ["--strict"],
    "tests": IN_TESTS,
    "bench": IN_TESTS,
}
SEARCHED = ("tests", "bench", "tools/build", "tools/maintain", "tools/use", "library/python")
ESLINT_SETTINGS = re.compile(r"(\.eslintrc(\.(js|cjs|json|yml|yaml))?|eslint\.config\.(js|mjs|cjs))")
# Where Debian's packages of node lie; another node than Debian's does not look there by itself.
NODE_PATH = "/usr/share/nodejs"


def kind(path: str) -> str | None:
    """What a file is written in, by its suffix or its first line; None for what no linter reads."""
    suffix = os.path.splitext(path)[1]
    if suffix in SUFFIXES:
        return SUFFIXES[suffix]
    if suffix:
        return None
    with open(os.path.join(TOP, path), "rb") as it:
        found = SHEBANG.fullmatch(it.readline())
    return KINDS[found[1]] if found else None


def files(wanted: str) -> Iterator[str]:
    """The files of a kind, by their paths from the top, in order."""
    for folder, inner, names in os.walk(TOP):
        inner[:] = sorted(it for it in inner if it not in LEFT_OUT and (not it.startswith(".") or it == ".ci"))
        for path in sorted(os.path.relpath(os.path.join(folder, it), TOP) for it in names):
            if kind(path) == wanted:
                yield path


def part_of(path: str) -> str:
    """The first of PARTS in which a file lies."""
    return next(it for it in PARTS if path.startswith(it + "/"))


class Linter:
    """The files that a linter read, and what it found in them."""

    def __init__(self) -> None:
        self.read: list[str] = []
        self.findings = ""
        # ends badly without a finding in a file: then the linter itself failed
        self.broken = False

    def run(self, words: list[str], paths: list[str], **env: str) -> None:
        """Runs the linter over some files; each line of what it says begins with the path of a file."""
        ended = subprocess.run([*words, *paths], cwd=TOP, env={**os.environ, **env}, stdout=subprocess.PIPE, text=True)
        self.read += paths
        self.findings += ended.stdout
        found = any(re.search(rf"^(\./)?{re.escape(it)}\b", ended.stdout, re.M) for it in paths)
        self.broken |= ended.returncode != 0 and not found


def flake8(linter: Linter) -> None:
    linter.run(["flake8"], list(files("python")))


def mypy(linter: Linter) -> None:
    every = list(files("python"))
    searched = ":".join(os.path.join(TOP, it) for it in SEARCHED)
    words = ["mypy", "--config-file", "pyproject.toml", "--cache-dir", os.devnull, "--no-error-summary"]
    for part, more in PARTS.items():
        own = [it for it in every if part_of(it) == part]
        linter.run([*words, *more], own, MYPYPATH=searched)


def shellcheck(linter: Linter) -> None:
    linter.run(["shellcheck", "--format=gcc", "--external-sources"], list(files("shell")))


def eslint(linter: Linter) -> None:
    linter.run(["eslint", "--format=unix"], list(files("script")), NODE_PATH=NODE_PATH)


LINTERS = {"flake8": flake8, "mypy": mypy, "shellcheck": shellcheck, "eslint": eslint}


def missing(name: str) -> str | None:
    """Why a linter cannot be run; None if it can."""
    if name == "eslint" and not any(ESLINT_SETTINGS.fullmatch(it) for it in os.listdir(TOP)):
        return "there are no settings for it"
    if not shutil.which(name):
        return f"it is not installed: Debian's package is {name}"
    env = {**os.environ, "NODE_PATH": NODE_PATH}
    if subprocess.run([name, "--version"], env=env, stdout=subprocess.DEVNULL, stderr=subprocess.DEVNULL).returncode:
        return f"{name} --version fails"
    return None


def main() -> int:
    if len(sys.argv) != 2 or sys.argv[1] not in LINTERS:
        print("usage: lint.py " + "|".join(LINTERS), file=sys.stderr)
        return 2
    name = sys.argv[1]
    why = missing(name)
    if why:
        print(f"{name}: skipped, {why}")
        return 0
    linter = Linter()
    LINTERS[name](linter)
    print(linter.findings, end="")
    if linter.broken:
        print(f"{name} ends badly, without a finding", file=sys.stderr)
    return 1 if linter.findings or linter.broken else 0


if __name__ == "__main__":
    sys.exit(main())
