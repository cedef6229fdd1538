"""Which program ./quorum_cli runs: tried on a small repository with a stand-in for dist/ and for
tools/build/first-build.

That of dist/ as long as its sources are those that lie there and it is whole; else what is built, else what is
compiled; what is said of it; a checkout that cannot be written, several first calls at once, other machines.
"""

from __future__ import annotations

import hashlib
import importlib.machinery
import importlib.util
import os
import shutil
import subprocess
import tempfile
import time
from collections.abc import Iterator, Sequence
from typing import Any

import pytest

TOP = os.path.dirname(os.path.dirname(os.path.abspath(__file__)))
CRATES = "# a comment\nlow: thiserror\nquorum_cli: low\nother: low\n"
NAMES = ("low", "quorum_cli")
# Each program says which it is. Without words it ends with 3, as the program does.
PROGRAM = """#!/bin/sh
[ $# -gt 0 ] || exit 3
echo {kind} "$@"
"""
# Writes down how it is called, and makes the program with its note.
FIRST_BUILD = """#!/bin/sh
echo "build $*" >>"{top}/calls"
kind=built at="{top}/crates/quorum_cli/out/quorum_cli" note="{top}/out/quorum_cli.sources"
[ "$1" != --unproved ] || kind=compiled at="{top}/out/unproved/quorum_cli" note="{top}/out/unproved/sources"
mkdir -p "$(dirname "$at")" "$(dirname "$note")"
sed "s/which/$kind/" "{top}/which" >"$at.new" && chmod +x "$at.new" && mv "$at.new" "$at"
printf '%s\\n' sum low quorum_cli >"$note"
"""
REFUSED = (
    "quorum_cli: dist/ was changed, and nothing of it is run: %s is not what dist/SHA256SUMS says. 'git checkout dist'"
    " restores it, QUORUM_CLI=built or unproved runs another\n"
)
UNPROVED = (
    "quorum_cli: nothing of this run is proved; a certificate that it writes is for the proved program to check"
    " later\n"
)
PROVING = "make proves and builds the program, some 45 minutes on four processors"
# What stands for the user who may write nothing.
NOBODY = 65534


def digest(data: bytes) -> str:
    return hashlib.sha256(data).hexdigest()


class Repository:
    """A small repository with its dist/, in a folder of its own."""

    def __init__(self, folder: str) -> None:
        self.top = os.path.join(folder, "a repo")
        shutil.copytree(os.path.join(TOP, "share", "script"), self.path("share/script"))
        shutil.copy(os.path.join(TOP, "quorum_cli"), self.path("quorum_cli"))
        self.write("crates.txt", CRATES)
        for name in ("low", "quorum_cli", "other"):
            self.write(f"crates/{name}/src/lib.rt", "code of " + name)
            self.write(f"crates/{name}/specs/Words.antt", "words of " + name)
            self.write(f"crates/{name}/proofs/Words.antt", "proofs of " + name)
        self.write("which", PROGRAM.replace("{kind}", "which"))
        self.write("tools/build/first-build", FIRST_BUILD.replace("{top}", self.top), 0o755)
        self.release()

    def path(self, name: str) -> str:
        return os.path.join(self.top, name)

    def write(self, name: str, text: str, mode: int = 0o644) -> None:
        os.makedirs(os.path.dirname(self.path(name)), exist_ok=True)
        with open(self.path(name), "w") as it:
            it.write(text)
        os.chmod(self.path(name), mode)

    def read(self, name: str) -> bytes:
        with open(self.path(name), "rb") as it:
            return it.read()

    def release(self, program: str = PROGRAM.replace("{kind}", "dist")) -> None:
        """Makes dist/ of the sources as they are."""
        lines = [line + "\n" for line in CRATES.splitlines() if line.partition(":")[0] in NAMES]
        paths = [f"crates/{name}/{it}" for name in NAMES for it in ("specs/Words.antt", "src/lib.rt")]
        lines += [f"{digest(self.read(it))}  {it}\n" for it in paths]
        self.write("dist/quorum_cli", program, 0o755)
        self.write("dist/libquorum.so", "a library")
        self.write(
            "dist/SOURCES",
            (
                "version 9\ntoolchain a-kit logic 7\nneeds a good machine\nprogram"
                f" {digest(''.join(lines).encode())} {' '.join(NAMES)}\n"
            ),
        )
        self.sums()

    def sums(self) -> None:
        names = sorted({*os.listdir(self.path("dist"))} - {"SHA256SUMS"})
        self.write("dist/SHA256SUMS", "".join(f"{digest(self.read('dist/' + it))}  {it}\n" for it in names))

    def run(self, *words: str, before: Sequence[str] = (), **env: str) -> tuple[int, str, str]:
        """The status, the output and standard error."""
        env = {"PATH": "/usr/bin:/bin", **env}
        ended = subprocess.run(
            [*before, self.path("quorum_cli"), *words],
            env=env,
            cwd="/",
            stdin=subprocess.DEVNULL,
            stdout=subprocess.PIPE,
            stderr=subprocess.PIPE,
            timeout=60,
        )
        return ended.returncode, ended.stdout.decode(), ended.stderr.decode()

    def calls(self) -> list[str]:
        """How tools/build/first-build was called since this was asked last."""
        if not os.path.exists(self.path("calls")):
            return []
        found = self.read("calls").decode().splitlines()
        os.remove(self.path("calls"))
        return found

    def runs(self, name: str, kind: str, said: str = "", calls: Sequence[str] = (), **env: Any) -> None:
        """What runs, what is said the first time and no more the second, and what was built."""
        again = UNPROVED if kind == "compiled" else ""
        assert (self.run("show", "x", **env), self.calls()) == (
            (0, kind + " show x\n", said + again),
            list(calls),
        ), name
        assert (self.run("show", "x", **env), self.calls()) == ((0, kind + " show x\n", again), []), name + ", again"

    def compiles(self, name: str, why: str) -> None:
        self.runs(
            name,
            "compiled",
            (
                f"quorum_cli: dist/ is not run, since {why}: the sources are compiled without proofs in its place;"
                f" {PROVING}\n"
            ),
            ["build --unproved"],
        )
        shutil.rmtree(self.path("out"))

    def later(self) -> None:
        """File times tell the order from here on."""
        time.sleep(0.02)


@pytest.fixture
def repository() -> Iterator[Repository]:
    # (not by tmp_path, which no other user can enter)
    with tempfile.TemporaryDirectory() as folder:
        yield Repository(folder)


def test_dist_runs_as_long_as_its_sources_are_those_here(repository: Repository) -> None:
    repository.runs("the first call", "dist")
    assert os.listdir(repository.path("out/choice")) == ["first"], "kept"
    said = (
        "quorum_cli: dist/quorum_cli runs: proved by its makers, of the sources that lie here, and built by a-kit"
        " logic 7; make prove does so again and compares\n"
    )
    assert repository.run("--about") == (0, "", said), "about it"
    assert repository.run("--about", "x")[1] == "dist --about x\n", "no other words are the script's"
    for name, act in [
        ("a file that is touched", lambda: os.utime(repository.path("crates/low/src/lib.rt"))),
        ("a proof", lambda: repository.write("crates/low/proofs/Words.antt", "another")),
        ("a crate that the program does not stand on", lambda: repository.write("crates/other/src/lib.rt", "another")),
        ("its line", lambda: repository.write("crates.txt", CRATES.replace("other: low", "other:"))),
        ("a hidden file", lambda: repository.write("crates/low/src/.lib.rt", "")),
    ]:
        repository.later()
        act()
        repository.runs(name, "dist")


def test_dist_does_not_run_once_a_source_is_another(repository: Repository) -> None:
    """A letter of a source, a new one, one that is gone, a line of crates.txt: dist/ does not run, and does again
    when that is undone."""
    for name, file, text in [
        ("a letter of the code", "crates/low/src/lib.rt", "code of loq"),
        ("a letter of the definitions", "crates/quorum_cli/specs/Words.antt", "words of quorum_clj"),
        ("a new file", "crates/low/specs/New.antt", ""),
        ("a line of crates.txt", "crates.txt", CRATES.replace("low: thiserror", "low:")),
    ]:
        were = repository.read(file).decode() if os.path.exists(repository.path(file)) else None
        repository.later()
        repository.write(file, text)
        repository.compiles(name, "its sources are others than those here")
        repository.later()
        os.remove(repository.path(file)) if were is None else repository.write(file, were)
        repository.runs(name + ", undone", "dist")
    repository.later()
    os.rename(repository.path("crates/low/specs/Words.antt"), repository.path("gone"))
    repository.compiles("a file that is gone", "its sources are others than those here")
    repository.later()
    os.rename(repository.path("gone"), repository.path("crates/low/specs/Words.antt"))
    repository.runs("a file that is back", "dist")


def test_nothing_runs_once_a_file_of_dist_was_changed(repository: Repository) -> None:
    for name, text in [
        ("quorum_cli", f"#!/bin/sh\necho wrong >>'{repository.path('ran')}'\n"),
        ("libquorum.so", "another"),
        ("SOURCES", repository.read("dist/SOURCES").decode() + "more\n"),
    ]:
        were = repository.read("dist/" + name).decode()
        repository.later()
        repository.write("dist/" + name, text, 0o755)
        assert (
            repository.run("show", "x"),
            repository.run("--about"),
            os.path.exists(repository.path("ran")),
            repository.calls(),
        ) == (((70, "", REFUSED % name),) * 2) + (False, []), (
            "a changed " + name
        )
        assert repository.run("show", "x", QUORUM_CLI="dist") == (70, "", REFUSED % name), "asked for"
        assert repository.run("show", "x", QUORUM_CLI="unproved")[:2] == (
            0,
            "compiled show x\n",
        ), "another runs all the same"
        repository.calls()
        repository.write("dist/" + name, were, 0o755)
    os.remove(repository.path("dist/libquorum.so"))
    assert repository.run("show", "x") == (70, "", REFUSED % "libquorum.so"), "a file that is gone"
    repository.write("dist/libquorum.so", "a library")
    sums = repository.read("dist/SHA256SUMS").decode()
    repository.write("dist/SHA256SUMS", "\n".join(it for it in sums.splitlines() if "quorum_cli" not in it) + "\n")
    assert repository.run("show", "x") == (70, "", REFUSED % "SHA256SUMS"), "without its digest"
    repository.write("dist/SHA256SUMS", "no digests\n")
    assert repository.run("show", "x") == (70, "", REFUSED % "SHA256SUMS"), "without digests"
    repository.write("dist/SHA256SUMS", sums)
    repository.calls()
    shutil.rmtree(repository.path("out"))
    repository.runs("as it was", "dist")


def test_another_machine_compiles(repository: Repository) -> None:
    """One of another kind, or on which the program does not run."""
    why = "it is for x86-64 Linux and this machine is %s %s"
    for host, system in (("aarch64", "linux-gnu"), ("x86_64", "darwin23")):
        status, out, error = repository.run("show", "x", HOSTTYPE=host, OSTYPE=system)
        assert (status, out, why % (host, system) in error, repository.calls()) == (
            0,
            "compiled show x\n",
            True,
            ["build --unproved"],
        ), "another machine"
        assert repository.run("show", "x", HOSTTYPE=host, OSTYPE=system, QUORUM_CLI="dist") == (
            70,
            "",
            f"quorum_cli: dist/quorum_cli is not run: {why % (host, system)}\n",
        ), "asked for dist"
        assert repository.run("show", "x") == (0, "dist show x\n", ""), "this machine after it"
        shutil.rmtree(repository.path("out"))
    repository.release("#!/bin/sh\nkill -ILL $$\n")
    repository.compiles("a program that stops", "it does not run on this machine (it needs a good machine)")
    repository.release("\x7fELF of another machine")
    repository.compiles("a program that cannot begin", "it does not run on this machine (it needs a good machine)")
    repository.later()
    repository.release()
    repository.runs("one that runs", "dist")


def test_quorum_cli_names_the_program(repository: Repository) -> None:
    assert (repository.run("show", "x", QUORUM_CLI="built"), repository.calls()) == (
        (0, "built show x\n", ""),
        ["build "],
    ), "built, where none is"
    assert (repository.run("show", "x", QUORUM_CLI="built"), repository.calls()) == (
        (0, "built show x\n", ""),
        [],
    ), "built, again"
    assert repository.run("--about", QUORUM_CLI="built") == (
        0,
        "",
        "quorum_cli: crates/quorum_cli/out/quorum_cli runs: proved and built here\n",
    ), "about it"
    for env in ({"QUORUM_CLI": "unproved"}, {"QUORUM_CLI_UNPROVED": "1"}):
        assert repository.run("show", "x", **env) == (0, "compiled show x\n", UNPROVED), f"unproved by {env}"
    assert repository.run("--about", QUORUM_CLI="unproved") == (
        0,
        "",
        (
            "quorum_cli: out/unproved/quorum_cli runs: compiled here with checks, and nothing of it is"
            f" proved; {PROVING}\n"
        ),
    ), "about it"
    assert repository.run("show", "x", QUORUM_CLI="dist") == (0, "dist show x\n", ""), "dist by its name"
    assert repository.run("show", "x") == (0, "dist show x\n", ""), "dist is the first"
    repository.write("another", PROGRAM.replace("{kind}", "named"), 0o755)
    assert repository.run("show", "x", QUORUM_CLI=repository.path("another")) == (0, "named show x\n", ""), "a path"
    assert repository.run("--about", QUORUM_CLI=repository.path("another")) == (
        0,
        "",
        (
            f"quorum_cli: {repository.path('another')} runs, which QUORUM_CLI names: whether it is proved is not"
            " known here\n"
        ),
    ), "about it"
    assert repository.run("show", "x", QUORUM_CLI="dits") == (
        70,
        "",
        "quorum_cli: QUORUM_CLI is dist, built, unproved or the path of a program, and not dits\n",
    ), "another word"
    assert repository.calls() == ["build --unproved"], "what is built meanwhile"


def test_what_is_built_here_runs_in_place_of_a_dist_of_other_sources(repository: Repository) -> None:
    repository.later()
    repository.write("crates/low/src/lib.rt", "code of loq")
    said = (
        "quorum_cli: dist/ is not run, since its sources are others than those here: the program that is proved"
        " and built here runs in its place\n"
    )
    repository.run("show", "x", QUORUM_CLI="built")
    repository.calls()
    repository.runs("what is built", "built", said)
    repository.later()
    repository.write("crates/low/src/lib.rt", "code of lox")
    repository.compiles("after a change", "its sources are others than those here")
    repository.later()
    repository.write("crates/quorum_cli/out/quorum_cli", PROGRAM.replace("{kind}", "by rt"), 0o755)
    repository.runs("one that rt has built, without a note", "by rt", said)
    assert (repository.run("--about", QUORUM_CLI="unproved"), repository.calls()) == (
        (
            0,
            "",
            (
                "quorum_cli: out/unproved/quorum_cli runs: compiled here with checks, at the next call, and"
                f" nothing of it is proved; {PROVING}\n"
            ),
        ),
        [],
    ), "asked without making it"
    repository.later()
    repository.write("crates/low/src/lib.rt", "code of low")
    repository.runs("dist once more", "dist")
    shutil.move(repository.path("dist"), repository.path("away"))
    repository.write("crates/low/src/lib.rt", "code of low")
    repository.compiles("no dist", "there is none")
    shutil.move(repository.path("away"), repository.path("dist"))
    repository.runs("dist again", "dist")


def test_first_calls_at_once_disturb_none(repository: Repository) -> None:
    for _ in range(3):
        shutil.rmtree(repository.path("out"), ignore_errors=True)
        how: dict[str, Any] = {
            "env": {"PATH": "/usr/bin:/bin"},
            "stdin": subprocess.DEVNULL,
            "stdout": subprocess.PIPE,
            "stderr": subprocess.STDOUT,
        }
        started = [subprocess.Popen([repository.path("quorum_cli"), "show", str(at)], **how) for at in range(12)]
        assert [it.communicate()[0].decode() for it in started] == [
            f"dist show {at}\n" for at in range(12)
        ], "first calls at once"
        assert os.listdir(repository.path("out/choice")) == ["first"], "what they leave"
    repository.runs("after them", "dist")


def test_a_checkout_that_cannot_be_written_answers(repository: Repository) -> None:
    before = [] if os.geteuid() else ["setpriv", f"--reuid={NOBODY}", f"--regid={NOBODY}", "--clear-groups"]
    if before and not shutil.which("setpriv"):
        pytest.skip("root writes everywhere, and there is no setpriv")
    above = os.path.dirname(repository.top)
    os.chmod(above, 0o755)
    subprocess.run(["chmod", "-R", "a+rX,a-w", repository.top], check=True)
    for name in ("once", "twice"):
        assert repository.run("show", "x", before=before) == (0, "dist show x\n", ""), (
            "a checkout that cannot be written, " + name
        )
    subprocess.run(["chmod", "-R", "u+w", repository.top], check=True)
    assert not os.path.exists(repository.path("out")), "nothing is written"


def test_the_script_sums_up_the_sources_as_tools_dist_does() -> None:
    loader = importlib.machinery.SourceFileLoader("tools_dist", os.path.join(TOP, "tools", "build", "dist"))
    tool = importlib.util.module_from_spec(importlib.util.spec_from_loader("tools_dist", loader))
    loader.exec_module(tool)
    crates = tool.Crates()
    names = crates.below("quorum_cli")
    script = 'top=$1; shift; . "$top/share/script/program.bash"; sum_of_sources "$@"'
    summed = subprocess.run(["bash", "-c", script, "bash", TOP, *names], stdout=subprocess.PIPE).stdout.decode()
    assert summed == crates.sum(names, tool.DECIDING) + "  -\n", "the sum of the program's sources"
