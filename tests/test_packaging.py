"""The table of the commands is that of the program, and what is made from it is up to date, as is the list of who
knows them. Man page and completions work, and an installed tree does from another folder.
"""

from __future__ import annotations

import os
import pty
import re
import select
import signal
import subprocess
import time
from pathlib import Path
from typing import Any

import pytest

from needed import needs

TOP = os.path.dirname(os.path.dirname(os.path.abspath(__file__)))
# What is typed, and one of the words that have to be offered.
TYPED = [
    (["bl"], "blocking"),
    (["quo"], "quorums"),
    (["intersect", "--f"], "--faulty-orgs"),
    (["vblocks", "--"], "--node"),
]
BASH = """source "$1"; shift; COMP_WORDS=(quorum_cli "$@"); COMP_CWORD=$#
_quorum_cli; printf '%s\\n' "${COMPREPLY[@]}" """
# What is typed in zsh, and what stands there after a tab.
ZSH_TYPED = [("quorum_cli quo", "quorum_cli quorums"), ("quorum_cli vblocks --n", "quorum_cli vblocks --node")]
ZSH = (
    "PROMPT= RPROMPT=; unsetopt zle_bracketed_paste; fpath=(%s $fpath); autoload -Uz compinit; compinit -u -D; print"
    " re''ady\n"
)
# What is installed below share/.
INSTALLED = [
    "gemzulat/commands",
    "gemzulat/words.bash",
    "gemzulat/watch.bash",
    "man/man1/quorum_cli.1",
    "bash-completion/completions/quorum_cli",
    "zsh/site-functions/_quorum_cli",
    "fish/vendor_completions.d/quorum_cli.fish",
]


def ran(words: list[str], **more: Any) -> tuple[int, str, str]:
    ended = subprocess.run(words, stdout=subprocess.PIPE, stderr=subprocess.PIPE, timeout=120, **more)
    return ended.returncode, ended.stdout.decode(errors="replace"), ended.stderr.decode(errors="replace")


def share(name: str) -> str:
    return os.path.join(TOP, "share", name)


@pytest.mark.parametrize("tool", ["commands", "knows"])
def test_what_is_made_from_the_table_is_up_to_date(tool: str) -> None:
    assert ran([os.path.join(TOP, "tools", "maintain", tool), "--check"])[:2] == (0, "")


def test_the_table_is_that_of_the_programs_usage_text(program: str) -> None:
    status, said, _ = ran([os.path.join(TOP, "tools", "maintain", "commands"), "--print"])
    assert status == 0
    assert ran([program])[:2] == (3, said)


@needs("man", "groff")
def test_man_has_no_warning_of_the_page() -> None:
    env = {**os.environ, "MANPAGER": "cat", "PAGER": "cat", "LC_ALL": "C.UTF-8"}
    status, _, said = ran(["man", "-l", "--warnings", share("quorum_cli.1")], env=env)
    assert (status, said) == (0, "")


@pytest.mark.parametrize("typed, wanted", TYPED)
def test_bash_completes(typed: list[str], wanted: str) -> None:
    assert wanted in ran(["bash", "-c", BASH, "bash", share("quorum_cli.bash"), *typed])[1].split()


@needs("fish")
@pytest.mark.parametrize("typed, wanted", TYPED)
def test_fish_completes(typed: list[str], wanted: str) -> None:
    line = f"source {share('quorum_cli.fish')}; complete -C 'quorum_cli {' '.join(typed)}'"
    assert wanted in ran(["fish", "--no-config", "-c", line])[1].split()


def shown(terminal: int, wanted: str, seconds: float = 30) -> bool:
    """Whether the text comes on a terminal in time, whatever moves of the cursor stand in it."""
    text, until = "", time.monotonic() + seconds
    while wanted not in re.sub(r"\x1b\[[0-9;?]*[A-Za-z]|[\r\x07]", "", text):
        if time.monotonic() > until:
            return False
        if select.select([terminal], [], [], 1)[0]:
            text += os.read(terminal, 4096).decode(errors="replace")
    return True


@needs("zsh")
@pytest.mark.parametrize("typed, wanted", ZSH_TYPED)
def test_zsh_completes(typed: str, wanted: str) -> None:
    """In an interactive one, at a tab."""
    child, terminal = pty.fork()
    if not child:
        os.execvpe("zsh", ["zsh", "-f", "-i"], {**os.environ, "TERM": "vt100"})
    try:
        os.write(terminal, (ZSH % os.path.join(TOP, "share")).encode())
        assert shown(terminal, "ready")
        os.write(terminal, (typed + "\t").encode())
        assert shown(terminal, wanted)
    finally:
        os.kill(child, signal.SIGKILL)
        os.waitpid(child, 0)
        os.close(terminal)


@needs("make")
def test_an_installed_tree_answers_from_another_folder(program: str, tmp_path: Path) -> None:
    prefix = tmp_path / "a b"
    installed = str(prefix / "bin" / "quorum_cli")
    assert ran(["make", "-s", "-C", TOP, "install", f"PROGRAM={program}", f"PREFIX={prefix}"])[::2] == (0, "")
    config = os.path.join(TOP, "examples", "three.json")
    ended = ran([installed, "greatest", config, "--faulty", "a"], cwd=tmp_path)
    assert ended == (0, "greatest b c\n", "")
    ended = ran([installed, "show", "nowhere"], cwd=tmp_path)
    assert ended == (6, "", "quorum_cli: a file could not be read: there is no file nowhere\n")
    (tmp_path / "link").symlink_to(os.path.join("a b", "bin", "quorum_cli"))
    with open(os.path.join(TOP, "VERSION"), encoding="utf-8") as it:
        assert ran([str(tmp_path / "link"), "--version"], cwd="/") == (0, f"quorum_cli {it.read()}", "")
    assert [it for it in INSTALLED if not (prefix / "share" / it).is_file()] == []
