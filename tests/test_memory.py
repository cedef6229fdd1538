"""Runs the program under limits of memory: an answer or status 8, never a crash, never a part of a certificate.

Configurations of 16 MB and certificates of 1 GB are made, run without a limit and under limits of address space
(ulimit -v); then deep files under limits of stack (ulimit -s). With -s it says what each took, and the least stack
under which deep files are answered.
"""

from __future__ import annotations

from collections.abc import Callable
from pathlib import Path
from typing import Any

import fuzz
import malicious
import memory
import plain_checker as plain
import pytest
from memory import MB, MOST_BYTES, STACKS, Ended, Folder

pytestmark = pytest.mark.long

LIMITS = [16, 24, 32, 48, 64, 96, 128, 192, 256, 384, 512, 768, 1024, 1536, 2048]


@pytest.fixture
def folder(program: str, tmp_path: Path) -> Folder:
    return Folder(str(tmp_path), program)


def shown(name: str, ended: Ended) -> str:
    return f"{name}: status {ended.status}, {ended.text[:100]!r}, {ended.err[:100]!r}"


def limited(
    folder: Folder,
    name: str,
    words: list[str],
    status: int,
    text: str,
    pieces: Any = None,
    every: list[int] = LIMITS,
    after: Callable[[Ended], bool] | None = None,
) -> None:
    """Without a limit and under each: the answer, or 8 with nothing put out."""
    ended = Ended([folder.program] + words, folder.folder, pieces=pieces)
    assert ended.is_right(status, text) and (not after or after(ended)), shown(name, ended)
    wanted = []
    for limit in every:
        less = Ended([folder.program] + words, folder.folder, limit=limit * MB, pieces=pieces)
        right = less.is_right(status, text) or less.is_want()
        assert right and (not after or after(less)), shown(f"{name} under {limit} MB", less)
        if less.is_want():
            wanted.append(limit)
    under = f"at most {wanted[-1]} MB" if wanted else "none of the limits"
    print(f"{name:<40} {ended.memory:5.0f} MB, {ended.time:6.2f} s; status 8 under {under}")


def test_the_deepest_files_are_answered_under_a_stack_of_8_mb(folder: Folder) -> None:
    rows = folder.stack_rows()
    for size in STACKS:
        bad = folder.fails_under(size, rows)
        said = "; ".join(f"{' '.join(words)}: {ended.status}" for words, ended in bad) or "all answered"
        print(f"stack of {size:5} kB: {said}")
        assert size != STACKS[0] or not bad, said


def test_a_search_leaves_the_certificate_as_it_was_or_whole(folder: Folder) -> None:
    blanks = malicious.THREE.ljust(MOST_BYTES)
    fifty = fuzz.trial_config(50)
    for name, config, words, text, said in [
        (
            "intersect, three nodes and blanks",
            blanks,
            "intersect config cert",
            "intersects yes\n",
            malicious.REFUTED,
        ),
        (
            "intersect, twelve of sixteen",
            malicious.system("abcdefghijklmnop", 12),
            "intersect config cert",
            "intersects yes\n",
            malicious.REFUTED,
        ),
        (
            "blocking, three nodes and blanks",
            blanks,
            "blocking config cert",
            "blocking 3\nset a b\nset a c\nset b c\n",
            malicious.LISTED,
        ),
        (
            "trial, fifty organisations",
            fifty,
            "trial 50 cert",
            fuzz.sizes_of_trial(plain.system_of(fifty)) + "yes\n",
            malicious.REFUTED,
        ),
    ]:
        folder.put("config", config)
        folder.put("cert", malicious.OLD)

        def after(ended: Ended) -> bool:
            if ended.status == 8:
                whole = folder.held("cert") == malicious.OLD
            else:
                checked = Ended([folder.program, "check", "config", "cert"], folder.folder)
                whole = checked.is_right(0, said)
            folder.put("cert", malicious.OLD)
            return whole

        limited(folder, name, words.split(), 0, text, after=after)


def test_configurations_of_16_mb_are_shown_or_want_memory(folder: Folder) -> None:
    for name, data, text in memory.configurations():
        folder.put("config", data)
        limited(folder, "show, " + name, ["show", "config"], 0, text)


def test_certificates_of_1_gb_are_checked_or_want_memory(folder: Folder) -> None:
    folder.put("config", malicious.TWO)
    for name, pieces, (status, text) in memory.certificates():
        words = ["check", "config", "/dev/stdin"]
        limited(folder, "check, " + name, words, status, text, pieces=pieces, every=[16, 64, 256, 1024])
