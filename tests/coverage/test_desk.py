"""Each call of the outside of eleven whole runs fails once with each error, and reads and writes are cut short, on the
built program.

A small library that is loaded before the system's (desk.c, made with cc) does so. Whatever call fails: the program
ends with the status that it would have, or with 6 (read) or 7 (written). What is put out is all of the text, or with
7 a proper prefix and with 6 nothing. Under the certificate's name is what was there or the new one, whole; a file
that is no certificate is kept beside it; and after an answer the new one is there. From the calls it is read that a
certificate is on the disk before it takes its name, and its name before the answer.
"""

from __future__ import annotations

import errno
import os
import shutil
import subprocess
import tempfile
from collections.abc import Iterator
from dataclasses import dataclass

import pytest

HERE = os.path.dirname(os.path.abspath(__file__))
TOP = os.path.dirname(os.path.dirname(HERE))

OLD, OTHER = b"fbas-cert 2\nold\n", b"a letter\n"
EXAMPLES = (
    "three.json",
    "two.json",
    "network.json",
    "groups.json",
    "two.lrat",
    "pair.cert",
    "groups.cert",
    "leaving.script",
)
SEARCHED = "t"
# The errors of each call; an interrupted one is among them.
ERRORS = {
    "open": (errno.EACCES, errno.EMFILE, errno.EIO, errno.ENOENT, errno.EINTR, errno.ELOOP),
    "create": (errno.EACCES, errno.ENOSPC, errno.EROFS, errno.EEXIST, errno.ENAMETOOLONG, errno.EINTR),
    "read": (errno.EIO, errno.EISDIR, errno.EINTR, errno.EAGAIN),
    "write": (errno.ENOSPC, errno.EIO, errno.EPIPE, errno.EFBIG, errno.EINTR, errno.EAGAIN),
    "fsync": (errno.EIO, errno.ENOSPC, errno.EINVAL, errno.EROFS, errno.EINTR),
    "rename": (errno.EACCES, errno.EXDEV, errno.ENOSPC, errno.EIO, errno.EPERM),
    "link": (errno.EEXIST, errno.EPERM, errno.EMLINK, errno.ENOSPC),
}
USUAL = (errno.EIO, errno.EACCES, errno.EINTR)
MORE_THAN_ALL = 10**9


@dataclass
class Asked:
    """A run: its words, and what is under the certificate's name before, if it makes one."""

    words: str
    before: bytes | None = None

    def searches(self) -> bool:
        return SEARCHED in self.words.split()


RUNS = (
    Asked("show three.json"),
    Asked("check three.json pair.cert"),
    Asked("check three.json groups.cert --orgs groups.json"),
    Asked("check-lrat two.json two.lrat"),
    Asked("whatif network.json leaving.script --set GWATCH"),
    Asked("export two.json"),
    Asked("intersect three.json t"),
    Asked("intersect three.json t --faulty a", OLD),
    Asked("blocking three.json t", OTHER),
    Asked("org-blocking three.json t --orgs groups.json", b""),
    Asked("trial 1 t", OLD),
)


@dataclass
class Ended:
    status: int
    text: bytes
    files: dict[str, bytes]
    calls: list[list[str]]


class Desk:
    def __init__(self, folder: str, program: str) -> None:
        self.folder, self.program = folder, program
        self.library = os.path.join(folder, "desk.so")

    def run(self, asked: Asked, **limits: int) -> Ended:
        room, log = os.path.join(self.folder, "room"), os.path.join(self.folder, "log")
        shutil.rmtree(room, ignore_errors=True)
        os.mkdir(room)
        for name in EXAMPLES:
            os.link(os.path.join(self.folder, "examples", name), os.path.join(room, name))
        if asked.before is not None:
            with open(os.path.join(room, SEARCHED), "wb") as it:
                it.write(asked.before)
        if os.path.exists(log):
            os.remove(log)
        given = {f"DESK_{name.upper()}": str(value) for name, value in limits.items()}
        env = {**os.environ, "LD_PRELOAD": self.library, "DESK_LOG": log, **given}
        words = [self.program, *asked.words.split()]
        ended = subprocess.run(words, cwd=room, env=env, stdin=subprocess.DEVNULL, capture_output=True, timeout=60)
        files = {}
        for name in set(os.listdir(room)) - {*EXAMPLES}:
            with open(os.path.join(room, name), "rb") as it:
                files[name] = it.read()
        with open(log, encoding="utf-8") as it:
            calls = [line.rstrip("\n").split(" ", 3) for line in it]
        assert ended.stderr == b"", f"{limits}"
        return Ended(ended.returncode, ended.stdout, files, calls)

    def status(self, ample: Ended, at: int, error: int) -> int | None:
        """The one status that there may be if this call fails so; None where it depends on what the call was for."""
        call, descriptor, _, path = ample.calls[at - 1]
        inputs = {it[2] for it in ample.calls[:at] if it[0] == "open" and it[3] in EXAMPLES}
        if call == "close" or (error == errno.EINTR and call in ("open", "create", "read", "write", "fsync")):
            return ample.status
        if (call == "open" and path in EXAMPLES) or (call == "read" and descriptor in inputs):
            return 6
        if call in ("write", "rename") or (call == "fsync" and error in (errno.EIO, errno.ENOSPC)):
            return 7
        return None

    def fault(self, asked: Asked, ample: Ended, found: Ended) -> str:
        """What is wrong with a run in which a call failed; nothing: an empty text."""
        made, name = ample.files.get(SEARCHED), SEARCHED
        kept = [it for it, data in found.files.items() if it.startswith(f"{name}~") and data == asked.before]
        if found.status not in (ample.status, 6, 7):
            return f"status {found.status}"
        is_answer = found.status == ample.status
        if is_answer and found.text != ample.text or found.status == 6 and found.text:
            return f"status {found.status} with {found.text!r}"
        if found.status == 7 and (not ample.text.startswith(found.text) or found.text == ample.text):
            return f"status 7 with {found.text!r}"
        if not asked.searches():
            return f"makes {sorted(found.files)}" if found.files else ""
        if found.files.get(name) != made and (is_answer or found.files.get(name) != asked.before):
            return f"status {found.status}, and under the certificate's name is {found.files.get(name)!r}"
        if asked.before == OTHER and found.files.get(name) != OTHER and not kept:
            return "what was there and is no certificate is lost"
        if not set(found.files) <= {name, f"{name}.part", *kept}:
            return f"leaves {sorted(found.files)}"
        return ""


@pytest.fixture(scope="module")
def desk(program: str) -> Iterator[Desk]:
    compiler = os.environ.get("CC", "cc")
    if not shutil.which(compiler):
        pytest.skip(f"there is no C compiler {compiler}")
    with tempfile.TemporaryDirectory() as folder:
        made = Desk(folder, program)
        words = [compiler, "-shared", "-fPIC", "-O1", "-o", made.library, os.path.join(HERE, "desk.c"), "-ldl"]
        subprocess.run(words, check=True)
        os.mkdir(os.path.join(folder, "examples"))
        for name in EXAMPLES:
            shutil.copy(os.path.join(TOP, "examples", name), os.path.join(folder, "examples", name))
        yield made


of_each_run = pytest.mark.parametrize("asked", RUNS, ids=lambda it: it.words)


@of_each_run
def test_each_call_that_fails_ends_with_its_status_and_loses_nothing(asked: Asked, desk: Desk) -> None:
    """Each call of the outside, once with each error."""
    ample = desk.run(asked)
    assert ample.status in (0, 1, 2) and (SEARCHED in ample.files) == asked.searches()
    for at, (call, *_) in enumerate(ample.calls, 1):
        for error in ERRORS.get(call, USUAL):
            found = desk.run(asked, at=at, error=error)
            what = f"call {at} ({' '.join(ample.calls[at - 1])}) fails with {errno.errorcode[error]}"
            assert desk.fault(asked, ample, found) == "", what
            one = desk.status(ample, at, error)
            assert one is None or found.status == one, what


@of_each_run
@pytest.mark.parametrize("most", [1, 7])
def test_reads_and_writes_that_are_cut_short_change_nothing(asked: Asked, most: int, desk: Desk) -> None:
    ample, found = desk.run(asked), desk.run(asked, most=most)
    assert (found.status, found.text, found.files) == (ample.status, ample.text, ample.files)


@pytest.mark.parametrize("asked", [it for it in RUNS if it.searches()], ids=lambda it: it.words)
def test_the_certificate_is_on_the_disk_before_its_name_and_that_before_the_answer(asked: Asked, desk: Desk) -> None:
    calls = desk.run(asked).calls
    named = next((i for i, it in enumerate(calls) if it[0] == "rename" and it[3] == SEARCHED), -1)
    told = next((i for i, it in enumerate(calls) if it[:2] == ["write", "1"]), MORE_THAN_ALL)
    part = next((it[2] for it in calls if it[0] == "create" and it[3] == f"{SEARCHED}.part"), "")
    written = max((i for i, it in enumerate(calls) if it[:2] == ["write", part]), default=MORE_THAN_ALL)
    kept = next((i for i, it in enumerate(calls) if it[:2] == ["fsync", part] and i > written), MORE_THAN_ALL)
    folder = [it[2] for it in calls if it[0] == "open" and it[3] == "."]
    folders = (i for i, it in enumerate(calls) if it[0] == "fsync" and it[1] in folder and i > named)
    assert written < kept < named < next(folders, MORE_THAN_ALL) < told, [" ".join(it) for it in calls]
