"""Files of 16 MB and of 1 GB, and runs of the program on them under limits of memory and of stack."""

from __future__ import annotations

import os
import subprocess
import sys
from collections.abc import Callable, Iterable, Iterator
from typing import Any

import malicious

MB = 1 << 20
MOST_BYTES = 16777216
GREAT = 1000000000
STACKS = [8192, 1024, 512, 256, 192, 128, 96, 64, 48, 32, 16]


def filled(head: Any, piece: Any, tail: Any) -> Any:
    """A JSON text as near to 16 MB as whole pieces allow, parted by commas."""
    count = (MOST_BYTES - len(head) - len(tail)) // (len(piece) + 1)
    return head + b",".join([piece] * count) + tail, count


def configurations() -> Iterator[Any]:
    """Names, files and the answers of 'show'."""
    nothing = b'[{"publicKey":"a","x":['
    data, _ = filled(nothing, b'{"":0}', b"]}]")
    yield "two million skipped objects", data, malicious.shown(1, 0, 1)
    data, _ = filled(nothing, b"[]", b"]}]")
    yield "five million skipped arrays", data, malicious.shown(1, 0, 1)
    data, _ = filled(nothing, b"0", b"]}]")
    yield "eight million skipped numbers", data, malicious.shown(1, 0, 1)
    yield "one skipped text", nothing[:-1] + b'"' + b"x" * (MOST_BYTES - 30) + b'"}]', malicious.shown(1, 0, 1)
    sets = malicious.one(b'{"threshold":1,"innerQuorumSets":[' + b",".join([b'{"threshold":0}'] * 1000000) + b"]}")
    yield "a million empty quorum sets", sets, malicious.shown(
        1, 1000000, 0, *(f"threshold a .{i} 0 0" for i in range(1000000))
    )
    keys = malicious.one(b'{"threshold":1,"validators":[' + b",".join([b'"a"'] * 1000000) + b"]}")
    yield "a million validators", keys, malicious.shown(1, 1000000, 0, "repeated a . a")
    yield "three nodes and blanks", malicious.THREE.ljust(MOST_BYTES), malicious.shown(3, 9, 0)


def certificates() -> Iterator[Any]:
    """Names, what makes the pieces of a certificate of 1 GB on two nodes, and the answers of 'check'."""
    start = malicious.head(malicious.TWO, "refutation") + b"formula 8 16\n"

    def lemmas(deleted: Any) -> Any:
        def pieces() -> Iterator[Any]:
            yield start
            number, sent = 17, 0
            while sent < GREAT:
                line = b"%d -1 0 7 6 3 4 2 0\n" + b"%d d %d 0\n" * deleted
                piece = b"".join(line % ((i,) * (1 + 2 * deleted)) for i in range(number, number + 20000))
                number, sent = number + 20000, sent + len(piece)
                yield piece
            yield b"%d -1 0 7 6 3 4 2 0\n%d 0 %d 1 10 8 0\nend\n" % (number, number + 1, number)

        return pieces

    def long_lines(middle: Any) -> Any:
        def pieces() -> Iterator[Any]:
            yield start
            for number in range(17, 25):
                yield b"%d -1" % number + middle * ((GREAT // 8 - 40) // len(middle)) + b" 0 7 6 3 4 2 0\n"
            yield b"25 0 24 1 10 8 0\nend\n"

        return pieces

    def no_line() -> Iterator[Any]:
        for _ in range(GREAT // 1000000):
            yield b"fbas-cert" * 111111

    yield "forty million lemmas", lemmas(False), (0, malicious.REFUTED)
    yield "lemmas, each deleted", lemmas(True), (0, malicious.REFUTED)
    yield "eight lemmas of 125 MB of literals", long_lines(b" -1"), (0, malicious.REFUTED)
    yield "eight lemmas of 125 MB of blanks", long_lines(b" "), (0, malicious.REFUTED)
    yield "no line feed", no_line, (5, "refused line-too-long 1\n")


# Starts the program under limits, and tells how it ended; a small process, since its own memory counts for the
# program's.
STARTER = """
import os, resource, sys
pid = os.fork()
if not pid:
    for kind, limit in ((resource.RLIMIT_AS, int(sys.argv[1])), (resource.RLIMIT_STACK, int(sys.argv[2]))):
        if limit:
            resource.setrlimit(kind, (limit, limit))
    os.execv(sys.argv[3], sys.argv[3:])
_, ended, used = os.wait4(pid, 0)
with open("used", "w") as it:
    it.write("%d %d %f" % (os.waitstatus_to_exitcode(ended), used.ru_maxrss, used.ru_utime + used.ru_stime))
"""


class Ended:
    """How a run ended: status, texts, largest memory in MB, seconds of processor time."""

    def __init__(self, words: list[str], folder: str, limit: int = 0, stack: int = 0, pieces: Any = None) -> None:
        words = [sys.executable, "-S", "-c", STARTER, str(limit), str(stack)] + words
        with open(os.path.join(folder, "out"), "w+b") as out, open(os.path.join(folder, "err"), "w+b") as err:
            started = subprocess.Popen(
                words, cwd=folder, stdin=subprocess.PIPE if pieces else subprocess.DEVNULL, stdout=out, stderr=err
            )
            if pieces:
                self.feed(started.stdin, pieces)
            started.wait()
            out.seek(0)
            err.seek(0)
            self.text, self.err = out.read().decode("latin-1"), err.read().decode("latin-1")
        with open(os.path.join(folder, "used")) as it:
            status, memory, time = it.read().split(" ")
        self.status, self.memory, self.time = int(status), int(memory) / 1024, float(time)

    @staticmethod
    def feed(pipe: Any, pieces: Callable[[], Iterable[bytes]]) -> None:
        try:
            with pipe:
                for piece in pieces():
                    pipe.write(piece)
        except BrokenPipeError:
            pass

    def is_right(self, status: int, text: str) -> bool:
        return (self.status, self.text, self.err) == (status, text, "")

    def is_want(self) -> bool:
        return self.is_right(8, "")


class Folder:
    """A folder in which the program runs."""

    def __init__(self, folder: str, program: str) -> None:
        self.folder, self.program = folder, os.path.abspath(program)

    def put(self, name: str, data: bytes) -> None:
        with open(os.path.join(self.folder, name), "wb") as it:
            it.write(data)

    def held(self, name: str) -> bytes:
        with open(os.path.join(self.folder, name), "rb") as it:
            return it.read()

    def stack_rows(self) -> list[tuple[list[str], int, str | None]]:
        """Runs over the deepest files, with their statuses and texts."""
        deep = b"[" * 127 + b"]" * 127
        skipped = b'[{"publicKey":"a","x":' + b"[" * 125 + b"]" * 125 + b"}]"
        sets = (
            b"["
            + b",".join(b'{"publicKey":"%s","quorumSet":%s}' % (it, malicious.nested(32)) for it in (b"a", b"b"))
            + b"]"
        )
        self.put("deep", deep)
        self.put("skipped", skipped)
        self.put("sets", sets)
        self.put("cert", malicious.head(sets, "pair") + b"first a\nsecond b\nend\n")
        return [
            (["show", "deep"], 4, "config not-node 0\n"),
            (["show", "skipped"], 0, malicious.shown(1, 0, 1)),
            (["show", "sets"], 0, malicious.shown(2, 64, 0)),
            (["greatest", "sets", "--from", "b"], 0, "greatest a b\n"),
            (["check", "sets", "cert"], 5, "refused not-quorum 7\n"),
            (["intersect", "sets", "made"], 0, "intersects yes\n"),
            (["blocking", "sets", "made"], 0, "blocking 1\nset a\n"),
            (["trial", "4", "made"], 0, "trial 4\nnodes 12\nvariables 82\nclauses 122\nintersects yes\n"),
            (["intersect"], 3, None),
        ]

    def fails_under(self, size: int, rows: list[tuple[list[str], int, str | None]]) -> list[tuple[list[str], Ended]]:
        """The runs that are not answered under a stack of this many kB."""
        bad = []
        for words, status, text in rows:
            ended = Ended([self.program] + words, self.folder, stack=size * 1024)
            if not (ended.status == status and ended.err == "" and text in (None, ended.text)):
                bad.append((words, ended))
        return bad
