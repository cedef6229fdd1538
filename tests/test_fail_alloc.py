"""Refuses each growth of memory in turn: the program answers as with ample memory, or 8 with nothing done.

A small library that is loaded before the system's (LD_PRELOAD, made with cc) refuses the N-th call of malloc or
realloc, or that and all later ones, for N from 1 until a run makes fewer. Then the status is 8, nothing is put out and
the certificate's file is as it was; or the answer, the certificate among it, is to the byte what it is with ample
memory. No other file is left.
"""

from __future__ import annotations

import os
import shutil
import subprocess

import pytest
from fail_alloc import ORGS, RUNS, SCRIPT

pytestmark = pytest.mark.long

# Counts the calls that want memory, and refuses those from GROWTH_FIRST to GROWTH_LAST; a refusal makes the file
# GROWTH_TOLD.
REFUSER = r"""
#include <errno.h>
#include <fcntl.h>
#include <stddef.h>
#include <stdlib.h>
#include <unistd.h>

extern void *__libc_malloc(size_t);
extern void *__libc_realloc(void *, size_t);

static unsigned long first, last, count;
static const char *told;

__attribute__((constructor)) static void begin(void) {
    first = strtoul(getenv("GROWTH_FIRST"), NULL, 10);
    last = strtoul(getenv("GROWTH_LAST"), NULL, 10);
    told = getenv("GROWTH_TOLD");
}

static int is_refused(void) {
    if (!told || ++count < first || count > last) return 0;
    close(open(told, O_CREAT | O_WRONLY, 0666));
    errno = ENOMEM;
    return 1;
}

void *malloc(size_t size) { return is_refused() ? NULL : __libc_malloc(size); }
void *realloc(void *old, size_t size) { return is_refused() ? NULL : __libc_realloc(old, size); }
"""

ALL = 2**63


class Refused:
    """A folder in which the program runs with too little memory."""

    def __init__(self, folder: str, program: str) -> None:
        self.folder, self.program = folder, program
        self.told = os.path.join(folder, "told")
        self.library = os.path.join(folder, "refuser.so")
        source = os.path.join(folder, "refuser.c")
        self.put("refuser.c", REFUSER.encode())
        subprocess.run(["cc", "-shared", "-fPIC", "-O1", "-o", self.library, source], check=True)

    def put(self, name: str, data: bytes) -> None:
        with open(os.path.join(self.folder, name), "wb") as it:
            it.write(data)

    def held(self) -> bytes:
        with open(os.path.join(self.folder, "cert"), "rb") as it:
            return it.read()

    def run(self, line: str, cert: bytes, first: int, last: int) -> tuple[tuple[int, bytes, bytes, bytes, bool], bool]:
        """How a run ends whose calls from the first to the last get no memory: status, texts, certificate; and whether
        one was made."""
        self.put("cert", cert)
        if os.path.exists(self.told):
            os.remove(self.told)
        limits = {"GROWTH_FIRST": str(first), "GROWTH_LAST": str(last), "GROWTH_TOLD": self.told}
        ended = subprocess.run(
            [self.program] + line.split(),
            cwd=self.folder,
            env=dict(os.environ, LD_PRELOAD=self.library, **limits),
            stdin=subprocess.DEVNULL,
            stdout=subprocess.PIPE,
            stderr=subprocess.PIPE,
            timeout=300,
        )
        found = (
            ended.returncode,
            ended.stdout,
            ended.stderr,
            self.held(),
            os.path.exists(os.path.join(self.folder, "cert.part")),
        )
        return found, os.path.exists(self.told)


@pytest.fixture(scope="module")
def refused(program: str, tmp_path_factory: pytest.TempPathFactory) -> Refused:
    if not shutil.which("cc"):
        pytest.skip("there is no C compiler")
    made = Refused(str(tmp_path_factory.mktemp("refused")), program)
    for name, data in (("orgs", ORGS), ("script", SCRIPT), ("faulty", SCRIPT + b"retire z\n")):
        made.put(name, data)
    return made


@pytest.mark.parametrize("also", [0, ALL], ids=["one growth", "that and all later"])
@pytest.mark.parametrize("line, config, cert", RUNS, ids=[f"{at} {line}" for at, (line, *_) in enumerate(RUNS)])
def test_the_answer_is_that_of_ample_memory_or_nothing_is_done(
    refused: Refused, line: str, config: bytes, cert: bytes, also: int
) -> None:
    refused.put("config", config)
    ample, _ = refused.run(line, cert, ALL, 0)
    number, wanting, was_refused = 0, 0, True
    while was_refused:
        number += 1
        found, was_refused = refused.run(line, cert, number, also or number)
        wants = was_refused and found == (8, b"", b"", cert, False)
        assert wants or found == ample, f"growth {number}"
        wanting += wants
    print(f"status {ample[0]}; 8 at {wanting} of {number - 1} growths")
