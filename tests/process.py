"""What the tests of the program as a process share: its usage text, configurations by their text, and a folder of
files in which it runs as a user without rights."""

from __future__ import annotations

import hashlib
import os
import shutil
import subprocess
from collections.abc import Iterator
from typing import Any


USAGE = """usage: quorum_cli COMMAND
show CONFIG
closure CONFIG --node NAME
greatest CONFIG [COMMON]
intersect CONFIG CERT [COMMON] [--budget UNITS]
available CONFIG --set NAMES [--from NAME]
dset CONFIG CERT --set NAMES [--from NAME] [--budget UNITS]
blocks CONFIG --set NAMES [COMMON]
vblocks CONFIG --node NAME --set NAMES
splits CONFIG CERT --set NAMES [COMMON] [--budget UNITS]
blocking CONFIG CERT [COMMON] [--budget UNITS]
check CONFIG CERT [--orgs ORGS]
export CONFIG [COMMON] [--formula VERSION]
trial N CERT [--budget UNITS]
check-lrat CONFIG LRAT [COMMON] [--formula VERSION]
quorums CONFIG CERT [COMMON] [--budget UNITS]
least CONFIG CERT [COMMON] [--budget UNITS]
org-blocking CONFIG CERT --orgs ORGS [--from NAME] [--faulty NAMES] [--faulty-orgs IDS] [--budget UNITS]
whatif CONFIG SCRIPT --set NAMES
COMMON: --from NAME --faulty NAMES --orgs ORGS --faulty-orgs IDS
"""


def system(nodes: list[str] | str, threshold: int, is_rotated: bool = False, leaves_out: bool = False) -> str:
    """A configuration in which each node needs so many of all of them, which it names in order, or from itself on, or
    without itself."""
    sets = []
    for place, node in enumerate(nodes):
        start = place if is_rotated else 0
        named = [name for name in [*nodes[start:], *nodes[:start]] if name != node or not leaves_out]
        names = ",".join(f'"{name}"' for name in named)
        sets.append(f'{{"publicKey":"{node}","quorumSet":{{"threshold":{threshold},"validators":[{names}]}}}}')
    return "[" + ",".join(sets) + "]"


def sha256(text: str) -> str:
    return hashlib.sha256(text.encode()).hexdigest()


def lemmas(certificate: str) -> Iterator[list[int]]:
    """The literals of each lemma of a certificate."""
    for line in certificate.splitlines():
        words = line.split(" ")
        if words[0].isdigit() and words[1] not in ("d", "0"):
            yield [int(word) for word in words[1 : words.index("0")]]


def organisations(count: int) -> str:
    """The configuration of a trial of so many organisations, as it is written."""
    inner = ",".join(
        f'{{"innerQuorumSets":[],"threshold":2,"validators":["t{node:03d}","t{node + 1:03d}","t{node + 2:03d}"]}}'
        for node in range(0, 3 * count, 3)
    )
    common = f'"quorumSet":{{"innerQuorumSets":[{inner}],"threshold":{count - (count - 1) // 3},"validators":[]}}'
    return "[" + ",".join(f'{{"publicKey":"t{node:03d}",{common}}}' for node in range(3 * count)) + "]"


# Each needs two of the three; the digest is that of sha256sum.
THREE = system("abc", 2)
HEAD = "fbas-cert 3\nconfig f823e204944abcff32c8dadffba2a0178a590a613358f9a6f271b651cd4e6fbb\nfrom\n"
PAIR = HEAD + "faulty a\nkind pair\nfirst b\nsecond c\nend\n"
SPENT = HEAD + "faulty\nkind partial\nformula 16 25\nend\n"
LISTED = (
    HEAD
    + "faulty\nkind blocking\nq 1 a b\nq 2 a c\nq 3 b c\nb 4 a b\nb 5 a c\nb 6 b c\n7 -1 0 4 5 3 0\n8 0 7 1 2 6"
    " 0\nend\n"
)
UNLISTED = HEAD + "faulty\nkind partial-blocking\nend\n"
SETS = "set a b\nset a c\nset b c\n"
# Two of them are one organisation.
ORGS = '[{"id":"A","validators":["a","b"]}]'
# Each needs both, and a proof of another solver that every two quorums share a node.
TWO = system("pq", 2)
PROOF = "c proof\n13 -1 0 7 6 3 4 2 0\n14 0 13 1 8 5 0\n"
# No two of its quorum sets are equal, in any order.
WIDE = system([f"w{i:03d}" for i in range(200)], 100, leaves_out=True)

FILES = {
    "two": TWO,
    "proof": PROOF,
    "cutproof": PROOF[:-1],
    "nothing": "",
    "raise": "threshold a . 3",
    "retire": "retire c\n",
    "twice": "retire c\nretire c\n",
    "three": THREE,
    "pair": PAIR,
    "wide": WIDE,
    "one": organisations(1),
    "sixty": organisations(60),
    "none": "[]",
    "orgs": ORGS,
    "orgless": "[]",
    "bad": "{",
    "listed": LISTED,
    "cut": PAIR[:9],
    "hidden": THREE,
    "longer": PAIR + "x" * 100000,
    "barred": "as it was\n",
}


class Folder:
    """A folder with the files, in which a copy of the program runs. Root gives up its rights, since it may read and
    write every file."""

    def __init__(self, folder: str, built: str) -> None:
        self.folder = folder
        self.program = shutil.copy(built, os.path.join(folder, "program"))
        os.chmod(folder, 0o777)
        for name, text in FILES.items():
            self.put(name, text, {"hidden": 0o000, "barred": 0o444}.get(name, 0o666))

    def path(self, name: str) -> str:
        return os.path.join(self.folder, name)

    def put(self, name: str, text: str, mode: int = 0o666) -> None:
        with open(self.path(name), "w") as it:
            it.write(text)
        os.chmod(self.path(name), mode)

    def held(self, name: str) -> str | None:
        try:
            with open(self.path(name)) as it:
                return it.read()
        except FileNotFoundError:
            return None

    @staticmethod
    def give_up_rights() -> None:
        if os.getuid() == 0:
            os.setgroups([])
            os.setgid(65534)
            os.setuid(65534)

    def run(
        self,
        words: str,
        stdin: int = subprocess.DEVNULL,
        stdout: Any = subprocess.PIPE,
        before: Any = None,
        within: str = "",
    ) -> tuple[int, str, str]:
        """The status, what was put out, and what is on standard error, of a run in the folder or in one that is in
        it."""

        def prepare() -> None:
            self.give_up_rights()
            if before:
                before()

        ended = subprocess.run(
            [self.program] + words.split(),
            cwd=self.path(within),
            stdin=stdin,
            stdout=stdout,
            stderr=subprocess.PIPE,
            preexec_fn=prepare,
            timeout=120,
        )
        return ended.returncode, (ended.stdout or b"").decode(), ended.stderr.decode()
