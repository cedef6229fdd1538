#!/usr/bin/env python3
"""The cases of tests/coverage/corpus: how they are asked and judged, and the search for more that coverage guides.

usage: tests/coverage/cases.py --table [--refuse N] | --merge FOLDER [TARGET..]

A case is the words of a question and the files that they name. tests/coverage/test_cases.py says what is asked of
each. With --table docs/TESTING.md gets the branches that the corpus reaches. With --merge the corpus becomes what of
the cases in FOLDER/TARGET/ and in the corpus reaches more. The library is compiled anew for that, with its branches
counted: that of tools/build/library --bitcode, else one without proofs.
"""

import argparse
import glob
import os
import shutil
import subprocess
import sys
import tempfile
from collections.abc import Iterator

sys.dont_write_bytecode = True
sys.path.insert(0, os.path.dirname(os.path.abspath(__file__)))
import build  # noqa: E402
import plain_checker as plain  # noqa: E402
import table  # noqa: E402

CORPUS = os.path.join(build.HERE, "corpus")
# What a search is of; for each a file of cases.
TARGETS = ("config", "orgs", "script", "words", "pair", "refutation", "list", "least", "groups", "lrat", "search")
# Bytes of a case, and of a target's cases in the repository.
MOST_CASE, MOST_CASES = 16384, 130000
# Of how many of the found cases the second checker is asked.
MOST_SECOND = 2000
# Seconds for one case, and for all.
MOST_SECONDS, MOST_IN_ALL = 10, 1500


def held(path: str) -> bytes:
    with open(path, "rb") as it:
        return it.read()


def cases(data: bytes) -> Iterator[tuple[bytes, list[bytes]]]:
    """Each case, and its parts: words, config, orgs, script, cert."""
    at = 0
    while at < len(data):
        line = data.index(b"\n", at)
        lengths = [int(it) for it in data[at + 5 : line].split()]
        end = line + 1
        parts = []
        for length in lengths:
            parts.append(data[end : end + length])
            end += length
        yield data[at : end + 1], parts
        at = end + 1


def options(words: list[bytes]) -> dict[str, str] | None:
    """The values of options, as '--set=a' or '--set a'; None where there is another word."""
    found: dict[str, str] = {}
    given = iter(words)
    for word in given:
        name, equals, value = word.partition(b"=")
        value = value if equals else next(given, b"-")
        is_value = value.isascii() and (equals or not value.startswith(b"-"))
        if not name.startswith(b"--") or not is_value or name.decode("latin-1") in found:
            return None
        found[name.decode("latin-1")] = value.decode()
    return found


def fault_of(config: bytes) -> str:
    """The fault of a configuration; nothing: an empty text."""
    try:
        plain.system_of(config)
    except plain.Fault as fault:
        return str(fault)
    return ""


def second_word(status: int, parts: list[bytes]) -> tuple[int, str] | None:
    """What the second checker says; None where it cannot be asked."""
    words, config, orgs, script, cert = parts
    command, *others = words.split(b"\0")
    is_two = len(others) > 1 and not others[1].startswith(b"--")
    given = options(others[1 + is_two :])
    if given is None or not others:
        return None
    if others[0] == b"config" and command not in (b"trial", b"check-lrat") and status not in (3, 7):
        fault = fault_of(config)
        if fault or status == 4 and "--orgs" not in given:
            return 4, f"config {fault}\n"
    if command == b"whatif" and others[:2] == [b"config", b"script"] and {*given} == {"--set"}:
        return plain.whatif(config, script, given["--set"])
    if others[:2] != [b"config", b"cert"]:
        return None
    if command == b"check" and (not given or given == {"--orgs": "orgs"}):
        return plain.check(config, cert, orgs if given else None)
    if command == b"check-lrat" and {*given} <= {"--faulty", "--from"} and status != 3:
        faulty = {*filter(None, given.get("--faulty", "").split(","))}
        return plain.check_lrat(config, cert, given.get("--from"), faulty)
    return None


def ask_second(data: bytes) -> None:
    """What the library said of a case is what the second checker says."""
    head, _, rest = data.partition(b"\n")
    status, length = (int(it) for it in head.split())
    text, (_, parts) = rest[:length], next(cases(rest[length:]))
    wanted = second_word(status, parts)
    found = (status, text.decode("latin-1"))
    if wanted not in (None, found):
        raise Failed(f"the second checker says {wanted} and not {found} of {rest[length:][:3000]!r}")


class Failed(AssertionError):
    """A program that asks the cases, or libFuzzer, ended badly."""


class Coverage:
    def __init__(self, folder: str) -> None:
        self.folder = folder
        self.program = ""

    def corpus(self, target: str) -> str:
        return os.path.join(CORPUS, f"{target}.cases")

    # ---- The corpus

    def ask_cases(self, target: str, path: str, refuse: int, most: int = 10**9) -> None:
        """The cases of a file once, with each N-th growth of memory refused; and so many of them of the second
        checker."""
        if not self.program:
            self.program = build.linked(build.RUN, "run", build.archive())
        kept = tempfile.mkdtemp(dir=self.folder)
        ended = self.run([self.program, "--refuse", str(refuse), "--keep", kept, path])
        if ended.returncode:
            raise Failed(f"{ended.stderr.decode('utf-8', 'replace')[-1500:]}{self.keep_wrong(target)}")
        for name in sorted(os.listdir(kept), key=int)[-most:]:
            ask_second(held(os.path.join(kept, name)))
        shutil.rmtree(kept)

    def run(self, words: list[str]) -> "subprocess.CompletedProcess[bytes]":
        how = {"cwd": self.folder, "stdin": subprocess.DEVNULL, "stdout": subprocess.PIPE, "stderr": subprocess.PIPE}
        return subprocess.run(words, timeout=MOST_IN_ALL, **how)  # type: ignore[call-overload, no-any-return]

    def keep_wrong(self, target: str) -> str:
        """Where the case lies at which the answer was wrong."""
        found = [it for name in ("wrong.case", "*-" + "?" * 40) for it in glob.glob(os.path.join(self.folder, name))]
        if not found:
            return ""
        room = os.path.join(build.OUT, "found")
        os.makedirs(room, exist_ok=True)
        for it in found:
            shutil.move(it, os.path.join(room, f"{target}-{os.path.basename(it)}"))
        return f" The case is kept in {room}"

    # ---- The search

    def fuzz(self, target: str, seconds: int, program: str) -> None:
        """Has libFuzzer change the cases of a target, and asks the second checker of what it finds."""
        room = self.unpacked(target)
        words = [f"-max_total_time={seconds}", "-len_control=0", "-rss_limit_mb=2000"]
        words += [f"-dict={os.path.join(build.HERE, 'formats.dict')}", room]
        ended = self.libfuzzer(target, program, *words)
        if ended.returncode:
            said = ended.stderr.decode("utf-8", "replace").splitlines()
            told = " ".join(it for it in said if it.startswith(("coverage:", "SUMMARY")))
            raise Failed(f"{told}{self.keep_wrong(target)}")
        self.ask_cases(target, self.packed(room), 0, most=MOST_SECOND)

    def libfuzzer(self, target: str, program: str, *words: str) -> "subprocess.CompletedProcess[bytes]":
        how = {"cwd": self.folder, "env": {**os.environ, "COVERAGE_TARGET": target}, "stdin": subprocess.DEVNULL}
        limits = [f"-max_len={MOST_CASE}", f"-timeout={MOST_SECONDS}"]
        words = (program, *limits, *words)
        return subprocess.run(words, stderr=subprocess.PIPE, **how)  # type: ignore[call-overload, no-any-return]

    def unpacked(self, target: str) -> str:
        room = os.path.join(self.folder, "cases", target)
        os.makedirs(room, exist_ok=True)
        for number, (case, _) in enumerate(cases(held(self.corpus(target)))):
            with open(os.path.join(room, f"{number:06d}"), "wb") as it:
                it.write(case)
        return room

    def packed(self, room: str) -> str:
        """A file of the cases that a search found, those of the corpus first."""
        found = [held(os.path.join(room, name)) for name in sorted(os.listdir(room))]
        with open(f"{room}.cases", "wb") as it:
            it.write(b"".join(case for case in found if case.startswith(b"case ")))
        return f"{room}.cases"

    def merge(self, folder: str, targets: list[str]) -> None:
        """The corpus of each target becomes the smallest cases that together reach all, up to so many bytes."""
        library, _ = build.counting("-O1")
        program = build.linked(build.FUZZ, "fuzz", library, by=build.fuzzer(), more=("-fsanitize=fuzzer", "-no-pie"))
        for target in targets:
            new = os.path.join(folder, target)
            rooms = [self.unpacked(target)] if os.path.exists(self.corpus(target)) else []
            rooms += [new] if os.path.isdir(new) else []
            # what reaches each branch, and then what reaches one more often
            found = self.reaching(target, program, rooms, "-use_counters=0")
            found += [it for it in self.reaching(target, program, rooms, "-use_counters=1") if it not in found]
            kept: list[bytes] = []
            for case in found:
                if sum(map(len, kept)) + len(case) <= MOST_CASES and case.startswith(b"case "):
                    kept.append(case)
            with open(self.corpus(target), "wb") as it:
                it.write(b"".join(kept))
            print(f"coverage: {target}: {len(kept)} of {len(found)} cases, {sum(map(len, kept))} bytes", flush=True)

    def reaching(self, target: str, program: str, rooms: list[str], how: str) -> list[bytes]:
        """The cases in these folders that together reach all, the smallest first."""
        made = tempfile.mkdtemp(dir=self.folder)
        ended = self.libfuzzer(target, program, "-merge=1", how, made, *rooms)
        if ended.returncode:
            raise Failed(f"{target}: the merge ended with {ended.returncode}")
        return sorted((held(os.path.join(made, name)) for name in os.listdir(made)), key=lambda it: (len(it), it))

    def table(self, refuse: int) -> None:
        """Writes into docs/TESTING.md what the corpus reaches."""
        library, is_proved = build.counting("-O0")
        program = build.linked(build.RUN, "run_counting", library, more=("-no-pie",))
        reached = os.path.join(self.folder, "reached")
        corpora = [self.corpus(it) for it in TARGETS]
        ended = self.run([program, "--refuse", str(refuse), "--reached", reached, *corpora])
        if ended.returncode:
            raise Failed(ended.stderr.decode("utf-8", "replace")[-1500:])
        table.write(program, held(reached).decode(), is_proved, refuse)


def room() -> "tempfile.TemporaryDirectory[str]":
    """A folder in memory, if there is such a place."""
    return tempfile.TemporaryDirectory(dir="/dev/shm" if os.path.isdir("/dev/shm") else None)


def main() -> int:
    words = argparse.ArgumentParser(description="Counts the branches that the corpus reaches, or makes it anew.")
    words.add_argument("--refuse", type=int, default=61, help="each N-th growth of memory is refused (default: 61)")
    words.add_argument("--table", action="store_true", help="write the table of docs/TESTING.md")
    words.add_argument("--merge", help="a folder of new cases by target")
    words.add_argument("target", nargs="*", help="only these")
    asked = words.parse_args()
    if not {*asked.target} <= {*TARGETS}:
        words.error("the targets are " + " ".join(TARGETS))
    if not asked.merge and not asked.table:
        words.error("say --table or --merge; the cases are asked by pytest tests/coverage/test_cases.py")
    with room() as folder:
        try:
            if asked.merge:
                Coverage(folder).merge(os.path.abspath(asked.merge), asked.target or list(TARGETS))
            else:
                Coverage(folder).table(asked.refuse)
        except (build.Missing, Failed) as why:
            print(f"coverage: {why}", file=sys.stderr)
            return 1
        except subprocess.CalledProcessError as why:
            print(f"coverage: {why.cmd} ended with {why.returncode}: {why.output}", file=sys.stderr)
            return 1
    return 0


if __name__ == "__main__":
    sys.exit(main())
