#!/usr/bin/env python3
"""Times the checker of steps on generated logs, and measures a log in memory: bench/lrat.py [FOLDER] [ADDITIONS].

Builds crates/lrat_bench (with its proofs, some minutes the first time), writes the logs into FOLDER, and prints for
each the least processor time of three runs (other work on the machine hardly changes that) and the largest memory of a
run.

A log's formula has GROUPS groups of clauses. A group has the variables x1 to x10 and y1 to y9 and the clauses
`x1 x2 y1`, `-y1 x3 y2`, .., `-y8 x10 y9`, `-y9 x1 x2`. Lemma after lemma is the clause `x1 .. x10` of a group, the
groups in turn: from its negation nine clauses of the group force y1 to y9, and the tenth hint is false, which is the
last clause of the group or, later, the group's lemma before this one. So each addition has ten literals and ten hints.

In `definitions` each three lemmas define a new variable as the conjunction of two of the formula's, which are RAT
steps: the first has no group, since no clause has the new variable yet, and the two others have one each.

Two more logs are as a partial certificate asks for them: no lemma is covered by a clause before it, and each is asked
about. In `pairs` the formula says that x1 implies x2, x2 implies x3, and so on, and the lemmas are all other
implications of them. In `sets` each of many groups has the clause `a1 .. a10`, and each ai is equivalent to its bi;
the lemmas are the clause with some of its literals put for their equivalents, one more or less from lemma to lemma.
"""
from __future__ import annotations

import os
import subprocess
import sys
import tempfile
from collections.abc import Iterator
from typing import Any

import runs

TOP = os.path.dirname(os.path.dirname(os.path.abspath(__file__)))
CRATE = os.path.join(TOP, "crates", "lrat_bench")
PROGRAM = os.path.join(CRATE, "out", "lrat_bench")
GROUPS = 1000
VARIABLES = 19
CLAUSES = 10


def group(number: int) -> Any:
    """The clauses of a group: ten literals x, and the chain of literals y."""
    first = number * VARIABLES + 1
    x = list(range(first, first + 10))
    y = list(range(first + 10, first + 19))
    clauses = [[x[0], x[1], y[0]]]
    for i in range(8):
        clauses.append([-y[i], x[i + 2], y[i + 1]])
    clauses.append([-y[8], x[0], x[1]])
    return x, clauses


def words(numbers: Any) -> str:
    return " ".join(str(number) for number in numbers)


def write(path: str, additions: Any, kept: Any) -> Any:
    """A log of this many additions. Where `kept` is a number, each lemma is deleted when so many others came after
    it."""
    groups = [group(number) for number in range(GROUPS)]
    with open(path, "w") as log:
        last = 0
        for _, clauses in groups:
            for clause in clauses:
                last += 1
                log.write(f"{last} {words(clause)} 0 0\n")
        given = last
        latest = [CLAUSES * (number + 1) for number in range(GROUPS)]
        for step in range(additions):
            number = step % GROUPS
            lits, _ = groups[number]
            chain = range(CLAUSES * number + 1, CLAUSES * number + 10)
            last += 1
            log.write(f"{last} {words(lits)} 0 {words(chain)} {latest[number]} 0\n")
            latest[number] = last
            if kept is not None and step >= kept:
                log.write(f"{last} d {last - kept} 0\n")
    return given


def write_lines(path: str, clauses: Any, lemmas: Any) -> Any:
    """A formula, and lemmas with their hints behind it. Gives the number of clauses and of lemmas."""
    last = 0
    with open(path, "w") as log:
        for clause in clauses:
            last += 1
            log.write(f"{last} {words(clause)} 0 0\n")
        given = last
        for lits, hints in lemmas:
            last += 1
            log.write(f"{last} {words(lits)} 0 {words(hints)} 0\n")
    return given, last - given


def write_pairs(path: str, additions: Any) -> Any:
    """About so many implications. Gives the numbers of variables and clauses."""
    count = 3
    while (count - 1) * (count - 2) // 2 < additions:
        count += 1

    def lemmas() -> Iterator[Any]:
        last = count - 1
        for i in range(1, count - 1):
            before = i
            for j in range(i + 2, count + 1):
                last += 1
                yield [-i, j], [before, j - 1]
                before = last

    given, _ = write_lines(path, [[-i, i + 1] for i in range(1, count)], lemmas())
    return count, given


def write_sets(path: str, additions: Any) -> Any:
    """About so many lemmas, in groups of 1,023. Gives the numbers of variables and clauses."""
    groups = additions // 1023
    clauses = []
    for number in range(groups):
        a = range(number * 20 + 1, number * 20 + 11)
        clauses.append(list(a))
        for x in a:
            clauses += [[-x, x + 10], [x, -x - 10]]

    def lemmas() -> Iterator[Any]:
        last = len(clauses)
        for number in range(groups):
            lits = list(range(number * 20 + 1, number * 20 + 11))
            before = number * 21 + 1
            for step in range(1, 1024):
                place = (step & -step).bit_length() - 1
                is_back = lits[place] > number * 20 + 10
                lits[place] += -10 if is_back else 10
                last += 1
                yield lits, [number * 21 + 2 + 2 * place + (1 if is_back else 0), before]
                before = last

    given, _ = write_lines(path, clauses, lemmas())
    return groups * 20, given


def write_definitions(path: str, additions: Any) -> Any:
    """About so many lemmas over a formula of a tenth as many clauses. Gives the numbers of variables and clauses."""
    clauses = [[x, x + 1, x + 2] for x in range(1, additions // 10 + 1)]
    variables = len(clauses) + 2
    definitions = additions // 3

    def lemmas() -> Iterator[Any]:
        last = len(clauses)
        for number in range(definitions):
            z, a = variables + number + 1, number % (variables - 1) + 1
            yield [z, -a, -a - 1], []
            yield [-z, a], [-last - 1]
            yield [-z, a + 1], [-last - 1]
            last += 3

    given, _ = write_lines(path, clauses, lemmas())
    return variables + definitions, given


def run(path: str, arguments: Any) -> Any:
    """The least processor time of three runs, the largest memory in MB, and what was printed."""
    best, most, text = None, 0, b""
    for _ in range(3):
        with open(path, "rb") as log, tempfile.TemporaryFile() as told:
            status, memory, took = runs.started([PROGRAM] + arguments, stdin=log, stdout=told)
            told.seek(0)
            text = told.read()
        if status != 0:
            sys.exit(f"{path}: the program ended with {status}")
        best = took if best is None else min(best, took)
        most = max(most, memory)
    return best, most, " ".join(text.decode().split())


def main() -> None:
    folder = sys.argv[1] if len(sys.argv) > 1 else "/tmp/gemzulat-bench"
    additions = int(sys.argv[2]) if len(sys.argv) > 2 else 1_000_000
    os.makedirs(folder, exist_ok=True)
    with open(os.path.join(CRATE, "stdin")) as small:
        subprocess.run(["rt", "run", "--", "2", "2"], cwd=CRATE, stdin=small, stdout=subprocess.DEVNULL, check=True)
    logs = [("additions", None), ("deletions", 2 * GROUPS)]
    print("| log | bytes | steps | reading alone | reading and checking | steps a second | largest memory |")
    print("|---|---|---|---|---|---|---|")
    for name, kept in logs:
        path = os.path.join(folder, name + ".lrat")
        given = write(path, additions + (kept or 0), kept)
        reading, _, _ = run(path, [])
        checking, memory, text = run(path, [str(GROUPS * VARIABLES), str(given)])
        steps = sum(int(word) for word in text.split()[1:4:2])
        print(
            f"| {name} | {os.path.getsize(path)} | {text} | {reading:.2f} s | {checking:.2f} s |"
            f" {int(steps / checking)} | {memory} MB |"
        )
    path = os.path.join(folder, "definitions.lrat")
    variables, given = write_definitions(path, additions)
    reading, _, _ = run(path, [])
    checking, memory, text = run(path, [str(variables), str(given)])
    steps = sum(int(word) for word in text.split()[1:4:2])
    print(
        f"| definitions | {os.path.getsize(path)} | {text} | {reading:.2f} s | {checking:.2f} s |"
        f" {int(steps / checking)} | {memory} MB |"
    )
    print()
    print(
        "| log | bytes | lemmas | reading and checking | and asking of each whether it is covered | largest memory |"
    )
    print("|---|---|---|---|---|---|")
    for name, write_log in [("pairs", write_pairs), ("sets", write_sets)]:
        path = os.path.join(folder, name + ".lrat")
        variables, given = write_log(path, additions)
        checking, _, _ = run(path, [str(variables), str(given)])
        asking, memory, text = run(path, [str(variables), str(given), "covers"])
        print(f"| {name} | {os.path.getsize(path)} | {text} | {checking:.2f} s | {asking:.2f} s | {memory} MB |")
    took, memory, text = run(os.devnull, ["log", str(additions)])
    print()
    print(f"a log in memory, 20 literals and 100 hints a lemma: {text}, {took:.2f} s, {memory} MB")


if __name__ == "__main__":
    main()
