#!/usr/bin/env python3
"""Times the solver beside minisat, cadical and cryptominisat on the same formulas: bench/solver.py [FOLDER
[NETWORKS]].

Builds crates/solver_bench (with its proofs, some minutes the first time) and writes each formula as DIMACS text into
FOLDER:
those of trial configurations and of the networks in the folder NETWORKS (NAME.json; left out without the folder) as
the program writes them, which is version 2; the same in version 1, in which each node has gates of its own; and random
3-SAT. For each it prints the processor time of one run of each program and its conflicts, ours being the lemmas with a
literal; of random formulas the sums. A run ends after LIMIT seconds of processor time. Our time has the reading of the
formula, the search and the check of the log; the others (Debian's packages) run with their own settings. Each model of
ours is checked here, each refutation by the proved checker.
"""
from __future__ import annotations

import json
import os
import random
import re
import resource
import subprocess
import sys
from typing import Any

TOP = os.path.dirname(os.path.dirname(os.path.abspath(__file__)))
sys.path.insert(0, os.path.join(TOP, "tests"))
import plain_checker

CRATE = os.path.join(TOP, "crates", "solver_bench")
PROGRAM = os.path.join(CRATE, "out", "solver_bench")
ORGANISATIONS = {1: [8, 12, 16, 20, 24], 2: [12, 16, 20, 24, 32, 48, 64]}
NETWORKS = ["network", "network-large", "network-skewed", "network-split"]
RANDOM_FORMULAS, RANDOM_VARIABLES, RANDOM_RATIO = 100, 150, 4.26
LIMIT = 120
OTHERS = {
    "minisat": (["minisat"], r"conflicts\s*:\s*(\d+)"),
    "cadical": (["cadical"], r"c conflicts:\s*(\d+)"),
    "cryptominisat": (["cryptominisat5", "--verb", "1"], r"c conflicts\s*:\s*(\d+)"),
}


def limit() -> None:
    resource.setrlimit(resource.RLIMIT_CPU, (LIMIT, LIMIT + 1))


def timed(words: list[str], good: Any) -> Any:
    """The output of a run, or None where it did not end in time, and its processor time. `good` are the statuses of
    answers."""
    before = resource.getrusage(resource.RUSAGE_CHILDREN)
    run = subprocess.run(words, capture_output=True, text=True, preexec_fn=limit)
    after = resource.getrusage(resource.RUSAGE_CHILDREN)
    seconds = after.ru_utime + after.ru_stime - before.ru_utime - before.ru_stime
    if run.returncode not in good and seconds < LIMIT - 1:
        sys.exit(f"{words}: the program ended with {run.returncode}")
    return (run.stdout if run.returncode in good else None), seconds


def clauses_of(path: str) -> Any:
    with open(path) as file:
        return [[int(word) for word in line.split()][:-1] for line in file if line[0] not in "cp"]


def ours(path: str) -> Any:
    """The verdict, the lemmas and the time of our solver on a file."""
    output, seconds = timed([PROGRAM, "file", path], [0])
    if output is None:
        return "did not end", None, seconds
    verdict = re.search(r"verdict (\w+)", output).group(1)
    if verdict == "Unsat" and "refuted true" not in output:
        sys.exit(f"{path}: the checker did not take the log")
    if verdict == "Sat":
        model = set(map(int, output.split("\n")[1].split()))
        if not all(model.intersection(clause) for clause in clauses_of(path)):
            sys.exit(f"{path}: the model does not satisfy the formula")
    return verdict, int(re.search(r"lemmas (\d+)", output).group(1)), seconds


def other(name: str, path: str) -> Any:
    """The conflicts and the time of another solver on a file."""
    words, pattern = OTHERS[name]
    output, seconds = timed(words + [path], [10, 20])
    if output is None:
        return None, seconds
    found = re.search(pattern, output)
    return (int(found.group(1)) if found else 0), seconds


def row(name: Any, paths: list[str]) -> None:
    answers = [ours(path) for path in paths]
    verdicts = sorted(set(answer[0] for answer in answers))
    cells = [
        name,
        "/".join(verdicts),
        total(answer[1] for answer in answers),
        f"{sum(answer[2] for answer in answers):.2f} s",
    ]
    for solver in OTHERS:
        runs = [other(solver, path) for path in paths]
        cells += [total(run[0] for run in runs), f"{sum(run[1] for run in runs):.2f} s"]
    print("| " + " | ".join(str(cell) for cell in cells) + " |", flush=True)


def total(numbers: Any) -> Any:
    numbers = list(numbers)
    return "did not end" if None in numbers else sum(numbers)


def trial(organisations: Any) -> Any:
    """The trial configuration: three nodes each, of which two speak for the organisation; more than two thirds of
    all."""
    inner = [{"threshold": 2, "validators": [f"t{3 * i + j:03d}" for j in range(3)]} for i in range(organisations)]
    quorum_set = {"threshold": organisations - (organisations - 1) // 3, "validators": [], "innerQuorumSets": inner}
    return json.dumps(
        [{"publicKey": f"t{node:03d}", "quorumSet": quorum_set} for node in range(3 * organisations)]
    ).encode()


def written(folder: str, name: str, config: Any, version: int) -> Any:
    """The formula of a configuration in a version, written by the plain checker of the tests."""
    path = os.path.join(folder, f"{name}-{version}.cnf")
    formula = plain_checker.Formula(plain_checker.system_of(config), set(), version)
    with open(path, "w") as file:
        print(f"p cnf {formula.variables} {len(formula.clauses)}", file=file)
        for clause in formula.clauses:
            print(*clause, 0, file=file)
    return path


def random_formula(folder: str, seed: int) -> Any:
    """A formula of three different variables a clause, each negated or not."""
    path = os.path.join(folder, f"random-{seed}.cnf")
    choice = random.Random(seed)
    count = round(RANDOM_VARIABLES * RANDOM_RATIO)
    with open(path, "w") as file:
        print(f"p cnf {RANDOM_VARIABLES} {count}", file=file)
        for _ in range(count):
            variables = choice.sample(range(1, RANDOM_VARIABLES + 1), 3)
            print(*[x if choice.random() < 0.5 else -x for x in variables], 0, file=file)
    return path


def main() -> None:
    folder = sys.argv[1] if len(sys.argv) > 1 else "/tmp/solver_bench"
    os.makedirs(folder, exist_ok=True)
    subprocess.run(["rt", "run", "--", "2"], cwd=CRATE, check=True, capture_output=True)
    print(
        "| formula | answer | our lemmas | our time | "
        + " | ".join(f"{name}: conflicts | time" for name in OTHERS)
        + " |"
    )
    print("|---" * (4 + 2 * len(OTHERS)) + "|")
    for version in sorted(ORGANISATIONS):
        for organisations in ORGANISATIONS[version]:
            name = f"{organisations} organisations"
            row(
                f"{name}, version {version}",
                [written(folder, f"trial-{organisations}", trial(organisations), version)],
            )
        for name in NETWORKS if len(sys.argv) > 2 else []:
            with open(os.path.join(sys.argv[2], name + ".json"), "rb") as file:
                row(f"{name}, version {version}", [written(folder, name, file.read(), version)])
    row("random 3-SAT", [random_formula(folder, seed) for seed in range(RANDOM_FORMULAS)])


if __name__ == "__main__":
    main()
