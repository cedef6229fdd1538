#!/usr/bin/env python3
"""Writes the clauses that a search could go over in place of the formula's: tools/maintain/search_clauses.py SYSTEM
FOLDER [GROWTH].

SYSTEM is as for `bench/trials.py`. Writes three formulas in DIMACS form to FOLDER, for
`tools/maintain/plain_search.py` and other solvers, and prints the variables and clauses of each:

    exported.cnf     the intersection formula, as `export` writes it
    eliminated.cnf   the counters' variables eliminated by resolution in the order of their cost, each of which may
                     add up to GROWTH clauses (16); clauses that others subsume go
    written.cnf      each gate of up to ten inputs as the sets of its inputs one of which has to be true, without its
                     counter, and without its own variable where that makes no clause more

Variables are numbered anew without gaps. What is found over the last two is not shown over the formula
(docs/history/searches-and-times-2026-11.md, 'Trials'): these are for trials of a search alone, and nothing of the gate
uses them.
"""
from __future__ import annotations

import heapq
import itertools
import os
import sys
from collections import defaultdict
from collections.abc import Iterable
from typing import Any

sys.dont_write_bytecode = True
TOP = os.path.dirname(os.path.dirname(os.path.dirname(os.path.abspath(__file__))))
sys.path[:0] = [os.path.join(TOP, "tests"), os.path.join(TOP, "bench")]
sys.path.insert(0, os.path.join(os.path.dirname(os.path.dirname(os.path.realpath(__file__))), "build"))

import command_line
import plain_checker
import trials

MOST_INPUTS = 10
# so many pairs of clauses are resolved for one variable at most
MOST_PAIRS = 600


class Written(plain_checker.Formula):
    """The formula with its small gates written out, whose variables are kept."""

    def __init__(self, *words: Any) -> None:
        self.outputs: list[int] = []
        super().__init__(*words)

    def new_gate(self, k: int, inputs: tuple[Any, ...]) -> int:
        x = [self.gate(each) for each in inputs]
        if not 1 < k < len(x) <= MOST_INPUTS:
            return super().new_gate(k, inputs)
        z = self.fresh()
        self.outputs.append(z)
        for some in itertools.combinations(x, len(x) - k + 1):
            self.add([-z] + list(dict.fromkeys(some)))
        return z


class Clauses:
    """Clauses without those that others subsume, found by their literals."""

    def __init__(self, clauses: Iterable[Iterable[int]]) -> None:
        self.held: dict[int, frozenset[int]] = {}
        self.having: defaultdict[int, set[int]] = defaultdict(set)
        self.count = 0
        for clause in clauses:
            self.add(frozenset(clause))

    def add(self, clause: frozenset[int]) -> None:
        if any(self.held[number] <= clause for literal in clause for number in self.having[literal]):
            return
        rarest = min(clause, key=lambda literal: len(self.having[literal]))
        for number in [it for it in self.having[rarest] if clause <= self.held[it]]:
            self.remove(number)
        self.count += 1
        self.held[self.count] = clause
        for literal in clause:
            self.having[literal].add(self.count)

    def remove(self, number: int) -> None:
        for literal in self.held.pop(number):
            self.having[literal].discard(number)

    def resolvents(self, variable: int) -> list[frozenset[int]] | None:
        """The resolvents of a variable, each once and without contradictions; none where there are too many pairs."""
        first, second = self.having[variable], self.having[-variable]
        if len(first) * len(second) > MOST_PAIRS:
            return None
        found = {(self.held[p] - {variable}) | (self.held[q] - {-variable}) for p in first for q in second}
        return [it for it in found if not any(-literal in it for literal in it)]

    def cost(self, variable: int) -> int | None:
        """How many clauses more there are without a variable."""
        found = self.resolvents(variable)
        return None if found is None else len(found) - len(self.having[variable]) - len(self.having[-variable])

    def eliminate(self, variable: int) -> set[int]:
        """Puts the resolvents of a variable in place of its clauses; the variables of these."""
        found = self.resolvents(variable) or []
        beside: set[int] = set()
        for number in self.having[variable] | self.having[-variable]:
            beside.update(map(abs, self.held[number]))
            self.remove(number)
        for clause in found:
            self.add(clause)
        return beside - {variable}


def eliminated(clauses: Iterable[Iterable[int]], variables: Iterable[int], growth: int) -> list[list[int]]:
    """The clauses once each of these variables is eliminated that may be."""
    left = Clauses(clauses)
    queue = [(cost, it) for it in variables for cost in [left.cost(it)] if cost is not None]
    heapq.heapify(queue)
    open_ones = set(variables)
    while queue:
        said, variable = heapq.heappop(queue)
        cost = left.cost(variable) if variable in open_ones else None
        if cost is None or cost > growth:
            continue
        if cost > said:
            heapq.heappush(queue, (cost, variable))
            continue
        open_ones.discard(variable)
        for other in left.eliminate(variable) & open_ones:
            if (cost := left.cost(other)) is not None:
                heapq.heappush(queue, (cost, other))
    return [sorted(it, key=abs) for it in left.held.values()]


def write(path: str, clauses: list[list[int]]) -> None:
    numbers = {
        it: number for number, it in enumerate(sorted({abs(literal) for clause in clauses for literal in clause}), 1)
    }
    with open(path, "w", encoding="utf-8") as out:
        out.write(f"p cnf {len(numbers)} {len(clauses)}\n")
        for clause in clauses:
            out.write(" ".join(str(numbers[abs(it)] if it > 0 else -numbers[abs(it)]) for it in clause) + " 0\n")
    print(os.path.basename(path), len(numbers), "variables", len(clauses), "clauses")


def main() -> int:
    words = command_line.Words(__doc__)
    words.add_argument("system", metavar="SYSTEM")
    words.add_argument("folder", metavar="FOLDER")
    words.add_argument("growth", metavar="GROWTH", type=int, nargs="?", default=16)
    asked = words.parse_args()
    folder, growth = asked.folder, asked.growth
    try:
        system = plain_checker.system_of(trials.configuration(asked.system).encode())
    except (plain_checker.Fault, OSError, ValueError, KeyError, TypeError) as why:
        words.error(
            f"{asked.system} is no system that bench/trials.py knows, and no configuration: {command_line.told(why)}"
        )
    formula = plain_checker.Formula(system, set(), 3)
    sides = len(formula.clauses[0]) + len(formula.clauses[1])
    os.makedirs(folder, exist_ok=True)
    write(os.path.join(folder, "exported.cnf"), formula.clauses)
    write(
        os.path.join(folder, "eliminated.cnf"),
        eliminated(formula.clauses, range(sides + 1, formula.variables + 1), growth),
    )
    written = Written(system, set(), 2)
    write(os.path.join(folder, "written.cnf"), eliminated(written.clauses, written.outputs, 0))
    return 0


if __name__ == "__main__":
    sys.exit(command_line.run(main))
