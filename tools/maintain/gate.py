#!/usr/bin/env python3
"""The costs of the crates, in the gate and in the first build of the program, and the longest chain of crates.

usage: tools/maintain/gate.py [TEXT]                           runs `rt ci` at the top of the repository: all from
                                                               nothing
       tools/maintain/gate.py --add FILE [TEXT]                runs plain `rt ci`, where some kits take what they kept
       tools/maintain/gate.py --watch PID [--add FILE] [TEXT]  watches a run of `rt ci` that has begun, until it ends
       tools/maintain/gate.py --show FILE [TEXT]               runs nothing
       tools/maintain/gate.py --built [TEXT]                   runs nothing: what ./quorum_cli took when it built
                                                               (out/costs)

TEXT gets the table too, and tools/build/costs what the proofs of the program's crates took: tools/build/first-build
goes by it. FILE keeps the figures from run to run, as JSON, written anew each minute: what a run was seen to do takes
the place of what FILE had of it, and the table is made of all that FILE has. So a cold run that is cut off can be gone
on with, and after a change a run over kept work adds what changed. Below the table stands what was not seen.

Each process that rt starts names its crate; one that tries a must-fail edit, or proves the crate that the edits of it
begin with, runs in a folder of its own. If a kit numbers no edits, the first check over a crate's kept work counts as
the proof that its edits begin with, and the rest as edits. Time and memory of each are read every half second, so its
last half second may be missing.
"""
from __future__ import annotations

import argparse
import json
import os
import re
import shutil
import subprocess
import sys
import time
from collections.abc import Callable
from typing import TypeAlias

sys.dont_write_bytecode = True
sys.path.insert(0, os.path.join(os.path.dirname(os.path.dirname(os.path.realpath(__file__))), "build"))

import command_line

TICKS = os.sysconf("SC_CLK_TCK")
CRATE = re.compile(rb"--crate-name\0([a-z0-9_]+)\0")
OVER = re.compile(rb"--incremental\0[^\0]*/([^\0/]+)\0")
# the folder of the first check over each folder of kept work
FIRST: dict[str, str] = {}
# what is no check of a crate: rt itself, linking, and the runs of tests and programs
OTHER = "rt itself, and the runs of tests and programs"
PROGRAM = "quorum_cli"
# megabytes of the largest process of a crate's proof
MEMORY = "memory of the proof"
COSTS = "tools/build/costs"
# of each process, by its number and when it began: its crate and what it is for, its processor time and its memory
Seen: TypeAlias = dict[tuple[int, bytes], tuple[tuple[str, str], float, int]]
# of each crate what its parts took: processor seconds, and the memory of its proof
Kept: TypeAlias = dict[str, dict[str, float]]
# processor seconds and megabytes by crate
Costs: TypeAlias = dict[str, tuple[float, int]]


def crates() -> dict[str, list[str]]:
    """Each crate of the repository, with those that it uses."""
    with open("crates.txt", encoding="utf-8") as it:
        lines = [line.partition(":") for line in it if ":" in line and not line.startswith("#")]
    return {name.split()[0]: uses.split() for name, _, uses in lines}


def edits_of(crate: str) -> list[str]:
    """The crate's must-fail edits, in the order in which rt numbers them."""
    folder = f"crates/{crate}/must-fail"
    return sorted(it for it in os.listdir(folder) if it.endswith(".edit")) if os.path.isdir(folder) else []


def has_tests(crate: str) -> bool:
    for folder, _, names in os.walk(f"crates/{crate}/src"):
        for name in names:
            with open(os.path.join(folder, name), encoding="utf-8") as it:
                if "#[test]" in it.read():
                    return True
    return False


def part_of(words: bytes, room: str, crate: str) -> str:
    """What a check with these words in this folder is for."""
    if "/rt-edit-" not in room:
        return "tests" if b"--test\0" in words else "proof"
    over = OVER.search(words)
    number = over and over.group(1).decode()
    if number and number.isdigit() and int(number) < len(edits_of(crate)):
        return "edit " + edits_of(crate)[int(number)]
    if number and not number.isdigit():
        return "base" if FIRST.setdefault(number, room) == room else "edit ?"
    # an only edit is tried from nothing, and so are all where the proof that they begin with did not end well
    return "base" if number else "edit " + ([*edits_of(crate), "?"][0] if len(edits_of(crate)) == 1 else "?")


def largest(pid: int) -> int:
    """The most megabytes that a process has had."""
    with open(f"/proc/{pid}/status", encoding="ascii", errors="replace") as it:
        found = re.search(r"VmHWM:\s+(\d+)", it.read())
    return int(found[1]) // 1024 if found else 0


def look(top: int, seen: Seen) -> None:
    """Notes of each process below `top` what it is for, its processor time and its memory."""
    above, times = {}, {}
    for pid in filter(str.isdigit, os.listdir("/proc")):
        try:
            with open(f"/proc/{pid}/stat", "rb") as it:
                fields = it.read().rpartition(b")")[2].split()
        except OSError:
            continue
        above[int(pid)] = int(fields[1])
        times[int(pid)] = fields[19], (int(fields[11]) + int(fields[12])) / TICKS

    def is_ours(pid: int) -> bool:
        while pid > 1 and pid != top:
            pid = above.get(pid, 0)
        return pid == top

    for number, (began, spent) in times.items():
        if not is_ours(number):
            continue
        try:
            with open(f"/proc/{number}/cmdline", "rb") as it:
                words = it.read()
            room, size = os.readlink(f"/proc/{number}/cwd"), largest(number)
        except OSError:
            continue
        crate = CRATE.search(words)
        if crate:
            name = crate.group(1).decode()
            what = name, part_of(words, room, name)
        else:
            # (one that has just ended has no words left)
            what, _, size = seen.get((number, began), ((OTHER, "rest"), 0, 0))
        seen[number, began] = what, spent, size


def added(kept: Kept, seen: Seen) -> Kept:
    """What was kept, with what this run was seen to do in its place."""
    run: Kept = {}
    for (crate, part), spent, size in seen.values():
        parts = run.setdefault(crate, {})
        parts[part] = parts.get(part, 0.0) + spent
        if part == "proof":
            parts[MEMORY] = max(parts.get(MEMORY, 0), size)
    return {crate: {**kept.get(crate, {}), **run.get(crate, {})} for crate in {**kept, **run}}


def columns(crate: str, parts: dict[str, float]) -> list[float]:
    """Processor minutes of the crate's proof, of its tests, of the proof that its edits begin with, and of its
    edits."""
    edits = {"edit " + it for it in edits_of(crate)} | {"edit ?"}
    found = [parts.get("proof", 0), parts.get("tests", 0), parts.get("base", 0), sum(parts.get(it, 0) for it in edits)]
    return [it / 60 for it in found]


def unseen(crate: str, parts: dict[str, float]) -> str:
    """What of the crate no run was seen to do."""
    said = [] if "proof" in parts else ["its proof"]
    if has_tests(crate) and "tests" not in parts:
        said.append("its tests")
    edits = edits_of(crate)
    missing = [it for it in edits if "edit " + it not in parts]
    if missing and "edit ?" not in parts:
        said.append(f"{len(missing)} of {len(edits)} edits")
    return f"`{crate}` ({', '.join(said)})" if said else ""


def stack(uses: dict[str, list[str]], crate: str, found: list[str]) -> list[str]:
    """Adds a crate that is not there yet, after those that it stands on."""
    for it in uses.get(crate, []):
        if it in uses and it not in found:
            stack(uses, it, found)
    found.append(crate)
    return found


def longest_chain(uses: dict[str, list[str]], cost: dict[str, float]) -> tuple[float, list[str]]:
    """Of all chains of crates that use one another, up to the program, the one that costs most."""
    ways: dict[str, tuple[float, list[str]]] = {}
    nothing: tuple[float, list[str]] = (0.0, [])
    for crate in stack(uses, PROGRAM, []):
        below = max((ways[it] for it in uses[crate] if it in ways), key=lambda it: it[0], default=nothing)
        ways[crate] = below[0] + cost.get(crate, 0), [*below[1], crate]
    return ways[PROGRAM]


def first_build(uses: dict[str, list[str]], cost: dict[str, float]) -> str:
    """What the first build takes, and its longest chain: less than that no number of processors takes."""
    names = stack(uses, PROGRAM, [])
    total, (longest, chain) = sum(cost.get(it, 0) for it in names), longest_chain(uses, cost)
    named = ", ".join(f"`{it}` {cost.get(it, 0) / 60:.1f}" for it in chain)
    return (
        f"The first build, {len(names)} crates: {total / 60:.1f} processor minutes. The longest chain, from below:"
        f" {named}: {longest / 60:.1f} minutes."
    )


def share(crate: str, cost: dict[str, float], names: list[str]) -> str:
    """A crate's part of the first build, in hundredths."""
    total = sum(cost.get(it, 0) for it in names)
    return f"{cost[crate] / total:.1%}" if crate in names and cost.get(crate) else ""


def table(kept: Kept) -> str:
    """The table, the dearest crate first, and what it lacks."""
    uses = crates()
    names, cost = stack(uses, PROGRAM, []), {it: kept.get(it, {}).get("proof", 0) for it in uses}
    rows = {it: columns(it, kept.get(it, {})) for it in uses}
    lines = [
        "| crate | proof | of the first build | tests | the edits' base | edits | together |",
        "|---|---|---|---|---|---|---|",
    ]
    for crate, row in sorted(rows.items(), key=lambda it: -sum(it[1])):
        proof, *others = [f"{it:.1f}" if it else "" for it in row]
        lines.append(
            f"| `{crate}` | {proof} | {share(crate, cost, names)} | " + " | ".join(others) + f" | {sum(row):.1f} |"
        )
    rest = kept.get(OTHER, {}).get("rest", 0) / 60
    lines.append(f"| {OTHER} | | | | | | {rest:.1f} |")
    sums = [sum(it) for it in zip(*rows.values())]
    lines.append(
        f"| all | {sums[0]:.1f} | | " + " | ".join(f"{it:.1f}" for it in sums[1:]) + f" | {sum(sums) + rest:.1f} |"
    )
    lines += ["", first_build(uses, cost)]
    edits, tried = sum(len(edits_of(it)) for it in uses), sum(len(edits_of(it)) > 0 for it in uses)
    lines.append(f"There are {edits} edits in {tried} crates.")
    lacks = [said for said in (unseen(it, kept.get(it, {})) for it in uses) if said]
    lines.append("Not seen: " + (", ".join(lacks) or "nothing") + ".")
    return "\n".join(lines)


def table_of_build(costs: Costs) -> str:
    """The same of a first build alone, where each crate's proof, library and all else that it needs is counted."""
    uses = crates()
    names, cost = stack(uses, PROGRAM, []), {it: seconds for it, (seconds, _) in costs.items()}
    lines = ["| crate | processor minutes | of the first build | memory |", "|---|---|---|---|"]
    for crate in sorted(names, key=lambda it: -cost.get(it, 0.0)):
        seconds, megabytes = costs.get(crate, (0, 0))
        lines.append(f"| `{crate}` | {seconds / 60:.1f} | {share(crate, cost, names)} | {megabytes} MB |")
    lacks = [f"`{it}`" for it in names if it not in costs]
    return "\n".join([*lines, "", first_build(uses, cost), "Not measured: " + (", ".join(lacks) or "nothing") + "."])


def read_costs(file: str) -> Costs:
    """Processor seconds and megabytes by crate; a later line takes the place of an earlier one."""
    if not os.path.exists(file):
        return {}
    with open(file, encoding="utf-8") as it:
        rows = [line.split() for line in it if not line.startswith("#")]
    return {row[0]: (float(row[1]), int(row[2])) for row in rows if len(row) == 3}


def write_costs(found: Costs) -> None:
    """Puts what was found into tools/build/costs; of the crates that were not seen it keeps what it had."""
    costs = {**read_costs(COSTS), **found}
    lines = [
        "# What the proof of each of the program's crates takes: processor seconds, and megabytes by one job."
        " tools/maintain/gate.py writes it."
    ]
    lines += [f"{it} {costs[it][0]:.0f} {costs[it][1]}" for it in sorted(stack(crates(), PROGRAM, [])) if it in costs]
    write(COSTS, "\n".join(lines))


def proofs(kept: Kept) -> Costs:
    """What was seen of the proofs, as tools/build/costs has it."""
    return {
        it: (parts["proof"], int(parts[MEMORY]))
        for it, parts in kept.items()
        if "proof" in parts and parts.get(MEMORY)
    }


def anew() -> list[str]:
    """The words by which rt takes nothing from earlier runs: some kits have one for it, and others never take any."""
    said = subprocess.run(
        ["rt", "help"], stdin=subprocess.DEVNULL, stdout=subprocess.PIPE, stderr=subprocess.STDOUT
    ).stdout
    return ["rt", "ci", "--anew"] if b"--anew" in said else ["rt", "ci"]


def read(file: str | None) -> Kept:
    if file and os.path.exists(file):
        with open(file, encoding="utf-8") as it:
            try:
                kept: Kept = json.load(it)
            except ValueError:
                raise ValueError(f"{file}: no figures that gate.py --add has kept") from None
            return kept
    return {}


def write(file: str | None, text: str) -> None:
    if file:
        with open(file + ".new", "w", encoding="utf-8") as it:
            it.write(text + "\n")
        os.replace(file + ".new", file)


def watch(top: int, goes_on: Callable[[], bool], file: str | None, kept: Kept) -> Kept:
    """Looks at the processes below `top` while the run goes on, and returns what is kept then."""
    seen: Seen = {}
    rounds = 0
    while goes_on():
        look(top, seen)
        rounds += 1
        if rounds % 120 == 0:
            write(file, json.dumps(added(kept, seen), indent=1))
        time.sleep(0.5)
    return added(kept, seen)


def seen_by(top: int | None, file: str | None, kept: Kept) -> tuple[Kept, int]:
    """What is kept after a run, and its status."""
    if top is not None:
        os.chdir(os.readlink(f"/proc/{top}/cwd"))
        return watch(top, lambda: os.path.exists(f"/proc/{top}"), file, kept), 0
    run = subprocess.Popen(["rt", "ci"] if file else anew())
    kept = watch(run.pid, lambda: run.poll() is None, file, kept)
    return kept, run.returncode


def order() -> argparse.Namespace:
    words = command_line.Words(__doc__)
    words.add_argument("text", metavar="TEXT", nargs="?")
    words.add_argument("--watch", metavar="PID", type=int)
    for option in ("--add", "--show"):
        words.add_argument(option, metavar="FILE")
    words.add_argument("--built", action="store_true")
    asked = words.parse_args()
    if asked.show is not None and (asked.add is not None or asked.watch is not None):
        words.error("--show runs nothing, so it goes with neither --add nor --watch")
    if asked.built and (asked.show or asked.add or asked.watch is not None):
        words.error("--built goes with no other option")
    if asked.show is not None and not os.path.isfile(asked.show):
        words.error(f"{asked.show} is no file that --add has kept")
    if asked.watch is not None and not os.path.exists(f"/proc/{asked.watch}"):
        words.error(f"no process has the number {asked.watch}")
    if not (asked.built or asked.show or asked.watch is not None or shutil.which("rt")):
        raise ValueError("the toolchain's command rt, which runs the gate, is not on the path; README.md says which")
    return asked


def main() -> int:
    asked = order()
    text = asked.text and os.path.abspath(asked.text)
    file = asked.add or asked.show
    file = file and os.path.abspath(file)
    os.chdir(os.path.join(os.path.dirname(os.path.abspath(__file__)), "..", ".."))
    if asked.built:
        costs = read_costs("out/costs")
        write_costs(costs)
        made = table_of_build(costs)
        print(made)
        write(text, made)
        return 0
    kept, status = read(file), 0
    if asked.show is None:
        kept, status = seen_by(asked.watch, file, kept)
        write(file, json.dumps(kept, indent=1))
    write_costs(proofs(kept))
    made = table(kept)
    print(made)
    write(text, made)
    return status


if __name__ == "__main__":
    sys.exit(command_line.run(main))
