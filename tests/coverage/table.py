"""The table of docs/TESTING.md: which branches of the library the corpus reaches, by crate."""

import bisect
import collections
import os
import re
import subprocess

TOP = os.path.dirname(os.path.dirname(os.path.dirname(os.path.abspath(__file__))))
PAGE = os.path.join(TOP, "docs", "TESTING.md")
LISTED = os.path.join(TOP, "out", "coverage", "not-reached.txt")
BEGIN, END = "<!-- tests/coverage/cases.py --table writes from here -->", "<!-- to here -->"


class Branches:
    """Of a crate or a function: all, reached with ample memory, reached also as memory was refused."""

    def __init__(self) -> None:
        self.all = self.ample = self.reached = 0

    def add(self, ample: bool, reached: bool) -> None:
        self.all += 1
        self.ample += ample
        self.reached += ample or reached

    def take(self, it: "Branches") -> None:
        self.all, self.ample, self.reached = self.all + it.all, self.ample + it.ample, self.reached + it.reached

    def share(self, count: int) -> str:
        return f"{100 * count / self.all:.1f} %" if self.all else "none"


def own_crates() -> list[str]:
    with open(os.path.join(TOP, "crates.txt"), encoding="utf-8") as it:
        return [line.split(":")[0].split()[0] for line in it if ":" in line and not line.startswith("#")]


def symbols(*words: str) -> list[str]:
    ended = subprocess.run(["nm", *words], stdout=subprocess.PIPE, check=True)
    return ended.stdout.decode("utf-8", "replace").splitlines()


def functions(program: str) -> tuple[list[int], list[str]]:
    """The places at which functions begin, and their names without the types that they are made for."""
    rows = [line.split(" ", 2) for line in symbols("-n", "--defined-only", program)]
    found = [(int(at, 16), re.sub(r"::<#?\w*>", "", name)) for at, kind, name in rows if kind in "tTwW"]
    return [at for at, _ in found], [name for _, name in found]


def origin(program: str) -> int:
    return next(int(line.split()[0], 16) for line in symbols(program) if line.endswith(" __executable_start"))


def counted(program: str, reached: str) -> dict[str, Branches]:
    """By function."""
    begins, names = functions(program)
    first = origin(program)
    found: dict[str, Branches] = collections.defaultdict(Branches)
    for line in reached.splitlines():
        place, ample, refused = line.split()
        name = names[bisect.bisect_right(begins, int(place, 16) + first) - 1]
        found["quorum_library::quorum_answer" if name == "quorum_answer" else name].add(ample == "1", refused == "1")
    return dict(found)


def write(program: str, reached: str, is_proved: bool, refuse: int) -> None:
    by_function = counted(program, reached)
    by_crate: dict[str, Branches] = {}
    own = own_crates()
    for name, it in by_function.items():
        crate = name.split("::")[0]
        if crate in own:
            whole = by_crate.setdefault(crate, Branches())
            whole.take(it)
    whole = Branches()
    rows = []
    for crate in (it for it in own if it in by_crate):
        it = by_crate[crate]
        whole.take(it)
        rows.append(f"| `{crate}` | {it.all} | {it.share(it.ample)} | {it.share(it.reached)} |")
    rows.append(f"| all | {whole.all} | {whole.share(whole.ample)} | {whole.share(whole.reached)} |")
    kind = "the proved library" if is_proved else "the same sources compiled without proofs"
    head = [f"Of {kind}, with each {refuse}-th growth of memory refused by itself and with all later ones:", ""]
    head += ["| Crate | Branches | Reached | Also as memory is refused |", "|---|---|---|---|"]
    with open(PAGE, encoding="utf-8") as page:
        before, _, rest = page.read().partition(BEGIN)
    with open(PAGE, "w", encoding="utf-8") as page:
        page.write(before + "\n".join([BEGIN, "", *head, *rows, "", END]) + rest.partition(END)[2])
    with open(LISTED, "w", encoding="utf-8") as listed:
        of_own = [(it, name) for name, it in by_function.items() if name.split("::")[0] in own]
        missing = [(it.all - it.reached, it.all, name) for it, name in of_own if it.reached < it.all]
        listed.writelines(f"{missed} of {every} {name}\n" for missed, every, name in sorted(missing, reverse=True))
    print(f"coverage: {whole.reached} of {whole.all} branches of the crates are reached; {LISTED} has the others")
