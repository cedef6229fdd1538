"""Asks the program: each question is one run of it, and each certificate is checked by another."""

from __future__ import annotations

import hashlib
import json
import os
import shlex
import shutil
import signal
import subprocess
import sys
import time
from collections.abc import Callable, Sequence
from typing import Any, TYPE_CHECKING

if TYPE_CHECKING:
    from network_page.network import Organisation
    from network_page.writing import Beside

# The status of an answer by its word: yes or a whole list, no, and a part.
STATUS_OF = {"yes": 0, "all": 0, "no": 1, "unknown": 2}
TABLE = os.path.join(
    os.path.dirname(os.path.realpath(__file__)), os.pardir, os.pardir, os.pardir, "share", "commands.json"
)
# The searches that are asked, each certificate by the name of its command or `faulty-` and an organisation.
ASKED = INTERSECT, BLOCKING, ORG_BLOCKING = "intersect", "blocking", "org-blocking"


def searches() -> list[dict[str, Any]]:
    """The commands that search, as the table of the commands has them."""
    with open(TABLE, encoding="utf-8") as it:
        return [row for row in json.load(it)["commands"] if "makes" in row]


# Of each of them the kinds of certificate by its status; and the kinds that `check` takes with the organisations'
# file.
KINDS: dict[str, dict[int, str]] = {
    row["word"]: {STATUS_OF[word]: kind for word, kind in row["makes"].items()} for row in searches()
}
KINDS_OF_ORGS = {
    kind
    for row in searches()
    for kind in row["makes"].values()
    if any(it["name"] == "--orgs" and it["needed"] for it in row["options"])
}

# The statuses of the program that are no answer, in words.
NO_ANSWER = {6: "a file could not be read", 7: "an output could not be written", 8: "there was not enough memory"}
# A search begins with so many units, and has four times as many in each next run: at most a third is done twice.
FIRST_BUDGET, MOST_BUDGET = 4000, 1_000_000


class Failed(Exception):
    """The program gave no answer, or did not accept its own certificate."""


class OutOfTime(Exception):
    """A run was ended as its time was up."""


class View:
    """The system that a question is about: what one node depends on, or with no node the whole file."""

    def __init__(self, node: str | None, keys: list[str] | set[str]) -> None:
        self.node = node
        self.keys = set(keys)

    def words(self) -> list[str]:
        return ["--from=" + self.node] if self.node is not None else []


class Certificate:
    """A file that `check` has accepted, with what `check` said of it and the words that made it."""

    def __init__(self, path: str, accepted: str, command: str, about: str) -> None:
        self.name = os.path.basename(path)
        self.accepted = accepted
        self.command = command
        self.about = about
        with open(path, "rb") as it:
            held = it.read()
        self.digest = hashlib.sha256(held).hexdigest()
        self.size = len(held)


class Verdict:
    """Whether every two quorums share a node: `yes`, `no` or `unknown`, with the units that were spent, or why it was
    not asked."""

    def __init__(
        self,
        view: View,
        word: str,
        first: Sequence[str] = (),
        second: Sequence[str] = (),
        work: str = "",
        certificate: Certificate | None = None,
    ) -> None:
        self.view = view
        self.word = word
        self.first = first
        self.second = second
        self.work = work
        self.certificate = certificate


class Blocking:
    """The minimal blocking sets with their certificate: all of them, or some of those found until so many units were
    spent."""

    def __init__(self, sets: list[list[str]], found: int, work: str | None, certificate: Certificate | None) -> None:
        self.sets = sets
        self.found = found
        self.work = work
        self.certificate = certificate

    def is_whole(self) -> bool:
        return self.work is None


class Clock:
    """The time that a question may take, and all of them."""

    def __init__(self, question: float, in_all: float) -> None:
        self.question = question
        self.in_all = in_all
        self.began = time.monotonic()
        self.ended = False
        self.at_work = ""

    def spent(self) -> float:
        return time.monotonic() - self.began

    def until(self) -> float:
        """When a question that begins now has to be answered."""
        if self.ended:
            return 0.0
        return min(time.monotonic() + self.question, self.began + self.in_all)

    def is_up(self) -> bool:
        return self.ended or self.spent() >= self.in_all


class Searched:
    """What a search came to: its status and lines, with the budget of the run that gave them; or with no status that
    there was no time for any."""

    def __init__(self, status: int | None, lines: list[str], budget: int, took: float) -> None:
        self.status = status
        self.lines = lines
        self.budget = budget
        self.took = took

    def work(self) -> str:
        """With how much work it was not answered."""
        if self.status is None:
            return "no time was left for it"
        if self.status == 9:
            return f"the formula would have {self.lines[0].split(' ')[1]} variables, more than the program takes"
        return f"within {format(int(self.lines[0].split(' ')[2]), ',')} units" + (
            f", {self.took:.0f} s" if self.took >= 1 else ""
        )


class Program:
    """The program on one configuration."""

    def __init__(
        self, path: str, config: str, orgs: str | None, beside: Beside, budget: int | None, clock: Clock
    ) -> None:
        self.path = path
        self.config = config
        self.orgs = orgs
        self.beside = beside
        self.budget = budget if budget is not None else MOST_BUDGET
        self.clock = clock
        self.prefix = ""
        self.certificates: list[Certificate] = []
        self.commands: list[str] = []
        self.unanswered: list[tuple[str, str, str]] = []
        self.named: set[str] = set()

    def on(self, name: str, text: str) -> Program:
        """The program on another configuration, which is written beside; what it leaves has that name before its
        own."""
        other = Program.__new__(Program)
        other.__dict__ = {
            **self.__dict__,
            "config": self.beside.written(self.prefix + name + ".json", text),
            "prefix": self.prefix + name + "-",
        }
        return other

    # What it is at.

    def say(self, text: str) -> None:
        """The question that is at work, on standard error."""
        self.clock.at_work = text
        self.clear()
        print(f"network-report: {self.clock.spent():5.1f} s  {text}", file=sys.stderr, flush=True)

    def tick(self, budget: int, began: float) -> None:
        """On a terminal, the line of a search that takes longer."""
        if sys.stderr.isatty():
            text = (
                f"network-report: {self.clock.spent():5.1f} s  {self.clock.at_work}: {format(budget, ',')} units,"
                f" {time.monotonic() - began:.0f} s"
            )
            sys.stderr.write("\r\x1b[K" + text[: shutil.get_terminal_size().columns - 1])
            sys.stderr.flush()

    @staticmethod
    def clear() -> None:
        if sys.stderr.isatty():
            sys.stderr.write("\r\x1b[K")

    # Runs.

    def run(self, *words: str, until: float | None = None, budget: int = 0) -> tuple[int, list[str]]:
        """The status and the lines of one run; statuses that are no answer fail, and a run past its time is ended."""
        began = time.monotonic()
        try:
            # (a session of its own, which Ctrl-C at the terminal does not reach)
            running = subprocess.Popen(
                [self.path, *words],
                stdin=subprocess.DEVNULL,
                stdout=subprocess.PIPE,
                stderr=subprocess.PIPE,
                start_new_session=True,
            )
        except (OSError, ValueError) as why:
            said = getattr(why, "strerror", None) or why
            raise Failed(f"the program {self.path} could not be run: {said}; --program names another") from None
        try:
            while True:
                try:
                    printed, error = running.communicate(timeout=0.5)
                    break
                except subprocess.TimeoutExpired:
                    if until is not None and (time.monotonic() >= until or self.clock.ended):
                        raise OutOfTime from None
                    if budget:
                        self.tick(budget, began)
        finally:
            end(running)
        text = printed.decode("ascii", "replace")
        if running.returncode not in (0, 1, 2, 3, 4, 5, 9, 10):
            raise Failed(
                "`%s` gave no answer: %s"
                % (words[0], NO_ANSWER.get(running.returncode, error.decode("utf-8", "replace").strip()))
            )
        return running.returncode, text.split("\n")[:-1]

    def answer(self, *words: str, **how: Any) -> tuple[int, list[str]]:
        """The status and the lines of an answer; a refusal fails with the program's own line."""
        status, lines = self.run(*words, **how)
        if status in (3, 4, 5, 10):
            said = lines[0] if lines else status
            raise Failed(f"`{' '.join(words)[:300]}` was refused: {said} (docs/FORMATS.md says what that means)")
        return status, lines

    def noted(self, *words: str) -> tuple[int, list[str]]:
        """An answer whose command the page shows."""
        command = self.shown(words)
        if command not in self.commands:
            self.commands.append(command)
        return self.answer(*words)

    def shown(self, words: tuple[str, ...] | list[str]) -> str:
        """A command as whoever has the page and the files beside it can repeat it."""
        return " ".join(["quorum_cli", *(shlex.quote(self.here(word)) for word in words)])

    def here(self, word: str) -> str:
        """A word in which a file is named as it lies beside the page."""
        option = "--orgs=" if word.startswith("--orgs=") else ""
        path = word[len(option) :]
        if path.startswith(self.beside.part + os.sep):
            return option + os.path.join(self.beside.name, os.path.basename(path))
        return option + os.path.basename(path) if path in (self.config, self.orgs) else word

    # Questions without a certificate.

    def closure(self, node: str) -> list[str]:
        """The trust closure of a node."""
        return self.listed("closure", self.config, "--node=" + node)

    def show(self) -> list[str]:
        self.say("reading the configuration")
        return self.noted("show", self.config)[1]

    def greatest(self, view: View) -> list[str]:
        return self.listed("greatest", self.config, *view.words())

    def listed(self, *words: str) -> list[str]:
        """The names on the one line that the command prints."""
        return self.noted(*words)[1][0].split(" ")[1:]

    def blocks(self, view: View, keys: list[str], asked: Callable[..., Any] | None = None) -> tuple[bool, list[str]]:
        """Whether the keys stop every agreement, else the greatest quorum that goes on without them."""
        return yes_or_names((asked or self.answer)("blocks", self.config, "--set=" + ",".join(keys), *view.words()))

    def available(self, view: View, keys: list[str]) -> tuple[bool, list[str]]:
        """Whether all other nodes have a slice left without the keys, else those that have none."""
        return yes_or_names(self.noted("available", self.config, "--set=" + ",".join(keys), *view.words()))

    def v_blocks(self, node: str, keys: list[str]) -> bool:
        return self.answer("vblocks", self.config, "--node=" + node, "--set=" + ",".join(keys))[0] == 0

    def retired(self, keys: list[str], name: str, scripted: list[str]) -> list[list[str]]:
        """The greatest quorum of the whole file at first, and after each of the scripted keys has retired."""
        script = self.beside.script(self.prefix + name, ["retire " + key for key in scripted])
        lines = self.noted("whatif", self.config, script, "--set=" + ",".join(keys))[1]
        return [line.split(" ")[1:] for line in lines if line.split(" ")[0] == "greatest"]

    # Searches.

    def cert_name(self, view: View, name: str) -> str:
        """What the certificate of a question is called: of a second node's view another name."""
        stem = self.prefix + ("from-" if view.node is not None else "") + name
        at, held = 1, stem
        while held in self.named:
            at, held = at + 1, f"{stem}-{at + 1}"
        self.named.add(held)
        return held

    def searched(
        self, view: View, faulty: Sequence[str], name: str, words: list[str], *more: str
    ) -> tuple[Searched, Certificate | None, list[list[str]]]:
        """What a search came to within its time, its certificate as `check` accepts it, and the sets in that. What an
        earlier run left is taken, or gone on with."""
        kinds, path = KINDS[words[0]], self.beside.certificate(self.cert_name(view, name))
        words = [words[0], self.config, path, *words[1:], *view.words()]
        held: tuple[Searched, list[str] | None] | None = self.left_over(kinds, view, faulty, path, words[0], *more)
        if held is None or (held[0].status == 2 and held[0].budget < self.budget):
            ended = self.with_budgets(words, held[0].budget * 4 if held else FIRST_BUDGET)
            if ended.status in kinds:
                held = ended, self.accepted(path, kinds[ended.status], view, faulty, *more)
            elif held is None or ended.status is not None:
                held = ended, None
        assert held is not None
        ended, lines = held
        if ended.status not in (0, 1):
            self.unanswered.append((self.clock.at_work, words[0], ended.work()))
        if lines is None:
            return ended, None, []
        self.certificates.append(
            Certificate(path, lines[0], self.shown([*words, f"--budget={ended.budget}"]), self.here(self.config))
        )
        return ended, self.certificates[-1], [line.split(" ")[1:] for line in lines[3:]]

    def with_budgets(self, words: list[str], budget: int) -> Searched:
        """The last run that ended in time, each with four times as many units as the one before."""
        began, until, ended = time.monotonic(), self.clock.until(), Searched(None, [], 0, 0.0)
        while ended.status is None or (ended.status == 2 and ended.budget < self.budget):
            budget = min(budget, self.budget)
            try:
                if time.monotonic() >= until:
                    break
                status, lines = self.answer(*words, f"--budget={budget}", until=until, budget=budget)
            except OutOfTime:
                break
            ended = Searched(status, lines, budget, time.monotonic() - began)
            budget *= 4
        self.clear()
        return ended

    def left_over(
        self, kinds: dict[int, str], view: View, faulty: Sequence[str], path: str, command: str, *more: str
    ) -> tuple[Searched, list[str]] | None:
        """What an earlier run left under this name, if `check` accepts it of this very question."""
        if not self.beside.left(path):
            return None
        for status, kind in kinds.items():
            try:
                lines = self.accepted(path, kind, view, faulty, *more)
            except Failed:
                continue
            number = int(lines[0].split(" ")[2]) if status == 2 else self.budget
            told = {0: lines, 1: [lines[0], *self.pair_in(path)], 2: [f"{command} unknown {number}"]}
            return Searched(status, told[status], number, 0.0), lines
        os.unlink(path)
        return None

    def intersect(self, view: View, name: str, org: Organisation | None = None) -> Verdict:
        """The verdict with its certificate, which is checked, and checked to be about this view and these faulty
        nodes."""
        lying = (
            []
            if org is None
            else (
                ["--orgs=" + self.orgs, "--faulty-orgs=" + org.id]
                if self.orgs is not None
                else ["--faulty=" + ",".join(org.keys)]
            )
        )
        ended, certificate, _ = self.searched(view, org.keys if org is not None else (), name, [INTERSECT, *lying])
        if ended.status == 0:
            return Verdict(view, "yes", certificate=certificate)
        if ended.status == 1:
            first, second = (line.split(" ")[1:] for line in ended.lines[1:3])
            return Verdict(view, "no", first, second, certificate=certificate)
        return Verdict(view, "unknown", work=ended.work(), certificate=certificate)

    def blocking(self, view: View, most: int) -> Blocking:
        """The minimal blocking sets as `check` accepts them; where the units were spent, the smallest ones of those
        found."""
        ended, certificate, sets = self.searched(view, (), BLOCKING, [BLOCKING])
        if ended.status == 0:
            return Blocking(sets, len(sets), None, certificate)
        found = self.found_in(self.beside.path(certificate.name)) if certificate else []
        return Blocking(
            [keys for keys in found[:most] if self.is_minimal(view, keys)], len(found), ended.work(), certificate
        )

    def blocking_groups(self, view: View, orgs: list[Organisation]) -> tuple[list[list[str]], Certificate] | None:
        """The minimal blocking sets of organisations, and of nodes of none, as `check` accepts them; None where the
        units were spent."""
        given = "--orgs=" + (self.orgs if self.orgs is not None else self.beside.organisations(orgs))
        ended, certificate, sets = self.searched(view, (), ORG_BLOCKING, [ORG_BLOCKING, given], given)
        return (sets, certificate) if ended.status == 0 and certificate is not None else None

    @staticmethod
    def pair_in(path: str) -> list[str]:
        """The two sets of a pair, which `check` does not print again."""
        with open(path, encoding="ascii") as it:
            return [line for line in it.read().split("\n") if line.startswith(("first ", "second "))]

    @staticmethod
    def found_in(path: str) -> list[list[str]]:
        """The sets that a part of a list has, the smallest first."""
        with open(path, encoding="ascii") as it:
            return sorted((line[:-1].split(" ")[2:] for line in it if line.startswith("b ")), key=len)

    def is_minimal(self, view: View, keys: list[str]) -> bool:
        """Whether the keys stop every agreement, and without any one of them they do not."""
        return self.blocks(view, keys)[0] and not any(
            self.blocks(view, [it for it in keys if it != key])[0] for key in keys
        )

    def accepted(self, path: str, kind: str, view: View, faulty: Sequence[str], *more: str) -> list[str]:
        """The lines of `check`, which has to accept a certificate as one of this kind, for this view and for exactly
        these faulty nodes."""
        status, lines = self.run("check", self.config, path, *more)
        wanted = [
            " ".join(["from", *([view.node] if view.node is not None else [])]),
            " ".join(["faulty", *sorted(set(faulty) & view.keys)]),
        ]
        if status not in (0, 2) or lines[0].split(" ")[:2] != ["accepted", kind] or lines[1:3] != wanted:
            raise Failed(f"the certificate {os.path.basename(path)} is not accepted: {' / '.join(lines[:3])}")
        return lines

    # The program itself.

    def file(self) -> str:
        """The program itself: if this is the script of a repository, the one that it runs."""
        chooser = os.path.join(os.path.dirname(os.path.realpath(self.path)), "tools", "build", "program")
        if not os.path.exists(chooser):
            return self.path
        return (
            subprocess.run([chooser], stdin=subprocess.DEVNULL, stdout=subprocess.PIPE, check=True)
            .stdout.decode()
            .rstrip("\n")
        )

    def is_proved(self) -> bool:
        """Whether the program is not the one that is compiled without proofs."""
        return os.path.basename(os.path.dirname(os.path.realpath(self.file()))) != "unproved"

    def digest(self) -> str:
        """The SHA-256 of the program."""
        with open(self.file(), "rb") as it:
            return hashlib.sha256(it.read()).hexdigest()

    def version(self) -> str | None:
        """What the file VERSION of the repository says in which the program lies, if it lies in one."""
        folder = os.path.dirname(os.path.realpath(self.path))
        while not os.path.isfile(os.path.join(folder, "VERSION")):
            if folder == os.path.dirname(folder):
                return None
            folder = os.path.dirname(folder)
        with open(os.path.join(folder, "VERSION"), encoding="utf-8") as it:
            return it.read().strip()


def end(running: subprocess.Popen[bytes]) -> None:
    """Ends a run that still goes on, with all that it has started."""
    for it in (signal.SIGTERM, signal.SIGKILL):
        if running.poll() is None:
            os.killpg(running.pid, it)
            try:
                running.wait(timeout=10)
            except subprocess.TimeoutExpired:
                pass
    for pipe in (running.stdout, running.stderr):
        if pipe is not None:
            pipe.close()


def yes_or_names(answered: tuple[int, list[str]]) -> tuple[bool, list[str]]:
    """Whether the answer is yes, and else the names of its second line."""
    status, lines = answered
    return status == 0, lines[1].split(" ")[1:] if len(lines) > 1 else []
