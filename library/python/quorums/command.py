"""The command `quorums`: each command of the program with answers as data, and what analysts ask of many files."""

from __future__ import annotations

import argparse
import csv
import difflib
import os
import sys
from importlib import resources
from typing import Any, Iterable, NoReturn, Optional, Sequence

from . import asking, binding, bulk, outputs, summary, tables, usage
from .asking import Refused, TooLarge
from .network import Quorums
from .replies import Answer
from .snapshots import Groups, Snapshot, digest

WORDS, READ, WRITTEN, MEMORY, TOO_LARGE, UNKNOWN = 3, 6, 7, 8, 9, 2
ARGUMENTS = {"CERT": "certificate", "LRAT": "proof", "SCRIPT": "script"}


class Wrong(Exception):
    """What ends the command: its one line, and its status."""

    def __init__(self, status: int, text: str) -> None:
        super().__init__(text)
        self.status = status


class Parser(argparse.ArgumentParser):
    """Says a fault of the words in one line, with the status of the program."""

    def error(self, message: str) -> NoReturn:
        raise Wrong(WORDS, f"{message} (quorums --help)")


def number(low: float, whole: bool) -> Any:
    """Reads a number of an option that is at least so great."""

    def read(text: str) -> float:
        value = int(text) if whole else float(text)
        if not low <= value < float("inf"):
            raise ValueError
        return value

    read.__name__ = "whole number" if whole else "number"
    return read


def forms(words: argparse.ArgumentParser, keys: bool = True) -> None:
    """The forms of what is printed."""
    one = words.add_mutually_exclusive_group()
    one.add_argument("--json", action="store_true", help="one JSON document")
    one.add_argument("--csv", action="store_true", help="a table")
    if keys:
        one.add_argument("--keys", action="store_true", help="keys, not names")


def add_command(parts: Any, row: usage.Command) -> None:
    """The words of a command of the program, by its row."""
    words = parts.add_parser(row.word, help=row.line, allow_abbrev=False)
    words.set_defaults(run=ask, row=row)
    words.add_argument("config", metavar=row.files[0])
    if row.second is not None:
        words.add_argument("second", metavar=row.second, nargs="?" if row.is_search else None)
    for option in row.options:
        words.add_argument(
            option.flag, dest=option.argument, metavar=option.place, required=option.needed and option.flag != "--orgs"
        )
    if row.files[0] == "CONFIG":
        words.add_argument("--as-is", action="store_true", help="nodes with isValidating false are silent")
    if row.option("--orgs") is not None or "org-" + row.word in usage.commands():
        words.add_argument(
            "--by", metavar="GROUPS", help="org, country, isp, homeDomain or another member, in place of --orgs"
        )
    words.add_argument("--seconds", type=number(0, False), metavar="S", help="the most seconds")
    forms(words)


def add_asked(words: argparse.ArgumentParser) -> None:
    """The words of what is asked of each network."""
    words.add_argument("--orgs", metavar="ORGS", help="the file of organisations")
    words.add_argument(
        "--by",
        metavar="GROUPS",
        default="org",
        help="several with commas: org, country, isp, homeDomain or another member (org)",
    )
    words.add_argument("--as-is", action="store_true", help="nodes with isValidating false are silent")
    view = words.add_mutually_exclusive_group()
    view.add_argument(
        "--from",
        dest="from_node",
        metavar="NAME",
        help="as this node sees it (the node of the greatest quorum that most others name)",
    )
    view.add_argument("--whole", action="store_true", help="the whole file, with watchers on whom nobody depends")
    words.add_argument(
        "--budget",
        type=number(0, True),
        default=summary.BUDGET,
        metavar="UNITS",
        help=f"the most units of each search ({summary.BUDGET})",
    )
    words.add_argument("--seconds", type=number(0, False), metavar="S", help="the most seconds of each search")


def parser() -> Parser:
    words = Parser(prog="quorums", description=__doc__, allow_abbrev=False)
    parts = words.add_subparsers(dest="command", metavar="COMMAND", parser_class=Parser)
    for row in usage.commands().values():
        add_command(parts, row)
    words.set_defaults(known=parts.choices)
    it = parts.add_parser("summary", help="all that is asked of a network, as data", allow_abbrev=False)
    it.set_defaults(run=summarise)
    it.add_argument("config", metavar="CONFIG")
    add_asked(it)
    it.add_argument(
        "--certificates",
        metavar="FOLDER",
        help="where certificates and the files that they speak of are put, by their digests",
    )
    forms(it)
    it = parts.add_parser("groups", help="the file of organisations by a member", allow_abbrev=False)
    it.set_defaults(run=show_groups)
    it.add_argument("config", metavar="CONFIG")
    it.add_argument("--orgs", metavar="ORGS")
    it.add_argument("--by", metavar="GROUPS", required=True)
    it.add_argument("-o", dest="output", metavar="ORGS", help="writes the file")
    forms(it)
    it = parts.add_parser("reduce", help="what the program reads of a file of nodes", allow_abbrev=False)
    it.set_defaults(run=reduce)
    it.add_argument("config", metavar="CONFIG")
    it.add_argument("--as-is", action="store_true", help="nodes with isValidating false are silent")
    it = parts.add_parser("bulk", help="a row for each of many snapshots", allow_abbrev=False)
    it.set_defaults(run=many)
    it.add_argument("paths", metavar="FOLDER|FILE", nargs="+")
    it.add_argument("-o", dest="table", metavar="TABLE", required=True, help="the table to write, as table.csv")
    add_asked(it)
    where = it.add_mutually_exclusive_group()
    where.add_argument("--jobs", type=number(1, True), metavar="N", help="processes here (one a processor)")
    where.add_argument("--scheduler", metavar="ADDRESS", help="of a cluster of dask.distributed")
    it.add_argument("--dates", metavar="DATES", help="a table of file,date for names without a date")
    it.add_argument("--resume", action="store_true", help="goes on with a table")
    it = parts.add_parser("history", help="a page of a table over time", allow_abbrev=False)
    it.set_defaults(run=history)
    it.add_argument("table", metavar="TABLE")
    it.add_argument("-o", dest="page", metavar="PAGE", required=True, help="the page to write, as history.html")
    it.add_argument(
        "--reports", metavar="FOLDER", help="pages of single snapshots, NAME.html each, to which the points lead"
    )
    it.add_argument("--plots", metavar="FOLDER", help="the plots as SVG and PNG too; needs matplotlib")
    it = parts.add_parser("schema", help="the JSON schema of the documents", allow_abbrev=False)
    it.set_defaults(
        run=lambda asked: put(resources.files(__package__).joinpath("schema.json").read_text(encoding="utf-8"))
    )
    return words


def held(path: Optional[str]) -> bytes:
    """The bytes of a file, of which the program would say that it is too long if it has more."""
    try:
        return bulk.held(path)
    except OSError as why:
        raise Wrong(READ, f"a file could not be read: {path}: {why.strerror}") from None


def put(text: str, status: int = 0) -> int:
    sys.stdout.write(text)
    sys.stdout.flush()
    return status


def write(path: str, data: bytes) -> None:
    """Writes a file beside, and gives it its name once it is whole."""
    try:
        with open(path + ".part", "wb") as it:
            it.write(data)
        os.replace(path + ".part", path)
    except OSError as why:
        raise Wrong(WRITTEN, f"{path} could not be written: {why.strerror}") from None


def write_certificate(path: str, data: bytes) -> None:
    """Writes a certificate, over another one alone."""
    if os.path.isfile(path):
        with open(path, "rb") as it:
            if it.read(10) not in (b"", b"fbas-cert "):
                raise Wrong(WRITTEN, f"{path} is no certificate: it stays as it is")
    write(path, data)


class Question:
    """A command of the program, over the files that its words name."""

    def __init__(self, asked: argparse.Namespace) -> None:
        self.asked, self.row = asked, asked.row
        self.files: dict[str, Any] = {}
        self.config, self.orgs = b"", b""
        self.names: dict[str, str] = {}
        self.second = None if self.row.second is None or self.row.is_search else held(asked.second)
        self.options = {it.argument: getattr(asked, it.argument) for it in self.row.options if it.flag != "--orgs"}
        if self.options.get("budget") is not None:
            self.options["budget"] = self.units(self.options["budget"])

    def units(self, text: str) -> int:
        try:
            return int(number(0, True)(text))
        except ValueError:
            raise Wrong(WORDS, f"--budget is a whole number, and not {text}") from None

    def read(self) -> None:
        """Reads the files, and makes those that --by and --as-is stand for."""
        asked = self.asked
        self.config, self.orgs = held(asked.config), held(getattr(asked, "orgs", None))
        by = getattr(asked, "by", None)
        if by is not None:
            self.take_groups(by)
        needs = self.row.option("--orgs")
        if needs is not None and needs.needed and by is None and asked.orgs is None:
            raise Wrong(WORDS, f"{self.row.word} needs --orgs or --by (quorums --help)")
        try:
            snapshot = Snapshot(self.config, self.orgs)
        except Refused:
            # (the command says so itself)
            return
        self.names = called(snapshot, [snapshot.given_groups()])
        if by is not None:
            groups = snapshot.groups(by)
            self.names = called(snapshot, [groups])
            self.orgs = groups.orgs
            self.files["orgs"] = {"by": by, "sha256": digest(self.orgs), "alone": len(groups.alone)}
            say_alone(groups, snapshot, asked.config)
        if asked.as_is:
            self.config = snapshot.reduced(True)

    def take_groups(self, by: str) -> None:
        """With --by the sets of a list are asked for by groups, where the program has a command for that."""
        grouped = usage.commands().get("org-" + self.row.word)
        if self.options.get("faulty_orgs") is None and grouped is not None:
            self.row = grouped
            self.options = {name: value for name, value in self.options.items() if grouped.takes(name)}
        needs = self.row.option("--orgs")
        if self.row.word != "check" and self.options.get("faulty_orgs") is None and not (needs and needs.needed):
            raise Wrong(WORDS, f"--by has no use here: {self.row.word} is not asked by groups (quorums --help)")

    def answer(self) -> Answer:
        """What is answered; a search in time where --seconds is given."""
        seconds = self.asked.seconds
        if self.row.files[0] != "CONFIG":
            if not self.asked.config.isdecimal():
                raise Wrong(WORDS, f"{self.row.files[0]} is a whole number, and not {self.asked.config}")
            return asking.counted(self.row.word, int(self.asked.config), self.options, seconds, None, binding.ROOM)
        network = Quorums(self.config, orgs=self.orgs)
        if seconds is not None and self.row.is_search:
            return network.ask_in_time(self.row.word, self.options, seconds)
        return network.ask(self.row.word, self.options, self.second, seconds)

    def noted(self) -> dict[str, Any]:
        """What was asked of which files."""
        asked = self.asked
        if self.row.files[0] != "CONFIG":
            return {}
        files: dict[str, Any] = {
            "config": {"path": asked.config, "sha256": digest(self.config), "as_is": asked.as_is},
            **self.files,
        }
        if self.orgs and "orgs" not in files:
            files["orgs"] = {"path": asked.orgs, "sha256": digest(self.orgs)}
        if self.second is not None:
            files[ARGUMENTS[self.row.second]] = {"path": asked.second, "sha256": digest(self.second)}
        return files

    def keep(self, answer: Answer) -> Optional[dict[str, Any]]:
        """Writes the certificate where the words say so, with the files that were made for it beside."""
        if not self.row.is_search:
            return None
        path = self.asked.second
        if path is not None:
            write_certificate(path, answer.certificate)
            if self.row.files[0] == "CONFIG" and self.asked.as_is:
                write(path + ".config.json", self.config)
            if "orgs" in self.files:
                write(path + ".orgs.json", self.orgs)
        return {"path": path, "sha256": digest(answer.certificate), "bytes": len(answer.certificate)}


def called(snapshot: Snapshot, groups: Iterable[Groups]) -> dict[str, str]:
    """What nodes and groups are called, by their keys and by the texts that stand for them."""
    names = snapshot.names()
    names.update({"node:" + key: name for key, name in names.items()})
    names.update({"org:" + key: name for it in groups for key, name in it.names.items()})
    return names


def say_alone(groups: Groups, snapshot: Snapshot, path: str) -> None:
    """Says on standard error if the file has no such member at all."""
    if len(groups.alone) == len(snapshot.nodes):
        print(f"quorums: no node of {path} is in a group by {groups.by}: each stands alone", file=sys.stderr)


def ask(asked: argparse.Namespace) -> int:
    """A command of the program."""
    if asked.row.files[0] != "CONFIG":
        asked.as_is = False
    question = Question(asked)
    try:
        if asked.row.files[0] == "CONFIG":
            question.read()
        answer = question.answer()
    except Refused as refused:
        return refuse(question, refused.status, refused.text)
    except TooLarge as large:
        return refuse(question, TOO_LARGE, f"{large}\n")
    except TimeoutError as late:
        raise Wrong(UNKNOWN, str(late)) from None
    certificate = question.keep(answer)
    if asked.json:
        return put(
            outputs.as_json(outputs.answer_document(answer, question.noted(), question.names, certificate)),
            answer.status,
        )
    if asked.csv:
        return put(outputs.answer_csv(answer, question.names), answer.status)
    return put(answer.text if asked.keys else outputs.text_lines(answer, question.names), answer.status)


def refuse(question: Question, status: int, text: str) -> int:
    """A refusal: the program's own words, or a document."""
    words = [question.row.word, *(it for it in asking.given(question.row, question.options))]
    document = outputs.refusal_document(question.row.word, words, question.noted(), status, text)
    return put(outputs.as_json(document) if question.asked.json else lined(text), status)


def lined(text: str) -> str:
    return text if text.endswith("\n") or not text else text + "\n"


def asked_of(asked: argparse.Namespace) -> summary.Asked:
    """What is asked of each network, by the words."""
    by = tuple(dict.fromkeys(it.strip() for it in asked.by.split(",")))
    if "" in by or "node" in by:
        raise Wrong(WORDS, "--by takes names of members, with commas between")
    return summary.Asked(by, asked.as_is, asked.from_node, asked.whole, asked.budget, asked.seconds)


def summarise(asked: argparse.Namespace) -> int:
    """The summary of a network."""
    data, orgs = held(asked.config), held(asked.orgs)
    kept, questions = summary.Kept(), asked_of(asked)
    try:
        snapshot = Snapshot(data, orgs)
        found = summary.summary(data, orgs, questions, kept)
    except Refused as refused:
        return put(lined(refused.text), refused.status)
    for by in questions.by:
        say_alone(snapshot.groups(by), snapshot, asked.config)
    if asked.certificates is not None:
        keep_all(asked.certificates, kept)
    names = called(snapshot, map(snapshot.groups, questions.by))
    if asked.json:
        return put(outputs.as_json({**found, "names": names, "folder": asked.certificates}))
    if asked.csv:
        head = {
            "date": tables.date_of(asked.config),
            "file": asked.config,
            "sha256": found["sha256"],
            "orgs_sha256": digest(orgs) if orgs else "",
            "asked": questions.text(),
        }
        head.update({name: str(value) for name, value in zip(tables.HEAD[6:], found["in_file"].values())})
        return put(tables.as_text(tables.columns(questions), [{**head, **summary.cells(found)}]))
    return put(outputs.summary_text(found, summary.LISTS, {} if asked.keys else names))


def keep_all(folder: str, kept: summary.Kept) -> None:
    """Writes certificates and what they speak of into a folder."""
    try:
        bulk.keep(folder, kept.files)
    except OSError as why:
        raise Wrong(WRITTEN, f"{why.filename} could not be written: {why.strerror}") from None


def show_groups(asked: argparse.Namespace) -> int:
    """The groups by a member."""
    try:
        snapshot = Snapshot(held(asked.config), held(asked.orgs))
        groups = snapshot.groups(asked.by)
    except Refused as refused:
        return put(lined(refused.text), refused.status)
    say_alone(groups, snapshot, asked.config)
    if asked.output is not None:
        write(asked.output, groups.orgs)
    rows = [(it, groups.names.get(it, it), len(keys)) for it, keys in sorted(groups.members.items())]
    if asked.json:
        members = [{"id": it, "name": name, "validators": list(groups.members[it])} for it, name, _ in rows]
        return put(
            outputs.as_json(
                {
                    "schema": "quorums/groups/1",
                    "by": asked.by,
                    "sha256": digest(groups.orgs),
                    "path": asked.output,
                    "groups": members,
                    "alone": list(groups.alone),
                }
            )
        )
    if asked.csv:
        return put(outputs.as_csv(["group", "name", "nodes"], rows))
    lines = [f"{it if asked.keys else name}: {count}\n" for it, name, count in rows]
    return put("".join(lines) + f"in none: {len(groups.alone)}\n")


def reduce(asked: argparse.Namespace) -> int:
    """What the program reads of a file."""
    try:
        return put(Snapshot(held(asked.config)).reduced(asked.as_is).decode())
    except Refused as refused:
        return put(refused.text, refused.status)


def dates_of(path: Optional[str]) -> dict[str, str]:
    """The dates of a table of file,date."""
    if path is None:
        return {}
    rows = list(csv.reader(held(path).decode("utf-8", "replace").splitlines()))
    wrong = next((at for at, row in enumerate(rows, 1) if len(row) != 2), None)
    if wrong is not None:
        raise Wrong(WORDS, f"{path} has no file,date on line {wrong}")
    return {os.path.basename(name): tables.date_of(date) or date for name, date in rows}


def many(asked: argparse.Namespace) -> int:
    """A row for each of many snapshots."""
    questions, dates = asked_of(asked), dates_of(asked.dates)
    try:
        rows = bulk.rows(
            asked.paths,
            asked.table,
            questions,
            asked.jobs,
            asked.scheduler,
            asked.orgs,
            dates,
            asked.resume,
            quiet=False,
        )
    except bulk.Failed as failed:
        raise Wrong(failed.status, str(failed)) from None
    except tables.Faulty as faulty:
        raise Wrong(READ, str(faulty)) from None
    except OSError as why:
        raise Wrong(WRITTEN, f"{why.filename or asked.table} could not be read or written: {why.strerror}") from None
    except KeyboardInterrupt:
        raise Wrong(130, f"ended; --resume goes on with the rows of {asked.table}.part") from None
    undated = sum(not row["date"] for row in rows)
    if undated:
        print(f"quorums: {undated} of {len(rows)} files have no date in their names: give --dates", file=sys.stderr)
    return 0


def history(asked: argparse.Namespace) -> int:
    """A page of a table over time."""
    from . import history_page

    try:
        rows = tables.read(asked.table)
        write(asked.page, history_page.page(rows, asked.table, asked.page, asked.reports).encode())
        if asked.plots is not None:
            history_page.plots(rows, asked.plots)
    except tables.Faulty as faulty:
        raise Wrong(READ, str(faulty)) from None
    except ImportError:
        raise Wrong(READ, "--plots needs matplotlib, which is not installed") from None
    except OSError as why:
        raise Wrong(READ, f"{why.filename or asked.table} could not be read or written: {why.strerror}") from None
    return 0


def near(argv: Sequence[str], parts: Iterable[str]) -> str:
    """The command that was meant, if one is near."""
    found = difflib.get_close_matches(argv[0], parts, 1) if argv else []
    return f": {found[0]} is one" if found else ""


def main(argv: Optional[Sequence[str]] = None) -> int:
    given = list(sys.argv[1:] if argv is None else argv)
    try:
        words = parser()
        known = words.get_default("known")
        if not given or not given[0].startswith("-") and given[0] not in known:
            raise Wrong(
                WORDS,
                (f"no command is called {given[0]}{near(given, known)}" if given else "which command?")
                + " (quorums --help)",
            )
        asked = words.parse_args(given)
        return int(asked.run(asked))
    except Wrong as wrong:
        print(f"quorums: {wrong}", file=sys.stderr)
        return wrong.status
    except TypeError as wrong_type:
        print(f"quorums: {wrong_type}", file=sys.stderr)
        return WORDS
    except MemoryError:
        print("quorums: there was not enough memory", file=sys.stderr)
        return MEMORY
    except OSError as why:
        print(f"quorums: an output could not be written: {why.strerror or why}", file=sys.stderr)
        try:
            sys.stdout.close()
        except OSError:
            pass
        return WRITTEN
    except KeyboardInterrupt:
        return 130
