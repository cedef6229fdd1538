"""Many snapshots: a row of a table for each, and its certificates in a folder, by their digests.

Each task is one file in, its row and its certificates out. It runs in processes here or on a cluster of
dask.distributed, is done
again where a worker is lost, and its row is written once, after the files that it names.
"""

from __future__ import annotations

import concurrent.futures
import contextlib
import fcntl
import hashlib
import importlib
import json
import logging
import os
import stat
import sys
import time
from dataclasses import dataclass
from typing import IO, TYPE_CHECKING, Any, Callable, Generator, Iterable, Iterator, Optional

from . import tables, worker
from .asking import Refused
from .snapshots import Snapshot, digest
from .summary import Asked, in_file, row_of
from .tables import Row

if TYPE_CHECKING:
    import pandas

# The program reads no file with more bytes.
MOST_BYTES = 1 << 24
# A task whose worker is lost is begun this often.
ATTEMPTS = 3
# Seconds in which a scheduler has to answer.
REACHED = 10
LOST = f"its worker was lost {ATTEMPTS} times"

Found = tuple[Row, dict[str, bytes]]
Answers = Generator[tuple[str, Found], None, None]


class Failed(Exception):
    """A run that cannot begin or go on, with the status that says why."""

    def __init__(self, status: int, text: str) -> None:
        super().__init__(text)
        self.status = status


@dataclass(frozen=True)
class Task:
    """What is asked once: the files of the first snapshot that has it, and the digest of all that is read of them."""

    key: str
    data: bytes
    orgs: bytes


@dataclass(frozen=True)
class File:
    """A snapshot: its path, the path of its organisations if it has some, and its date."""

    path: str
    orgs: Optional[str]
    date: str


def files_of(paths: Iterable[str], orgs: Optional[str] = None, dates: Optional[dict[str, str]] = None) -> list[File]:
    """The snapshots of folders and files, by date and path. In a folder these are all files NAME.json, with
    NAME-orgs.json for organisations; a pipe or a socket of such a name is none.

    Raises OSError for a folder that cannot be read.
    """
    names: list[str] = []
    for path in paths:
        if os.path.isdir(path):
            names += [
                os.path.join(path, it)
                for it in os.listdir(path)
                if it.endswith(".json") and not it.endswith("-orgs.json") and is_read(os.path.join(path, it))
            ]
        else:
            names.append(path)
    found = []
    for name in dict.fromkeys(names):
        beside = name.removesuffix(".json") + "-orgs.json"
        date = (dates or {}).get(os.path.basename(name)) or tables.date_of(name)
        found.append(File(name, orgs or (beside if os.path.exists(beside) else None), date))
    return sorted(found, key=lambda it: (it.date == "", it.date, it.path))


def is_read(path: str) -> bool:
    """Whether it has bytes of its own, or else a fault that its row tells: a pipe or socket may wait for ever."""
    if not os.path.exists(path):
        return True
    mode = os.stat(path).st_mode
    return not (stat.S_ISFIFO(mode) or stat.S_ISSOCK(mode))


def held(path: Optional[str]) -> bytes:
    """The bytes of a file, one more at most than the program reads."""
    if path is None:
        return b""
    with open(path, "rb") as it:
        return it.read(MOST_BYTES + 1)


def key_of(snapshot: Snapshot, asked: Asked) -> str:
    """The digest of what is read of a snapshot, and of what is asked."""
    whole = hashlib.sha256(snapshot.reduced(asked.as_is))
    for by in asked.by:
        groups = snapshot.groups(by)
        whole.update(digest(groups.orgs).encode())
    whole.update(json.dumps([asked.text(), [len(snapshot.groups(by).alone) for by in asked.by]]).encode())
    return whole.hexdigest()


def local(tasks: Iterator[Task], asked: Asked, jobs: int) -> Answers:
    """What is found, in any order, by this many processes."""
    stop = worker.Stop()

    def attempt(task: Task) -> tuple[str, Found]:
        for _ in range(ATTEMPTS):
            try:
                return task.key, worker.run("row", task.data, task.orgs, asked, stop=stop)
            except worker.Lost:
                pass
        return task.key, ({"fault": LOST}, {})

    with concurrent.futures.ThreadPoolExecutor(jobs) as pool:
        waiting: set[concurrent.futures.Future[tuple[str, Found]]] = set()
        try:
            for task in tasks:
                waiting.add(pool.submit(attempt, task))
                if len(waiting) > 2 * jobs:
                    done, waiting = concurrent.futures.wait(waiting, return_when=concurrent.futures.FIRST_COMPLETED)
                    yield from (it.result() for it in done)
            yield from (it.result() for it in concurrent.futures.as_completed(waiting))
        finally:
            for it in waiting:
                it.cancel()
            stop.end()


def cluster(tasks: Iterator[Task], asked: Asked, address: str) -> Answers:
    """What is found, in any order, by the workers of a scheduler."""
    try:
        distributed: Any = importlib.import_module("distributed")
    except ImportError:
        raise Failed(6, "--scheduler needs dask.distributed, which is not installed") from None
    logging.getLogger("distributed").setLevel(logging.CRITICAL)
    try:
        # (a client that cannot be made of an address says so twice, and late)
        distributed.comm.get_address_host(address)
        client = distributed.Client(address, timeout=REACHED, set_as_default=False)
    except (OSError, ValueError, TypeError, ImportError) as why:
        raise Failed(
            6, f"the scheduler {address} cannot be reached: {str(why).strip() or type(why).__name__}"
        ) from None
    with client:
        most = 4 * max(1, sum(client.nthreads().values()))
        running = distributed.as_completed(loop=client.loop)
        for task in tasks:
            running.add(
                client.submit(row_of, task.data, task.orgs, asked, key="quorums-row-" + task.key, retries=ATTEMPTS - 1)
            )
            if running.count() >= most:
                yield gathered(distributed, next(running), address)
        for future in running:
            yield gathered(distributed, future, address)


def gathered(distributed: Any, future: Any, address: str) -> tuple[str, Found]:
    """What a task of the cluster found."""
    key = future.key.removeprefix("quorums-row-")
    try:
        return key, future.result()
    except distributed.scheduler.KilledWorker:
        return key, ({"fault": LOST}, {})
    except (concurrent.futures.CancelledError, OSError) as why:
        raise Failed(6, f"the scheduler {address} was lost: {str(why).strip() or type(why).__name__}") from None


def keep(folder: str, files: dict[str, bytes]) -> None:
    """Writes files by their digests."""
    os.makedirs(folder, exist_ok=True)
    for name, data in files.items():
        path = os.path.join(folder, name)
        if not (os.path.exists(path) and os.path.getsize(path) == len(data)):
            with open(path + ".part", "wb") as it:
                it.write(data)
            os.replace(path + ".part", path)


class Journal:
    """The rows that are finished while a run goes on: a line of JSON each, beside the table."""

    def __init__(self, table: str, resume: bool) -> None:
        self.path = table + ".part"
        self.file: IO[str] = open(self.path, "a+", encoding="utf-8")
        try:
            fcntl.flock(self.file, fcntl.LOCK_EX | fcntl.LOCK_NB)
        except OSError:
            raise Failed(7, f"another run writes {table}") from None
        if not resume:
            self.file.truncate(0)

    def rows(self) -> list[Row]:
        """The whole rows that are there; what a run left of another is cut off."""
        self.file.seek(0)
        rows, end = [], 0
        for line in self.file.read().split("\n")[:-1]:
            try:
                rows.append(dict(json.loads(line)))
            except (ValueError, TypeError):
                break
            end += len(line.encode()) + 1
        self.file.truncate(end)
        self.file.seek(0, os.SEEK_END)
        return rows

    def add(self, row: Row) -> None:
        self.file.write(json.dumps(row) + "\n")
        self.file.flush()


class Progress:
    """One line on standard error that says what is left: rewritten on a terminal, else every half minute."""

    def __init__(self, total: int, quiet: bool) -> None:
        self.total, self.quiet = total, quiet
        self.rows = self.faults = self.taken = 0
        self.began = self.said = time.monotonic()

    def row(self, row: Row, is_taken: bool) -> None:
        self.rows += 1
        self.faults += bool(row.get("fault"))
        self.taken += is_taken
        now = time.monotonic()
        if not self.quiet and (sys.stderr.isatty() or now - self.said > 30):
            self.said = now
            self.say(now)

    def say(self, now: float, end: bool = False) -> None:
        asked = self.rows - self.taken
        left = (now - self.began) / asked * (self.total - self.rows) if asked else 0
        text = f"bulk: {self.rows} of {self.total} rows, {self.faults} with a fault, " + (
            f"{now - self.began:.0f} s" if end else f"some {left:.0f} s left"
        )
        print(
            f"\r{text}\033[K" if sys.stderr.isatty() else text,
            end="" if sys.stderr.isatty() and not end else "\n",
            file=sys.stderr,
            flush=True,
        )

    def end(self) -> None:
        if not self.quiet:
            self.say(time.monotonic(), True)


class Run:
    """A run over some files into one table."""

    def __init__(self, files: list[File], table: str, asked: Asked, resume: bool = False, quiet: bool = False) -> None:
        self.files, self.table, self.asked, self.resume = files, table, asked, resume
        self.folder = os.path.splitext(table)[0] + "-certificates"
        self.progress = Progress(len(files), quiet)
        self.rows: list[Row] = []
        # For each key the heads of the rows that wait for it, and the cells once they are found.
        self.heads: dict[str, list[Row]] = {}
        self.cells: dict[str, Row] = {}

    def before(self, journal: Journal) -> dict[tuple[str, str, str], Row]:
        """The rows that are there from an earlier run with the same questions, by path and digest of the file."""
        rows = journal.rows()
        if self.resume and os.path.exists(self.table):
            rows += tables.read(self.table)
        return {
            (row["file"], row["sha256"], row["orgs_sha256"]): row
            for row in rows
            if row["asked"] == self.asked.text() and row["sha256"]
        }

    def add(self, journal: Journal, head: Row, cells: Row) -> None:
        """Writes a row."""
        row = {**head, **cells}
        journal.add(row)
        self.rows.append(row)
        self.progress.row(row, False)

    def tasks(self, journal: Journal, before: dict[tuple[str, str, str], Row]) -> Iterator[Task]:
        """What is to be asked. On the way the rows are written that need no asking: faults, and what has been
        asked."""
        for file in self.files:
            head = {
                "date": file.date,
                "file": file.path,
                "sha256": "",
                "orgs_sha256": "",
                "asked": self.asked.text(),
                "fault": "",
            }
            try:
                data, orgs = held(file.path), held(file.orgs)
                head.update({"sha256": digest(data), "orgs_sha256": digest(orgs) if orgs else ""})
                kept = before.get((file.path, head["sha256"], head["orgs_sha256"]))
                if kept is not None:
                    self.rows.append({**kept, "date": file.date})
                    self.progress.row(kept, True)
                    continue
                snapshot = Snapshot(data, orgs)
                head.update({name: str(value) for name, value in zip(tables.HEAD[6:], in_file(snapshot).values())})
                key = key_of(snapshot, self.asked)
            except (OSError, Refused) as why:
                self.add(journal, head, {"fault": f"{why.strerror}" if isinstance(why, OSError) else str(why)})
                continue
            if key in self.cells:
                self.add(journal, head, self.cells[key])
            elif key in self.heads:
                self.heads[key].append(head)
            else:
                self.heads[key] = [head]
                yield Task(key, data, orgs)

    def run(self, found: Callable[[Iterator[Task]], Answers]) -> list[Row]:
        """Asks all, writes the table, and gives its rows."""
        journal = Journal(self.table, self.resume)
        with journal.file, contextlib.closing(found(self.tasks(journal, self.before(journal)))) as answers:
            for key, (cells, files) in answers:
                keep(self.folder, files)
                self.cells[key] = cells
                for head in self.heads.pop(key):
                    self.add(journal, head, cells)
            self.rows.sort(key=lambda row: (row["date"] == "", row["date"], row["file"]))
            with open(self.table + ".new", "w", encoding="utf-8", newline="") as it:
                it.write(tables.as_text(tables.columns(self.asked), self.rows))
            os.replace(self.table + ".new", self.table)
            os.remove(journal.path)
        self.progress.end()
        return self.rows


def rows(
    paths: Iterable[str],
    table: str,
    asked: Asked = Asked(),
    jobs: Optional[int] = None,
    scheduler: Optional[str] = None,
    orgs: Optional[str] = None,
    dates: Optional[dict[str, str]] = None,
    resume: bool = False,
    quiet: bool = True,
) -> list[Row]:
    """Writes the table of the snapshots in folders and files, and gives its rows. Raises Failed or OSError where it
    cannot."""
    run = Run(files_of(paths, orgs, dates), table, asked, resume, quiet)
    if scheduler is None:
        return run.run(lambda tasks: local(tasks, asked, jobs or len(os.sched_getaffinity(0))))
    address = scheduler
    return run.run(lambda tasks: cluster(tasks, asked, address))


def bulk(paths: Iterable[str], table: str, **how: object) -> pandas.DataFrame:
    """The same as a pandas DataFrame: see `rows` for the arguments, and `tables.frame` for the columns."""
    rows(paths, table, **how)  # type: ignore[arg-type]
    return tables.frame(table)
