"""The table of many snapshots: its columns, its files, and the same as a DataFrame."""

from __future__ import annotations

import csv
import datetime
import io
import os
import re
from typing import TYPE_CHECKING, Iterable

from .summary import LISTS, Asked

if TYPE_CHECKING:
    import pandas

Row = dict[str, str]

HEAD = ("date", "file", "sha256", "orgs_sha256", "asked", "fault", "without_set", "silent")
# What is no count among the columns.
TEXTS = {"date", "file", "sha256", "orgs_sha256", "asked", "fault", "config", "view"}
# A date in a file's name, and the time after it if there is one.
DATE = re.compile(r"(?<!\d)(\d{4})-?(\d\d)-?(\d\d)(?:[T_ -]?(\d\d)[-:.]?(\d\d)(?:[-:.]?(\d\d))?)?(?!\d)")


class Faulty(ValueError):
    """A table that is not one of these."""


def columns(asked: Asked) -> list[str]:
    """The columns of a table, in order."""
    found = [
        *HEAD,
        "config",
        "view",
        "nodes",
        "in_view",
        "quorum",
        "outside",
        "fork",
        "fork_certificate",
        "file_fork",
        "file_fork_certificate",
        "top_tier",
    ]
    for by in asked.by:
        found += [f"top_tier_by_{by}", f"groups_by_{by}", f"alone_by_{by}"]
    found += ["smallest_quorum", "smallest_quorum_certificate"]
    for name in LISTS:
        for head in (name, *(f"{name}_by_{by}" for by in asked.by)):
            found += [f"{head}_smallest", f"{head}_number", f"{head}_certificate"] + [f"{head}_orgs"] * (head != name)
    return found


def date_of(name: str) -> str:
    """The date, and the time if it is there, in a file's name; empty if there is none."""
    for found in DATE.findall(os.path.basename(name)):
        try:
            year, month, day, hour, minute, second = (int(it or 0) for it in found)
            at = datetime.datetime(year, month, day, hour, minute, second)
        except ValueError:
            continue
        return at.isoformat() if found[3] else at.date().isoformat()
    return ""


def as_text(wanted: list[str], rows: Iterable[Row]) -> str:
    """The table as CSV; a cell that a row does not have is empty."""
    text = io.StringIO()
    writer = csv.DictWriter(text, wanted, restval="", lineterminator="\n")
    writer.writeheader()
    writer.writerows(rows)
    return text.getvalue()


def read(path: str) -> list[Row]:
    """The rows of a table. Raises Faulty for a file that is none."""
    with open(path, encoding="utf-8", newline="") as it:
        try:
            reader = csv.DictReader(it, strict=True)
            rows = list(reader)
        except (csv.Error, UnicodeDecodeError) as why:
            raise Faulty(f"{path} is no table: {why}") from None
    if not reader.fieldnames or tuple(reader.fieldnames[: len(HEAD)]) != HEAD:
        raise Faulty(f"{path} is no table of quorums bulk: its columns are others")
    if any(None in row or None in row.values() for row in rows):
        raise Faulty(f"{path} is no whole table: a row has another number of cells")
    return rows


def is_text(column: str) -> bool:
    return column in TEXTS or column.endswith(("_certificate", "_orgs"))


def frame(path: str) -> pandas.DataFrame:
    """The table as a pandas DataFrame: dates as dates, numbers as numbers, and whether it can fork as a truth value.

    Where a number or truth value is missing, the column of the same name with `_status` has the word that says why:
    `unknown`, `none`,
    `not asked` or `refused`; else it has `known`, or nothing in the row of a fault.
    """
    import pandas

    table = pandas.read_csv(path, dtype=str, keep_default_na=False)
    for column in [it for it in table.columns if not is_text(it)]:
        cells = table[column]
        if column in ("fork", "file_fork"):
            values = cells.map({"yes": True, "no": False}).astype("boolean")
        else:
            values = pandas.to_numeric(cells, errors="coerce").astype("Int64")
        table[column] = values
        if column not in HEAD:
            table[column + "_status"] = cells.where(values.isna(), "known")
    table["date"] = pandas.to_datetime(table["date"], errors="coerce")
    return table
