"""Answers and summaries as text with names, as CSV and as one JSON document."""

from __future__ import annotations

import csv
import io
import json
from typing import Any, Iterable, Optional

from .replies import NAMES, Answer, Word

ANSWER_SCHEMA = "quorums/answer/1"


def named(word: Word, names: dict[str, str]) -> str:
    """A key, or a group's text, by its name."""
    return names.get(str(word), str(word))


def text_lines(answer: Answer, names: dict[str, str]) -> str:
    """The lines of an answer with names, which may have spaces, so that commas stand between."""
    lines = []
    for head, rest in answer.lines:
        joined = (
            ", ".join(named(it, names) for it in rest) if head in NAMES else " ".join(named(it, names) for it in rest)
        )
        lines.append(f"{head} {joined}".rstrip())
    return "".join(line + "\n" for line in lines)


def as_csv(header: list[str], rows: Iterable[Iterable[Any]]) -> str:
    text = io.StringIO()
    writer = csv.writer(text, lineterminator="\n")
    writer.writerow(header)
    writer.writerows(rows)
    return text.getvalue()


def answer_csv(answer: Answer, names: dict[str, str]) -> str:
    """A row for each word of an answer: its line, the line's first word, the word, and its name."""
    return as_csv(
        ["line", "word", "value", "name"],
        [(at, head, value, names.get(str(value), "")) for at, head, value in answer.table()],
    )


def as_json(document: dict[str, Any]) -> str:
    return json.dumps(document, indent=1) + "\n"


def answer_document(
    answer: Answer, files: dict[str, Any], names: dict[str, str], certificate: Optional[dict[str, Any]]
) -> dict[str, Any]:
    """An answer as data: what was asked of which files, what was answered, and the names of the keys that it has."""
    said = {str(word) for _, rest in answer.lines for word in rest}
    return {
        "schema": ANSWER_SCHEMA,
        "command": answer.command,
        "words": list(answer.words),
        "files": files,
        "status": answer.status,
        "known": answer.known,
        "value": answer.value,
        "units": answer.units,
        "lines": [{"word": head, "values": list(rest)} for head, rest in answer.lines],
        "text": answer.text,
        "certificate": certificate,
        "names": {key: name for key, name in sorted(names.items()) if key in said},
    }


def refusal_document(command: str, words: list[str], files: dict[str, Any], status: int, text: str) -> dict[str, Any]:
    """A question that is not answered, as data."""
    return {
        "schema": ANSWER_SCHEMA,
        "command": command,
        "words": words,
        "files": files,
        "status": status,
        "known": False,
        "value": None,
        "units": None,
        "lines": [],
        "text": text,
        "certificate": None,
        "names": {},
    }


def why_unknown(found: dict[str, Any]) -> str:
    if found["status"] != "unknown":
        return str(found["status"]) + (f": {found['text']}" if "text" in found else "")
    ended = found.get("ended")
    return "unknown" + (f" after {found['units']} units" if ended == "budget" else f": {ended}" if ended else "")


def joined(names: Iterable[str], called: dict[str, str]) -> str:
    return ", ".join(named(it, called) for it in names) or "nobody"


def list_text(name: str, by: str, found: dict[str, Any], called: dict[str, str]) -> str:
    head = name if by == "node" else f"{name} by {by}"
    if found["status"] != "known":
        return f"{head}: {why_unknown(found)}"
    if not found["number"]:
        return f"{head}: none"
    first = min(found["sets"], key=len)
    return f"{head}: {found['number']} minimal, the smallest of {found['smallest']}: {joined(first, called)}"


def fork_text(fork: dict[str, Any], quorum: int, called: dict[str, str]) -> str:
    """Whether it can fork, with two quorums that share no node."""
    if fork["status"] != "known":
        return why_unknown(fork)
    if not fork["value"]:
        return "no" if quorum else "no, there is no quorum"
    return f"yes: {joined(fork['first'], called)} / {joined(fork['second'], called)}"


def summary_text(found: dict[str, Any], lists: Iterable[str], called: dict[str, str]) -> str:
    """A summary in some lines."""
    nodes, fork, tier, least = found["nodes"], found["fork"], found["top_tier"], found["smallest_quorum"]
    lines = [
        f"nodes: {nodes['number']}; {len(nodes['outside'])} outside the greatest quorum; "
        f"{found['in_file']['silent']} silent by the file"
    ]
    if found["view"] is not None:
        lines.append(
            f"view: {named(found['view'], called)}, and the {nodes['in_view']} nodes on whom it depends; "
            f"{nodes['quorum']} in their greatest quorum"
        )
    lines += [
        f"groups by {by}: {it['number']}; {len(it['alone'])} of the nodes in none"
        for by, it in found["groups"].items()
    ]
    lines.append("can fork: " + fork_text(fork, nodes["quorum"], called))
    if found["view"] is not None:
        lines.append("whole file can fork: " + fork_text(found["file_fork"], nodes["quorum"], called))
    known = tier["status"] == "known"
    lines.append(
        "top tier: "
        + (
            f"{tier['size']} nodes" + "".join(f"; {len(it)} by {by}" for by, it in tier["by"].items())
            if known
            else str(tier["status"])
        )
    )
    if least["status"] == "known":
        lines.append(
            "smallest quorum: "
            + ("none" if least["size"] is None else f"{least['size']}: {joined(least['set'], called)}")
        )
    else:
        lines.append("smallest quorum: " + why_unknown(least))
    lines += [list_text(name, by, it, called) for name in lists for by, it in found[name].items()]
    return "".join(line + "\n" for line in lines)
