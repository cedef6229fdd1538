"""A network's summary as data: each value is the program's answer, or says why it is not known."""

from __future__ import annotations

from dataclasses import dataclass, field
from typing import Any, Callable, Optional

from . import usage
from .asking import Refused, TooLarge
from .network import Quorums
from .replies import Answer
from .snapshots import Groups, Snapshot, digest

SCHEMA = "quorums/summary/1"
# Units of each search, if no number is given.
BUDGET = 50_000
# The commands that list sets of nodes; by `org-` before it such a command lists sets of groups.
LISTS = ("blocking", "splitting")
# What stands where the program has no such command.
NOT_ASKED = {"status": "not asked"}


@dataclass(frozen=True)
class Asked:
    """What is asked of each network: by which groups, as which node sees it, and with how much work for each search.

    Without `from_node` that is the node of the greatest quorum that most others name; with `whole` all is asked of
    the whole file.
    """

    by: tuple[str, ...] = ("org",)
    as_is: bool = False
    from_node: Optional[str] = None
    whole: bool = False
    budget: int = BUDGET
    seconds: Optional[float] = None

    def text(self) -> str:
        """One line that is the same for the same questions."""
        words = [f"by={','.join(self.by)}", f"budget={self.budget}"]
        words += ["as-is"] * self.as_is + ["whole"] * self.whole
        words += [f"from={self.from_node}"] if self.from_node is not None else []
        words += [f"seconds={self.seconds:g}"] if self.seconds is not None else []
        return " ".join(words)


@dataclass
class Kept:
    """Files by their digests: certificates, and what they speak of."""

    files: dict[str, bytes] = field(default_factory=dict)

    def keep(self, data: bytes, ending: str) -> str:
        found = digest(data)
        self.files[found + ending] = data
        return found


class Questions:
    """The questions of a summary, asked of one network as one node sees it."""

    def __init__(self, config: bytes, asked: Asked, kept: Kept) -> None:
        self.config, self.asked, self.kept = config, asked, kept
        self.view: Optional[str] = None

    def greatest(self) -> tuple[str, ...]:
        """The greatest quorum."""
        return tuple(map(str, self.ask("greatest")["greatest"]))

    def ask(self, command: str, orgs: bytes = b"", **options: object) -> Answer:
        """What is answered to a command, as the view's node sees it if the command can say so."""
        network = Quorums(self.config, orgs=orgs)
        row = usage.commands()[command]
        if self.view is not None and row.takes("from_node"):
            options["from_node"] = self.view
        if not row.is_search:
            return network.ask(command, options)
        options["budget"] = self.asked.budget
        return (
            network.ask(command, options)
            if self.asked.seconds is None
            else network.ask_in_time(command, options, self.asked.seconds)
        )

    def found(self, command: str, values: Callable[[Answer], dict[str, Any]], orgs: bytes = b"") -> dict[str, Any]:
        """What a search found, as data: the values where it is known, and why not where it is unknown."""
        if command not in usage.commands():
            return dict(NOT_ASKED)
        try:
            answer = self.ask(command, orgs)
        except TimeoutError:
            return {"status": "unknown", "ended": "seconds"}
        except TooLarge:
            return {"status": "unknown", "ended": "too large"}
        except Refused as refused:
            return {"status": "refused", "text": str(refused)}
        certificate = self.kept.keep(answer.certificate, ".cert")
        if not answer.known:
            return {"status": "unknown", "ended": "budget", "units": answer.units, "certificate": certificate}
        return {"status": "known", **values(answer), "certificate": certificate}


def verdict(answer: Answer) -> dict[str, Any]:
    """Whether the network can fork, and two quorums that share no node if it can."""
    if answer.yes:
        return {"value": False}
    return {"value": True, "first": list(answer["first"]), "second": list(answer["second"])}


def listed(answer: Answer) -> dict[str, Any]:
    """How many minimal sets there are, how small the smallest is, and the sets."""
    return {
        "number": len(answer.sets),
        "smallest": min(map(len, answer.sets), default=None),
        "sets": [list(it) for it in answer.sets],
    }


def smallest(answer: Answer) -> dict[str, Any]:
    """A smallest quorum; without any quorum its size is none."""
    return {"size": answer.size, "set": None if answer.size is None else list(answer.sets[0])}


def tier(blocking: dict[str, Any], groups: dict[str, Groups]) -> dict[str, Any]:
    """Who is in any minimal quorum. These are those in any minimal blocking set, since the lists determine each
    other."""
    if blocking["status"] != "known":
        return {"status": "unknown"}
    nodes = sorted({key for names in blocking["sets"] for key in names})
    inside = set(nodes)
    by = {}
    for name, it in groups.items():
        of = ["org:" + group for group, keys in it.members.items() if inside & set(keys)]
        by[name] = sorted([*of, *("node:" + key for key in inside & set(it.alone))])
    return {"status": "known", "size": len(nodes), "nodes": nodes, "by": by}


def answers(snapshot: Snapshot, asked: Asked, kept: Kept) -> dict[str, Any]:
    """All that is asked of a network. Raises Refused for a view of a node that is not there."""
    config = snapshot.reduced(asked.as_is)
    kept.keep(config, ".json")
    groups = {by: snapshot.groups(by) for by in asked.by}
    for it in groups.values():
        kept.keep(it.orgs, ".orgs.json")
    questions = Questions(config, asked, kept)
    in_file = questions.greatest()
    file_fork = questions.found("intersect", verdict)
    if not asked.whole and asked.from_node is None:
        questions.view = snapshot.central(in_file)
    elif asked.from_node is not None:
        questions.view = asked.from_node
    quorum = questions.greatest()
    members = snapshot.keys if questions.view is None else questions.ask("closure", node=questions.view)["closure"]
    blocking = questions.found("blocking", listed)
    found: dict[str, Any] = {
        "view": questions.view,
        "nodes": {
            "number": len(snapshot.keys),
            "in_view": len(members),
            "quorum": len(quorum),
            "outside": sorted(set(snapshot.keys) - set(in_file)),
        },
        "fork": questions.found("intersect", verdict) if questions.view is not None else file_fork,
        "file_fork": file_fork,
        "top_tier": tier(blocking, groups),
        "smallest_quorum": questions.found("least", smallest),
    }
    for name in LISTS:
        found[name] = {"node": blocking if name == "blocking" else questions.found(name, listed)}
        found[name].update(
            {
                by: {**questions.found("org-" + name, listed, it.orgs), "orgs": digest(it.orgs)}
                for by, it in groups.items()
            }
        )
    found["groups"] = {by: {"number": len(it.members), "alone": list(it.alone)} for by, it in groups.items()}
    return found


def summary(data: bytes, orgs: bytes = b"", asked: Asked = Asked(), kept: Optional[Kept] = None) -> dict[str, Any]:
    """The summary of a file of nodes as data; its certificates, and the files that they speak of, are put into `kept`.

    Raises Refused for a file that the program refuses.
    """
    snapshot = Snapshot(data, orgs)
    kept = Kept() if kept is None else kept
    found = answers(snapshot, asked, kept)
    head = {
        "schema": SCHEMA,
        "asked": asked.text(),
        "sha256": digest(data),
        "config": digest(snapshot.reduced(asked.as_is)),
    }
    return {**head, "in_file": in_file(snapshot), **found, "names": snapshot.names()}


def in_file(snapshot: Snapshot) -> dict[str, int]:
    """How many nodes of the file have no quorum set, and how many do not validate now, whatever is asked."""
    unset = snapshot.show["unset"][0]
    return {"without_set": int(unset), "silent": len(snapshot.silent())}


def cell(found: dict[str, Any], name: str) -> str:
    """A value in a table: where it is not known the word that says so, and none where there is no such set."""
    if found["status"] != "known":
        return str(found["status"])
    value = found[name]
    return "none" if value is None else {True: "yes", False: "no"}[value] if isinstance(value, bool) else str(value)


def list_cells(name: str, found: dict[str, Any]) -> dict[str, str]:
    """The cells of a list of sets, of nodes or by groups."""
    cells = {}
    for by, it in found.items():
        head = name if by == "node" else f"{name}_by_{by}"
        cells.update(
            {
                f"{head}_smallest": cell(it, "smallest"),
                f"{head}_number": cell(it, "number"),
                f"{head}_certificate": it.get("certificate", ""),
            }
        )
        if by != "node":
            cells[f"{head}_orgs"] = it["orgs"]
    return cells


def cells(found: dict[str, Any]) -> dict[str, str]:
    """A summary as the cells of a row."""
    nodes, tier_found = found["nodes"], found["top_tier"]
    row = {
        "config": found["config"],
        "view": found["view"] or "",
        "nodes": str(nodes["number"]),
        "in_view": str(nodes["in_view"]),
        "quorum": str(nodes["quorum"]),
        "outside": str(len(nodes["outside"])),
    }
    for name in ("fork", "file_fork"):
        row.update({name: cell(found[name], "value"), f"{name}_certificate": found[name].get("certificate", "")})
    row["top_tier"] = cell(tier_found, "size")
    for by, it in found["groups"].items():
        row[f"top_tier_by_{by}"] = (
            str(len(tier_found["by"][by])) if tier_found["status"] == "known" else str(tier_found["status"])
        )
        row.update({f"groups_by_{by}": str(it["number"]), f"alone_by_{by}": str(len(it["alone"]))})
    least = found["smallest_quorum"]
    row.update({"smallest_quorum": cell(least, "size"), "smallest_quorum_certificate": least.get("certificate", "")})
    for name in LISTS:
        row.update(list_cells(name, found[name]))
    return row


def row_of(data: bytes, orgs: bytes, asked: Asked) -> tuple[dict[str, str], dict[str, bytes]]:
    """The cells of a snapshot's row and the files that they name by their digests; or the cell of the fault alone."""
    kept = Kept()
    try:
        return cells(summary(data, orgs, asked, kept)), kept.files
    except Refused as refused:
        return {"fault": str(refused)}, {}
    except MemoryError:
        return {"fault": "there was not enough memory"}, {}
