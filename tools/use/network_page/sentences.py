"""The sentences of web/words/sentences.js, which both pages say, and how what stands in them is put into words.

web/words/saying.js does the same.
"""

from __future__ import annotations

import html
import json
import math
import os
import re
from typing import Any, TYPE_CHECKING

if TYPE_CHECKING:
    from network_page.page import Names

PLACE = os.path.join(
    os.path.dirname(os.path.realpath(__file__)), os.pardir, os.pardir, os.pardir, "web", "words", "sentences.js"
)
# So many nodes are named one by one, more of them by their organisations; so many sets one by one, more of them by
# their number.
MOST_NAMED = 12
MOST_SETS = 30


def table() -> dict[str, dict[str, Any]]:
    """All that is worded for people, as JSON: each text with places in braces."""
    with open(PLACE, encoding="utf-8") as it:
        text = it.read()
    found: dict[str, dict[str, Any]] = json.loads(text[text.index("{") : text.rindex("}") + 1])
    return found


def filled(text: str, **values: Any) -> str:
    """A text with its places filled."""
    return re.sub(r"\{(\w+)\}", lambda it: str(values[it.group(1)]), text)


def counted(number: int, what: str) -> str:
    """A number with its word, as `1 node` and `3 nodes`."""
    return f"{number} {what}{'' if number == 1 else 's'}"


def by_size(sets: list[list[str]]) -> list[list[list[str]]]:
    """The sets in groups, the smallest first."""
    sizes: dict[int, list[list[str]]] = {}
    for some in sets:
        sizes.setdefault(len(some), []).append(some)
    return [sizes[size] for size in sorted(sizes)]


class Saying:
    """Puts the data of sentences into words, as HTML. A node or organisation is shown by the page's names, which are
    sorted by `order`."""

    def __init__(self, names: Names, files: dict[str, str]) -> None:
        self.names = names
        self.files = files
        held = table()
        self.table, self.answers = held["summary"], held["answers"]

    def line(self, sentences: list[dict[str, Any]]) -> tuple[str, str]:
        """The label of a line, and its sentences one after another."""
        held = self.table[sentences[0]["line"]]
        told = ((*held[it["say"]], it) for it in sentences)
        return held["label"], " ".join(self.sentence(mood, text, data) for mood, text, data in told)

    def sentence(self, mood: str, text: str, data: dict[str, Any]) -> str:
        words = re.sub(
            r"\{(\w+)(?:\|(\w+))?\}",
            lambda it: self.put(it.group(2), data[it.group(1)] if it.group(2) != "file" else it.group(1)),
            text,
        )
        return f'<span class="{mood}">{words}</span>' if mood else words

    def put(self, how: str | None, value: list[Any] | int | str) -> str:
        if how is None:
            return str(value)
        return str(getattr(self, "as_" + how)(value))

    def as_file(self, name: str) -> str:
        return html.escape(self.files[name])

    def as_node(self, key: str) -> str:
        return self.names.node(key)

    def as_nodes(self, keys: list[str] | int) -> str:
        return self.names.nodes(keys) if not isinstance(keys, int) else counted(keys, "node")

    def as_networks(self, number: int) -> str:
        return counted(number, "network")

    def as_watchers(self, number: int) -> str:
        return counted(number, "watcher")

    def as_validators(self, number: int) -> str:
        return counted(number, "validator")

    def as_organisations(self, number: int) -> str:
        return counted(number, "organisation")

    def as_sets_of(self, number: int) -> str:
        return counted(number, "set")

    def as_orgs(self, ids: list[str]) -> str:
        return ", ".join(self.names.text("org:" + it) for it in ids)

    def as_counts(self, pairs: list[tuple[str, int]]) -> str:
        return ", ".join(f"{self.names.text('org:' + it)} ({number})" for it, number in pairs)

    def as_sets(self, sets: list[list[str]]) -> str:
        """Sets of organisations and nodes, all of them by name up to some tens: so many that are just any so many of
        some are in few words."""
        parts, left = [], MOST_SETS
        for group in by_size(sets):
            every, size = sorted({it for some in group for it in some}, key=self.names.order), len(group[0])
            if len(group) == math.comb(len(every), size):
                parts.append(self.any_of(every, size))
            elif len(group) <= left:
                left -= len(group)
                parts.append(
                    ", or ".join(
                        self.group(some)
                        for some in sorted(group, key=lambda some: sorted(map(self.names.order, some)))
                    )
                    + " together"
                )
            else:
                parts.append(f"{counted(len(group), 'set')} of {size}")
        return (f"{len(sets)} sets: " if len(sets) > 1 else "") + "; or ".join(parts)

    def any_of(self, every: list[str], size: int) -> str:
        names = ", ".join(map(self.names.text, every))
        if len(every) == size:
            return self.group(every) + (" alone" if size == 1 else " together")
        return f"each of {names} alone" if size == 1 else f"any {size} of these {len(every)} together: {names}"

    def group(self, some: list[str]) -> str:
        return " and ".join(self.names.text(it) for it in sorted(some, key=self.names.order))
