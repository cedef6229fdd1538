"""The picture of a network: organisations as boxes, each node as a circle with its name, in as many columns as there
is room for."""

from __future__ import annotations

import html
from collections.abc import Collection, Sequence
from typing import TYPE_CHECKING

from network_page.network import natural

if TYPE_CHECKING:
    from network_page.asking import Verdict
    from network_page.network import Network

# Above so many nodes of no organisation their circles have no names below them; who points at one is told.
MOST_NAMED = 36


class Paint:
    """What is told of the nodes: who is in the greatest quorum, who is down, in a disjoint pair, in a set that stops
    the network, and who is outside of what is asked about."""

    def __init__(
        self,
        greatest: set[str],
        verdict: Verdict | None,
        marked: list[str],
        marked_as: str,
        within: set[str],
        down: Collection[str] = (),
        unknown: Sequence[str] = (),
    ) -> None:
        self.greatest = set(greatest)
        self.first = set(verdict.first) if verdict else set()
        self.second = set(verdict.second) if verdict else set()
        self.marked = set(marked)
        self.marked_as = marked_as
        self.within = within
        self.down = set(down)
        self.unknown = set(unknown)

    def kind(self, key: str) -> tuple[str, str, str]:
        """The class of the circle, the letter in it, and what both say."""
        kind, letter, says = self.place(key)
        return (kind + " down", letter or "–", says + ", down") if key in self.down else (kind, letter, says)

    def place(self, key: str) -> tuple[str, str, str]:
        if key in self.first:
            return "one", "1", "in one quorum of the two"
        if key in self.second:
            return "two", "2", "in the other quorum of the two"
        if key in self.greatest:
            return "q", "", "in the greatest quorum"
        if key in self.unknown:
            return "n u", "?", "of which the quorum set is not known"
        return (
            ("n", "", "in no quorum") if key in self.within else ("x", "", "outside, as nobody of those depends on it")
        )

    def says(self, key: str) -> str:
        """The state of a node in words."""
        return self.kind(key)[2] + (", " + self.marked_as if key in self.marked else "")

    def circle(self, key: str) -> str:
        kind, letter, _ = self.kind(key)
        return f'<span class="dot {kind}{" ring" if key in self.marked else ""}" aria-hidden="true">{letter}</span>'


def label(network: Network, key: str) -> str:
    """The name of a node without that of the organisation in whose box it stands, cut in the middle where it is
    long."""
    org, name = network.org_of.get(key), network.names[key]
    if org and name.startswith(org.name) and name != org.name:
        name = name[len(org.name) :].strip(" -_.:") or name
    return name if len(name) <= 20 else name[:11] + "…" + name[-8:]


def node(network: Network, paint: Paint, key: str, named: bool) -> str:
    name = network.names[key]
    title = f"{key if name == key else f'{name}, {key}'}: {paint.says(key)}"
    shown = html.escape(label(network, key)) if named else f'<span class="hidden">{html.escape(name)}</span>'
    return (
        f'<li title="{html.escape(title)}">{paint.circle(key)}{shown}<span class="hidden">:'
        f" {html.escape(paint.says(key))}</span></li>"
    )


def box(network: Network, paint: Paint, title: str, keys: list[str], named: bool) -> str:
    shown = sorted(keys, key=lambda key: (paint.place(key)[0][0] in "nx", natural(network.names[key])))
    return '<div class="org%s"><h3>%s</h3><ul>%s</ul></div>' % (
        "" if named else " rest",
        html.escape(title),
        "".join(node(network, paint, key, named) for key in shown),
    )


def legend(network: Network, paint: Paint) -> str:
    """What the circles mean, of those that are there."""
    rows: dict[str, str] = {}
    for key in network.keys:
        rows.setdefault(paint.place(key)[0], '<span class="dot %s" aria-hidden="true">%s</span>%s' % paint.place(key))
    shown = [rows[kind] for kind in ("one", "two", "q", "n", "n u", "x") if kind in rows]
    if paint.down:
        shown.append('<span class="dot down" aria-hidden="true">–</span>down, as the file marks it')
    if paint.marked:
        shown.append(f'<span class="dot q ring" aria-hidden="true"></span>{html.escape(paint.marked_as)}')
    return f'<ul class="legend">{"".join(f"<li>{row}</li>" for row in shown)}</ul>'


def draw(network: Network, paint: Paint) -> str:
    """The whole picture, whose nodes can be read without it too."""
    boxes = "".join(box(network, paint, org.name, org.keys, True) for org in network.orgs if org.keys)
    outside = network.outside()
    rest = (
        box(
            network,
            paint,
            f"Of no organisation: {len(outside)}" if network.orgs else "Nodes",
            outside,
            len(outside) <= MOST_NAMED,
        )
        if outside
        else ""
    )
    parts = [f'<div class="orgs">{boxes}</div>' if boxes else "", rest, legend(network, paint)]
    return (
        '<figure role="group" aria-label="The nodes of the network by organisation" style="margin:1em'
        f' 0">{"".join(parts)}</figure>'
    )
