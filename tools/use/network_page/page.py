"""Writes the page: one file with its style and picture in it, which loads nothing."""

from __future__ import annotations

import html
import os
import re
import time
import urllib.parse
from collections.abc import Callable, Iterable
from typing import Any, TYPE_CHECKING

from network_page import picture
from network_page.asking import KINDS_OF_ORGS
from network_page.network import natural, shown
from network_page.sentences import MOST_NAMED, Saying, by_size, counted, filled
from network_page.style import STYLE
from network_page.summary import summary, texts

if TYPE_CHECKING:
    from network_page.asking import Certificate, Program, Verdict
    from network_page.findings import Found, Leaving, OwnNode, Part, Together, Turn
    from network_page.network import Network, Organisation, QuorumSet

# So many sets that stop the network are listed, the smallest ones; the certificate has all.
MOST_LISTED = 60
# So many oddities of quorum sets are shown at once, and so many quorum sets that only watchers have.
MOST_ODD = 12
MOST_SETS = 40


def escaped(text: str) -> str:
    return html.escape(str(text))


def fold(head: str, body: str) -> str:
    return f"<details><summary>{head}</summary>{body}</details>"


def table(heads: list[str], rows: list[list[str]], kind: str = "") -> str:
    """A table whose first cell of each row is its heading; of facts, where no column has one."""
    head = "<thead><tr>%s</tr></thead>" % "".join(f'<th scope="col">{it}</th>' for it in heads) if heads else ""
    lines = "\n".join(
        f'<tr{mark}><th scope="row">{first}</th>{"".join(f"<td>{it}</td>" for it in rest)}</tr>'
        for mark, first, *rest in rows
    )
    return f'<table class="{kind}">{head}<tbody>{lines}</tbody></table>'


class Names:
    """Nodes and organisations as the page shows them."""

    def __init__(self, network: Network) -> None:
        self.network = network
        self.by_id = {"org:" + org.id: org for org in network.orgs}

    def node(self, key: str) -> str:
        """A node by its name, which leads to its key."""
        return f'<a class="node" href="#n{self.network.place[key]}">{escaped(self.network.names[key])}</a>'

    def text(self, text: str) -> str:
        """An organisation or node, as `org:` with an id or `node:` with a key."""
        return escaped(self.by_id[text].name) if text in self.by_id else self.node(text.partition(":")[2])

    def order(self, text: str) -> tuple[list[tuple[int, int, str]], str]:
        """By which those are sorted."""
        name = self.by_id[text].name if text in self.by_id else self.network.names[text.partition(":")[2]]
        return natural(name), text

    def each(self, keys: Iterable[str]) -> str:
        """Nodes in the order of their names."""
        return ", ".join(self.node(key) for key in sorted(keys, key=lambda key: self.order("node:" + key)))

    def nodes(self, keys: Iterable[str]) -> str:
        """Nodes by their names, or if they are many by their organisations."""
        keys = set(keys)
        if len(keys) <= MOST_NAMED:
            return self.each(keys) or "nobody"
        parts = []
        for org in self.network.orgs:
            own = keys & {key for key in org.keys if self.network.org_of[key] is org}
            if own:
                parts.append(
                    f"all of {escaped(org.name)}"
                    if len(own) == len(org.keys)
                    else f"{len(own)} of {escaped(org.name)}"
                )
        outside = len(keys - set(self.network.org_of))
        if outside and parts:
            parts.append(f"{outside} of no organisation")
        return counted(len(keys), "node") + (f" ({', '.join(parts)})" if parts else "")

    def quorum_set(self, held: QuorumSet) -> str:
        """A quorum set in words: so many of these, with an organisation's name for its keys."""
        parts = [self.inner(it) for it in held.inner] + [self.node(key) for key in held.validators]
        return "<b>%d of %d</b>: %s" % (
            held.threshold,
            len(parts),
            ", ".join(sorted(parts, key=lambda part: re.sub(r"<[^>]*>", "", part).lower())),
        )

    def inner(self, held: QuorumSet) -> str:
        orgs = {self.network.org_of.get(key) for key in held.validators}
        org = orgs.pop() if len(orgs) == 1 else None
        if org and not held.inner and held.validators == org.keys:
            return f"{escaped(org.name)} ({held.threshold} of {len(held.validators)})"
        return f"({self.quorum_set(held)})"


class Page:
    """The sections, each a text."""

    def __init__(
        self, files: dict[str, str], network: Network, shown: list[str], found: Found, program: Program
    ) -> None:
        self.title = escaped(files["config"])
        self.network = network
        self.shown = shown
        self.found = found
        self.program = program
        self.names = Names(network)
        self.saying = Saying(self.names, files)
        self.words = self.saying.answers
        self.data = summary(network, found)
        self.own = found.parts[0].own
        self.greatest = set().union(*(part.greatest for part in found.parts))

    # What is common to sections.

    def link(self, certificate: Certificate | None) -> str:
        """A certificate as a link."""
        if certificate is None:
            return ""
        return '<a class="small" href="%s">certificate</a>' % escaped(
            urllib.parse.quote(f"{self.program.beside.name}/{certificate.name}")
        )

    def heading(self, at: int) -> str:
        """Of several parts, which one this is."""
        if len(self.found.parts) == 1:
            return ""
        return f"<h3>{self.whose(at, self.found.parts[at])}</h3>"

    def whose(self, at: int, part: Part) -> str:
        """What a part is about."""
        if part.own is not None:
            return "As your node sees it"
        number = at + (1 if self.own is None else 0)
        return (
            f"Network {number} of {len(self.found.parts) - (self.own is not None)}: {self.names.nodes(part.greatest)}"
            if len(self.found.networks) > 1
            else "The network"
        )

    def by_part(self, section: Callable[..., Any]) -> str:
        """A section of each part that has one, under its heading."""
        parts = [(at, section(part)) for at, part in enumerate(self.found.parts)]
        return "".join(self.heading(at) + text for at, text in parts if text)

    def seen(self, verdict: Verdict) -> str:
        """Whom a verdict speaks of."""
        if verdict.view.node is not None:
            return f"As {self.names.node(verdict.view.node)} sees it"
        return (
            "In the whole file"
            if len(verdict.view.keys) == len(self.network.keys)
            else "Among the nodes that others name"
        )

    def about(self) -> str:
        """What the page is about."""
        texts = [self.about_view(part) for part in self.found.parts]
        if self.own is None and self.found.parts[0].view.node is not None:
            texts.append("Give <code>--node</code> to ask as your own node sees it.")
        if self.found.is_now:
            texts.append("<b>Asked as things are now</b>: the nodes that the file marks as down are taken as silent.")
        return " ".join(texts)

    def about_view(self, part: Part) -> str:
        view = part.view
        if view.node is None:
            return f"Each answer is about all {counted(len(self.network.keys), 'node')} of the file."
        often = (
            f", which {counted(self.network.named[view.node], 'other')} name,"
            if part.own is None and view.node in self.network.named
            else ""
        )
        return (
            f"Who can stop it is asked as {self.names.node(view.node)}{often} sees it: with all on whom it depends,"
            f" also through others, {len(view.keys)} of {counted(len(self.network.keys), 'node')}."
        )

    # The summary.

    def summary(self) -> str:
        unproved = (
            ""
            if self.program.is_proved()
            else (
                '<p class="bad">Nothing on this page is proved: it was made with a program compiled without its'
                " proofs. Check its certificates with the proved one.</p>"
            )
        )
        first = self.data["lines"] + (self.data["parts"][0]["lines"] if len(self.data["parts"]) == 1 else [])
        text = unproved + self.lines(first)
        if len(self.data["parts"]) > 1:
            text += "".join(self.heading(at) + self.lines(part["lines"]) for at, part in enumerate(self.data["parts"]))
        return f"{text}{self.unanswered()}<p>{self.about()}</p>"

    def lines(self, sentences: list[dict[str, Any]]) -> str:
        """Lines of the summary: a label, and what is said one sentence after another."""
        rows = [
            self.saying.line([it for it in sentences if it["line"] == line])
            for line in dict.fromkeys(it["line"] for it in sentences)
        ]
        return '<dl class="summary">%s</dl>' % "".join("<dt>%s</dt><dd>%s</dd>" % row for row in rows)

    def unanswered(self) -> str:
        """What was not answered, and with how much work."""
        rows = ["<li>%s (<code>%s</code>): %s</li>" % tuple(map(escaped, it)) for it in self.program.unanswered]
        head = (
            f"{counted(len(rows), 'question')} not answered. Run it again with more time: it takes the certificates"
            " that are there, and goes on."
        )
        return f'<div class="verdict open"><p><b>{head}</b></p><ul>{"".join(rows)}</ul></div>' if rows else ""

    # The sections.

    def fork(self) -> str:
        forks = self.found.forks
        asked = [
            verdict
            for part in self.found.parts
            if part.verdict and part.verdict not in forks.verdicts
            for verdict in [part.verdict]
        ]
        return "".join(self.verdict(verdict) for verdict in forks.verdicts + asked)

    def verdict(self, verdict: Verdict) -> str:
        where, kind = self.seen(verdict), "open"
        if verdict.word == "yes":
            head, kind = (
                "every two quorums share a node.</b> While no node lies, no two groups agree on different ledgers.",
                "yes" if self.found.forks.word == "no" else "open",
            )
        elif verdict.word == "no":
            head = (
                "two quorums share no node.</b> Each can agree on a ledger of its own, though no node lies.<br>One:"
                f" {self.names.nodes(verdict.first)}<br>The other: {self.names.nodes(verdict.second)}"
            )
            kind = "open" if self.found.forks.word == "no" else "no"
        else:
            head = f"not decided:</b> {escaped(verdict.work)}."
        return f'<div class="verdict {kind}"><b>{where} {head} {self.link(verdict.certificate)}</div>'

    def pair(self) -> Verdict | None:
        """The two quorums that share no node, of the validators or of a view."""
        verdicts = [*self.found.forks.verdicts[-1:], *(part.verdict for part in self.found.parts if part.verdict)]
        return next(
            (
                verdict
                for verdict in verdicts
                if verdict.word == "no"
                and (verdict.view.node is not None or self.found.forks.word in ("yes", "networks"))
            ),
            None,
        )

    def paint(self, marked: tuple[list[str], str] = ([], "")) -> picture.Paint:
        within = set().union(*(part.view.keys for part in self.found.parts))
        return picture.Paint(
            set(self.found.greatest) | self.greatest,
            self.pair(),
            *marked,
            within,
            set(self.network.down()),
            self.network.unknown(),
        )

    def drawing(self) -> str:
        """Of a network that forks the two quorums, else a set that stops it too."""
        return picture.draw(
            self.network,
            self.paint(([], "") if self.pair() or len(self.found.parts) > 1 else self.found.parts[0].marked()),
        )

    def in_turn(self, part: Part) -> str:
        if not part.turns:
            return ""
        asked = any(turn.word for turn in part.turns)
        text = "<p>%sSilent: all its keys are down.</p>" % (
            "Lying: its keys say to each node what that waits for. " if asked else ""
        )
        if part.forks():
            text += "<p>It forks with no node lying, so nothing more is asked about lies.</p>"
        organisation, lies, _ = self.words["turns"]["table"]["heads"]
        heads = [organisation, *([lies] if asked else []), "If it is silent"]
        return (
            text
            + self.from_domain()
            + table(heads, [self.turn(part, turn, asked) for turn in part.turns], "thirds")
            + self.left_out(part)
        )

    def from_domain(self) -> str:
        if self.network.has_orgs_file:
            return ""
        return (
            '<p class="small">The organisations are read from the home domain that each node says of itself, of the'
            " nodes that quorum sets name.</p>"
        )

    def left_out(self, part: Part) -> str:
        names = [escaped(org.name) for org in self.network.orgs if org.keys and org not in part.orgs]
        return f'<p>Nobody here depends on a key of {", ".join(names)}.</p>' if names else ""

    def turn(self, part: Part, turn: Turn, asked: bool) -> list[str]:
        inside = len(set(turn.org.keys) & set(part.greatest))
        down = len(set(turn.org.keys) & set(self.network.down()))
        name = (
            f'<b>{escaped(turn.org.name)}</b><br><span class="small">{counted(len(turn.org.keys), "key")}, {inside} in'
            f' the greatest quorum{f", {down} down" if down else ""}</span>'
        )
        return ["", name, *([self.lying(turn)] if asked else []), self.silent(part, turn)]

    def lying(self, turn: Turn) -> str:
        return "<br>".join(self.lie(turn, verdict) for verdict in turn.verdicts) + (
            "<br>"
            + self.saying.line(
                [
                    {
                        "line": "fork",
                        "say": "split",
                        "of": len(self.network.watchers()),
                        "count": len(turn.split),
                        "keys": turn.split,
                    }
                ]
            )[1]
            if turn.split
            else ""
        )

    def lie(self, turn: Turn, verdict: Verdict) -> str:
        where = self.seen(verdict)[0].lower() + self.seen(verdict)[1:]
        if verdict.word == "yes":
            text = (
                f'<span class="good">No</span>, {where}'
                if turn.word == self.found.forks.word == "no"
                else f"No, {where}"
            )
        elif verdict.word == "no" and turn.word == "no":
            text = f'<span class="warn">Watchers alone</span>, {where}'
        elif verdict.word == "no":
            text = (
                f'<span class="bad">Yes</span>, {where}: {self.names.nodes(verdict.first)} against'
                f" {self.names.nodes(verdict.second)}"
            )
        else:
            text = f"Not decided, {where}: {escaped(verdict.work)}"
        return f"{text} {self.link(verdict.certificate)}"

    def silent(self, part: Part, turn: Turn) -> str:
        if turn.stops:
            return '<span class="bad">%s</span>: it stops the network' % self.words["turns"]["silent"]["stops"]
        text = self.going_on(part, set(turn.goes_on), turn.org)
        lost = [key for key in turn.unmet if key in set(part.greatest)]
        return text + (
            f"; {self.names.nodes(lost)} {'loses' if len(lost) == 1 else 'lose'} every slice" if lost else ""
        )

    def going_on(self, part: Part, left: set[str], org: Organisation) -> str:
        """How many of the greatest quorum are left without an organisation."""
        others = set(part.greatest) - set(org.keys)
        return f"{len(left & others)} of the other {counted(len(others), 'node')} go on"

    def who_stops(self, part: Part) -> str:
        if part.stopping is None:
            return "<p>There is no quorum, so there is nothing to stop.</p>"
        text = "<p>These together stop every agreement if they fall silent, as the file has it.</p>" + self.stopping(
            part.stopping
        )
        if part.stopping_now is not None:
            text += "<p>As things are now, beyond the %s:</p>%s" % (
                counted(len(part.down), "node") + " that are down" if len(part.down) > 1 else "node that is down",
                self.stopping(part.stopping_now),
            )
        elif part.stopped:
            text += '<p class="bad">As things are now no quorum is left.</p>'
        return text + self.blocking(part)

    def stopping(self, together: Together) -> str:
        return self.sets(together, "stops it") + f'<p class="small">{self.how_known(together)}</p>'

    def how_known(self, sets: Together) -> str:
        if sets.certificate is None:
            return "Asked by <code>blocks</code> of the keys of all of them."
        return (
            "The list is whole: its certificate shows that there is no other set in which none can be left out."
            f" {self.link(sets.certificate)}"
        )

    def sets(self, sets: Together, does: str) -> str:
        """Minimal sets of organisations, the smallest first; those that are just any so many of some in one line."""
        upto = f" More than {sets.most} were not asked about together." if sets.most is not None else ""
        if not sets.sets:
            return f"<p>None {does}.{upto}</p>"
        rows = []
        for some in by_size(texts(sets.sets)):
            said = self.saying.as_sets(some).partition(": ")[2] if len(some) > 1 else self.saying.as_sets(some)
            whole = said.startswith(("any ", "each of ")) or len(some) == 1
            rows += (
                [said[0].upper() + said[1:]]
                if whole
                else [self.saying.group(it) + (" alone" if len(it) == 1 else "") for it in some]
            )
        if len(rows) == 1:
            return "<p>%s.%s</p>" % (rows[0], upto)
        listed = "".join("<li>%s</li>" % row for row in rows[:MOST_LISTED])
        more = (
            "<p>%s</p>" % filled(self.words["common"]["others"]["said"], count=len(rows) - MOST_LISTED)
            if len(rows) > MOST_LISTED
            else ""
        )
        return "<ol>%s</ol>%s<p>In each of these none can be left out.%s</p>" % (listed, more, upto)

    def blocking(self, part: Part) -> str:
        blocking = part.blocking
        if blocking is None:
            return ""
        rows = sorted(blocking.sets, key=len)[:MOST_LISTED]
        listed = "<ol>%s</ol>" % "".join(
            "<li>%s</li>" % (self.names.each(keys) or self.words["common"]["nobody"]["said"]) for keys in rows
        )
        if not blocking.is_whole():
            head = f"The sets of nodes were not all found: {escaped(blocking.work or '')}"
            how = (
                f"<p>{len(rows)} of the {blocking.found} found, the smallest; <code>blocks</code> says yes of each,"
                " and no once any one node is left out.</p>"
            )
            return "<p>%s. %s</p>%s" % (
                head,
                self.link(blocking.certificate),
                fold("Some sets of nodes", how + listed) if rows else "",
            )
        head = (
            f"<p>By single nodes there are {counted(len(blocking.sets), 'set')}, of which none can do without one of"
            f" its nodes; the smallest has {counted(min(map(len, blocking.sets)), 'node')}."
            f" {self.link(blocking.certificate)}</p>"
        )
        return head + fold(
            "The sets of nodes%s" % (f", the {MOST_LISTED} smallest" if len(blocking.sets) > MOST_LISTED else ""),
            listed,
        )

    def leaving(self, part: Part) -> str:
        if not part.leaving:
            return ""
        text = (
            "<p>Its keys retire one after another, for good, and the others keep their quorum sets"
            " (<code>whatif</code>). Who stops it then follows from the sets above.</p>"
        )
        return text + table(
            ["Organisation that leaves", "Does the network go on?", "Who can stop it then?"],
            [self.leave(part, it) for it in part.leaving],
            "thirds",
        )

    def leave(self, part: Part, leaving: Leaving) -> list[str]:
        others, left = set(part.greatest) - set(leaving.org.keys), leaving.left()
        if not left:
            after, last = leaving.stopped_after(), len(leaving.quorums) - 1
            when = "once it has left" if after == last else f"once {after} of its {last} keys have"
            return ["", escaped(leaving.org.name), f'<span class="bad">No</span>, it stops {when}', "it has stopped"]
        text = self.going_on(part, left, leaving.org)
        if others - left:
            text += f"; {self.names.nodes(others - left)} can agree with nobody"
        if part.own is not None and part.own.key in others - left:
            text += '; <span class="bad">your node stops</span>'
        return ["", escaped(leaving.org.name), text, self.stopped_then(leaving.then)]

    def stopped_then(self, then: Together | None) -> str:
        if then is None:
            return "not asked"
        upto = f"; more than {then.most} together were not asked about" if then.most is not None else ""
        if not then.sets:
            return "nobody" + upto
        text = self.saying.as_sets(texts(then.sets)) + upto
        return f'<span class="warn">{text}</span>' if len(then.sets[0]) == 1 else text

    def own_node(self, part: Part) -> str:
        own = part.own
        if own is None:
            return ""
        held = self.network.sets.get(own.key)
        inside = (
            "It is in the greatest quorum."
            if own.key in part.greatest
            else (
                '<span class="bad">As the file has it, it is in no quorum.</span>'
                if held
                else '<span class="warn">Its quorum set is not known.</span>'
            )
        )
        text = (
            f'<p>{escaped(self.network.names[own.key])} <span class="key">{escaped(own.key)}</span></p><p>{inside} All'
            f" on whom it depends: {self.names.nodes(own.closure)}.</p>"
        )
        text += f"<p>Its quorum set is {self.names.quorum_set(held)}.</p>" if held else ""
        if not part.turns or not held:
            return text
        v_blocking = (
            "<p>Which other organisations can stop this node, whatever the rest does (v-blocking: together they meet"
            " every slice of it):</p>"
            + self.sets(own.v_blocking, "can")
        )
        return (
            text
            + table(
                ["Organisation that is silent", "Does the node go on?", "Has it a slice left?"],
                [self.own_turn(own, turn.org) for turn in part.turns],
            )
            + v_blocking
        )

    def own_turn(self, own: OwnNode, org: Organisation) -> list[str]:
        if own.key in org.keys:
            return ["", escaped(org.name), "it is one of its keys", "it is one of its keys"]
        goes = "yes" if org in own.goes_on_without else '<span class="bad">no</span>'
        return ["", escaped(org.name), goes, '<span class="bad">no</span>' if org in own.unmet_by else "yes"]

    def quorum_sets(self) -> str:
        """The quorum sets of nodes that others name, each with those who have it; and those that only watchers
        have."""
        waited = [
            (held, keys) for held, keys in self.network.distinct_sets() if held and set(keys) & set(self.network.named)
        ]
        apart = [
            (held, keys)
            for held, keys in self.network.distinct_sets()
            if held and not set(keys) & set(self.network.named)
        ]
        none = [keys for held, keys in self.network.distinct_sets() if held is None]
        text = "<p>%s for the nodes that others name%s.</p>" % (
            counted(len(waited), "quorum set"),
            "; nodes that are one organisation's or one kind's should share theirs" if len(waited) > 1 else "",
        )
        text += table(
            ["Who has it", "Quorum set"],
            [["", self.having(keys), self.names.quorum_set(held)] for held, keys in waited],
        )
        if none:
            text += f"<p>Their quorum sets are not known, or they have none: {self.having(none[0])}.</p>"
        if apart:
            rows = [["", self.having(keys), self.names.quorum_set(held)] for held, keys in apart[:MOST_SETS]]
            text += fold(
                f"{counted(len(apart), 'quorum set')} that only watchers have, whom no other node names",
                table(["Who has it", "Quorum set"], rows),
            )
        return text

    def having(self, keys: list[str]) -> str:
        named, others = [key for key in keys if key in self.network.named], [
            key for key in keys if key not in self.network.named
        ]
        all_named = (
            f"all {len(named)} nodes that others name"
            if len(named) == len(self.network.named) > MOST_NAMED
            else self.names.nodes(named)
        )
        parts = ([all_named] if named else []) + (
            [self.names.each(others) if len(others) <= 3 else counted(len(others), "watcher")] if others else []
        )
        return " and ".join(parts)

    def what_it_is(self) -> str:
        numbers = dict(line.split(" ") for line in self.shown[:3])
        watchers, down = len(self.network.watchers()), self.network.down()
        rows = [
            [
                "",
                "Nodes",
                "%s, of which %s without a known quorum set; %s, which no other node's quorum set names"
                % (
                    numbers["nodes"],
                    numbers["unset"],
                    "1 is a watcher" if watchers == 1 else f"{watchers} are watchers",
                ),
            ],
            ["", "Entries of all quorum sets", numbers["entries"]],
            [
                "",
                "Nodes in the greatest quorum",
                f"{len(self.found.greatest)}: those that can agree on anything at all",
            ],
            [
                "",
                "Organisations",
                (
                    f"{len(self.network.orgs)}, with {counted(len(self.network.org_of), 'node')} of the network"
                    if self.network.orgs
                    else "none are known: there is no file of them, and no home domain"
                ),
            ],
        ]
        if self.network.has_marks():
            rows.append(
                [
                    "",
                    "Validators that are down",
                    (
                        f"{len(down)}, by <code>isValidating</code> and"
                        f" <code>active</code>{': ' + self.names.nodes(down) if down else ''}"
                    ),
                ]
            )
        return table([], rows, "facts") + self.odd()

    def odd(self) -> str:
        odd = [f"<li>{self.finding(line.split(' '))}</li>" for line in self.shown[3:]]
        if not odd:
            return "<p>%s</p>" % self.words["show"]["even"]["said"]
        more = (
            fold("And %d more" % (len(odd) - MOST_ODD), "<ul>%s</ul>" % "".join(odd[MOST_ODD:]))
            if len(odd) > MOST_ODD
            else ""
        )
        return "<p>%s</p><ul>%s</ul>%s" % (self.words["show"]["odd"]["said"], "".join(odd[:MOST_ODD]), more)

    def finding(self, words: list[str]) -> str:
        show, who = self.words["show"], self.names.node(words[1])
        where = (
            show["places"]["own"]
            if words[2] == "."
            else filled(show["places"]["inner"], place="<code>%s</code>" % escaped(words[2]))
        )
        if words[0] == "threshold":
            return filled(
                show["threshold"],
                node=who,
                where=where,
                threshold=words[3],
                entries="%s %s" % (words[4], "entry" if words[4] == "1" else "entries"),
            )
        return filled(show["repeated"], node=who, where=where, other=self.names.node(words[3]))

    def how(self) -> str:
        version, config = self.program.version(), f"<code>{self.network.digest}</code>"
        rows = [["", "Configuration", f"{self.title}, SHA-256 {config}"]]
        rows.append(
            [
                "",
                "Program",
                (
                    f"<code>quorum_cli</code>{' ' + escaped(version) if version else ''}, SHA-256"
                    f" <code>{self.program.digest()}</code>"
                ),
            ]
        )
        rows.append(["", "Made on", time.strftime("%Y-%m-%d %H:%M UTC", time.gmtime())])
        text = (
            "<p>Each yes and no comes from the program%s. The names are those that the configuration gives, which"
            " nobody checks; this page itself is not proved. Whoever has the configuration can ask again: fetch it"
            " yourself, compare its digest, and check each certificate with <code>quorum_cli check CONFIG"
            " CERTIFICATE</code>%s, which prints the kind, of whom it speaks (<code>from</code>) and who lies"
            " (<code>faulty</code>).</p>"
        )
        groups = any(it.accepted.split(" ")[1] in KINDS_OF_ORGS for it in self.program.certificates)
        proved = (
            ", whose contract is proved: a certificate is accepted only if what it says is so"
            if self.program.is_proved()
            else ""
        )
        text = text % (
            proved,
            " (that of sets of organisations with the <code>--orgs</code> of its command)" if groups else "",
        ) + table([], rows, "facts")
        certificates = "".join("<li>%s</li>" % self.certified(it) for it in self.program.certificates)
        text += fold(
            "%s, with what <code>check</code> answers" % counted(len(self.program.certificates), "certificate"),
            '<ul class="certificates">%s</ul>' % certificates,
        )
        return text + fold(
            "%s without a certificate" % counted(len(self.program.commands), "command"),
            "<pre>%s</pre>" % escaped("\n".join(self.program.commands)),
        )

    def certified(self, it: Certificate) -> str:
        """A certificate with what `check` says of it, its size and digest, and the command that makes it."""
        place = escaped(urllib.parse.quote(f"{self.program.beside.name}/{it.name}"))
        about = "" if it.about == os.path.basename(self.program.config) else f" about <code>{escaped(it.about)}</code>"
        return (
            f'<a href="{place}">{escaped(it.name)}</a>: <code>{escaped(it.accepted)}</code>{about},'
            f" {it.size} bytes<br>SHA-256 <code>{it.digest}</code><br><code>{escaped(it.command)}</code>"
        )

    def keys(self) -> str:
        paint = self.paint()
        rows = []
        for at, key in enumerate(self.network.keys):
            org = self.network.org_of.get(key)
            side = ", quorum 1" if key in paint.first else ", quorum 2" if key in paint.second else ""
            state = (
                ("yes" if key in paint.greatest else "no" if key in paint.within else "outside")
                + side
                + (", down" if key in paint.down else "")
            )
            rows.append(
                [
                    f' id="n{at}"',
                    f'<span class="node">{escaped(self.network.names[key])}</span>',
                    escaped(org.name) if org else "",
                    state,
                    f'<span class="key">{escaped(key)}</span>',
                ]
            )
        return table(["Name", "Organisation", "In the greatest quorum", "Key"], rows, "keys")

    def sections(self) -> list[tuple[str, str, str]]:
        """Each section with its mark and heading, and its text; one without a text is left out. Another question of
        the network is another line."""
        return [
            ("fork", "Can it fork?", self.fork()),
            ("picture", "The network", self.drawing()),
            ("turns", "Each organisation in turn", self.by_part(self.in_turn)),
            ("stop", "Who can stop it?", self.by_part(self.who_stops)),
            ("leaving", "What if an organisation leaves?", self.by_part(self.leaving)),
            ("own", "Your node", self.own_node(self.found.parts[0])),
            ("sets", "Quorum sets", self.quorum_sets()),
            ("file", "What the file has", self.what_it_is()),
            ("check", "How to check this page", self.how()),
            ("keys", "Names and keys", self.keys()),
        ]

    def whole(self) -> str:
        sections = [it for it in self.sections() if it[2]]
        contents = '<nav aria-label="Contents"><ul>%s</ul></nav>' % "".join(
            '<li><a href="#%s">%s</a></li>' % it[:2] for it in sections
        )
        body = "\n".join(
            f'<section aria-labelledby="{mark}"><h2 id="{mark}">{head}</h2>{text}</section>'
            for mark, head, text in sections
        )
        head = (
            '<!DOCTYPE html><html lang="en"><head><meta charset="utf-8"><meta name="viewport"'
            ' content="width=device-width,initial-scale=1"><title>Quorums of %s</title><style>%s</style></head>'
        )
        return (
            head % (self.title, STYLE)
            + f"<body><main><h1>Quorums of {self.title}</h1>{self.summary()}{contents}\n{body}</main></body></html>\n"
        )


def write(
    config: str, orgs: str | None, network: Network, told: list[str], found: Found, program: Program
) -> tuple[str, dict[str, list[dict[str, Any]]]]:
    """The text of the page, and the summary's data."""
    files = {
        name: shown(os.path.basename(path)) if path is not None else ""
        for name, path in (("config", config), ("orgs", orgs))
    }
    page = Page(files, network, told, found, program)
    return page.whole(), page.data
