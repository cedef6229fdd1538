"""Runs tools/use/network-report with the built program: what its page says, shows and loads, and that it says nothing
unchecked.
"""

from __future__ import annotations

import hashlib
import html
import html.parser
import json
import os
import pty
import re
import shlex
import shutil
import signal
import subprocess
import time
from pathlib import Path
from typing import Any

import pytest

TOP = os.path.dirname(os.path.dirname(os.path.abspath(__file__)))
NETWORK = os.path.join(TOP, "examples", "network.json")
ORGS = os.path.join(TOP, "examples", "orgs.json")
TOOL = os.path.join(TOP, "tools", "use", "network-report")

# A quorum set that no choice meets, a validator that stands twice, names with markup, two nodes of one name, a key
# like an option.
ODD = [
    {"publicKey": "a", "name": '<b>A&"', "quorumSet": {"threshold": 4, "validators": ["a", "b", "b"]}},
    {"publicKey": "b", "name": "twin", "quorumSet": {"threshold": 1, "validators": ["b"]}},
    {"publicKey": "-x<i>", "name": "twin", "quorumSet": {"threshold": 1, "validators": ["b"]}},
]
ODD_ORGS = [{"id": "none", "validators": ["zz"]}, {"id": "oak/<k>", "name": "Oak <1>", "validators": ["b", "-x<i>"]}]

# The program, but that it refuses each certificate.
REFUSING = '#!/bin/sh\nif [ "$1" = check ]; then echo "refused trailing"; exit 5; fi\nexec "%s" "$@"\n'
# The program, but that it finds every certificate to be about other faulty nodes.
ABOUT_OTHERS = (
    '#!/bin/sh\nif [ "$1" = check ]; then "%s" "$@" | sed "s/^faulty.*/faulty zz/"; exit 0; fi\nexec "%s" "$@"\n'
)


# The program, with a line for each run in the file LOG; searches for a fork wait as long as SLOW is there.
WAITING = (
    '#!/bin/sh\necho "$@" >>"%s"\nif [ "$1" = intersect ] && [ -e "%s" ]; then exec sleep 60; fi\nexec "%s" "$@"\n'
)


def contents(folder: str) -> dict[str, bytes]:
    """The files below a folder, with their bytes."""
    found = {}
    for here, _, names in os.walk(folder):
        for name in names:
            with open(os.path.join(here, name), "rb") as it:
                found[os.path.relpath(os.path.join(here, name), folder)] = it.read()
    return found


class Tags(html.parser.HTMLParser):
    """The tags that are opened, and those that are closed in the wrong place."""

    def __init__(self) -> None:
        super().__init__()
        self.opened: list[str] = []
        self.wrong: list[Any] = []

    def handle_starttag(self, tag: str, attrs: list[tuple[str, str]]) -> None:
        if tag in ("div", "p", "ol", "ul", "table", "details", "section") and "p" in self.opened:
            self.wrong.append(tag + " in p")
        if tag not in ("meta", "br"):
            self.opened.append(tag)

    def handle_endtag(self, tag: str) -> None:
        if self.opened and self.opened[-1] == tag:
            self.opened.pop()
        else:
            self.wrong.append(tag)


class Reports:
    """The pages that the tool makes in a folder."""

    def __init__(self, program: str, folder: str) -> None:
        self.program, self.folder = program, folder
        # (where it lies, a program that is compiled without proofs says so)
        self.is_proved = os.path.basename(os.path.dirname(os.path.realpath(program))) != "unproved"

    def path(self, name: str) -> str:
        return os.path.join(self.folder, name)

    def written(self, name: str, text: str, mode: int = 0o644) -> str:
        with open(self.path(name), "w") as it:
            it.write(text)
        os.chmod(self.path(name), mode)
        return self.path(name)

    def run(self, *words: str, program: str | None = None) -> tuple[int, str, str | None]:
        """The status, standard error and the page (None: there is none)."""
        page = self.path("page.html")
        if os.path.exists(page):
            os.remove(page)
        asked = [TOOL, *words, "-o", page, "--program", program or self.program]
        ended = subprocess.run(asked, stdout=subprocess.PIPE, stderr=subprocess.PIPE, timeout=600)
        text = open(page, encoding="utf-8").read() if os.path.exists(page) else None
        return ended.returncode, ended.stderr.decode(), text

    def made(self, *words: str, program: str | None = None) -> tuple[str, str]:
        """The page that is made, and standard error."""
        status, error, page = self.run(*words, program=program)
        assert status == 0 and page is not None, error
        return page, error

    def loads_nothing(self, page: str) -> None:
        """One page: no script, no style, font or picture from elsewhere, each inner link leads somewhere, and each tag
        is closed."""
        found = re.findall(r"<script|<link|<img|src=|url\(|@import|https?:", page)
        places = set(re.findall(r' id="([^"]+)"', page))
        lost = [link for link in re.findall(r'href="#([^"]+)"', page) if link not in places]
        assert (found, lost) == ([], []) and len(page) < 300_000, "the page loads nothing"
        tags = Tags()
        tags.feed(page)
        assert (tags.wrong, tags.opened) == ([], []), "each tag is closed"
        assert (
            page.count("<th>") == 0 and page.count("<main>") == 1 and page.count("<nav ") == 1
        ), "headings of tables, and one main part"
        assert page.index("</dl>") < page.index("<h2"), "the summary comes first"

    def summary(self, page: str) -> dict[str, str]:
        """The lines by their labels, without markup; of several parts the last."""
        return {
            label: html.unescape(re.sub(r"<[^>]*>", "", line))
            for label, line in re.findall(r"<dt>(.*?)</dt><dd>(.*?)</dd>", page)
        }

    def says(self, name: str, page: str, wanted: dict[str, str]) -> None:
        """The summary says this under these labels."""
        found = self.summary(page)
        assert {label: found.get(label) for label in wanted} == wanted, name

    def asked(self, *words: str) -> list[str]:
        """The lines that the program prints."""
        return subprocess.run([self.program, *words], stdout=subprocess.PIPE).stdout.decode().split("\n")[:-1]

    def stops(self, keys: list[str]) -> bool:
        """Whether these nodes stop the example, if they are silent."""
        return self.asked("blocks", NETWORK, "--set", ",".join(keys))[0] == "blocks yes"

    def beside(self, config: str, word: str) -> str:
        """A word of a command of the page, with the files where they lie here."""
        option, path = ("--orgs=", word[7:]) if word.startswith("--orgs=") else ("", word)
        return option + {os.path.basename(config): config, "orgs.json": ORGS}.get(
            path, self.path(path) if path.startswith("page-certificates/") else path
        )

    def certificates(self, config: str, page: str) -> int:
        """Each certificate of the page's list lies beside it, has the digest that the page says, is accepted, and is
        made anew by the command that stands there."""
        row = (
            r'<li><a href="(page-certificates/[^"]+)">[^<]+</a>: <code>([^<]*)</code>, (\d+) bytes<br>SHA-256'
            r" <code>([0-9a-f]{64})</code><br><code>([^<]*)</code></li>"
        )
        listed = re.findall(row, page)
        for name, accepted, size, digest, command in listed:
            held = contents(self.path("page-certificates"))[os.path.basename(name)]
            words = [self.beside(config, it) for it in shlex.split(html.unescape(command))]
            orgs = [it for it in words if words[1] == "org-blocking" and it.startswith("--orgs=")]
            ended = subprocess.run([self.program, "check", config, self.path(name), *orgs], stdout=subprocess.PIPE)
            right = (
                hashlib.sha256(held).hexdigest() == digest and len(held) == int(size) and ended.returncode in (0, 2)
            )
            assert right and ended.stdout.decode().split("\n")[0] == accepted, (name, ended.stdout)
            words[3] = self.path("again.cert")
            subprocess.run([self.program, *words[1:]], stdout=subprocess.DEVNULL)
            with open(self.path("again.cert"), "rb") as it:
                assert words[0] == "quorum_cli" and it.read() == held, "made again: " + command
        named = re.findall(r'href="(page-certificates/[^"]+)"', page)
        held = {"page-certificates/" + it for it in contents(self.path("page-certificates")) if it.endswith(".cert")}  # type: ignore[assignment]  # noqa: E501
        assert set(named) == {it[0] for it in listed} == held, ("each is in the list, and in the folder", named)
        return len(listed)

    def leaving(self, config: str, page: str) -> list[list[str]]:
        """Each organisation that leaves: the script retires its keys, and of the greatest quorum just those are left
        that are without them. The rows of the table, without markup."""
        asked = [
            shlex.split(html.unescape(it))
            for it in re.findall(
                r"^(?:<pre>)?(quorum_cli whatif .*?)(?:</pre>|$)",
                page.partition(" without a certificate</summary>")[2],
                re.M,
            )
        ]
        place = re.search(r"--from=([^\s<]+)", page)
        of_node = ["--from=" + html.unescape(place.group(1))] if place else []
        within = (
            set(self.asked("closure", config, "--node=" + of_node[0][len("--from=") :])[0].split()) if place else None
        )
        rows = [
            re.sub(r"<[^>]*>", "|", it)
            for it in re.findall(r"<tr>(.*?)</tr>", page.partition('id="leaving"')[2].partition("</table>")[0])[1:]
        ]
        assert len(rows) == len(asked) > 0, ("a row and a script for each that leaves", (rows, asked))
        for row, words in zip(rows, asked):
            words = [self.beside(config, it) for it in words]
            keys = words[4][len("--set=") :].split(",")
            with open(words[3]) as it:
                assert it.read().split() == [part for key in keys for part in ("retire", key)], (
                    "its keys retire",
                    keys,
                )
            last = set([line for line in self.asked(*words[1:]) if line.startswith("greatest")][-1].split()[1:])
            blocks = self.asked("blocks", config, words[4], *of_node)
            left = blocks[1].split()[1:] if blocks[0] == "blocks no" else []
            assert set(left) == (last if within is None else last & within) and (
                f"|{len(left)} of the other " in row if left else "|No|, it stops once" in row
            ), ("who goes on", (row, left))
        return [[it for it in row.split("|") if it] for row in rows]


@pytest.fixture
def reports(program: str, tmp_path: Path) -> Reports:
    return Reports(program, str(tmp_path))


def test_the_page_of_the_example(reports: Reports) -> None:
    page, error = reports.made(NETWORK, "--orgs", ORGS, "--node", "GAAA1")
    reports.loads_nothing(page)
    assert reports.certificates(NETWORK, page) == 7, "the verdict in both views, each organisation, the lists"
    rows = reports.leaving(NETWORK, page)
    assert rows == [
        [name, "6 of the other 6 nodes go on", f"2 sets: each of {others} alone"]
        for name, others in (("Alder", "Beech, Cedar"), ("Beech", "Alder, Cedar"), ("Cedar", "Alder, Beech"))
    ], "each that leaves"
    lines = {
        "Can it fork?": (
            "It cannot fork. Quorum sets that are not known: of 1 node, 0 of them named by others. These count as"
            " agreeing with nobody."
        ),
        "As one node sees it": "As gaaa1 sees it, it cannot fork.",
        "If one organisation lies?": "Each of 3 organisations can fork it: Alder, Beech, Cedar.",
        "Who can stop it?": (
            "3 sets: any 2 of these 3 together: Alder, Beech, Cedar. By single nodes: 27 sets, the smallest of 4."
        ),
        "Your node": (
            "gaaa1 is in the greatest quorum. It goes on whichever other organisation is silent. Its slices are"
            " all met by Beech and Cedar together."
        ),
    }
    reports.says("the summary", page, lines)
    wanted = [
        "In the whole file every two quorums share a node.",
        ">gaaa1</a> sees it every two quorums share a node.",
        "10, of which 1 without a known quorum set; 1 is a watcher",
        "9: those that can agree",
        "whose contract is proved" if reports.is_proved else "Nothing on this page is proved",
        "it is one of its keys",
        "<p>Beech and Cedar together.</p>",
        "1 quorum set for the nodes",
        "Its quorum set is <b>2 of 3</b>: Alder (2 of 3), Beech (2 of 3), Cedar (2 of 3).</p>",
    ]
    assert [text for text in wanted if text not in page] == []
    with open(os.path.join(TOP, "VERSION"), encoding="utf-8") as it:
        assert f"<code>quorum_cli</code> {it.read().strip()}, SHA-256" in page or not reports.program.startswith(
            TOP
        ), "the program's version"
    assert page.count('<span class="bad">Yes</span>, as <a') == 3, "each organisation that lies lets it fork"
    assert "organisation 3 of 3: Cedar" in error, "progress on standard error"
    assert "its certificate shows that" in page, "sets of organisations have a certificate of their own"


def test_a_node_of_which_no_quorum_set_is_known_is_said_to_be_so(reports: Reports) -> None:
    page, _ = reports.made(NETWORK, "--orgs", ORGS, "--node", "GWATCH")
    reports.loads_nothing(page)
    reports.says(
        "its quorum set is not known",
        page,
        {
            "Whose view": "This page speaks for watcher, whose quorum set is not known.",
            "Can it fork?": (
                "It cannot fork. Quorum sets that are not known: of 1 node, 0 of them named by others. These"
                " count as agreeing with nobody."
            ),
            "Your node": "The quorum set of watcher is not known, so nothing is known of what it agrees on.",
        },
    )
    assert "no quorum:" not in page and "never agrees" not in page, "unknown is not no"


def test_organisations_that_all_need_stop_it_as_they_leave(reports: Reports) -> None:
    """Organisations by home domain, each of which all need, and one that nobody needs."""
    orgs = {"a.example": ["a1", "a2", "a3"], "b.example": ["b1"], "c.example": ["c1"]}
    inner = [{"threshold": 2, "validators": orgs["a.example"]}, {"threshold": 1, "validators": ["b1"]}]
    nodes = [
        {"publicKey": key, "homeDomain": org, "quorumSet": {"threshold": 2, "innerQuorumSets": inner}}
        for org in orgs
        for key in orgs[org]
    ]
    nodes[0]["quorumSet"] = {
        "threshold": 3,
        "innerQuorumSets": [*inner, {"threshold": 1, "validators": ["c1", "b1"]}],
    }
    config = reports.written("needed.json", json.dumps(nodes))
    page, _ = reports.made(config, "--node", "a1")
    reports.loads_nothing(page)
    reports.certificates(config, page)
    reports.says(
        "each alone",
        page,
        {
            "Who can stop it?": (
                "2 sets: each of a.example, b.example alone. By single nodes: 4 sets, the smallest of 1."
            ),
            "Your node": (
                "a1 is in the greatest quorum. It stops if one of these is silent: b.example. Its slices are all"
                " met by b.example alone."
            ),
        },
    )
    rows = reports.leaving(config, page)
    right = [
        ["a.example", "No", ", it stops once 2 of its 3 keys have", "it has stopped"],
        ["b.example", "No", ", it stops once it has left", "it has stopped"],
        ["c.example", "4 of the other 4 nodes go on", "2 sets: each of a.example, b.example alone"],
    ]
    assert rows == right, "what stops as it leaves"


def test_a_fork_that_only_splits_off_a_watcher_is_not_in_red(reports: Reports) -> None:
    """A fork of the whole file that only splits off a watcher: said so, and not in red."""
    validators = [
        {
            "publicKey": it,
            "homeDomain": it[0] + ".example",
            "quorumSet": {"threshold": 4, "validators": ["a1", "a2", "b1", "b2", "c1"]},
        }
        for it in ("a1", "a2", "b1", "b2", "c1")
    ]
    watcher = {
        "publicKey": "w",
        "name": "Watcher",
        "homeDomain": "w.example",
        "quorumSet": {"threshold": 2, "validators": ["a1", "a2", "c1"]},
    }
    config = reports.written("watched.json", json.dumps([*validators, watcher]))
    page, _ = reports.made(config)
    reports.loads_nothing(page)
    # (without a file of organisations the lying keys stand in the command)
    certificate = "page-certificates/from-faulty-01-a.example.cert"
    assert f"quorum_cli intersect watched.json {certificate} --faulty=a1,a2 --from=a1 --budget=4000<" in page
    reports.says(
        "organisations by home domain, of nodes that are named",
        page,
        {
            "Can it fork?": "It cannot fork.",
            "If one organisation lies?": (
                "Of 3 organisations none can fork it. Of 1 watcher, on whom nobody depends, some could be split"
                " off by a.example (1)."
            ),
        },
    )
    wanted = [
        "Of 1 watcher, on whom nobody depends, 1 could be split off: <a",
        "among the nodes that others name",
        "5 of 6 nodes",
    ]
    assert [text for text in wanted if text not in page] == []
    assert '<span class="bad">Yes' not in page and "w.example" not in page


def test_where_the_budget_is_spent_the_page_says_so(reports: Reports) -> None:
    """Where the budget is spent the page says so, and lists what was found until then."""
    page, error = reports.made(NETWORK, "--orgs", ORGS, "--node", "GAAA1", "--budget", "60")
    reports.loads_nothing(page)
    sets = re.findall(r"<li>(.*?)</li>", page.partition("not all found: within 60 units")[2].partition("</ol>")[0])
    assert 1 <= len(sets) <= 10 and "in one set that stops the network" in page, "some of those found"
    for number, names in enumerate(sets):
        keys = [it.upper() for it in re.sub(r"<[^>]*>", "", names).split(", ")]
        stops = [reports.stops(keys)] + [reports.stops([it for it in keys if it != key]) for key in keys]
        assert stops == [True] + [False] * len(keys), f"listed set {number}: {keys}"
    reports.says(
        "organisations are asked about",
        page,
        {"Who can stop it?": "3 sets: any 2 of these 3 together: Alder, Beech, Cedar."},
    )
    assert "not answered. Run it again with more time" in page
    assert "not answered: the minimal blocking sets (blocking): within 60 units" in error


def test_names_have_no_markup_and_what_is_odd_is_said(reports: Reports) -> None:
    config = reports.written("odd.json", json.dumps(ODD))
    page, _ = reports.made(config, "--orgs", reports.written("odd-orgs.json", json.dumps(ODD_ORGS)), "--node=-x<i>")
    reports.loads_nothing(page)
    assert not re.search(r'<b>A&"|<i>|<k>|<1>', page), "names have no markup"
    wanted = [
        "twin (b)",
        "twin (-x&lt;i&gt;)",
        "has the threshold 4 over 3 entries",
        "more than once",
        "1 of 3 validators of odd-orgs.json are not in odd.json.",
        "Of these none is there: none.",
        "Oak &lt;1&gt;",
    ]
    assert [text for text in wanted if text not in page] == []


def test_every_kind_of_circle_is_explained(reports: Reports) -> None:
    """Two quorums that share no node, and a blocking set: every kind of circle is explained."""
    config = reports.written(
        "apart.json",
        json.dumps([{"publicKey": it, "quorumSet": {"threshold": 1, "validators": [it]}} for it in "ab"]),
    )
    page, _ = reports.made(config)
    reports.loads_nothing(page)
    circles = set(re.findall(r'<li title="[^"]*"><span class="dot ([^"]*)"', page))
    explained = set(re.findall(r'<span class="dot ([^"]*)"', page.partition('class="legend"')[2]))
    assert {word for it in circles for word in it.split()} == {word for it in explained for word in it.split()} - {
        "q"
    }, ("every circle is explained", (circles, explained))
    reports.says(
        "it forks, though nobody names another",
        page,
        {"Can it fork?": "It can fork: it is 2 networks that do not depend on one another. a against b."},
    )


def test_signs_that_turn_a_name_stand_as_escapes(reports: Reports) -> None:
    """Signs that turn or hide a name stand as escapes; organisations of one name are told apart, and one without a
    name goes by its domain."""
    nodes = [
        {
            "publicKey": it,
            "name": f"\u202e{it}\u2066\ufeff\x07",
            "quorumSet": {"threshold": 2, "validators": ["a", "b", "c"]},
        }
        for it in "abc"
    ]
    orgs = [
        {"id": "one", "name": "Same", "validators": ["a"]},
        {"id": "two", "name": "Same", "validators": ["b"]},
        {"id": "three", "homeDomain": "c.example\u200b", "validators": ["c"]},
    ]
    page, _ = reports.made(
        reports.written("turned.json", json.dumps(nodes)),
        "--orgs",
        reports.written("turned-orgs.json", json.dumps(orgs)),
    )
    assert (
        not re.search("[\u200b-\u200f\u202a-\u202e\u2060-\u206f\ufeff\x07]", page)
        and "\\u202ea\\u2066\\ufeff\\u0007" in page
    ), "no sign that turns"
    assert all(text in page for text in ("Same (one)", "Same (two)", "c.example\\u200b")), "organisations apart"


@pytest.mark.parametrize("words, left", [([], 4), (["--now"], 3)])
def test_with_a_node_that_is_down_both_margins_are_said(words: list[str], left: int, reports: Reports) -> None:
    """With a node that is down both margins are said, and --now asks all with it as silent."""
    nodes = [
        {"publicKey": it, "isValidating": it != "a", "quorumSet": {"threshold": 3, "validators": list("abcd")}}
        for it in "abcd"
    ]
    config = reports.written("down.json", json.dumps(nodes))
    page, _ = reports.made(config, *words, "--json", reports.path("down-data.json"))
    reports.loads_nothing(page)
    margins = {
        "Who can stop it?": "6 sets: any 2 of these 4 together: a, b, c, d." + (
            "" if words else " By single nodes: 6 sets, the smallest of 2."
        ),
        "As things are now": (
            "Down: 1 of 4 validators here, a. Beyond these it is stopped by 3 sets: each of b, c, d alone."
        ),
    }
    reports.says("both margins", page, margins)
    assert ("Asked as things are now" in page) == bool(words)
    assert f"quorum_cli greatest {'page-certificates/now.json' if words else 'down.json'}" in page
    with open(reports.path("down-data.json"), encoding="utf-8") as it:
        assert len(json.load(it)["parts"][0]["greatest"]) == left, "data beside it"


class Waiting:
    """The program, with a line for each run; searches for a fork wait as long as it is told to."""

    def __init__(self, reports: Reports) -> None:
        self.log, self.slow = reports.path("words"), reports.path("waits")
        self.program = reports.written("waiting", WAITING % (self.log, self.slow, reports.program), 0o755)

    def wait(self) -> None:
        open(self.slow, "w").close()

    def go_on(self) -> None:
        os.remove(self.slow)

    def taken(self) -> list[list[str]]:
        """The words of each run since this was asked last."""
        with open(self.log) as it:
            found = [line.split(" ") for line in it.read().split("\n") if line]
        os.remove(self.log)
        return found


@pytest.fixture
def waiting(reports: Reports) -> Waiting:
    return Waiting(reports)


def without_times(page: str) -> str:
    return re.sub(r"--budget=\d+|\d{4}-\d\d-\d\d \d\d:\d\d UTC", "", page)


def test_questions_end_when_their_time_is_up(reports: Reports, waiting: Waiting) -> None:
    waiting.wait()
    began = time.monotonic()
    words = ["--seconds", "1", "--seconds-in-all", "4"]
    page, _ = reports.made(NETWORK, "--orgs", ORGS, *words, program=waiting.program)
    assert time.monotonic() - began < 60
    assert "It is not decided whether it can fork." in page
    assert "whether it can fork (<code>intersect</code>): no time was left for it" in page
    waiting.go_on()
    page, _ = reports.made(NETWORK, "--orgs", ORGS, program=waiting.program)
    assert "It cannot fork." in page, "the next run goes on"


def test_what_is_there_and_accepted_is_taken_by_the_next_run(reports: Reports, waiting: Waiting) -> None:
    """And what is not is asked again."""
    first, _ = reports.made(NETWORK, "--orgs", ORGS, program=waiting.program)
    held = contents(reports.path("page-certificates"))
    waiting.taken()
    again, _ = reports.made(NETWORK, "--orgs", ORGS, program=waiting.program)
    assert {words[0] for words in waiting.taken()} & {"intersect", "blocking", "org-blocking"} == set()
    assert contents(reports.path("page-certificates")) == held
    assert without_times(again) == without_times(first)
    for name, content in (("from-blocking.cert", b"fbas-cert 2\n"), ("intersect.cert", held["from-intersect.cert"])):
        with open(reports.path("page-certificates/" + name), "wb") as it:
            it.write(content)
    reports.made(NETWORK, "--orgs", ORGS, program=waiting.program)
    asked = [words[0] for words in waiting.taken() if words[0] in ("intersect", "blocking")]
    assert asked == ["intersect", "blocking"]
    assert contents(reports.path("page-certificates")) == held


def test_a_part_of_a_list_is_gone_on_with(reports: Reports, waiting: Waiting) -> None:
    """With four times its units."""
    reports.run(NETWORK, "--orgs", ORGS, "--budget", "20", program=waiting.program)
    waiting.taken()
    reports.made(NETWORK, "--orgs", ORGS, program=waiting.program)
    assert "--budget=80" in [words[-1] for words in waiting.taken() if words[0] == "blocking"]


@pytest.mark.parametrize(
    "signals, wanted",
    [([signal.SIGINT], 0), ([signal.SIGINT, signal.SIGINT], 130), ([signal.SIGHUP], 129)],
    ids=["interrupted", "interrupted twice", "hung up"],
)
def test_an_interrupt_ends_the_searches(
    signals: list[signal.Signals], wanted: int, reports: Reports, waiting: Waiting
) -> None:
    """Ctrl-C on a terminal ends the searches, and the page is written; the second ends at once. A hangup leaves
    all as it was, unless it is ignored."""
    waiting.wait()
    before = {*os.listdir(reports.folder)}
    ours, theirs = pty.openpty()
    words = [TOOL, NETWORK, "-o", reports.path("page.html"), "--program", waiting.program]
    running = subprocess.Popen(words, stdout=theirs, stderr=theirs)
    os.close(theirs)
    told = b""
    while b"whether it can fork: 4,000 units" not in told:
        told += os.read(ours, 4096)
    waiting.go_on()
    for it in signals:
        running.send_signal(it)
        time.sleep(0.01)
    try:
        while os.read(ours, 4096):
            pass
    except OSError:
        pass
    assert running.wait(60) == wanted
    os.close(ours)
    # (the program that waits has a log)
    left = {*os.listdir(reports.folder)} - before - {"words"}
    assert left == ({"page.html", "page-certificates"} if wanted == 0 else set())


def test_the_page_of_a_program_without_proofs_says_so(reports: Reports) -> None:
    """A page of the program that is compiled without proofs says so, and does not say that anything is proved."""
    copy = reports.path("unproved/quorum_cli")
    os.makedirs(os.path.dirname(copy))
    page, _ = reports.made(NETWORK, program=shutil.copy(reports.program, copy))
    assert "Nothing on this page is proved" in page and "contract is proved" not in page


@pytest.mark.parametrize("script", [REFUSING, ABOUT_OTHERS], ids=["refused", "about others"])
def test_there_is_no_page_where_check_does_not_accept(script: str, reports: Reports) -> None:
    program = reports.written("other", script.replace("%s", reports.program), 0o755)
    status, error, page = reports.run(NETWORK, "--orgs", ORGS, program=program)
    assert (status, page) == (1, None) and "is not accepted" in error


def test_a_refused_configuration_gives_no_page(reports: Reports) -> None:
    status, error, page = reports.run(reports.written("bad.json", "{"))
    assert (status, page) == (1, None) and "config not-json" in error
    status, error, page = reports.run(reports.path("missing.json"))
    assert (status, page) == (1, None) and "could not be read" in error, "a missing one"


def test_the_node_is_asked_about_first(reports: Reports, waiting: Waiting) -> None:
    status, error, page = reports.run(NETWORK, "--node", "nobody", program=waiting.program)
    assert (status, page) == (1, None) and "usage unknown-name --node 1" in error
    assert [words[0] for words in waiting.taken()] == ["closure"]


def test_the_page_takes_no_place_of_a_file_that_is_read(reports: Reports, waiting: Waiting) -> None:
    """It is refused before anything is asked, whatever it is called."""
    folder = reports.path("aliases")
    os.mkdir(folder)
    config = shutil.copy(NETWORK, os.path.join(folder, "config.json"))
    orgs = shutil.copy(ORGS, os.path.join(folder, "orgs.json"))
    os.symlink("config.json", os.path.join(folder, "link"))
    os.symlink(folder, os.path.join(folder, "same"))
    os.link(orgs, os.path.join(folder, "hard.html"))
    before = contents(folder)
    for name in ("config.json", "./config.json", "link", "same/config.json", "orgs.json", "hard.html", "."):
        words = [TOOL, config, "--orgs", orgs, "--program", waiting.program, "-o", os.path.join(folder, name)]
        ended = subprocess.run(words, stdout=subprocess.PIPE, stderr=subprocess.PIPE, timeout=600)
        assert ended.returncode == 2, f"{name}: {ended.stderr.decode()}"
        assert not os.path.exists(waiting.log) and contents(folder) == before, name


def test_a_run_that_fails_or_is_stopped_leaves_all_as_it_was(reports: Reports, waiting: Waiting) -> None:
    """The old page and its certificates, and nothing beside them."""
    folder, program = reports.path("stopped"), waiting.program
    os.mkdir(folder)
    words = [TOOL, NETWORK, "-o", os.path.join(folder, "it.html"), "--program"]
    subprocess.run([*words, program], stderr=subprocess.DEVNULL, timeout=600)
    for name in ("faulty-09-gone.cert", "notes.txt", "intersect.cert"):
        with open(os.path.join(folder, "it-certificates", name), "w") as it:
            it.write("kept, or not")
    before = contents(folder)
    refusing = reports.written("refusing", REFUSING % reports.program, 0o755)
    ended = subprocess.run([*words, refusing], stderr=subprocess.DEVNULL, timeout=600)
    assert ended.returncode == 1 and contents(folder) == before, "it fails"
    waiting.wait()
    running = subprocess.Popen([*words, program], stderr=subprocess.DEVNULL)
    while len(os.listdir(folder)) == 2 and running.poll() is None:
        time.sleep(0.05)
    time.sleep(0.5)
    running.terminate()
    assert running.wait(60) == 143 and contents(folder) == before, "it is stopped"
    waiting.go_on()
    ended = subprocess.run([*words, program], stderr=subprocess.DEVNULL, timeout=600)
    assert ended.returncode == 0
    after = {name for name in before if "faulty-09" not in name}
    assert {*contents(folder)} == after, "a stale certificate goes, what else lies there stays"
