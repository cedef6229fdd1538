"""The page of the report for made-up networks with a hundred watchers each (tests/watchers.py): what it says, and how
it looks in Chromium, at three widths, in the dark, and printed.

The summary, and who is left if an organisation leaves, is what the program answers to whoever asks it without the
page. At each width nothing is wider than the window, no two labels of the picture overlap, and the picture has two
columns on a phone; in the dark the text stands out from its ground. With --basetemp=FOLDER the pages, screenshots and
prints are kept there.
"""

from __future__ import annotations

import html
import itertools
import json
import math
import os
import re
import shutil
import subprocess
from collections.abc import Iterator, Sequence
from typing import Any

import pytest

import browser
import chosen
from networks import Networks

TOOL = os.path.join(chosen.TOP, "tools", "use", "network-report")
BUDGET = "10000"
MOST_BYTES = 400_000
MOST_SHEETS = 10
WIDTHS = {"phone": 360, "tablet": 768, "desk": 1280}


def asked(*words: str) -> tuple[int, str]:
    """The status and the text of the program."""
    ended = subprocess.run([chosen.path(), *words], stdout=subprocess.PIPE, timeout=3000)
    return ended.returncode, ended.stdout.decode()


def plain(text: str) -> str:
    return html.unescape(re.sub(r"<[^>]*>", "", text))


class Page:
    """The page of a network, without a node of one's own or with one, a watcher."""

    def __init__(self, kind: str, with_node: bool, config: str, orgs: str, folder: str) -> None:
        self.config, self.folder = config, folder
        self.path = os.path.join(folder, "page.html")
        with open(orgs, encoding="utf-8") as it:
            self.orgs: dict[str, list[str]] = {org["name"]: org["validators"] for org in json.load(it)}
        words = [TOOL, config, "--orgs", orgs, *(["--node", self.watcher()] if with_node else [])]
        # Of one all sets of nodes are listed, which takes longest.
        words += [] if kind == "seven" else ["--budget", BUDGET]
        made = subprocess.run(
            [*words, "-o", self.path, "--program", chosen.path()],
            stdout=subprocess.PIPE,
            stderr=subprocess.PIPE,
            timeout=3000,
        )
        assert made.returncode == 0, made.stderr.decode()
        with open(self.path, encoding="utf-8") as it:
            self.text = it.read()
        found = re.search(r"quorum_cli intersect \S+ \S+ --from=(\w+)", self.text)
        self.node = self.watcher() if with_node else found[1]

    def watcher(self) -> str:
        with open(self.config, encoding="utf-8") as it:
            nodes = json.load(it)
        return next(
            it["publicKey"]
            for it in nodes
            if not it["isValidator"] and "quorumSet" in it and len(it["quorumSet"]["validators"]) == 5
        )

    def lines(self) -> dict[str, str]:
        """What the summary says, by its labels."""
        return {label: plain(line) for label, line in re.findall(r"<dt>(.*?)</dt><dd>(.*?)</dd>", self.text)}

    def forks(self, lying: Sequence[str] = ()) -> int:
        """The status of the question whether it can fork, as the node sees it."""
        words = ["intersect", self.config, os.path.join(self.folder, "asked.cert"), "--from", self.node]
        return asked(*words, *(["--faulty", ",".join(lying)] if lying else []))[0]

    def goes_on(self, silent: Sequence[str]) -> list[str]:
        """Who goes on if these are silent; nobody: they stop it."""
        status, text = asked("blocks", self.config, "--from", self.node, "--set", ",".join(silent))
        return text.split("\n")[1].split()[1:] if status else []

    def greatest(self) -> list[str]:
        return asked("greatest", self.config, "--from", self.node)[1].split()[1:]

    def stopping(self, orgs: Sequence[str], gone: Sequence[str] = ()) -> list[tuple[str, ...]]:
        """All minimal sets of these organisations that stop the network once these keys are gone, as the node sees
        it."""
        found: list[tuple[str, ...]] = []
        for size in range(1, len(orgs) + 1):
            for some in itertools.combinations(orgs, size):
                if not any(set(it) <= set(some) for it in found):
                    keys = [key for org in some for key in self.orgs[org]]
                    if not self.goes_on([*gone, *keys]):
                        found.append(some)
        return found


def together(sets: list[tuple[str, ...]]) -> str:
    """How the page says that these sets stop the network."""
    parts = []
    for size in sorted(set(map(len, sets))):
        some = [it for it in sets if len(it) == size]
        every = sorted(set().union(*some), key=str.lower)
        if len(every) == size:
            parts.append(" and ".join(every) + (" alone" if size == 1 else " together"))
        elif len(some) < math.comb(len(every), size):
            parts.append(
                ", or ".join(" and ".join(it) for it in sorted(sorted(it, key=str.lower) for it in some)) + " together"
            )
        else:
            parts.append(
                "each of %s alone" % ", ".join(every)
                if size == 1
                else "any %d of these %d together: %s" % (size, len(every), ", ".join(every))
            )
    return ("%d sets: " % len(sets) if len(sets) > 1 else "") + "; or ".join(parts)


@pytest.fixture(
    scope="module",
    params=[(kind, with_node) for kind in ("seven", "needed", "old") for with_node in (False, True)],
    ids=["seven", "seven-node", "needed", "needed-node", "old", "old-node"],
)
def page(request: Any, program: str, networks: Networks, tmp_path_factory: pytest.TempPathFactory) -> Page:
    kind, with_node = request.param
    name = f"{kind}-node" if with_node else kind
    return Page(kind, with_node, *networks.made(kind), str(tmp_path_factory.mktemp(name, numbered=False)))


def test_it_is_small_enough(page: Page) -> None:
    assert os.path.getsize(page.path) < MOST_BYTES


def test_it_says_whether_it_can_fork(page: Page) -> None:
    said = page.lines()["Can it fork?"]
    assert said.startswith({0: "It cannot fork.", 1: "It can fork"}[page.forks()])


def test_it_says_who_can_fork_it_by_lying(page: Page) -> None:
    lying = [org for org, keys in page.orgs.items() if page.forks(keys) == 1]
    if len(lying) == len(page.orgs):
        wanted = f"Each of {len(page.orgs)} organisations can fork it: {', '.join(lying)}."
    elif lying:
        wanted = f"Of {len(page.orgs)} organisations {len(lying)} can fork it: {', '.join(lying)}."
    else:
        wanted = f"Of {len(page.orgs)} organisations none can fork it."
    assert page.lines()["If one organisation lies?"].startswith(wanted)


def test_it_says_who_can_stop_it(page: Page) -> None:
    said = page.lines()["Who can stop it?"].split(". ")[0].rstrip(".")
    assert said == together(page.stopping([*page.orgs]))


def test_it_says_whether_the_node_is_in_the_greatest_quorum(page: Page) -> None:
    lines, inside = page.lines(), page.node in page.greatest()
    assert "Your node" not in lines or ("is in the greatest quorum" in lines["Your node"]) == inside


def test_it_says_who_is_left_if_an_organisation_leaves(page: Page) -> None:
    """Each row is what `blocks` says of its keys, alone and with others."""
    part = page.text.partition('id="leaving"')[2].partition("</table>")[0]
    rows = [
        [plain(it) for it in re.findall(r"<t[hd][^>]*>(.*?)</t[hd]>", row)]
        for row in re.findall(r"<tr>(.*?)</tr>", part)[1:]
    ]
    assert [row[0] for row in rows] == [*page.orgs]
    greatest = page.greatest()
    for org, goes_on, then in rows:
        keys = page.orgs[org]
        left = page.goes_on(keys)
        others = len(set(greatest) - set(keys))
        wanted = f"{len(left)} of the other {others} nodes go on" if left else "No, it stops once"
        assert goes_on.startswith(wanted), org
        stopping = page.stopping([it for it in page.orgs if it != org], keys) if left else []
        assert then == (together(stopping) if left else "it has stopped"), f"once {org} has left"


@pytest.fixture(scope="module")
def chromium(tmp_path_factory: pytest.TempPathFactory) -> Iterator[browser.Browser]:
    started = browser.Browser(shutil.which("chromium") or "", str(tmp_path_factory.mktemp("profile")))
    yield started
    started.end()


@pytest.mark.browser
@pytest.mark.parametrize("width", WIDTHS)
def test_nothing_is_wider_than_the_window(width: str, page: Page, chromium: browser.Browser) -> None:
    """No two labels overlap, and the picture has two columns on a phone."""
    chromium.open(page.path, WIDTHS[width], "light")
    found = chromium.told(browser.MEASURES)
    chromium.picture(os.path.join(page.folder, f"{width}.png"), found["high"])
    assert (found["out"], found["over"], found["wide"]) == ([], 0, 0)
    assert found["columns"] == (2 if width == "phone" else 4)
    chromium.told("document.querySelectorAll('details').forEach(it => it.open = true) || '0'")
    assert chromium.told(browser.MEASURES)["out"] == [], "unfolded"


@pytest.mark.browser
@pytest.mark.parametrize("scheme", ["light", "dark"])
def test_the_text_stands_out_from_its_ground(scheme: str, page: Page, chromium: browser.Browser) -> None:
    chromium.open(page.path, WIDTHS["desk"], scheme)
    chromium.picture(os.path.join(page.folder, f"{scheme}.png"), 2400)
    least, where = chromium.told(browser.CONTRAST)
    assert least >= 4.5, where


@pytest.mark.browser
def test_it_is_printed_on_few_sheets(page: Page, chromium: browser.Browser) -> None:
    chromium.open(page.path, WIDTHS["desk"], "dark")
    assert 1 <= chromium.printed(os.path.join(page.folder, "printed.pdf")) <= MOST_SHEETS
