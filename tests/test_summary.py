"""The summary of both pages, beside trying all sets (tests/summary.py): on four networks of which it once said what is
not so, and on small random networks.

What the summary says comes from tools/use/network-report as data (--json), and from the page's modules in node, which
ask the same program. Both pages have to say it in the same words, and of the four networks those that stand in FOUR
and not others.
"""

from __future__ import annotations

import html
import json
import os
import random
import re
import shutil
import subprocess
from collections.abc import Callable
from pathlib import Path
from typing import Any

import pytest

import summary

TOP = os.path.dirname(os.path.dirname(os.path.abspath(__file__)))
TOOL = os.path.join(TOP, "tools", "use", "network-report")
IN_NODE = os.path.join(TOP, "tests", "web_summary.mjs")
NODE = shutil.which("node")


def plain(text: str) -> str:
    return html.unescape(re.sub(r"<style>.*?</style>|<[^>]*>", "", text, flags=re.S))


class Pages:
    """What both pages say of a network: the words of the summary, and the text of the report."""

    def __init__(self, program: str, folder: Path) -> None:
        self.program, self.folder = program, folder

    def path(self, name: str) -> str:
        return str(self.folder / name)

    def of(
        self,
        nodes: list[dict[str, Any]],
        orgs: list[dict[str, Any]],
        node: str | None = None,
        is_now: bool = False,
        tried: bool = True,
    ) -> tuple[str, str]:
        about = f"{json.dumps(nodes)}\n{json.dumps(orgs)}\nof {node}, now: {is_now}"
        for file, held in (("config.json", nodes), ("orgs.json", orgs)):
            (self.folder / file).write_text(json.dumps(held), encoding="utf-8")
        shutil.rmtree(self.path("page-certificates"), ignore_errors=True)
        words = [TOOL, self.path("config.json"), "--orgs", self.path("orgs.json"), *(["--node", node] if node else [])]
        words += [*(["--now"] if is_now else []), "-o", self.path("page.html"), "--json", self.path("page.json")]
        ended = subprocess.run(
            [*words, "--program", self.program], stdout=subprocess.PIPE, stderr=subprocess.PIPE, text=True
        )
        assert ended.returncode == 0, f"{ended.stderr[-500:]}\n{about}"
        data = json.loads((self.folder / "page.json").read_text(encoding="utf-8"))
        page = (self.folder / "page.html").read_text(encoding="utf-8")
        if tried:
            differs = summary.Expected(nodes, orgs, node, is_now).compare(data)
            assert not differs, f"not as by trying all sets: {differs}\n{about}"
        said = [plain(it) for row in re.findall(r"<dt>(.*?)</dt><dd>(.*?)</dd>", page) for it in row]
        if NODE:
            found = self.in_node(node, is_now)
            assert found["data"] == data, about
            assert found["said"] == said, about
        return "\n".join(said), plain(page)

    def in_node(self, node: str | None, is_now: bool) -> dict[str, Any]:
        words = [NODE or "", IN_NODE, self.program, self.path("config.json"), self.path("orgs.json"), node or ""]
        ended = subprocess.run([*words, "now" if is_now else ""], stdout=subprocess.PIPE, stderr=subprocess.PIPE)
        assert ended.returncode == 0, ended.stderr.decode()[-800:]
        found: dict[str, Any] = json.loads(ended.stdout)
        return found


@pytest.fixture
def pages(program: str, tmp_path: Path) -> Pages:
    return Pages(program, tmp_path)


def without_node() -> None:
    """What was tried was tried of the report alone."""
    if not NODE:
        pytest.skip("the page is not tried: there is no node")


@pytest.mark.parametrize("name", summary.FOUR)
def test_of_four_networks_it_says_what_is_so(name: str, pages: Pages) -> None:
    made, node, has, lacks = summary.FOUR[name]
    nodes, orgs = made()
    said, page = pages.of(nodes, orgs, node[0] if node else None, tried=len(nodes) < 15)
    assert [text for text in has if text not in said] == [], said
    assert [text for text in lacks if text in page] == [], said
    without_node()


def test_of_random_networks_it_says_what_trying_all_sets_gives(
    pages: Pages, cases: Callable[[int, int], int], seed: Callable[[int], int]
) -> None:
    for at in range(cases(12, 200)):
        chance = random.Random(f"{seed(1)} {at}")
        nodes, orgs = summary.random_network(chance)
        node = chance.choice(sorted(it["publicKey"] for it in nodes)) if chance.random() < 0.4 else None
        pages.of(nodes, orgs, node, chance.random() < 0.3)
    without_node()
