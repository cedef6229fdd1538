#!/usr/bin/env python3
"""Makes the pages and pictures of docs/reports anew with the built program: bench/reports.py

The page of examples/network.json with its certificates, and those of the networks of tests/watchers.py, whose
certificates are not kept. The pictures need Chromium (Debian's package of that name). Wants some minutes.
"""

from __future__ import annotations

import os
import shutil
import subprocess
import sys
import tempfile

TOP = os.path.dirname(os.path.dirname(os.path.abspath(__file__)))
sys.dont_write_bytecode = True
sys.path.insert(0, os.path.join(TOP, "tests"))

import browser
import chosen
import watchers

REPORTS = os.path.join(TOP, "docs", "reports")
TOOL = os.path.join(TOP, "tools", "use", "network-report")
BUDGET = "10000"
KINDS = [*watchers.KINDS, "split"]
# The pictures: the first so many pixels of a page.
PICTURES = {"network": 905, "split": 1085}


def report(page: str, config: str, orgs: str, *words: str) -> None:
    subprocess.run(
        [TOOL, config, "--orgs", orgs, *words, "-o", page, "--program", chosen.path()],
        check=True,
        timeout=3000,
    )


def picture(chromium: str, name: str) -> None:
    with tempfile.TemporaryDirectory() as profile:
        shown = browser.Browser(chromium, profile)
        shown.open(os.path.join(REPORTS, name + ".html"), 1060, "light")
        shown.picture(os.path.join(REPORTS, name + ".png"), PICTURES[name])
        shown.end()


def main() -> int:
    examples = os.path.join(TOP, "examples")
    report(
        os.path.join(REPORTS, "network.html"),
        os.path.join(examples, "network.json"),
        os.path.join(examples, "orgs.json"),
        "--node",
        "GAAA1",
    )
    with tempfile.TemporaryDirectory() as folder:
        for kind, (config, orgs) in watchers.write(folder, KINDS).items():
            page = os.path.join(folder, kind + ".html")
            report(page, config, orgs, "--budget", BUDGET)
            shutil.copy(page, REPORTS)
    chromium = shutil.which("chromium")
    for name in PICTURES if chromium else []:
        picture(chromium, name)
    return 0


if __name__ == "__main__":
    sys.exit(main())
