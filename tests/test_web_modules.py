"""The modules of the page: what eslint and tsc find in them, each in node, and what esbuild makes of them.

A page has the same bytes from another folder and under another clock and number of processors, and each module stands
in it; where esbuild is missing tools/build/web-page says so in one line. What is not installed (Debian's eslint,
node-typescript, nodejs, esbuild, zopfli) is skipped.
"""

from __future__ import annotations

import glob
import json
import os
import shutil
import subprocess
import sys
from pathlib import Path
from typing import Any

import pytest

from needed import needs

TOP = os.path.dirname(os.path.dirname(os.path.abspath(__file__)))
WEB = os.path.join(TOP, "web")
# What the page is made of beside its modules.
NEEDED = ("tools", "examples", "VERSION")
# What lies above a folder of sources is none of them.
ABOVE = {
    "tsconfig.json": '{"compilerOptions": {"target": "es5", "useDefineForClassFields": false}}',
    "package.json": '{"sideEffects": false, "type": "commonjs"}',
}


def ran(words: list[str], **more: Any) -> tuple[int, str]:
    # (Debian's modules, also for a node that is not Debian's)
    env = {**os.environ, "NODE_PATH": "/usr/share/nodejs", **more.pop("env", {})}
    pipes: dict[str, Any] = {"stdin": subprocess.DEVNULL, "stdout": subprocess.PIPE, "stderr": subprocess.STDOUT}
    ended = subprocess.run(words, timeout=600, env=env, **pipes, **more)
    return ended.returncode, ended.stdout.decode("utf-8", "replace")


@needs("eslint")
@pytest.mark.parametrize(
    "words", [[WEB], ["--env", "node", *glob.glob(os.path.join(TOP, "tests", "*.mjs"))]], ids=["web", "tests"]
)
def test_eslint_finds_nothing(words: list[str]) -> None:
    rules = os.path.join(WEB, ".eslintrc.json")
    status, said = ran(["eslint", "--no-eslintrc", "-c", rules, "--format", "unix", *words], cwd=TOP)
    assert status == 0, said


@needs("tsc")
def test_tsc_finds_nothing() -> None:
    status, said = ran(["tsc", "-p", os.path.join(WEB, "tsconfig.json")], cwd=TOP)
    assert status == 0, said


@needs("node")
def test_each_module_by_itself_in_node() -> None:
    assert ran(["node", os.path.join(TOP, "tests", "web_modules.mjs")], cwd=TOP) == (0, "")


@needs("esbuild")
def test_each_module_stands_in_the_page_or_its_worker(tmp_path: Path) -> None:
    held: set[str] = set()
    for start in ("main.js", os.path.join("state", "worker.js")):
        words = ["esbuild", start, "--bundle", "--format=iife", "--tsconfig=tsconfig.json", "--log-level=warning"]
        words += [f"--metafile={tmp_path}/held.json", f"--outfile={tmp_path}/made.js"]
        assert ran(words, cwd=WEB) == (0, ""), start
        held |= set(json.loads((tmp_path / "held.json").read_bytes())["inputs"])
    assert held == {os.path.relpath(it, WEB) for it in glob.glob(os.path.join(WEB, "**", "*.js"), recursive=True)}


@pytest.fixture
def module(tmp_path: Path) -> Path:
    """A module that is none: the page's bytes hang on nothing else of it."""
    made = tmp_path / "module.wasm"
    made.write_bytes(b"\0asm\1\0\0\0" + bytes(range(256)) * 40)
    return made


def page_over(module: Path, top: str = TOP, **how: Any) -> bytes:
    page = module.with_name("made.html")
    words = [sys.executable, os.path.join(top, "tools", "build", "web-page"), "-o", str(page), "--module", str(module)]
    status, said = ran(words, **how)
    assert status == 0, said
    return page.read_bytes()


@needs("esbuild", "zopfli")
def test_the_page_has_the_same_bytes_from_another_folder(module: Path) -> None:
    other = module.parent / "another place"
    other.mkdir()
    for name in ("web", *NEEDED):
        path = os.path.join(TOP, name)
        if os.path.isdir(path):
            shutil.copytree(path, other / name)
        else:
            shutil.copy(path, other)
    for name, content in ABOVE.items():
        module.with_name(name).write_text(content)
    env = {"GOMAXPROCS": "1", "TZ": "Asia/Tokyo", "HOME": str(module.parent), "LC_ALL": "C"}
    assert page_over(module) == page_over(module, str(other), cwd="/", env=env)


@needs("zopfli")
def test_without_esbuild_it_says_so(module: Path) -> None:
    tools = module.parent / "bin"
    tools.mkdir()
    (tools / "zopfli").symlink_to(shutil.which("zopfli") or "")
    words = [sys.executable, os.path.join(TOP, "tools", "build", "web-page"), "-o", str(module.with_name("made.html"))]
    said = "web-page: there is no esbuild, which bundles the page's modules: apt-get install esbuild\n"
    assert ran([*words, "--module", str(module)], env={"PATH": str(tools)}) == (1, said)
