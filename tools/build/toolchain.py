"""The toolchain on the path: which it is, and its command rt with the sum of each crate's sources taken once.

rtlib's Crate.stamp reads all files of a crate and then asks itself of each library that the crate's line of crates.txt
names, without keeping what it found: as many sums as there are ways down the graph of crates, over ten thousand for
the uppermost, in each call of rt.
"""

from __future__ import annotations

import functools
import importlib.machinery
import os
import re
import shutil
import subprocess
import types
from collections.abc import Callable
from typing import Any

LOGIC = "dac8208d650f15bf"
README = "README.md ('What you need') says which"
LAUNCHER = os.path.join(os.path.dirname(os.path.realpath(__file__)), "rt")
# The methods of rtlib's Crate by which the toolchain works: sources may have changed meanwhile.
WORKS = ("call", "prove", "front_end")


class Unfit(Exception):
    """There is no toolchain of the project's logic; the text says why."""


class Toolchain:
    """The folder of a toolchain, its name by its own word, and its command rt: the one given, or the first on the path
    that is not tools/build/rt."""

    def __init__(self, rt: str | None = None) -> None:
        path = os.pathsep.join(
            it
            for it in os.environ.get("PATH", os.defpath).split(os.pathsep)
            if not is_launcher(os.path.join(it, "rt"))
        )
        self.env = {**os.environ, "PATH": path}
        found = rt or shutil.which("rt", path=path)
        if not found:
            raise Unfit(f"the toolchain's command rt is not on the path; {README}")
        self.rt: str = found
        name, logic = re.findall(r"\A(\S*)(?: logic )?(\S*)", self.version())[0]
        self.name: str = name
        if logic != LOGIC:
            raise Unfit(
                f"the toolchain has to be one of logic {LOGIC}, and rt on the path is"
                f" {f'{self.name} logic {logic}' if logic else 'of another kind'}; {README}"
            )

    def said(self, *words: str) -> str:
        return subprocess.run(
            [self.rt, *words],
            env=self.env,
            stdin=subprocess.DEVNULL,
            stdout=subprocess.PIPE,
            stderr=subprocess.DEVNULL,
            errors="replace",
        ).stdout

    @functools.cached_property
    def folder(self) -> str:
        own = os.path.dirname(os.path.dirname(os.path.realpath(self.rt)))
        return (
            own if os.path.isfile(os.path.join(own, "bin", "rtlib.py")) else os.path.dirname(self.said("doc").strip())
        )

    def version(self) -> str:
        file = os.path.join(self.folder, "KIT-ID")
        if not os.path.isfile(file):
            return self.said("version")
        with open(file, encoding="utf-8", errors="replace") as it:
            return it.read()

    def script(self) -> str | None:
        """The script that rt is, with its rtlib beside it; none where it is of another form."""
        files = [os.path.join(self.folder, "bin", name) for name in ("rt", "rtlib.py")]
        return files[0] if all(map(os.path.isfile, files)) else None


def is_launcher(file: str) -> bool:
    return os.path.exists(file) and os.path.exists(LAUNCHER) and os.path.samefile(file, LAUNCHER)


def keep_sums(crate: Any) -> None:
    """Has rtlib's class of crates take each sum once, and anew after the toolchain has worked: so the end of a build
    sees what changed on the way. (A kit's rt may put its own method in the place of this one, and then calls it.)"""
    kept = crate.stamp = functools.cache(crate.stamp)

    def then_anew(method: Callable[..., Any]) -> Callable[..., Any]:
        @functools.wraps(method)
        def worked(*given: Any, **named: Any) -> Any:
            try:
                return method(*given, **named)
            finally:
                kept.cache_clear()

        return worked

    for name in WORKS:
        setattr(crate, name, then_anew(getattr(crate, name)))


def keep_sums_of_rtlib() -> None:
    """Does so as soon as the module rtlib is read, which rt reads by its path; with another rtlib than is known here
    nothing is kept."""
    plain = importlib.machinery.SourceFileLoader.exec_module

    def exec_module(self: importlib.machinery.SourceFileLoader, module: types.ModuleType) -> None:
        plain(self, module)
        crate = getattr(module, "Crate", None)
        if module.__name__ == "rtlib" and all(hasattr(crate, name) for name in ("stamp", *WORKS)):
            keep_sums(crate)

    setattr(importlib.machinery.SourceFileLoader, "exec_module", exec_module)
