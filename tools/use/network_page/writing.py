"""Writes the page and its certificates beside those that are there, and puts them in their place at the end."""

from __future__ import annotations

import json
import os
import re
import shutil
import signal
import sys
import tempfile
from typing import Any, TYPE_CHECKING

if TYPE_CHECKING:
    from network_page.network import Organisation

from network_page.asking import ASKED

# What the files of this tool are called: one that an earlier run left is stale. Other files of the folder are kept.
MADE = re.compile(
    r"(now-)?(validators-)?(from-)?(%s|faulty-[A-Za-z0-9._-]+)(-\d+)?\.cert"
    r"|(now-)?leaving-[A-Za-z0-9._-]+\.script|(organisations|now|(now-)?validators)\.json" % "|".join(ASKED)
)


def told(why: Exception) -> str:
    """What an error says: of a file first its name, and no number of the system."""
    if isinstance(why, OSError) and why.filename and why.strerror:
        return f"{why.filename}: {why.strerror.lower()}"
    return str(why)


class BadPage(ValueError):
    """The page cannot be where the words want it."""


class Beside:
    """A page and its certificates in the making, which are taken away where they do not take the place of the old
    ones."""

    def __init__(self, page: str, read: list[str | None], data: str | None = None) -> None:
        """Refuses, before anything is asked, a page in the place of a file that is read, whatever it is called."""
        for out, option in ((page, "-o"), (data, "--json")):
            if out is None:
                continue
            if os.path.isdir(out):
                raise BadPage(
                    f"{out} is a folder: {option} names the file itself, as report.{'html' if out == page else 'json'}"
                )
            if not os.path.isdir(os.path.dirname(os.path.abspath(out))):
                raise BadPage(f"{option} {out}: there is no folder {os.path.dirname(out)}")
            for path in read:
                if path is not None and os.path.exists(out) and os.path.exists(path) and os.path.samefile(out, path):
                    raise BadPage(f"{option} {out} is the file that is read as {path}: the page would take its place")
        if data is not None and os.path.realpath(data) == os.path.realpath(page):
            raise BadPage("-o and --json name the same file")
        self.page = page
        self.data = data
        stem = os.path.splitext(page)[0]
        self.name = os.path.basename(stem) + "-certificates"
        self.folder = os.path.realpath(stem + "-certificates")
        self.part = ""
        self.texts: dict[str, str] = {}

    def __enter__(self) -> Beside:
        for it in (signal.SIGINT, signal.SIGTERM, signal.SIGHUP):
            # (a run that was told to outlive its terminal does so)
            if signal.getsignal(it) != signal.SIG_IGN:
                signal.signal(it, lambda number, _: sys.exit(128 + number))
        self.part = tempfile.mkdtemp(prefix=os.path.basename(self.folder) + ".", dir=os.path.dirname(self.folder))
        for path in filter(None, (self.page, self.data)):
            handle, self.texts[path] = tempfile.mkstemp(
                prefix=os.path.basename(path) + ".", dir=os.path.dirname(os.path.abspath(path))
            )
            os.close(handle)
        return self

    def __exit__(self, *_: Any) -> None:
        shutil.rmtree(self.part, ignore_errors=True)
        for text in self.texts.values():
            if os.path.exists(text):
                os.unlink(text)

    def path(self, name: str) -> str:
        """Where a file of that name is in the making."""
        return os.path.join(self.part, name)

    def place(self, name: str, ending: str) -> str:
        return self.path(re.sub(r"[^A-Za-z0-9._-]", "_", name)[:80] + ending)

    def certificate(self, name: str) -> str:
        """Where the certificate of this name is written."""
        return self.place(name, ".cert")

    def left(self, path: str) -> bool:
        """Puts what an earlier run left under this name in its place, and says whether there was anything."""
        old = os.path.join(self.folder, os.path.basename(path))
        if not os.path.isfile(old):
            return False
        shutil.copyfile(old, path)
        return True

    def written(self, name: str, text: str) -> str:
        """Writes a file of this name, and says where."""
        with open(self.path(name), "w", encoding="utf-8") as it:
            it.write(text)
        return self.path(name)

    def script(self, name: str, lines: list[str]) -> str:
        """Writes a script of edits, and says where."""
        path = self.place(name, ".script")
        with open(path, "w", encoding="ascii") as it:
            it.writelines(line + "\n" for line in lines)
        return path

    def organisations(self, orgs: list[Organisation]) -> str:
        """Writes organisations that stand in no file, and says where."""
        text = json.dumps(
            [{"id": org.id, "name": org.name, "validators": org.keys} for org in orgs], ensure_ascii=False, indent=1
        )
        return self.written("organisations.json", text + "\n")

    def exchange(self, texts: list[str]) -> None:
        """Puts the certificates and then the page and its data in the place of the old ones; what of those is stale
        goes."""
        for path, text in zip((self.page, self.data), texts):
            if path is not None:
                with open(self.texts[path], "w", encoding="utf-8") as it:
                    it.write(text)
                os.chmod(self.texts[path], 0o666 & ~mask())
        os.makedirs(self.folder, exist_ok=True)
        made = os.listdir(self.part)
        for name in made:
            os.replace(os.path.join(self.part, name), os.path.join(self.folder, name))
        for name in set(os.listdir(self.folder)) - set(made):
            if MADE.fullmatch(name):
                os.unlink(os.path.join(self.folder, name))
        for path in filter(None, (self.data, self.page)):
            os.replace(self.texts[path], path)


def mask() -> int:
    """The file mode mask, which can be read only by setting it."""
    now = os.umask(0)
    os.umask(now)
    return now
