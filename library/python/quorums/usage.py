"""The table of the commands, as the library's own usage text has it."""

from __future__ import annotations

import functools
import re
from dataclasses import dataclass

from . import binding

OPTION = re.compile(r"(--[\w-]+) ([A-Z]+)")


@dataclass(frozen=True)
class Option:
    """An option of a command: its word, what stands for its value, and whether it must be given."""

    flag: str
    place: str
    needed: bool

    @property
    def argument(self) -> str:
        """What the package calls it: `from` is a word of Python, and `set` a type."""
        return {"--from": "from_node", "--set": "nodes"}.get(self.flag, self.flag[2:].replace("-", "_"))


@dataclass(frozen=True)
class Command:
    """A row of the table."""

    word: str
    files: tuple[str, ...]
    options: tuple[Option, ...]
    line: str

    @property
    def method(self) -> str:
        """What the package calls it."""
        return self.word.replace("-", "_")

    @property
    def is_search(self) -> bool:
        """Whether it writes a certificate: a search has a budget, and what has none reads its second file."""
        return "CERT" in self.files and self.option("--budget") is not None

    @property
    def second(self) -> str | None:
        """What stands for the second file, if there is one."""
        return self.files[1] if len(self.files) > 1 else None

    def option(self, flag: str) -> Option | None:
        return next((it for it in self.options if it.flag == flag), None)

    def takes(self, argument: str) -> bool:
        """Whether an option has this name as an argument."""
        return any(it.argument == argument for it in self.options)


def row(line: str, common: list[tuple[str, str]]) -> Command:
    """The command of a line of the usage text."""
    bare = re.sub(r"\[[^]]*\]", "", line)
    options = [Option(flag, place, True) for flag, place in OPTION.findall(bare)]
    for inside in re.findall(r"\[([^]]*)\]", line):
        options += [
            Option(flag, place, False) for flag, place in (common if inside == "COMMON" else OPTION.findall(inside))
        ]
    return Command(line.split()[0], tuple(OPTION.sub("", bare).split()[1:]), tuple(options), line)


def read(text: str) -> dict[str, Command]:
    """The commands of a usage text, by their words."""
    lines = text.splitlines()[1:]
    common = [pair for line in lines if line.startswith("COMMON:") for pair in OPTION.findall(line)]
    rows = [row(line, common) for line in lines if not line.startswith("COMMON:")]
    return {it.word: it for it in rows}


@functools.lru_cache(maxsize=None)
def commands() -> dict[str, Command]:
    """The commands of the library that is loaded."""
    return read(binding.answer([])[1].decode())
