#!/usr/bin/env python3
"""Writes quorums/commands.py, a method for each command, from the table share/commands.json (tools/maintain/commands).

usage: library/python/make_commands.py [--check]

With --check nothing is written, and the status is 1 where the file is not what would be written.
"""

from __future__ import annotations

import json
import os
import sys
from typing import Any

HERE = os.path.dirname(os.path.abspath(__file__))
TOP = os.path.dirname(os.path.dirname(HERE))
sys.path.insert(0, HERE)

from quorums import usage

HEAD = '''"""A method for each command of the table. Made by make_commands.py from share/commands.json: do not edit."""

from __future__ import annotations

from typing import Optional

from . import asking
from .asking import Several
from .binding import ROOM, Data
from .replies import Answer
from .worker import Stop


class Commands:
    """The commands of the program as methods."""

    def ask(
        self,
        command: str,
        options: dict[str, object],
        second: Optional[Data] = None,
        timeout: Optional[float] = None,
        stop: Optional[Stop] = None,
    ) -> Answer:
        raise NotImplementedError
'''
TYPES = {"NAME": "str", "NAMES": "Several", "IDS": "Several", "UNITS": "int", "VERSION": "int"}
SECOND = {"CERT": "certificate", "LRAT": "proof", "SCRIPT": "script"}


def table() -> dict[str, Any]:
    """The table of the commands."""
    with open(os.path.join(TOP, "share", "commands.json"), encoding="utf-8") as it:
        held: dict[str, Any] = json.load(it)
    return held


def rows_of(held: dict[str, Any]) -> dict[str, usage.Command]:
    """The rows as the package has them."""
    found = {}
    for it in held["commands"]:
        options = tuple(usage.Option(one["name"], one["value"], one["needed"]) for one in it["options"])
        found[it["word"]] = usage.Command(it["word"], tuple(it["files"]), options, it["usage"])
    return found


def signature(row: usage.Command) -> list[str]:
    """The parameters of a method: the second file and what is needed by place or name, the others by name."""
    first = [] if row.is_search or row.second is None else [f"{SECOND[row.second]}: Data"]
    asked = [it for it in row.options if it.flag != "--orgs"]
    first += [f"{it.argument}: {TYPES[it.place]}" for it in asked if it.needed]
    rest = [f"{it.argument}: Optional[{TYPES[it.place]}] = None" for it in asked if not it.needed]
    return [*first, "*", *rest, "timeout: Optional[float] = None", "stop: Optional[Stop] = None"]


def over_lines(head: str, parts: list[str], tail: str, indent: str) -> str:
    """What stands in brackets, a part a line."""
    return f"{indent}{head}\n" + "".join(f"{indent}    {it},\n" for it in parts) + f"{indent}{tail}\n"


def doc(row: usage.Command, said: str, indent: str) -> str:
    return f'{indent}"""{said[0].upper()}{said[1:]}.\n\n{indent}`{row.line}`\n{indent}"""\n'


def options_of(row: usage.Command, indent: str) -> str:
    """The statement that puts the arguments together."""
    named = [f'"{it.argument}": {it.argument}' for it in row.options if it.flag != "--orgs"]
    if not named:
        return f"{indent}options: dict[str, object] = {{}}\n"
    return over_lines("options: dict[str, object] = {", named, "}", indent)


def method(row: usage.Command, said: str) -> str:
    inside, second = " " * 8, "" if row.is_search or row.second is None else f"{SECOND[row.second]}, "
    head = over_lines(f"def {row.method}(", ["self", *signature(row)], ") -> Answer:", "    ")
    asked = f'{inside}return self.ask("{row.word}", options, {second}timeout=timeout, stop=stop)\n'
    return "\n" + head + doc(row, said, inside) + options_of(row, inside) + asked


def function(row: usage.Command, said: str) -> str:
    """A command that is about no configuration, but about a number."""
    head = over_lines(f"def {row.method}(", ["count: int", *signature(row), "room: int = ROOM"], ") -> Answer:", "")
    asked = f'    return asking.counted("{row.word}", count, options, timeout, stop, room)\n'
    return "\n\n" + head + doc(row, said, "    ") + options_of(row, "    ") + asked


def made() -> str:
    held = table()
    rows, said = rows_of(held), {it["word"]: it["does"] for it in held["commands"]}
    methods = [method(it, said[it.word]) for it in rows.values() if it.files[0] == "CONFIG"]
    functions = [function(it, said[it.word]) for it in rows.values() if it.files[0] != "CONFIG"]
    return HEAD + "".join([*methods, *functions])


def main() -> int:
    path = os.path.join(HERE, "quorums", "commands.py")
    text = made()
    if "--check" in sys.argv[1:]:
        with open(path, encoding="utf-8") as it:
            if it.read() == text:
                return 0
        print("make_commands: quorums/commands.py is not that of share/commands.json: run tools/maintain/commands")
        return 1
    with open(path, "w", encoding="utf-8") as it:
        it.write(text)
    return 0


if __name__ == "__main__":
    sys.exit(main())
