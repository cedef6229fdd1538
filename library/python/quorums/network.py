"""A network as an object, and what is answered of it as values."""

from __future__ import annotations

import time
from typing import TYPE_CHECKING, Optional

from . import asking, binding, usage
from .commands import Commands
from .replies import Answer
from .worker import Stop

if TYPE_CHECKING:
    import pandas

# Units of the first search that has to end in time, and of the last one.
FIRST_UNITS, MOST_UNITS = 100, 4_000_000_000


class Quorums(Commands):
    """A network, by the bytes of its configuration; organisations are named by a second file.

    A method is a command of quorum_cli, and gives an Answer. `faulty` are nodes that lie, `faulty_orgs` organisations
    whose nodes do, and
    `from_node` is the node as which the network is seen. `nodes` is the set that is asked about. Names are given as
    one text, with
    commas, or as several. `budget` is the most units of a search (1,000,000).

    With `timeout` or `stop` a call runs in a process of its own, which is ended after that many seconds
    (TimeoutError), or as soon as
    another thread says `stop.end()` (Ended).

    Raises Refused for what is refused, TooLarge, MemoryError, and TypeError for an argument of another type.
    """

    def __init__(self, config: binding.Data, orgs: binding.Data = b"", room: int = binding.ROOM) -> None:
        self.config, self.orgs = binding.as_bytes("config", config), binding.as_bytes("orgs", orgs)
        self.room = binding.as_count("room", room)

    def ask(
        self,
        command: str,
        options: dict[str, object],
        second: Optional[binding.Data] = None,
        timeout: Optional[float] = None,
        stop: Optional[Stop] = None,
    ) -> Answer:
        """What is answered to a command of the table; `second` is the file that it reads beside the configuration,
        if it reads one."""
        row = asking.row(command)
        words, files = [command, "config"], {"config": self.config, "orgs": self.orgs}
        if row.is_search:
            words.append("made")
        elif row.second is not None:
            name = "script" if row.second == "SCRIPT" else "cert"
            words.append(name)
            files[name] = binding.as_bytes(
                {"SCRIPT": "script", "LRAT": "proof"}.get(row.second, "certificate"), second
            )
        words += asking.given(row, options)
        if self.wants_orgs(row, options):
            words.append("--orgs=orgs")
        return asking.answered(command, words, timeout, stop, room=self.room, **files)

    def ask_in_time(
        self, command: str, options: dict[str, object], seconds: float, stop: Optional[Stop] = None
    ) -> Answer:
        """What a search finds within some seconds: it is asked with budgets that grow fourfold, and the last answer
        is the one that came in time.

        Raises TimeoutError if not even the first one did.
        """
        until, found = time.monotonic() + seconds, None
        most = options.get("budget")
        most = MOST_UNITS if most is None else binding.as_count("budget", most)
        budget = min(FIRST_UNITS, most)
        while True:
            try:
                found = self.ask(
                    command, {**options, "budget": budget}, timeout=max(0.0, until - time.monotonic()), stop=stop
                )
            except TimeoutError:
                if found is None:
                    raise TimeoutError(f"not answered in {seconds} s") from None
                return found
            if found.known or budget == most:
                return found
            budget = min(4 * budget, most)

    def wants_orgs(self, row: usage.Command, options: dict[str, object]) -> bool:
        """Whether the file of organisations is named: if the command needs it, or an option does, or `check` may."""
        orgs = row.option("--orgs")
        if orgs is None:
            return False
        return (
            orgs.needed
            or options.get("faulty_orgs") is not None
            or bool(self.orgs)
            and row.option("--faulty-orgs") is None
        )

    def frame(self) -> pandas.DataFrame:
        """The nodes as a pandas DataFrame, by their keys: what is published of each, and whether it is in the
        greatest quorum."""
        from .snapshots import node_frame

        return node_frame(self)
