"""A method for each command of the table. Made by make_commands.py from share/commands.json: do not edit."""

from __future__ import annotations

from typing import Optional

from . import asking
from .asking import Several
from .binding import ROOM, Data
from .replies import Answer
from .worker import Stop


class Commands:
    """The commands of the program as methods."""

    def ask(
        self,
        command: str,
        options: dict[str, object],
        second: Optional[Data] = None,
        timeout: Optional[float] = None,
        stop: Optional[Stop] = None,
    ) -> Answer:
        raise NotImplementedError

    def show(
        self,
        *,
        timeout: Optional[float] = None,
        stop: Optional[Stop] = None,
    ) -> Answer:
        """The size of a configuration, and what is odd in its quorum sets.

        `show CONFIG`
        """
        options: dict[str, object] = {}
        return self.ask("show", options, timeout=timeout, stop=stop)

    def closure(
        self,
        node: str,
        *,
        timeout: Optional[float] = None,
        stop: Optional[Stop] = None,
    ) -> Answer:
        """All nodes on whom a node depends.

        `closure CONFIG --node NAME`
        """
        options: dict[str, object] = {
            "node": node,
        }
        return self.ask("closure", options, timeout=timeout, stop=stop)

    def greatest(
        self,
        *,
        from_node: Optional[str] = None,
        faulty: Optional[Several] = None,
        faulty_orgs: Optional[Several] = None,
        timeout: Optional[float] = None,
        stop: Optional[Stop] = None,
    ) -> Answer:
        """The greatest quorum: who can agree on anything.

        `greatest CONFIG [COMMON]`
        """
        options: dict[str, object] = {
            "from_node": from_node,
            "faulty": faulty,
            "faulty_orgs": faulty_orgs,
        }
        return self.ask("greatest", options, timeout=timeout, stop=stop)

    def intersect(
        self,
        *,
        from_node: Optional[str] = None,
        faulty: Optional[Several] = None,
        faulty_orgs: Optional[Several] = None,
        budget: Optional[int] = None,
        timeout: Optional[float] = None,
        stop: Optional[Stop] = None,
    ) -> Answer:
        """Whether every two quorums share a node, or two that share none.

        `intersect CONFIG CERT [COMMON] [--budget UNITS]`
        """
        options: dict[str, object] = {
            "from_node": from_node,
            "faulty": faulty,
            "faulty_orgs": faulty_orgs,
            "budget": budget,
        }
        return self.ask("intersect", options, timeout=timeout, stop=stop)

    def available(
        self,
        nodes: Several,
        *,
        from_node: Optional[str] = None,
        timeout: Optional[float] = None,
        stop: Optional[Stop] = None,
    ) -> Answer:
        """Whether all other nodes can go on without a set that crashes.

        `available CONFIG --set NAMES [--from NAME]`
        """
        options: dict[str, object] = {
            "nodes": nodes,
            "from_node": from_node,
        }
        return self.ask("available", options, timeout=timeout, stop=stop)

    def dset(
        self,
        nodes: Several,
        *,
        from_node: Optional[str] = None,
        budget: Optional[int] = None,
        timeout: Optional[float] = None,
        stop: Optional[Stop] = None,
    ) -> Answer:
        """Whether a set is dispensable: the rest available and intersecting without it.

        `dset CONFIG CERT --set NAMES [--from NAME] [--budget UNITS]`
        """
        options: dict[str, object] = {
            "nodes": nodes,
            "from_node": from_node,
            "budget": budget,
        }
        return self.ask("dset", options, timeout=timeout, stop=stop)

    def blocks(
        self,
        nodes: Several,
        *,
        from_node: Optional[str] = None,
        faulty: Optional[Several] = None,
        faulty_orgs: Optional[Several] = None,
        timeout: Optional[float] = None,
        stop: Optional[Stop] = None,
    ) -> Answer:
        """Whether a set that crashes stops every quorum.

        `blocks CONFIG --set NAMES [COMMON]`
        """
        options: dict[str, object] = {
            "nodes": nodes,
            "from_node": from_node,
            "faulty": faulty,
            "faulty_orgs": faulty_orgs,
        }
        return self.ask("blocks", options, timeout=timeout, stop=stop)

    def vblocks(
        self,
        node: str,
        nodes: Several,
        *,
        timeout: Optional[float] = None,
        stop: Optional[Stop] = None,
    ) -> Answer:
        """Whether a set stops one node: it meets every quorum slice of it.

        `vblocks CONFIG --node NAME --set NAMES`
        """
        options: dict[str, object] = {
            "node": node,
            "nodes": nodes,
        }
        return self.ask("vblocks", options, timeout=timeout, stop=stop)

    def splits(
        self,
        nodes: Several,
        *,
        from_node: Optional[str] = None,
        faulty: Optional[Several] = None,
        faulty_orgs: Optional[Several] = None,
        budget: Optional[int] = None,
        timeout: Optional[float] = None,
        stop: Optional[Stop] = None,
    ) -> Answer:
        """Whether two quorums share no node if a set lies.

        `splits CONFIG CERT --set NAMES [COMMON] [--budget UNITS]`
        """
        options: dict[str, object] = {
            "nodes": nodes,
            "from_node": from_node,
            "faulty": faulty,
            "faulty_orgs": faulty_orgs,
            "budget": budget,
        }
        return self.ask("splits", options, timeout=timeout, stop=stop)

    def blocking(
        self,
        *,
        from_node: Optional[str] = None,
        faulty: Optional[Several] = None,
        faulty_orgs: Optional[Several] = None,
        budget: Optional[int] = None,
        timeout: Optional[float] = None,
        stop: Optional[Stop] = None,
    ) -> Answer:
        """All minimal sets that can stop the network.

        `blocking CONFIG CERT [COMMON] [--budget UNITS]`
        """
        options: dict[str, object] = {
            "from_node": from_node,
            "faulty": faulty,
            "faulty_orgs": faulty_orgs,
            "budget": budget,
        }
        return self.ask("blocking", options, timeout=timeout, stop=stop)

    def check(
        self,
        certificate: Data,
        *,
        timeout: Optional[float] = None,
        stop: Optional[Stop] = None,
    ) -> Answer:
        """What a certificate shows, or its first fault.

        `check CONFIG CERT [--orgs ORGS]`
        """
        options: dict[str, object] = {}
        return self.ask("check", options, certificate, timeout=timeout, stop=stop)

    def export(
        self,
        *,
        from_node: Optional[str] = None,
        faulty: Optional[Several] = None,
        faulty_orgs: Optional[Several] = None,
        formula: Optional[int] = None,
        timeout: Optional[float] = None,
        stop: Optional[Stop] = None,
    ) -> Answer:
        """The intersection formula in DIMACS form, for any SAT solver.

        `export CONFIG [COMMON] [--formula VERSION]`
        """
        options: dict[str, object] = {
            "from_node": from_node,
            "faulty": faulty,
            "faulty_orgs": faulty_orgs,
            "formula": formula,
        }
        return self.ask("export", options, timeout=timeout, stop=stop)

    def check_lrat(
        self,
        proof: Data,
        *,
        from_node: Optional[str] = None,
        faulty: Optional[Several] = None,
        faulty_orgs: Optional[Several] = None,
        formula: Optional[int] = None,
        timeout: Optional[float] = None,
        stop: Optional[Stop] = None,
    ) -> Answer:
        """Whether another solver's LRAT proof refutes the exported formula.

        `check-lrat CONFIG LRAT [COMMON] [--formula VERSION]`
        """
        options: dict[str, object] = {
            "from_node": from_node,
            "faulty": faulty,
            "faulty_orgs": faulty_orgs,
            "formula": formula,
        }
        return self.ask("check-lrat", options, proof, timeout=timeout, stop=stop)

    def quorums(
        self,
        *,
        from_node: Optional[str] = None,
        faulty: Optional[Several] = None,
        faulty_orgs: Optional[Several] = None,
        budget: Optional[int] = None,
        timeout: Optional[float] = None,
        stop: Optional[Stop] = None,
    ) -> Answer:
        """All minimal quorums.

        `quorums CONFIG CERT [COMMON] [--budget UNITS]`
        """
        options: dict[str, object] = {
            "from_node": from_node,
            "faulty": faulty,
            "faulty_orgs": faulty_orgs,
            "budget": budget,
        }
        return self.ask("quorums", options, timeout=timeout, stop=stop)

    def least(
        self,
        *,
        from_node: Optional[str] = None,
        faulty: Optional[Several] = None,
        faulty_orgs: Optional[Several] = None,
        budget: Optional[int] = None,
        timeout: Optional[float] = None,
        stop: Optional[Stop] = None,
    ) -> Answer:
        """A smallest quorum.

        `least CONFIG CERT [COMMON] [--budget UNITS]`
        """
        options: dict[str, object] = {
            "from_node": from_node,
            "faulty": faulty,
            "faulty_orgs": faulty_orgs,
            "budget": budget,
        }
        return self.ask("least", options, timeout=timeout, stop=stop)

    def org_blocking(
        self,
        *,
        from_node: Optional[str] = None,
        faulty: Optional[Several] = None,
        faulty_orgs: Optional[Several] = None,
        budget: Optional[int] = None,
        timeout: Optional[float] = None,
        stop: Optional[Stop] = None,
    ) -> Answer:
        """All minimal sets of organisations that can stop the network.

        `org-blocking CONFIG CERT --orgs ORGS [--from NAME] [--faulty NAMES] [--faulty-orgs IDS] [--budget UNITS]`
        """
        options: dict[str, object] = {
            "from_node": from_node,
            "faulty": faulty,
            "faulty_orgs": faulty_orgs,
            "budget": budget,
        }
        return self.ask("org-blocking", options, timeout=timeout, stop=stop)

    def whatif(
        self,
        script: Data,
        nodes: Several,
        *,
        timeout: Optional[float] = None,
        stop: Optional[Stop] = None,
    ) -> Answer:
        """Edits of the quorum sets, tried one after another.

        `whatif CONFIG SCRIPT --set NAMES`
        """
        options: dict[str, object] = {
            "nodes": nodes,
        }
        return self.ask("whatif", options, script, timeout=timeout, stop=stop)


def trial(
    count: int,
    *,
    budget: Optional[int] = None,
    timeout: Optional[float] = None,
    stop: Optional[Stop] = None,
    room: int = ROOM,
) -> Answer:
    """Intersect, on a made-up network of N organisations.

    `trial N CERT [--budget UNITS]`
    """
    options: dict[str, object] = {
        "budget": budget,
    }
    return asking.counted("trial", count, options, timeout, stop, room)
