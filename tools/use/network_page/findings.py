"""Asks what the page says, question by question. The page of the browser asks the same in web/asking/questions.js."""

from __future__ import annotations

import itertools
from collections.abc import Callable, Sequence
from typing import Any, TYPE_CHECKING

from network_page.asking import View

if TYPE_CHECKING:
    from network_page.asking import Blocking, Certificate, Program, Verdict
    from network_page.network import Network, Organisation

# Of a list that is not whole so many sets are asked about, the smallest ones.
MOST_OF_PART = 10
# So many sets of organisations are asked about, the smallest ones, to find which together do a thing.
MOST_ASKED = 600


class Forks:
    """Whether the validators of the file can fork: `no`, `yes` or `networks` with two disjoint quorums, `undecided` or
    `none` (there is no quorum); which watchers could be split off; the verdicts that say so."""

    def __init__(self, word: str, verdicts: list[Verdict], split: Sequence[str] = ()) -> None:
        self.word = word
        self.verdicts = verdicts
        self.split = split
        pair = verdicts[-1] if verdicts and verdicts[-1].word == "no" else None
        self.first = pair.first if pair else ()
        self.second = pair.second if pair else ()


class Turn:
    """One organisation in turn: lying (its keys faulty), and silent (its keys failed). What its lies do: `no`, `yes`,
    `elsewhere` (among validators outside the view), `undecided`, or None, not asked."""

    def __init__(
        self,
        org: Organisation,
        word: str | None,
        verdicts: list[Verdict],
        split: Sequence[str],
        stops: bool,
        goes_on: list[str],
        unmet: list[str],
    ) -> None:
        self.org = org
        self.word = word
        self.verdicts = verdicts
        self.split = split
        self.stops = stops
        self.goes_on = goes_on
        self.unmet = unmet


class Together:
    """The minimal sets of organisations that do a thing, where the key of a node of none stands for itself. All of
    them, or those of at most so many organisations. A certificate is that of these sets."""

    def __init__(
        self, sets: list[frozenset[Organisation | str]], most: int | None, certificate: Certificate | None = None
    ) -> None:
        self.sets = sorted(sets, key=len)
        self.most = most
        self.certificate = certificate


class Leaving:
    """One organisation whose keys retire one after another: the greatest quorum before, and after each; and who can
    stop the network then (None: nothing is known)."""

    def __init__(self, org: Organisation, quorums: list[set[str]], then: Together | None) -> None:
        self.org = org
        self.quorums = quorums
        self.then = then

    def left(self) -> set[str]:
        """The greatest quorum once it has left."""
        return self.quorums[-1]

    def stopped_after(self) -> int:
        """How many of its keys have retired when nothing is left."""
        return next(at for at, keys in enumerate(self.quorums) if not keys)


class OwnNode:
    """What one node depends on: its trust closure, and for each organisation whether its silence stops the node."""

    def __init__(
        self,
        key: str,
        closure: list[str],
        unmet_by: list[Organisation],
        goes_on_without: list[Organisation],
        v_blocking: Together,
    ) -> None:
        self.key = key
        self.closure = closure
        self.unmet_by = unmet_by
        self.goes_on_without = goes_on_without
        self.v_blocking = v_blocking


class Part:
    """All that the program answered of one view: of one's own node, of a network of the file, or of the whole file."""

    def __init__(self, view: View, greatest: list[str]) -> None:
        self.view = view
        self.greatest = greatest
        self.verdict: Verdict | None = None
        self.orgs: list[Organisation] = []
        self.turns: list[Turn] = []
        self.stopping: Together | None = None
        self.down: list[str] = []
        self.stopped = False
        self.stopping_now: Together | None = None
        self.leaving: list[Leaving] = []
        self.blocking: Blocking | None = None
        self.own: OwnNode | None = None

    def forks(self) -> bool:
        """Whether two quorums of the view share no node, though no node lies."""
        return self.verdict is not None and self.verdict.word == "no"

    def marked(self) -> tuple[list[str], str]:
        """A set that stops the network, for the picture."""
        if self.blocking and self.blocking.sets:
            return min(self.blocking.sets, key=len), (
                "in one smallest set that stops the network"
                if self.blocking.is_whole()
                else "in one set that stops the network"
            )
        for turn in self.turns:
            if turn.stops and self.greatest:
                return [
                    key for key in turn.org.keys if key in set(self.greatest)
                ], "of one organisation that stops the network"
        return [], ""


class Found:
    """All that the program answered, for the page."""

    def __init__(self) -> None:
        self.greatest: list[str] = []
        self.validators: set[str] = set()
        self.networks: list[list[str]] = []
        self.forks = Forks("none", [])
        self.parts: list[Part] = []
        self.is_now = False


def find(program: Program, network: Network, node: str | None, closure: list[str] | None, is_now: bool) -> Found:
    """What the page says. As things are now, all is asked with the nodes that are down as silent; both margins are
    asked in any case."""
    found = Found()
    now = program.on("now", network.now_text()) if network.down() else None
    found.is_now = is_now and now is not None
    asked, whole = now if now is not None and found.is_now else program, View(None, network.keys)
    program.say("the greatest quorum")
    found.greatest = asked.greatest(whole)
    found.validators = network.validators(found.greatest)
    found.networks = network.networks(found.greatest)
    found.parts = [Part(view, asked.greatest(view)) for view in views_of(asked, network, found, node, closure, whole)]
    program.say("whether it can fork")
    found.forks = forks(asked, network, found, whole)
    for part in found.parts:
        fill(program, asked, now, network, found, part, whole)
    if node is not None and closure is not None:
        program.say("what the node depends on")
        found.parts[0].own = own_node(asked, found.parts[0], node, closure)
    return found


def views_of(
    program: Program, network: Network, found: Found, node: str | None, closure: list[str] | None, whole: View
) -> list[View]:
    """What the questions are about: what the own node depends on, and if none is given, or the file is of several
    networks, what the node of each of these depends on that most others name."""
    nodes = (
        [network.most_named(keys) for keys in found.networks]
        if len(found.networks) > 1
        else [network.most_named(found.greatest)] if found.greatest and node is None else []
    )
    views = [view_of(network, whole, node, closure)] if node is not None and closure is not None else []
    for at in nodes:
        if not any(at in view.keys for view in views):
            views.append(view_of(network, whole, at, program.closure(at)))
    return views or [whole]


def view_of(network: Network, whole: View, node: str, keys: list[str]) -> View:
    return whole if len(keys) == len(network.keys) else View(node, keys)


def forks(program: Program, network: Network, found: Found, whole: View, org: Organisation | None = None) -> Forks:
    """Whether the validators can fork, while one organisation lies. A quorum of watchers alone is none of theirs: then
    they are asked about as a file of their own."""
    name = "intersect" if org is None else "faulty-" + org.mark
    if not found.greatest and org is None:
        return Forks("none", [])
    verdicts = [program.intersect(whole, name, org)]
    if verdicts[0].word == "no":
        if len(found.networks) > 1 and org is None:
            return Forks("networks", verdicts)
        if not all(set(keys) & found.validators for keys in (verdicts[0].first, verdicts[0].second)):
            among = program.on("validators", network.validators_text(found.validators, found.is_now))
            verdicts.append(among.intersect(View(None, found.validators), name, org))
    word = {"yes": "no", "no": "yes"}.get(verdicts[-1].word, "undecided")
    return Forks(word, verdicts, split_off(program, network, found, org) if word == "no" and len(verdicts) > 1 else ())


def split_off(program: Program, network: Network, found: Found, org: Organisation | None) -> list[str]:
    """The watchers that can agree with nobody but those that lie: all but these fail, and a slice is left."""
    lying = set(org.keys) if org is not None else set()
    unmet = program.available(View(None, network.keys), sorted(found.validators - lying))[1]
    return sorted(set(network.keys) - found.validators - lying - set(unmet))


def fill(
    program: Program, asked: Program, now: Program | None, network: Network, found: Found, part: Part, whole: View
) -> None:
    """All questions of one view."""
    view = part.view
    if part.greatest:
        part.verdict = asked.intersect(view, "intersect") if view is not whole else found.forks.verdicts[0]
    part.orgs = [org for org in network.orgs if set(org.keys) & view.keys]
    for at, org in enumerate(part.orgs):
        program.say(f"organisation {at + 1} of {len(part.orgs)}: {org.name}")
        part.turns.append(turn_of(asked, network, found, part, org, whole))
    program.say("organisations that stop the network together")
    part.stopping = stopping(program, network, part) if part.greatest or found.is_now else None
    part.down = [key for key in network.down() if key in view.keys]
    if part.down and part.stopping is not None and now is not None:
        program.say("organisations that stop it as things are now")
        part.stopped = not now.greatest(view)
        part.stopping_now = None if part.stopped else stopping(now, network, part)
    if part.greatest:
        program.say("each organisation leaving")
        then = part.stopping_now if found.is_now and part.down else part.stopping
        part.leaving = [leaving(asked, network, part, then, org) for org in part.orgs if then is not None]
        program.say("the minimal blocking sets")
        part.blocking = asked.blocking(view, MOST_OF_PART)


def turn_of(program: Program, network: Network, found: Found, part: Part, org: Organisation, whole: View) -> Turn:
    """Lies are not asked about where it forks without them, and those in the whole file only if there is one
    network."""
    stops, goes_on = program.blocks(part.view, org.keys, program.noted)
    word: str | None = None
    verdicts: list[Verdict] = []
    split: Sequence[str] = ()
    if part.greatest and not part.forks():
        if part.view is not whole:
            verdicts = [program.intersect(part.view, "faulty-" + org.mark, org)]
            word = {"yes": "no", "no": "yes"}.get(verdicts[0].word, "undecided")
        if word in (None, "no") and found.forks.word not in ("yes", "networks"):
            file = forks(program, network, found, whole, org)
            verdicts, split = verdicts + file.verdicts, file.split
            word = "elsewhere" if word == "no" and file.word == "yes" else file.word
    return Turn(org, word, verdicts, split, stops, goes_on, program.available(part.view, org.keys)[1])


def stopping(program: Program, network: Network, part: Part) -> Together:
    """By the certified list of sets of organisations, else by asking."""
    listed = program.blocking_groups(part.view, network.orgs)
    if listed is None:
        return together(program, part.orgs, lambda keys: program.blocks(part.view, keys)[0])
    by_id = {"org:" + org.id: org for org in network.orgs}
    return Together(
        [frozenset(by_id.get(text, text.partition(":")[2]) for text in texts) for texts in listed[0] if texts],
        None,
        listed[1],
    )


def least_of(sets: set[frozenset[Organisation | str]]) -> list[frozenset[Organisation | str]]:
    """Those sets of which none of the others is a part."""
    return [some for some in sets if not any(other < some for other in sets)]


def leaving(program: Program, network: Network, part: Part, stopping: Together, org: Organisation) -> Leaving:
    """What the whole file's greatest quorum has of the view is the greatest quorum of that, since nobody in it depends
    on anybody outside."""
    scripted = [key for key in org.keys if network.sets.get(key)]
    quorums = [set(keys) & part.view.keys for keys in program.retired(org.keys, "leaving-" + org.mark, scripted)]
    return Leaving(org, quorums, stopping_without(stopping, org))


def stopping_without(stopping: Together, org: Organisation) -> Together | None:
    """The sets that stop the network once an organisation has left: those that stop it together with that one."""
    sets = least_of({some - {org} for some in stopping.sets} - {frozenset()})
    if stopping.most is None:
        return Together(sets, None, stopping.certificate)
    return (
        Together([some for some in sets if len(some) < stopping.most], stopping.most - 1)
        if stopping.most > 1
        else None
    )


def together(program: Program, orgs: list[Organisation], holds: Callable[..., Any]) -> Together:
    """The minimal sets of organisations for whose keys a question holds, of one, of two and so on, as far as few
    enough are asked about and there is time."""
    found: list[frozenset[Organisation | str]] = []
    asked = 0
    for size in range(1, len(orgs) + 1):
        left = [some for some in itertools.combinations(orgs, size) if not any(set(it) <= set(some) for it in found)]
        asked += len(left)
        if asked > MOST_ASKED or program.clock.is_up():
            return Together(found, size - 1)
        found += [frozenset(some) for some in left if holds(sorted(set().union(*(org.keys for org in some))))]
    return Together(found, None)


def own_node(program: Program, part: Part, node: str, closure: list[str]) -> OwnNode:
    unmet_by = [turn.org for turn in part.turns if node in turn.unmet]
    goes_on_without = [turn.org for turn in part.turns if node in turn.goes_on]
    others = [org for org in part.orgs if node not in org.keys]
    return OwnNode(
        node, closure, unmet_by, goes_on_without, together(program, others, lambda keys: program.v_blocks(node, keys))
    )
