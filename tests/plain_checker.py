#!/usr/bin/env python3
"""A second checker of certificates, of proofs and of edits, plain and slow, written from docs/FORMATS.md and
docs/DEFINITIONS.md and not from the code.

It answers 'check CONFIG CERT', 'check-lrat CONFIG LRAT' and 'whatif CONFIG SCRIPT' with the program's status and text,
and reads organisations, so that tests/fuzz.py can compare the two. Nothing here is proved. By hand:
tests/plain_checker.py CONFIG CERT [ORGS]
"""

from __future__ import annotations

import hashlib
import json
import math
import re
import sys
from collections.abc import Callable, Iterator
from typing import Any, NoReturn

MOST_BYTES = 16777216
MOST_SCRIPT = 1048576
MOST_NAMES = 16384
MOST_ORGS = 4096
MOST_ENTRIES = 1000000
MOST_DEPTH = 32
MOST_VARS = 4000000
MOST_LINE = 134217728
MOST_ID = 2**63 - 1
MOST_LIT = 2**31 - 1

KINDS: tuple[str, ...] = (
    "pair",
    "refutation",
    "partial",
    "blocking",
    "partial-blocking",
    "quorums",
    "partial-quorums",
    "least",
    "partial-least",
)
KINDS += ("org-blocking", "partial-org-blocking")
# The kinds that version 1 lacks.
LATER = KINDS[5:]
# The letter of the sets that a list is of.
SOUGHT = {"blocking": b"b", "quorums": b"q", "least": b"s", "org-blocking": b"b"}
SOUGHT.update({"partial-" + kind: letter for kind, letter in SOUGHT.items()})

sys.setrecursionlimit(10000)


class Fault(Exception):
    """The first fault of a file: what is printed behind the word that names the file, or the whole line and its
    status."""


# ---- JSON, configurations and organisations


def whole_or_float(text: str) -> Any:
    """A number without fraction and exponent: whole where 64 bits hold it, else a float, as -0 is."""
    number = int(text) if len(text) < 30 else None
    if number is not None and text != "-0" and -(2**63) <= number < 2**64:
        return number
    return finite(text)


def finite(text: str) -> float:
    number = float(text)
    if math.isinf(number):
        raise ValueError("no binary64 holds it")
    return number


def no_constant(text: str) -> None:
    raise ValueError(text)


def tree_of(data: bytes) -> list[dict[str, Any]]:
    """The tree of a JSON text; of a member that comes twice the last one counts."""
    try:
        text = data.decode("utf-8")
        depth = 0
        for mark in re.findall(r'"(?:[^"\\]|\\.)*"?|[\[\]{}]', text, re.DOTALL):
            depth += {"[": 1, "{": 1, "]": -1, "}": -1}.get(mark, 0)
            if depth > 127:
                raise ValueError("too deep")
            if "\\u" in mark:
                # Half of a surrogate pair is no text.
                json.loads(mark).encode("utf-8")
        return json.loads(text, parse_int=whole_or_float, parse_float=finite, parse_constant=no_constant)
    except (ValueError, RecursionError):
        raise Fault("not-json")


def is_key(it: str) -> bool:
    return isinstance(it, str) and re.fullmatch(r"[!-+\--~]{1,128}", it) is not None


def keys_of(it: list[str]) -> list[str]:
    """A list of keys that may be missing or null; None where it is something else."""
    if it is None:
        return []
    return it if isinstance(it, list) and all(is_key(key) for key in it) else None


def quorum_set_of(it: dict[str, Any], place: int, depth: int) -> tuple[int, list[Any]]:
    """A quorum set: its threshold and its entries, which are names and quorum sets."""
    if depth > MOST_DEPTH:
        raise Fault(f"too-deep {place}")
    if not isinstance(it, dict):
        raise Fault(f"bad-quorum-set {place} shape")
    threshold = it.get("threshold")
    if type(threshold) is not int or threshold < 0:
        raise Fault(f"bad-quorum-set {place} threshold")
    validators = keys_of(it.get("validators"))
    if validators is None:
        raise Fault(f"bad-quorum-set {place} validators")
    inner = it.get("innerQuorumSets")
    if inner is not None and not isinstance(inner, list):
        raise Fault(f"bad-quorum-set {place} inner")
    return threshold, validators + [quorum_set_of(each, place, depth + 1) for each in inner or []]


def mentioned(quorum_set: tuple[int, list[Any]]) -> Iterator[str]:
    for entry in quorum_set[1]:
        if isinstance(entry, str):
            yield entry
        else:
            yield from mentioned(entry)


def entries(quorum_set: tuple[int, list[Any]]) -> int:
    return sum(1 if isinstance(entry, str) else 1 + entries(entry) for entry in quorum_set[1])


def system_of(data: Any) -> dict[str, tuple[int, list[Any]] | None]:
    """The system of a configuration: a quorum set, or None, by name."""
    if len(data) > MOST_BYTES:
        raise Fault("too-long")
    return system_in(data)


def system_in(data: bytes) -> dict[str, tuple[int, list[Any]] | None]:
    """The same without a limit on the bytes."""
    tree = tree_of(data)
    if not isinstance(tree, list):
        raise Fault("not-nodes")
    declared = {}
    for place, node in enumerate(tree):
        if not isinstance(node, dict):
            raise Fault(f"not-node {place}")
        key = node.get("publicKey")
        if not is_key(key):
            raise Fault(f"bad-key {place}")
        if key in declared:
            raise Fault(f"duplicate {place}")
        given = node.get("quorumSet")
        declared[key] = None if given is None else quorum_set_of(given, place, 1)
    sets = [each for each in declared.values() if each]
    names = set(declared).union(*(mentioned(each) for each in sets))
    if len(names) > MOST_NAMES:
        raise Fault(f"too-many-nodes {len(names)}")
    if sum(map(entries, sets)) > MOST_ENTRIES:
        raise Fault(f"too-many-entries {sum(map(entries, sets))}")
    return {name: declared.get(name) for name in names}


def orgs_of(data: bytes, system: dict[str, tuple[int, list[Any]] | None]) -> dict[str, set[str]]:
    """The organisations: their members among the system's nodes, by id."""
    if len(data) > MOST_BYTES:
        raise Fault("too-long")
    tree = tree_of(data)
    if not isinstance(tree, list):
        raise Fault("not-orgs")
    orgs = {}
    for place, it in enumerate(tree):
        if not isinstance(it, dict) or not is_key(it.get("id")):
            raise Fault(f"bad-org {place}")
        if it["id"] in orgs:
            raise Fault(f"duplicate-org {place}")
        validators = keys_of(it.get("validators"))
        if validators is None:
            raise Fault(f"bad-org {place}")
        orgs[it["id"]] = set(validators) & set(system)
    if len(orgs) > MOST_ORGS:
        raise Fault(f"too-many-orgs {len(orgs)}")
    return orgs


def groups_of(orgs: dict[str, set[str]], part: set[str]) -> dict[str, set[str]]:
    """The organisations by their texts, members cut to the part, and each node of the part that is in none."""
    groups = {"org:" + name: members & part for name, members in orgs.items()}
    groups.update({"node:" + node: {node} for node in part.difference(*orgs.values())})
    return groups


def listed(text: str, known: dict[str, Any]) -> set[str]:
    """The items of a list of names on the command line, or its first fault with its place."""
    items = text.split(",") if text else []
    for place, item in enumerate(items, 1):
        if not item:
            raise Fault(f"empty-name {place}")
        if not is_key(item):
            raise Fault(f"bad-name {place}")
        if item not in known:
            raise Fault(f"unknown-name {place}")
    return set(items)


# ---- Quorums


def satisfied(quorum_set: tuple[int, list[Any]], inside: set[str]) -> bool:
    """Whether some choice of the quorum set lies inside the set."""
    threshold, entry_list = quorum_set
    met = sum(entry in inside if isinstance(entry, str) else satisfied(entry, inside) for entry in entry_list)
    return 1 <= threshold <= len(entry_list) and met >= threshold


def has_slice(system: dict[str, tuple[int, list[Any]] | None], node: str, inside: set[str]) -> bool:
    return system[node] is not None and satisfied(system[node], inside)


def is_quorum(system: dict[str, tuple[int, list[Any]] | None], faulty: set[str], nodes: set[str]) -> bool:
    return bool(nodes) and not nodes & faulty and all(has_slice(system, node, nodes | faulty) for node in nodes)


def greatest_in(system: dict[str, tuple[int, list[Any]] | None], faulty: set[str], nodes: set[str]) -> set[str]:
    """The greatest quorum among the nodes, empty where there is none."""
    left = nodes - faulty
    while True:
        stays = {node for node in left if has_slice(system, node, left | faulty)}
        if stays == left:
            return left
        left = stays


def blocks(system: dict[str, tuple[int, list[Any]] | None], faulty: set[str], nodes: Any) -> bool:
    return not greatest_in(system, faulty, set(system) - nodes)


def availability(system: dict[str, tuple[int, list[Any]] | None], given: set[str]) -> tuple[int, str]:
    """The status and the text of 'available' without these nodes."""
    others = set(system) - given
    unmet = [node for node in others if not has_slice(system, node, others)]
    return (1, f"available no\nunmet{spelled(unmet)}\n") if unmet else (0, "available yes\n")


def closure(system: dict[str, tuple[int, list[Any]] | None], node: Any) -> set[str]:
    reached, fresh = {node}, [node]
    while fresh:
        quorum_set = system[fresh.pop()]
        for name in mentioned(quorum_set) if quorum_set else ():
            if name not in reached:
                reached.add(name)
                fresh.append(name)
    return reached


# ---- The intersection formula

ALWAYS, NEVER = "always", "never"


def circuit_of(quorum_set: tuple[int, list[Any]], greatest: set[str], faulty: set[str]) -> Any:
    """Always, never, or how many are wanted of which inputs: names and such pairs."""
    threshold, entry_list = quorum_set
    if not 1 <= threshold <= len(entry_list):
        return NEVER
    inputs = []
    for entry in entry_list:
        if isinstance(entry, str):
            it = ALWAYS if entry in faulty else (entry,) if entry in greatest else NEVER
        else:
            it = circuit_of(entry, greatest, faulty)
        if it == ALWAYS:
            threshold -= 1
        elif it != NEVER:
            inputs.append(it)
    if threshold <= 0:
        return ALWAYS
    return (threshold, tuple(inputs)) if threshold <= len(inputs) else NEVER


def in_order(circuit: Any) -> Any:
    """The circuit with the inputs of each gate in one order: nodes by their names, then gates by their thresholds, and
    those of equal thresholds by their inputs."""
    if circuit == ALWAYS or len(circuit) == 1:
        return circuit
    return (circuit[0], tuple(sorted(map(in_order, circuit[1]), key=place_of)))


def place_of(circuit: tuple[Any, ...]) -> tuple[Any, ...]:
    """What a circuit in order is sorted by."""
    return (0, circuit[0]) if len(circuit) == 1 else (1, circuit[0], [place_of(each) for each in circuit[1]])


def counted(size: int, i: int, j: int) -> int:
    """The variable of a counter of so many names that tells whether at least j of the first i are true."""
    return size + i * (i - 1) // 2 + j


def counter_of(size: int) -> list[list[int]]:
    """The clauses of the counter, in order."""
    clauses = []
    for i in range(1, size + 1):
        for j in range(1, i + 1):
            if j < i:
                clauses.append([-counted(size, i - 1, j), counted(size, i, j)])
            clauses.append([-i] + ([-counted(size, i - 1, j - 1)] if j > 1 else []) + [counted(size, i, j)])
    return clauses


class Formula:
    """The intersection formula in a version: the number of its variables, and its clauses in order."""

    def __init__(self, system: dict[str, tuple[int, list[Any]] | None], faulty: set[str], version: int) -> None:
        order = sorted(greatest_in(system, faulty, set(system)))
        circuits = [circuit_of(system[name], set(order), faulty) for name in order]
        if version >= 3:
            circuits = [in_order(circuit) for circuit in circuits]
        g = len(order)
        self.version = version
        self.clauses = [list(range(1, g + 1)), list(range(g + 1, 2 * g + 1))]
        self.clauses += [[-i, -(g + i)] for i in range(1, g + 1)]
        self.variables = 2 * g
        for side in (0, g):
            self.numbers = {name: side + i for i, name in enumerate(order, 1)}
            self.shared: dict[Any, int] = {}
            for i, circuit in enumerate(circuits, 1):
                if circuit != ALWAYS:
                    self.add([-(side + i), self.gate(circuit)])

    def add(self, clause: list[int]) -> None:
        """Keeps a clause while the formula is not too large: of one that is, the number of variables alone is
        wanted."""
        if self.variables <= MOST_VARS:
            self.clauses.append(clause)

    def fresh(self, count: int = 1) -> int:
        """New variables; the first of them."""
        self.variables += count
        return self.variables - count + 1

    def gate(self, circuit: tuple[Any, ...]) -> int:
        """The variable of a circuit, once its clauses are written."""
        if len(circuit) == 1:
            return self.numbers[circuit[0]]
        # From version 2 on a circuit is written once on a side: equal thresholds over equal inputs in order are one
        # gate.
        known = self.shared.get(circuit) if self.version >= 2 else None
        if known is None:
            known = self.shared[circuit] = self.new_gate(*circuit)
        return known

    def new_gate(self, k: int, inputs: tuple[Any, ...]) -> int:
        x = [self.gate(each) for each in inputs]
        n = len(x)
        if k == n:
            z = self.fresh()
            for each in x:
                self.add([-z, each])
            return z
        if k == 1:
            z = self.fresh()
            self.add([-z] + list(dict.fromkeys(x)))
            return z
        first = self.fresh(k * (k + 1) // 2 + (n - k) * k)
        if self.variables > MOST_VARS:
            return self.variables
        places = ((i, j) for i in range(1, n + 1) for j in range(1, min(i, k) + 1))
        s = {place: first + number for number, place in enumerate(places)}
        for (i, j), it in s.items():
            before = [s[i - 1, j]] if j <= i - 1 else []
            self.add([-it] + before + [x[i - 1]])
            if j >= 2:
                self.add([-it] + before + [s[i - 1, j - 1]])
        return s[n, k]


# ---- Steps


def number_in(word: str, least: int, most: int) -> int:
    if re.fullmatch(r"0|-?[1-9][0-9]*", word) and len(word) < 30 and least <= int(word) <= most:
        return int(word)
    raise ValueError(word)


def numbers_up_to_zero(words: Iterator[Any], least: int, most: int) -> list[int]:
    numbers: list[int] = []
    for word in words:
        number = number_in(word, least, most)
        if number == 0:
            return numbers
        numbers.append(number)
    raise ValueError("no zero")


def step_in(line: bytes) -> tuple[int | None, list[int], list[int]]:
    """The step of a line: its id with literals and hints, or None with the ids that it deletes. ValueError where it is
    none."""
    if re.search(rb"[^\t -~]", line):
        raise ValueError("bytes")
    words = line.decode().split()
    if not words:
        raise ValueError("no word")
    number = number_in(words[0], 1, MOST_ID)
    if words[1:2] == ["d"]:
        rest = iter(words[2:])
        step: tuple[int | None, list[int], list[int]] = (None, numbers_up_to_zero(rest, 0, MOST_ID), [])
    else:
        rest = iter(words[1:])
        literals = numbers_up_to_zero(rest, -MOST_LIT, MOST_LIT)
        step = (number, literals, numbers_up_to_zero(rest, -MOST_ID, MOST_ID))
    if next(rest, None) is not None:
        raise ValueError("extra")
    return step


class Held:
    """The clauses that are held, by id, with the last id."""

    def __init__(self, variables: int, clauses: list[list[int]], takes_rat: bool) -> None:
        self.variables, self.takes_rat = variables, takes_rat
        self.clauses = {i: frozenset(clause) for i, clause in enumerate(clauses, 1)}
        self.last = len(clauses)

    def in_order(self, number: int) -> None:
        if number <= self.last:
            raise Fault(f"id-order {self.last} {number}")

    def hold(self, number: int, literals: list[int]) -> None:
        self.clauses[number] = frozenset(literals)
        self.last = number

    def covers(self, literals: list[int]) -> bool:
        held = set(literals)
        return any(clause <= held for clause in self.clauses.values())

    def delete(self, numbers: list[int]) -> None:
        gone = set()
        for number in numbers:
            if number not in self.clauses or number in gone:
                raise Fault(f"no-such-clause {number}")
            gone.add(number)
        for number in numbers:
            del self.clauses[number]

    def follows(self, number: int, literals: list[int], hints: list[int]) -> None:
        """Takes no addition; raises the fault of one that may not be added."""
        self.in_order(number)
        true = set()
        for literal in literals:
            if abs(literal) > self.variables:
                raise Fault(f"bad-literal {literal}")
            if literal in true:
                raise Fault(f"tautology {literal}")
            true.add(-literal)
        first = group_end(hints, 0) if self.takes_rat else len(hints)
        if self.come_to_conflict(true, hints[:first], 1):
            return
        if first < len(hints) and not literals:
            raise Fault(f"rat-step {first + 1}")
        named = set()
        at = first
        while at < len(hints):
            end = group_end(hints, at + 1)
            self.take_group(set(true), -literals[0], -hints[at], hints[at + 1 : end], at + 1)
            named.add(-hints[at])
            at = end
        missing = [i for i, clause in self.clauses.items() if literals and -literals[0] in clause and i not in named]
        if not self.takes_rat or not literals or missing and not named:
            raise Fault("no-conflict")
        if missing:
            raise Fault(f"rat-missing {min(missing)}")

    def come_to_conflict(self, true: set[int], hints: list[int], first_place: int) -> bool:
        """Makes true what the hints do, and tells whether the clause of one is false."""
        for place, hint in enumerate(hints, first_place):
            if hint < 0:
                raise Fault(f"rat-step {place}")
            if hint not in self.clauses:
                raise Fault(f"no-such-clause {hint}")
            open_ones = {literal for literal in self.clauses[hint] if -literal not in true}
            if not open_ones:
                return True
            if len(open_ones) > 1:
                raise Fault(f"not-unit {place}")
            true |= open_ones
        return False

    def take_group(self, true: set[int], left_out: int, number: int, hints: list[int], place: int) -> None:
        """Raises the fault of a group: the hint at this place names this clause."""
        if number not in self.clauses:
            raise Fault(f"no-such-clause {number}")
        if left_out not in self.clauses[number]:
            raise Fault(f"rat-step {place}")
        others = self.clauses[number] - {left_out}
        if others & true:
            return
        true |= {-literal for literal in others}
        if not self.come_to_conflict(true, hints, place + 1):
            raise Fault("no-conflict")


def group_end(hints: list[int], at: int) -> int:
    """The place of the first negative hint from here on, or that behind the last hint."""
    return next((place for place in range(at, len(hints)) if hints[place] < 0), len(hints))


# ---- Certificates


class Refused(Exception):
    """The status and the line of a certificate that is not accepted."""

    def __init__(self, text: str, status: int = 5) -> None:
        super().__init__(text)
        self.status, self.text = status, text + "\n"


def names_of(rest: bytes) -> list[str]:
    """The names of a list: one space before each, strictly rising."""
    if rest and not re.fullmatch(rb"( [!-~]+)+", rest):
        raise ValueError("no list")
    names = rest.decode().split(" ")[1:]
    if any(a >= b for a, b in zip(names, names[1:])):
        raise ValueError("order")
    return names


def spelled(names: Any) -> str:
    return "".join(" " + name for name in sorted(names))


class Check:
    """Goes through a certificate line by line."""

    def __init__(
        self,
        system: dict[str, tuple[int, list[Any]] | None],
        digest: str | None,
        data: bytes,
        orgs: Any = None,
        orgs_digest: str | None = None,
    ) -> None:
        self.whole, self.digest, self.data = system, digest, data
        self.orgs, self.orgs_digest = orgs, orgs_digest
        self.at = 0
        self.line_number = 0

    def refuse(self, word: str, *rest: str) -> NoReturn:
        raise Refused(" ".join(["refused", word, str(self.line_number)] + list(rest)))

    def line(self) -> bytes:
        self.line_number += 1
        end = self.data.find(b"\n", self.at)
        if (len(self.data) if end < 0 else end) - self.at > MOST_LINE:
            self.refuse("line-too-long")
        if end < 0:
            self.refuse("truncated")
        line, self.at = self.data[self.at : end], end + 1
        return line

    def exactly(self, text: bytes) -> None:
        if self.line() != text:
            self.refuse("bad-line")

    def matching(self, pattern: bytes, line: bytes | None = None) -> tuple[bytes | None, ...]:
        """The groups of the pattern that the line is."""
        found = re.fullmatch(pattern, self.line() if line is None else line, re.DOTALL)
        if not found:
            self.refuse("bad-line")
        return found.groups()

    def names(self, rest: bytes) -> list[str]:
        try:
            return names_of(rest)
        except ValueError:
            self.refuse("bad-line")

    def known(self, names: list[str], system: list[str] | dict[str, tuple[int, list[Any]] | None]) -> set[str]:
        if not set(names) <= set(system):
            self.refuse("unknown-node")
        return set(names)

    def accepted(self) -> tuple[int, str]:
        """The status and the text of what is accepted."""
        (digit,) = self.matching(rb"fbas-cert ([123])")
        self.version = int(digit)
        (digits,) = self.matching(rb"config ([0-9a-f]{64})")
        if digits.decode() != self.digest:
            raise Refused(f"refused digest {digits.decode()} {self.digest}")
        (found,) = self.matching(rb"from( [!-~]+)?")
        start = found.decode()[1:] if found else None
        part = closure(self.whole, start) if self.known([start] if start else [], self.whole) else set(self.whole)
        (rest,) = self.matching(rb"faulty(.*)")
        self.faulty = self.known(self.names(rest), self.whole) & part
        self.system = {name: self.whole[name] for name in part}
        (kind,) = self.matching(rb"kind (.*)")
        if kind.decode("latin-1") not in KINDS or kind.decode("latin-1") in LATER and self.version == 1:
            self.refuse("bad-line")
        answer, status, lines = self.body(kind.decode())
        if self.at < len(self.data):
            raise Refused("refused trailing")
        head = f"accepted {answer}\nfrom{spelled([start] if start else [])}\nfaulty{spelled(self.faulty)}\n"
        return status, head + lines

    def body(self, kind: str) -> tuple[str, int, str] | None:
        if kind == "pair":
            self.pair()
            return "pair", 0, ""
        if kind in ("refutation", "partial"):
            self.formula()
        else:
            greatest = greatest_in(self.system, self.faulty, set(self.system))
            self.order = self.groups_line(greatest) if kind.endswith("org-blocking") else sorted(greatest)
            self.held = Held(len(self.order), [], takes_rat=False)
            if kind.endswith("least"):
                self.counter()
        units, sets = self.steps(kind)
        if kind == "refutation":
            return kind, 0, ""
        if kind == "least":
            found = sets[-1] if sets else None
            return (
                f"least {'none' if found is None else len(found)}",
                0,
                "" if found is None else f"set{spelled(found)}\n",
            )
        if kind in ("blocking", "quorums", "org-blocking"):
            return f"{kind} {len(set(sets))}", 0, "".join(f"set{spelled(each)}\n" for each in sorted(set(sets)))
        return f"{kind} {units}", 2, ""

    def pair(self) -> None:
        (rest,) = self.matching(rb"first(.*)")
        first = self.quorum(rest)
        (rest,) = self.matching(rb"second(.*)")
        second = self.quorum(rest)
        if first & second:
            self.refuse("overlap", min(first & second))
        self.exactly(b"end")

    def quorum(self, rest: bytes) -> set[str]:
        nodes = self.known(self.names(rest), self.system)
        if not is_quorum(self.system, self.faulty, nodes):
            self.refuse("not-quorum")
        return nodes

    def formula(self) -> None:
        said = self.matching(rb"formula (0|[1-9][0-9]*) ([1-9][0-9]*)")
        if any(len(it) > 19 or int(it) > MOST_ID for it in said):
            self.refuse("bad-line")
        formula = Formula(self.system, self.faulty, self.version)
        if formula.variables > MOST_VARS:
            raise Refused(f"too-large {formula.variables}", 9)
        if [int(it) for it in said] != [formula.variables, len(formula.clauses)]:
            self.refuse("formula")
        self.held = Held(formula.variables, formula.clauses, takes_rat=True)

    def groups_line(self, greatest: set[str]) -> list[str]:
        """The groups that have a variable, in order, once the digest of the organisations is compared."""
        (digits,) = self.matching(rb"orgs ([0-9a-f]{64})")
        if self.orgs is None:
            raise Refused("refused no-orgs")
        if digits.decode() != self.orgs_digest:
            raise Refused(f"refused orgs-digest {digits.decode()} {self.orgs_digest}")
        self.groups = groups_of(self.orgs, set(self.system))
        return sorted(text for text, members in self.groups.items() if members & greatest)

    def counter(self) -> None:
        said = self.matching(rb"counter (0|[1-9][0-9]*) (0|[1-9][0-9]*)")
        if any(len(it) > 19 or int(it) > MOST_ID for it in said):
            self.refuse("bad-line")
        size = len(self.order)
        variables = size + size * (size + 1) // 2
        if variables > MOST_VARS:
            raise Refused(f"too-large {variables}", 9)
        if [int(it) for it in said] != [variables, size * size]:
            self.refuse("formula")
        self.held = Held(variables, counter_of(size), takes_rat=False)

    def steps(self, kind: str) -> tuple[int, list[tuple[str, ...]]]:
        """The number of units, and the sets that a list is of, in their order."""
        whole = not kind.startswith("partial")
        units = 0
        sets: list[tuple[str, ...]] = []
        closed = False
        while True:
            line = self.line()
            if line == b"end":
                if whole and not closed:
                    self.refuse("not-refuted")
                return units, sets
            if closed:
                self.refuse("bad-line")
            if kind in SOUGHT and line[:1] in (b"s" if kind.endswith("least") else b"q", b"b"):
                nodes = self.list_line(line, kind, len(sets[-1]) if sets else None)
                if line[:1] == SOUGHT[kind]:
                    sets.append(tuple(sorted(nodes)))
                units += line[:1] != b"s"
                continue
            number, literals, hints = self.step(line)
            if number is None:
                continue
            if not literals and not whole:
                self.refuse("bad-line")
            self.judged(self.held.follows, number, literals, hints)
            self.hold(number, literals, new=not whole)
            closed = not literals
            units += 1

    def step(self, line: bytes) -> tuple[int | None, list[int], list[int]]:
        """The step of a line, its number none where it deletes; a deletion is made at once."""
        try:
            number, literals, hints = step_in(line)
        except ValueError:
            self.refuse("bad-line")
        if number is None:
            self.judged(self.held.delete, literals)
        return number, literals, hints

    def judged(self, call: Callable[..., Any], *words: Any) -> None:
        try:
            call(*words)
        except Fault as fault:
            self.refuse("step", str(fault))

    def hold(self, number: int, literals: list[int], new: bool) -> None:
        if new and self.held.covers(literals):
            self.refuse("not-new")
        self.held.hold(number, literals)

    def list_line(self, line: bytes, kind: str, last: int | None) -> set[str]:
        letter, digits, rest = self.matching(rb"([qbs]) ([1-9][0-9]*)(.*)", line)
        if len(digits) > 19 or int(digits) > MOST_ID:
            self.refuse("bad-line")
        number, names = int(digits), self.names(rest)
        self.judged(self.held.in_order, number)
        if kind.endswith("org-blocking"):
            return self.group_line(letter, number, names, kind)
        nodes = self.known(names, self.system)
        sought = letter == SOUGHT[kind]
        if letter == b"s" or letter == b"b" and not sought:
            self.known(names, self.order)
        if letter == b"s":
            if not is_quorum(self.system, self.faulty, nodes):
                self.refuse("not-quorum")
            if last is not None and len(nodes) >= last:
                self.refuse("not-smaller")
            self.hold(number, [-counted(len(self.order), len(self.order), len(nodes))], new=False)
            return nodes
        if letter == b"q":
            if not is_quorum(self.system, self.faulty, nodes):
                self.refuse("not-quorum")
            smaller = sought and any(greatest_in(self.system, self.faulty, nodes - {node}) for node in nodes)
        else:
            if nodes & self.faulty or not blocks(self.system, self.faulty, nodes):
                self.refuse("not-blocking")
            smaller = sought and any(blocks(self.system, self.faulty, nodes - {node}) for node in nodes)
        if smaller:
            self.refuse("not-minimal")
        sign = -1 if sought else 1
        literals = [sign * (self.order.index(name) + 1) for name in sorted(nodes)]
        self.hold(number, literals, new=kind.startswith("partial") or sought)
        return nodes

    def group_line(self, letter: bytes, number: int, names: list[str], kind: str) -> set[str]:
        """The same where a blocking set is one of groups."""
        if letter == b"q":
            nodes = self.known(names, self.system)
            if not is_quorum(self.system, self.faulty, nodes):
                self.refuse("not-quorum")
            touched = {text for text in self.order if self.groups[text] & nodes}
            self.hold(number, [self.order.index(text) + 1 for text in touched], new=kind.startswith("partial"))
            return nodes
        texts = self.known(names, self.order)
        if not self.groups_block(texts):
            self.refuse("not-blocking")
        if any(self.groups_block(texts - {text}) for text in texts):
            self.refuse("not-minimal")
        self.hold(number, [-1 - self.order.index(text) for text in texts], new=True)
        return texts

    def groups_block(self, texts: set[str]) -> bool:
        return blocks(self.system, self.faulty, set().union(*(self.groups[text] for text in texts)) - self.faulty)


class Verification(Check):
    """Goes through a proof of another solver line by line, of the part of the system from a node on, without the
    faulty nodes."""

    def __init__(
        self,
        system: dict[str, tuple[int, list[Any]] | None],
        start: str | None,
        faulty: set[str],
        data: bytes,
        version: int,
    ) -> None:
        super().__init__(system, None, data)
        self.version = version
        part = closure(system, start) if start else set(system)
        self.start, self.faulty = start, faulty & part
        self.system = {name: system[name] for name in part}

    def verified(self) -> tuple[int, str] | None:
        """The status and the text of a proof that comes to the empty lemma."""
        formula = Formula(self.system, self.faulty, self.version)
        if formula.variables > MOST_VARS:
            raise Refused(f"too-large {formula.variables}", 9)
        self.held = Held(formula.variables, formula.clauses, takes_rat=True)
        *lines, rest = self.data.split(b"\n")
        for line in lines + ([rest] if rest else []):
            self.line_number += 1
            if self.is_last(line):
                return (
                    0,
                    f"verified\nfrom{spelled([self.start] if self.start else [])}\nfaulty{spelled(self.faulty)}\n",
                )
        self.line_number += 1
        self.refuse("not-refuted")

    def is_last(self, line: bytes) -> bool:
        """Takes a line, and tells whether it is the empty lemma."""
        if len(line) > MOST_LINE:
            self.refuse("line-too-long")
        if line.startswith(b"c") or not line.strip(b" \t"):
            return False
        number, literals, hints = self.step(line)
        if number is None:
            return False
        self.judged(self.held.follows, number, literals, hints)
        self.held.hold(number, literals)
        return not literals


# ---- Edits

PLACE = "(?:0|[1-9][0-9]*)"


def is_threshold(word: str) -> bool:
    return re.fullmatch(PLACE, word) is not None and len(word) <= 20 and int(word) < 2**64


def is_path(word: str) -> bool:
    return re.fullmatch(rf"\.|(?:\.{PLACE})+", word) is not None


# What stands behind the word of an edit.
EDITS = {
    "threshold": (is_key, is_path, is_threshold),
    "add": (is_key, is_path, is_key),
    "drop": (is_key, is_path, is_key),
    "declare": (is_key,),
    "retire": (is_key,),
}


def words_of(line: bytes) -> tuple[str, list[str]]:
    """The words of an edit."""
    word, *rest = line.decode("latin-1").split(" ")
    forms = EDITS.get(word)
    if forms is None or len(forms) != len(rest) or not all(form(it) for form, it in zip(forms, rest)):
        raise Fault("bad-line")
    return word, rest


def places_of(path: str) -> list[int]:
    """The places of a path; one that is too long for a number here is that of no quorum set."""
    return [int(it) if len(it) < 20 else 10**20 for it in path.split(".")[1:] if it]


def changed(quorum_set: tuple[int, list[Any]], places: list[int], change: Callable[..., Any]) -> tuple[int, list[Any]]:
    """The quorum set with the one at the path changed."""
    threshold, entry_list = quorum_set
    if not places:
        return change(threshold, entry_list)
    inner = [at for at, entry in enumerate(entry_list) if not isinstance(entry, str)]
    if places[0] >= len(inner):
        raise Fault("no-set")
    at = inner[places[0]]
    return threshold, entry_list[:at] + [changed(entry_list[at], places[1:], change)] + entry_list[at + 1 :]


def with_name(threshold: int, entry_list: list[Any], name: str) -> tuple[int, list[Any]]:
    at = sum(isinstance(entry, str) for entry in entry_list)
    return threshold, entry_list[:at] + [name] + entry_list[at:]


def without_name(threshold: int, entry_list: list[str], name: str) -> tuple[int, list[str]]:
    if name not in entry_list:
        raise Fault("not-there")
    at = entry_list.index(name)
    return threshold, entry_list[:at] + entry_list[at + 1 :]


def edited(
    system: dict[str, tuple[int, list[Any]] | None], line: bytes
) -> dict[str, tuple[int, list[Any]] | None] | None:
    """The system after an edit, its limits aside."""
    word, (node, *rest) = words_of(line)
    if word == "declare":
        if system.get(node):
            raise Fault("already")
        return dict(system, **{node: (1, [])})
    if node not in system:
        raise Fault("unknown-node")
    if system[node] is None:
        raise Fault("no-set")
    if word == "retire":
        return dict(system, **{node: None})
    places, last = places_of(rest[0]), rest[1]
    changes = {
        "threshold": lambda threshold, entry_list: (int(last), entry_list),
        "add": lambda threshold, entry_list: with_name(threshold, entry_list, last),
        "drop": lambda threshold, entry_list: without_name(threshold, entry_list, last),
    }
    after = dict(system, **{node: changed(system[node], places, changes[word])})
    if word == "add":
        after.setdefault(last, None)
    return after


def tree_of_set(quorum_set: tuple[int, list[Any]]) -> dict[str, Any]:
    threshold, entry_list = quorum_set
    return {
        "threshold": threshold,
        "validators": [entry for entry in entry_list if isinstance(entry, str)],
        "innerQuorumSets": [tree_of_set(entry) for entry in entry_list if not isinstance(entry, str)],
    }


def text_of(system: dict[str, tuple[int, list[Any]] | None]) -> bytes:
    """A configuration that says the system: each of its names is a node."""
    return json.dumps(
        [dict({"publicKey": name}, **({"quorumSet": tree_of_set(own)} if own else {})) for name, own in system.items()]
    ).encode()


def whatif(config: bytes, script: bytes, names: str) -> tuple[int, str]:
    """The status and the text of 'whatif' of these bytes, with this list of names. After each edit the edited
    configuration is read anew."""
    try:
        system = system_of(config)
    except Fault as fault:
        return 4, f"config {fault}\n"
    try:
        given = listed(names, system)
    except Fault as fault:
        word, place = str(fault).split(" ")
        return 3, f"usage {word} --set {place}\n"
    if len(script) > MOST_SCRIPT:
        return 10, "script too-long\n"
    *lines, rest = script.split(b"\n")
    said = state(0, system, given)
    for number, line in enumerate(lines + ([rest] if rest else []), 1):
        try:
            system = system_in(text_of(edited(system, line)))
        except Fault as fault:
            word, *count = str(fault).split(" ")
            return 10, f"script {' '.join([word, str(number)] + count)}\n"
        said += state(number, system, given)
    return 0, said


def state(number: int, system: dict[str, tuple[int, list[Any]] | None], given: set[str]) -> str:
    """What is so after so many edits."""
    return (
        f"edit {number}\ngreatest{spelled(greatest_in(system, set(), set(system)))}\n" + availability(system, given)[1]
    )


def check_lrat(config: bytes, proof: bytes, start: str | None, faulty: set[str], version: int = 3) -> tuple[int, str]:
    """The status and the text of 'check-lrat' of these bytes, with a node and with faulty nodes that the configuration
    names, for a version of the formula."""
    try:
        system = system_of(config)
    except Fault as fault:
        return 4, f"config {fault}\n"
    try:
        return Verification(system, start, faulty, proof, version).verified()
    except Refused as refused:
        return refused.status, refused.text


def check(config: bytes, cert: bytes, orgs: bytes | None = None) -> tuple[int, str]:
    """The status and the text of 'check' of these bytes, with a file of organisations or without."""
    try:
        system = system_of(config)
    except Fault as fault:
        return 4, f"config {fault}\n"
    try:
        given = () if orgs is None else (orgs_of(orgs, system), hashlib.sha256(orgs).hexdigest())
    except Fault as fault:
        return 4, f"orgs {fault}\n"
    try:
        return Check(system, hashlib.sha256(config).hexdigest(), cert, *given).accepted()  # type: ignore[arg-type]
    except Refused as refused:
        return refused.status, refused.text


def bytes_of(path: str) -> bytes:
    with open(path, "rb") as it:
        return it.read()


def main(config: str, cert: str, orgs: str | None = None) -> int:
    status, text = check(
        bytes_of(config)[: MOST_BYTES + 1], bytes_of(cert), None if orgs is None else bytes_of(orgs)[: MOST_BYTES + 1]
    )
    sys.stdout.write(text)
    return status


if __name__ == "__main__":
    sys.exit(main(*sys.argv[1:4]))
