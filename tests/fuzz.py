"""Mutates configurations, organisations, certificates of every kind, proofs of other solvers, scripts of edits and
command words, and judges what the program says of them.

The program must end with one of its statuses, put out what fits that status, and nothing on standard error. What
'check' says of a configuration and a certificate, 'check-lrat' of a proof, 'whatif' of a script, 'greatest' of
organisations, and what the plain questions and 'export' answer, must be what tests/plain_checker.py says. A
certificate that a search wrote must be one that it accepts, and the answer that of trying all sets of nodes; where the
answer is unknown, each unit of the certificate must be useful and its clauses must not close.
"""

from __future__ import annotations

import collections
import hashlib
import itertools
import json
import os
import random
import re
import subprocess
from typing import Any

import commands
import plain_checker as plain

# What is put out with a status. 8 is none of them: no case wants more memory than there is.
REFUSALS = {
    3: rb"usage: quorum_cli COMMAND\n(.+\n)+|usage [a-z].*\n",
    4: rb"(config|orgs) .*\n",
    5: rb"refused .*\n",
    6: rb"",
    7: rb"",
    9: rb"too-large [0-9]+\n",
    10: rb"script [a-z].*\n",
}
ANSWERS = rb"(?!usage|config|orgs|refused|too-large|script)(.+\n)+"

# Numbers at the edges of what the formats allow, and texts that are no numbers.
EDGES = (
    "0 1 2 3 -1 -2 -0 +1 01 00 32 33 127 128 16384 2147483647 -2147483647 2147483648 -2147483648 4294967296"
    " 9223372036854775807 -9223372036854775807 9223372036854775808 18446744073709551615 18446744073709551616 1.0"
    " 1e0 x d".split()
)


# ---- Configurations


def random_set(rng: random.Random, names: list[str], depth: int) -> dict[str, Any]:
    """A small quorum set, mostly with a threshold that a choice can meet."""
    validators = rng.sample(names, rng.randint(0 if depth else 1, min(4, len(names))))
    if rng.random() < 0.1 and validators:
        validators.append(rng.choice(validators))
    inner = (
        [random_set(rng, names, depth - 1) for _ in range(rng.randint(0, 2))] if depth and rng.random() < 0.5 else []
    )
    count = len(validators) + len(inner)
    threshold = rng.randint(1, count) if count and rng.random() < 0.95 else rng.choice([0, count + 1])
    made = {"threshold": threshold, "validators": validators}
    return dict(made, innerQuorumSets=inner) if inner else made


def random_nodes(rng: random.Random) -> list[dict[str, Any]]:
    names = list("abcdefg")[: rng.randint(1, 7)]
    if rng.random() < 0.4:
        count = len(names)
        common = {"threshold": rng.randint(count // 2, count) or 1, "validators": names}
        return [{"publicKey": name, "quorumSet": common} for name in names]
    nodes = []
    for name in names:
        node: dict[str, Any] = {"publicKey": name}
        if rng.random() < 0.9:
            node["quorumSet"] = random_set(rng, names, rng.choice([0, 0, 1, 2]))
        nodes.append(node)
    return nodes


def compact(tree: list[dict[str, Any]]) -> bytes:
    return json.dumps(tree, separators=(",", ":")).encode()


def random_config(rng: random.Random) -> bytes:
    return compact(random_nodes(rng))


def random_orgs(rng: random.Random, ids: list[str] | str = "ABCD") -> list[dict[str, Any]]:
    """Organisations that overlap, lack members or name strangers."""
    return [
        {"id": it, "validators": rng.sample("abcdefgz", rng.randint(0, 4))}
        for it in rng.sample(ids, rng.randint(0, 3))
    ]


def trial_config(count: int) -> bytes:
    """The trial configuration of so many organisations of three nodes."""
    names = [f"t{i:03d}" for i in range(3 * count)]
    inner = [{"innerQuorumSets": [], "threshold": 2, "validators": names[i : i + 3]} for i in range(0, 3 * count, 3)]
    common = {"innerQuorumSets": inner, "threshold": count - (count - 1) // 3, "validators": []}
    return compact([{"publicKey": name, "quorumSet": common} for name in names])


def sizes_of_trial(system: dict[str, tuple[int, list[tuple[Any, ...]]]]) -> str:
    """What 'trial' prints before the answer."""
    formula = plain.Formula(system, set(), 3)
    nodes = len(system)
    return (
        f"trial {nodes // 3}\nnodes {nodes}\nvariables {formula.variables}\nclauses"
        f" {len(formula.clauses)}\nintersects "
    )


JSON_WORDS = [
    b"null",
    b"true",
    b"{}",
    b"[]",
    b'""',
    b"1e400",
    b"1e-400",
    b'"a"',
    b'"\\u0061"',
    b'"\\ud83d"',
    b'"a,b"',
    b"[null]",
    b'{"threshold":1}',
    b"\xff",
    b"\xef\xbb\xbf",
    b'"a\nb"',
]


def mutated_json(rng: random.Random, data: bytes) -> bytes:
    """JSON text with a few changes: of bytes, of numbers, of strings and of members."""
    for _ in range(rng.choice([1, 1, 1, 2, 4])):
        kind = rng.randrange(9)
        marks = [it.span() for it in re.finditer(rb'"[^"]*"|-?[0-9]+|[\[\]{}:,]', data)]
        numbers = [it.span() for it in re.finditer(rb"(?<=:)[0-9]+", data)]
        texts = [it.span() for it in re.finditer(rb'"[^"]*"(?=[,\]}])', data)]
        if kind >= 7 and numbers:
            data = cut_in(data, rng.choice(numbers), rng.choice(EDGES[:-2] + ["null"]).encode())
        elif kind >= 5 and texts:
            data = cut_in(
                data,
                rng.choice(texts),
                rng.choice(
                    [b'"a"', b'"\\u0061"', b'"b"', b'"z"', b'"a b"', b'""', b'"a,b"', b"null", b"1", b"[]", b"{}"]
                ),
            )
        elif kind == 0 or not marks:
            data = mutated_bytes(rng, data)
        elif kind == 1:
            data = cut_in(data, rng.choice(marks), rng.choice(EDGES).encode())
        elif kind == 2:
            data = cut_in(data, rng.choice(marks), rng.choice(JSON_WORDS))
        elif kind == 3:
            a, b = rng.choice(marks), rng.choice(marks)
            data = cut_in(data, a, data[b[0] : b[1]])
        elif kind == 4:
            low, high = sorted(rng.choice(marks)[0] for _ in range(2))
            data = data[:high] + data[low:high] + data[high:] if high - low < 200 else data[:low] + data[high:]
        else:
            at = data.find(b"{", rng.randrange(len(data) or 1))
            member = b'"%s":%s,' % (
                rng.choice([b"publicKey", b"quorumSet", b"threshold", b"validators", b"innerQuorumSets", b"id", b"x"]),
                rng.choice(JSON_WORDS + [b"1", b"2"]),
            )
            data = data[: at + 1] + member + data[at + 1 :]
    return data


def cut_in(data: bytes, span: tuple[int, int], new: bytes) -> bytes:
    return data[: span[0]] + new + data[span[1] :]


def mutated_bytes(rng: random.Random, data: bytes) -> bytes:
    at = rng.randrange(len(data) + 1)
    size = rng.choice([0, 1, 1, 2, 8])
    new = bytes(rng.choice(b'\x00\x01\t\n\r !,09az{}[]:"\\\x7f\x80\xc3\xff') for _ in range(rng.choice([0, 1, 1, 2])))
    return data[:at] + new + data[at + size :]


# ---- Certificates


class Subject:
    """A configuration with what a certificate of it speaks of."""

    def __init__(self, rng: random.Random, data: bytes) -> None:
        self.data = data
        self.digest = hashlib.sha256(data).hexdigest()
        self.version = rng.choice([1, 2, 3])
        # the version of a formula that stands in a file of its own, and its option, which may be left out for the
        # newest
        self.exported = rng.choice([2, 3])
        self.formula = [] if self.exported == 3 and rng.random() < 0.5 else [f"--formula={self.exported}"]
        try:
            self.whole = plain.system_of(data)
        except plain.Fault:
            self.whole = {"a": None}
        self.names = sorted(self.whole)
        self.start = rng.choice(self.names) if self.names and rng.random() < 0.25 else None
        part = plain.closure(self.whole, self.start) if self.start else set(self.names)
        some = rng.sample(self.names, min(len(self.names), rng.choice([0, 0, 0, 1, 1, 2])))
        self.given = sorted(some)
        self.faulty = set(some) & part
        self.system = {name: self.whole[name] for name in part}
        self.orgs = compact(random_orgs(rng))
        self.groups = plain.groups_of(plain.orgs_of(self.orgs, self.whole), part)

    def touched(self) -> list[str]:
        """The groups that have a member in the greatest quorum, in order."""
        greatest = self.shrunk(set(self.system))
        return sorted(text for text, members in self.groups.items() if members & greatest)

    def groups_block(self, texts: Any) -> bool:
        nodes = set().union(*(self.groups[text] for text in texts))
        return plain.blocks(self.system, self.faulty, nodes - self.faulty)

    def header(self, kind: str) -> list[str]:
        start = " " + self.start if self.start else ""
        return [
            f"fbas-cert {self.version}",
            "config " + self.digest,
            "from" + start,
            "faulty" + plain.spelled(self.given),
            "kind " + kind,
        ]

    def shrunk(self, nodes: set[str]) -> set[str]:
        return plain.greatest_in(self.system, self.faulty, nodes)

    def options(self) -> list[str]:
        return (["--from=" + self.start] if self.start else []) + ["--faulty=" + ",".join(self.given)]


def quorums(subject: Subject, most: int) -> list[set[str]] | None:
    """All quorums after deletion of the faulty nodes, by trying all sets of nodes; None where there are too many
    sets."""
    names = sorted(set(subject.system) - subject.faulty)
    if len(names) > most:
        return None
    found = []
    for bits in itertools.product([False, True], repeat=len(names)):
        nodes = {name for name, bit in zip(names, bits) if bit}
        if plain.is_quorum(subject.system, subject.faulty, nodes):
            found.append(nodes)
    return found


def random_quorum(rng: random.Random, subject: Subject) -> set[str]:
    """Some quorum, mostly a small one."""
    nodes = subject.shrunk(set(subject.system))
    for name in rng.sample(sorted(nodes), len(nodes)):
        less = subject.shrunk(nodes - {name})
        if less and rng.random() < 0.8:
            nodes = less
    return nodes


def random_block(rng: random.Random, subject: Subject) -> set[str]:
    """Some blocking set, mostly a minimal one."""
    nodes = set(subject.system) - subject.faulty
    for name in rng.sample(sorted(nodes), len(nodes)):
        if plain.blocks(subject.system, subject.faulty, nodes - {name}) and rng.random() < 0.97:
            nodes = nodes - {name}
    return nodes


def random_group_block(rng: random.Random, subject: Subject) -> set[str]:
    """Some blocking set of groups, mostly a minimal one; now and then with a group that has no variable."""
    texts = set(subject.groups if rng.random() < 0.05 else subject.touched())
    for text in rng.sample(sorted(texts), len(texts)):
        if subject.groups_block(texts - {text}) and rng.random() < 0.97:
            texts = texts - {text}
    return texts


def propagated(held: dict[int, frozenset[int]], literals: list[int]) -> list[int] | None:
    """Hints that show the lemma by unit propagation, or None."""
    true = {-it for it in literals}
    hints: list[int] = []
    changed = True
    while changed:
        changed = False
        for number, clause in held.items():
            left = {it for it in clause if -it not in true}
            if not left:
                return hints + [number]
            if len(left) == 1 and not left <= true:
                true |= left
                hints.append(number)
                changed = True
    return None


def made_true(held: dict[int, frozenset[int]], true: set[int]) -> set[int]:
    """All literals that unit propagation makes true from these, or None where it comes to a conflict."""
    true, changed = set(true), True
    while changed:
        changed = False
        for clause in held.values():
            left = {it for it in clause if -it not in true}
            if not left:
                return None
            if len(left) == 1 and not left <= true:
                true |= left
                changed = True
    return true


def is_useful(held: dict[int, frozenset[int]], clause: frozenset[int]) -> bool:
    """Whether for some literal of the clause propagation from the negations of the others neither fails nor makes it
    true."""
    for literal in clause:
        true = made_true(held, {-it for it in clause if it != literal})
        if true is not None and literal not in true:
            return True
    return False


def fault_of_units(subject: Subject, cert: bytes) -> Any:
    """What is wrong with the units of a partial certificate that a search wrote: one is not useful, or the clauses
    close at its end."""
    lines = cert.decode().split("\n")[4:-2]
    kind = lines.pop(0)
    sought = "q" if kind.endswith(("quorums", "least")) else "b"
    order = sorted(subject.shrunk(set(subject.system)))
    held = {}
    has_groups = kind.endswith("org-blocking")
    if has_groups:
        order, lines = subject.touched(), lines[1:]
    if kind.endswith("least"):
        held = {i: frozenset(it) for i, it in enumerate(plain.counter_of(len(order)), 1)}
        lines = lines[1:]
    if lines and lines[0].startswith("formula"):
        held = {i: frozenset(it) for i, it in enumerate(plain.Formula(subject.system, subject.faulty, 3).clauses, 1)}
        lines = lines[1:]
    for line in lines:
        words = line.split(" ")
        if words[0] == "s":
            held[int(words[1])] = frozenset([-plain.counted(len(order), len(order), len(words) - 2)])
            continue
        if words[0] in ("q", "b"):
            number, sign = int(words[1]), -1 if words[0] == sought else 1
            named = (
                [it for it in order if subject.groups[it] & set(words[2:])]
                if has_groups and words[0] == "q"
                else words[2:]
            )
            clause = frozenset(sign * (order.index(it) + 1) for it in named)
        elif words[1] == "d":
            for it in words[2:-1]:
                del held[int(it)]
            continue
        else:
            number, clause = int(words[0]), frozenset(map(int, words[1 : words.index("0")]))
        if not is_useful(held, clause):
            return f"a unit that is not useful: {line!r}"
        held[number] = clause
    return "the clauses close at the end" if made_true(held, set()) is None else None


def rat_hints(held: dict[int, frozenset[int]], literals: list[int]) -> list[int] | None:
    """Hints that show the lemma by its first literal, a group for each clause with its negation, or None."""
    hints = []
    for number in sorted(held):
        if -literals[0] in held[number]:
            others = held[number] - {-literals[0]}
            more = [] if any(-it in literals for it in others) else propagated(held, literals + sorted(others))
            if more is None:
                return None
            hints += [-number] + more
    return hints


def random_steps(
    rng: random.Random, held: dict[int, frozenset[int]], variables: int, last: int, takes_rat: bool
) -> tuple[list[str], int]:
    """Lemmas that follow, or that keep the clauses satisfiable, and deletions, as far as some were found."""
    lines = []
    for _ in range(rng.randint(0, 6)):
        if variables and rng.random() < 0.85:
            chosen = rng.sample(range(1, variables + 1), rng.randint(1, min(3, variables)))
            literals = [rng.choice([-1, 1]) * it for it in chosen]
            hints = propagated(held, literals)
            if hints is None and takes_rat:
                hints = rat_hints(held, literals)
            if hints is None:
                continue
            last += rng.choice([1, 1, 1, 5])
            held[last] = frozenset(literals)
            lines.append(" ".join(map(str, [last, *literals, 0, *hints, 0])))
        elif held:
            number = rng.choice(sorted(held))
            del held[number]
            lines.append(f"{last} d {number} 0")
    return lines, last


def empty_lemma(held: dict[int, frozenset[int]], last: int) -> list[str]:
    hints = propagated(held, [])
    return [] if hints is None else [f"{last + 1} 0 {' '.join(map(str, hints))} 0"]


def random_body(rng: random.Random, subject: Subject, kind: str) -> list[str]:
    """A body of the kind, mostly a right one; of a refutation only where short proofs are found by chance."""
    if kind == "pair":
        first = random_quorum(rng, subject)
        second = subject.shrunk(set(subject.system) - first) or random_quorum(rng, subject)
        return ["first" + plain.spelled(first), "second" + plain.spelled(second)]
    if kind in ("refutation", "partial"):
        formula = plain.Formula(subject.system, subject.faulty, subject.version)
        held = {i: frozenset(it) for i, it in enumerate(formula.clauses, 1)}
        lines, last = random_steps(rng, held, formula.variables, len(held), True)
        lines = [f"formula {formula.variables} {len(formula.clauses)}"] + lines
    else:
        lines, held, last = [], {}, 0
        has_groups = kind.endswith("org-blocking")
        order = subject.touched() if has_groups else sorted(subject.shrunk(set(subject.system)))
        size, variables = len(order), len(order)
        if has_groups:
            lines.append("orgs " + hashlib.sha256(subject.orgs).hexdigest())
        if kind.endswith("least"):
            held = {i: frozenset(it) for i, it in enumerate(plain.counter_of(size), 1)}
            last, variables = size * size, plain.counted(size, size, size) if size else 0
            lines.append(f"counter {variables} {last}")
        for _ in range(rng.randint(0, 6)):
            letter = rng.choice("sb" if kind.endswith("least") else "qb")
            nodes = (
                (random_group_block if has_groups else random_block)(rng, subject)
                if letter == "b"
                else random_quorum(rng, subject)
            )
            if letter == "b" or nodes:
                last += 1
                named = [it for it in order if subject.groups[it] & nodes] if has_groups and letter == "q" else nodes
                held[last] = frozenset(
                    (-1 if letter == plain.SOUGHT[kind].decode() else 1) * (order.index(it) + 1)
                    for it in named
                    if it in order
                )
                if letter == "s":
                    held[last] = frozenset([-plain.counted(size, size, len(nodes))])
                lines.append(f"{letter} {last}{plain.spelled(nodes)}")
        more, last = random_steps(rng, held, variables, last, rng.random() < 0.05)
        lines += more
    return lines + ([] if kind.startswith("partial") else empty_lemma(held, last))


def random_proof(rng: random.Random, subject: Subject) -> list[str]:
    """The lines of a proof of the exported formula, where short proofs are found by chance, with comments between
    them."""
    formula = plain.Formula(subject.system, subject.faulty, subject.exported)
    held = {i: frozenset(it) for i, it in enumerate(formula.clauses, 1)}
    lines, last = random_steps(rng, held, formula.variables, len(held), True)
    lines += empty_lemma(held, last)
    for _ in range(rng.choice([0, 0, 1, 2])):
        lines.insert(
            rng.randrange(len(lines) + 1), rng.choice(["c", "c proof", "", " ", "\t", "c\r", "cé", " c", "\r"])
        )
    return lines


def still_a_line(rng: random.Random, line: str, subject: Subject) -> str:
    """Another line of the same form: a name more or less in a list, a number changed in a step."""
    words = line.split(" ")
    if words[0] in ("faulty", "first", "second", "q", "b"):
        fixed = 2 if words[0] in ("q", "b") else 1
        has_groups = words[0] == "b" and (rng.random() < 0.1 or any(":" in it for it in words[2:]))
        names = set(words[fixed:]) ^ {
            rng.choice(sorted(subject.groups) + ["org:Z"] if has_groups else subject.names + ["z"])
        }
        if fixed == 2 and len(words) > 1 and rng.random() < 0.2:
            words[1] = rng.choice(["1", "2", "7", "9223372036854775807"])
        return " ".join(words[:fixed] + sorted(names))
    places = [i for i, word in enumerate(words) if re.fullmatch("-?[1-9][0-9]*", word)]
    if not places:
        return line
    place = rng.choice(places)
    number = int(words[place])
    if place and rng.random() < 0.3:
        words.insert(place, str(rng.choice([-1, 1, 1]) * rng.randint(1, 40)))
    elif place and rng.random() < 0.3:
        del words[place]
    else:
        words[place] = str(
            rng.choice([-number, number + 1, number - 1 or 1, rng.randint(1, 40), 2147483647, 9223372036854775807])
            if place
            else abs(number) + rng.choice([-1, 1, 5])
        )
    return " ".join(words)


def mutated_lines(rng: random.Random, lines: list[str], subject: Subject, others: list[str]) -> list[str]:
    """A certificate with a change of a line, a word, or of the order of lines."""
    lines = list(lines)
    at = rng.randrange(min(5, len(lines)) if rng.random() < 0.85 and len(lines) > 5 else 0, len(lines))
    if rng.random() < 0.6:
        lines[at] = still_a_line(rng, lines[at], subject)
        return lines
    kind = rng.randrange(10)
    words = lines[at].split(" ")
    if kind == 0:
        lines.insert(at, lines[rng.randrange(len(lines))])
    elif kind == 1:
        del lines[at]
    elif kind == 2:
        other = rng.randrange(len(lines))
        lines[at], lines[other] = lines[other], lines[at]
    elif kind == 3:
        lines[at] = rng.choice(others) if others else ""
    elif kind == 4:
        del words[rng.randrange(len(words))]
        lines[at] = " ".join(words)
    elif kind == 5:
        words.insert(rng.randrange(len(words) + 1), rng.choice(EDGES + subject.names))
        lines[at] = " ".join(words)
    elif kind == 6:
        place = rng.randrange(len(words))
        if re.fullmatch("-?[0-9]{1,9}", words[place]):
            words[place] = str(rng.choice([-1, 1]) * int(words[place]) + rng.choice([-1, 0, 0, 1]))
        else:
            words[place] = rng.choice(EDGES + subject.names)
        lines[at] = " ".join(words)
    elif kind == 7:
        a, b = rng.randrange(len(words)), rng.randrange(len(words))
        words[a], words[b] = words[b], words[a]
        lines[at] = " ".join(words)
    elif kind == 8:
        number = rng.randrange(1, 60)
        lines.insert(at, "%d d %s0" % (number, "".join(f"{rng.randrange(1, 60)} " for _ in range(rng.randint(0, 3)))))
    else:
        place = rng.randrange(len(lines[at]) + 1)
        lines[at] = (
            lines[at][:place] + rng.choice([" ", "  ", "\t", "\r", "\n", "0", "-", "+", "x"]) + lines[at][place:]
        )
    return lines


# ---- Words


def random_edit(rng: random.Random, system: dict[str, tuple[int, list[Any]] | None]) -> bytes:
    """A line of a script, mostly an edit that may be made."""
    known = sorted(system)
    names = known + ["h", "i", "zz"]
    node = rng.choice(names if rng.random() < 0.1 else known or ["a"])
    path, here = "", system.get(node)
    while here and rng.random() < 0.6:
        inner = [entry for entry in here[1] if not isinstance(entry, str)]
        if not inner:
            break
        at = rng.randrange(len(inner))
        path, here = path + f".{at}", inner[at]
    if rng.random() < 0.05:
        path = rng.choice(
            [
                "..",
                ".00",
                "0",
                ".x",
                ".9",
                path + ".0",
                path + ".4294967295",
                path + ".4294967296",
                path + "." + "9" * 30,
            ]
        )
    own = [entry for entry in here[1] if isinstance(entry, str)] if here else []
    return rng.choice(
        [
            lambda: "threshold %s %s %s"
            % (node, path or ".", rng.choice([0, 1, 1, 2, 2, 3, 4] if rng.random() < 0.9 else EDGES)),  # type: ignore[arg-type]  # noqa: E501
            lambda: f"add {node} {path or '.'} {rng.choice(names)}",
            lambda: f"drop {node} {path or '.'} {rng.choice(own or names)}",
            lambda: "declare %s" % rng.choice([it for it in names if not system.get(it)] or names),
            lambda: f"retire {node}",
        ]
    )().encode()


def random_script(rng: random.Random, system: dict[str, tuple[int, list[Any]] | None]) -> bytes:
    """Edits of the system one after another, up to one that may not be made, or to the end."""
    lines = []
    for _ in range(rng.choice([0, 1, 2, 5, 12, 40])):
        line = random_edit(rng, system)
        if rng.random() < 0.02:
            line = mutated_bytes(rng, line)
        try:
            system = plain.edited(system, line)
        except plain.Fault:
            if rng.random() < 0.8:
                continue
            lines.append(line)
            break
        lines.append(line)
    return b"".join(line + b"\n" for line in lines)


def mutated_words(rng: random.Random, words: list[str]) -> list[str]:
    words = list(words)
    for _ in range(rng.choice([1, 1, 2, 3])):
        at = rng.randrange(len(words) + 1)
        kind = rng.randrange(6)
        if kind == 0 and words:
            del words[at % len(words)]
        elif kind == 1:
            words.insert(
                at,
                rng.choice(
                    [
                        "--set",
                        "--set=",
                        "--set=a,b",
                        "--faulty",
                        "--faulty=a",
                        "--from=a",
                        "--from",
                        "--node=a",
                        "--orgs=orgs",
                        "--faulty-orgs=A",
                        "--budget=0",
                        "--formula=2",
                        "--budget=4000000000",
                        "--budget=4000000001",
                        "--budget=-1",
                        "--budget=01",
                        "--budget=+1",
                        "--budget=",
                        "--",
                        "-",
                        "-x",
                        "--help",
                        "-h",
                        "--version",
                        "help",
                        "",
                        "config",
                        "cert",
                        "script",
                        "=",
                        "--=",
                        "a",
                        "--budget=18446744073709551616",
                    ]
                ),
            )
        elif kind == 2 and words:
            words[at % len(words)] = rng.choice([*commands.WORDS, "missing", "config", "cert", "script"])
        elif kind == 3 and words:
            other = rng.randrange(len(words))
            at %= len(words)
            words[at], words[other] = words[other], words[at]
        elif kind == 4 and words:
            at %= len(words)
            place = rng.randrange(len(words[at]) + 1)
            words[at] = (
                words[at][:place]
                + rng.choice(["-", "=", ",", " ", "a", "é", "\n", "0"])
                + words[at][place + rng.randrange(2) :]
            )
        elif words:
            words.insert(at, rng.choice(words))
    return words


# ---- Runs

Case = collections.namedtuple("Case", "kind words files wanted")


class Program:
    """Runs the program in a folder of its own, and judges what it says."""

    def __init__(self, program: str, folder: str) -> None:
        self.program, self.folder = os.path.abspath(program), folder
        usage = self.run(Case("words", [], {}, None))[1]
        self.searches = [it for it in commands.SEARCHES if b"\n" + it.encode() + b" CONFIG CERT" in usage]
        self.has_trial = b"\ntrial N CERT" in usage
        self.has_proofs = b"\ncheck-lrat CONFIG LRAT" in usage
        self.has_scripts = b"\nwhatif CONFIG SCRIPT" in usage

    def run(self, case: Case) -> Any:
        """The status, what is put out, what is on standard error, and what the files then hold."""
        for name in os.listdir(self.folder):
            if name not in case.files:
                os.remove(os.path.join(self.folder, name))
        for name, data in case.files.items():
            with open(os.path.join(self.folder, name), "wb") as it:
                it.write(data)
        try:
            ended = subprocess.run(
                [self.program] + case.words,
                cwd=self.folder,
                stdin=subprocess.DEVNULL,
                stdout=subprocess.PIPE,
                stderr=subprocess.PIPE,
                timeout=120,
            )
        except subprocess.TimeoutExpired:
            return "no end in 120 seconds", b"", b"", {}
        files = {}
        for name in os.listdir(self.folder):
            with open(os.path.join(self.folder, name), "rb") as it:
                files[name] = it.read()
        return ended.returncode, ended.stdout, ended.stderr, files

    def fault(self, case: Case) -> Any:
        """What is wrong with the program's answer, or None."""
        status, text, err, files = self.run(case)
        if err or not isinstance(status, int) or status < 0:
            return f"status {status}, standard error {err[:200]!r}"
        if not re.fullmatch(REFUSALS.get(status, ANSWERS if status in (0, 1, 2) else rb"(?!)"), text):
            return f"status {status} with {text[:200]!r}"
        wanted = self.wanted(case)
        if wanted is not None and wanted != (status, text.decode("latin-1")):
            return f"found {(status, text[:300])!r}, wanted {wanted!r}"
        lost = [
            name
            for name, data in case.files.items()
            if data and not data.startswith(b"fbas-cert ") and data not in files.values()
        ]
        if lost:
            return "status %d, and %s is lost" % (status, " and ".join(lost))
        changed = [
            name
            for name, data in files.items()
            if data != case.files.get(name) and not (name.endswith("~") and data == case.files.get(name[:-1]))
        ]
        if changed and (
            status not in (0, 1, 2) or case.words[0] not in (*commands.SEARCHES, "trial") or len(changed) > 1
        ):
            return "status %d, and %s changed" % (status, " and ".join(changed))
        return self.search_fault(case, status, text.decode(), files["cert"]) if case.kind == "search" else None

    def wanted(self, case: Case) -> tuple[int, str] | None:
        """The status and the text by the plain checker, where it says them."""
        if case.kind == "check":
            self.said = plain.check(case.files["config"], case.files["cert"], case.files.get("orgs"))
            return self.said
        if case.kind == "proof":
            subject = case.wanted
            self.said = plain.check_lrat(
                subject.data, case.files["cert"], subject.start, set(subject.given), subject.exported
            )
            return self.said
        if case.kind == "whatif":
            return plain.whatif(case.files["config"], case.files["script"], case.wanted)
        if case.kind == "orgs":
            return wanted_of_orgs(case)
        if case.kind == "question":
            return wanted_of_question(case)
        return None

    def search_fault(self, case: Case, status: int, text: str, cert: bytes) -> Any:
        if status not in (0, 1, 2):
            return f"status {status} of a search over a right configuration"
        command, subject, budget = case.wanted
        found, said = plain.check(subject.data, cert, case.files.get("orgs"))
        head = "".join(line + "\n" for line in said.split("\n")[1:3])
        start = " " + subject.start if subject.start else ""
        if head != f"from{start}\nfaulty{plain.spelled(subject.faulty)}\n":
            return f"the certificate is of another question, or not accepted: {said!r}"
        kind = said.split("\n")[0].split(" ")[1]
        every = quorums(subject, 8)
        if command in commands.LISTS:
            wanted = None if every is None else minimal_sets(command, subject, every)
            if (
                kind == command
                and status == 0
                and text == said.split("\n", 3)[3].join(["%s %s\n" % (command, said.split("\n")[0].split(" ")[2]), ""])
            ):
                return None if wanted is None or text == wanted else f"found {text!r}, wanted {wanted!r}"
            if said.startswith(f"accepted partial-{command} {budget}\n") and (status, text) == (
                2,
                f"{command} unknown {budget}\n",
            ):
                return fault_of_units(subject, cert)
            return f"found {(status, text)!r} with {said!r}"
        if command == "least":
            least: Any = None if every is None else min((len(it) for it in every), default=None)
            wanted = least
            if (
                kind == "least"
                and status == 0
                and "accepted " + text.split("\n")[0] + "\n" + head + "".join(text.split("\n", 1)[1:]) == said
            ):
                count = text.split("\n")[0].split(" ")[1]
                return (
                    None
                    if every is None or count == ("none" if wanted is None else str(wanted))
                    else f"found {text!r}, wanted {wanted!r}"
                )
            if said.startswith(f"accepted partial-least {budget}\n") and (status, text) == (
                2,
                f"least unknown {budget}\n",
            ):
                return fault_of_units(subject, cert)
            return f"found {(status, text)!r} with {said!r}"
        if command == "trial" and not text.startswith(sizes_of_trial(subject.system)):
            return f"the sizes are others: {text!r}"
        apart = None if every is None else any(not a & b for a, b in itertools.combinations(every, 2))
        answer = {"pair": "no", "refutation": "yes", "partial": "unknown"}.get(kind)
        if (answer, apart) in (("no", False), ("yes", True)):
            return f"found {answer}, and trying all sets says otherwise"
        if (
            answer == "unknown"
            and said != f"accepted partial {budget}\nfrom{start}\nfaulty{plain.spelled(subject.faulty)}\n"
        ):
            return f"unknown with {said!r}"
        if not self.says(command, answer, status, text, budget):
            return f"found {(status, text)!r} with {said!r}"
        return fault_of_units(subject, cert) if answer == "unknown" else None

    @staticmethod
    def says(command: str, answer: str, status: int, text: str, budget: int) -> bool:
        """Whether the text and the status of a search fit the kind of certificate that it wrote."""
        units = f" {budget}" if answer == "unknown" else ""
        if command == "trial":
            return text.endswith(f"\nintersects {answer}{units}\n") and status == {"yes": 0, "unknown": 2}.get(answer)
        if command == "intersect":
            return (
                text.startswith(f"intersects {answer}{units}\n")
                and status == {"yes": 0, "no": 1, "unknown": 2}[answer]
            )
        if command == "splits":
            answer = {"yes": "no", "no": "yes", "unknown": "unknown"}[answer]
            return text.startswith(f"splits {answer}{units}\n") and status == {"yes": 0, "no": 1, "unknown": 2}[answer]
        available = text.startswith("available yes\n")
        whole = "no" if answer == "no" or not available else answer
        return (
            f"\nintersects {answer}{units}\n" in text
            and text.endswith(f"dset {whole}\n")
            and status == {"yes": 0, "no": 1, "unknown": 2}[whole]
        )


def minimal_sets(command: str, subject: Subject, every: list[set[str]]) -> str:
    """What 'blocking', 'quorums' and 'org-blocking' list, by trying all sets of nodes or of groups."""
    names = sorted(subject.groups if command == "org-blocking" else set(subject.system) - subject.faulty)
    found: list[set[str]] = []
    for size in range(len(names) + 1):
        for some in itertools.combinations(names, size):
            nodes = set(some)
            if command == "org-blocking":
                is_one = subject.groups_block(nodes)
            else:
                is_one = (
                    nodes in every if command == "quorums" else plain.blocks(subject.system, subject.faulty, nodes)
                )
            if is_one and not any(it <= nodes for it in found):
                found.append(nodes)
    lines = sorted(tuple(sorted(it)) for it in found)
    return f"{command} {len(lines)}\n" + "".join(f"set{plain.spelled(it)}\n" for it in lines)


def wanted_of_orgs(case: Case) -> tuple[int, str]:
    """What 'greatest' says with a file of organisations."""
    name, text = "config", case.words[-1].split("=", 1)[1]
    try:
        system = plain.system_of(case.files["config"])
        name = "orgs"
        orgs = plain.orgs_of(case.files["orgs"], system)
        name = "usage"
        faulty = set().union(*(orgs[it] for it in plain.listed(text, orgs)))
    except plain.Fault as fault:
        word, *rest = str(fault).split(" ")
        return (3, f"usage {word} --faulty-orgs {rest[0]}\n") if name == "usage" else (4, f"{name} {fault}\n")
    return 0, "greatest%s\n" % plain.spelled(plain.greatest_in(system, faulty, set(system)))


def wanted_of_question(case: Case) -> tuple[int, str]:
    """What a plain question or 'export' answers."""
    command, subject, node, given = case.wanted
    try:
        plain.system_of(subject.data)
    except plain.Fault as fault:
        return 4, f"config {fault}\n"
    given &= set(subject.system)
    everyone = set(subject.system)
    if command == "closure":
        return 0, "closure%s\n" % plain.spelled(plain.closure(subject.whole, node))
    if command == "greatest":
        return 0, f"greatest{plain.spelled(subject.shrunk(everyone))}\n"
    if command == "available":
        return plain.availability(subject.system, given)
    if command == "blocks":
        left = subject.shrunk(everyone - given)
        return (1, f"blocks no\nquorum{plain.spelled(left)}\n") if left else (0, "blocks yes\n")
    if command == "vblocks":
        avoids = node not in given and plain.has_slice(subject.whole, node, set(subject.whole) - given)
        return (1, "vblocks no\n") if avoids else (0, "vblocks yes\n")
    return 0, exported(subject)


def exported(subject: Subject) -> str:
    """What 'export' prints, small formulas only."""
    formula = plain.Formula(subject.system, subject.faulty, subject.exported)
    order = sorted(subject.shrunk(set(subject.system)))
    lines = [f"c formula {subject.exported}"] + ["c " + line for line in subject.header("")[1:3]]
    lines.append("c faulty" + plain.spelled(subject.faulty))
    lines += [f"c {i} {side} {it}" for i, (side, it) in enumerate(((side, it) for side in "ab" for it in order), 1)]
    lines.append(f"p cnf {formula.variables} {len(formula.clauses)}")
    return "".join(line + "\n" for line in lines + [" ".join(map(str, clause + [0])) for clause in formula.clauses])


# ---- Cases


class Maker:
    """Makes cases; the certificates that searches wrote are kept, to be mutated."""

    def __init__(self, rng: random.Random, program: Program) -> None:
        self.rng, self.program = rng, program
        self.others: list[str] = []
        self.written: list[tuple[Subject, list[str]]] = []
        self.accepted: collections.Counter[Any] = collections.Counter()
        self.verified = 0

    def case(self) -> Case:
        chance = self.rng.random()
        if chance < 0.07 and self.program.has_proofs:
            return self.proof()
        if chance < 0.54:
            return self.check()
        if chance < 0.62:
            return self.question()
        if chance < 0.74:
            return self.search() if self.program.searches else self.check()
        if chance < 0.75 and self.program.has_trial:
            return self.trial()
        if chance < 0.84:
            return self.orgs()
        if chance < 0.9 and self.program.has_scripts:
            return self.whatif()
        return self.words()

    def config(self) -> bytes:
        data = random_config(self.rng)
        return mutated_json(self.rng, data) if self.rng.random() < 0.12 else data

    def check(self) -> Case:
        rng = self.rng
        if self.written and rng.random() < 0.4:
            subject, lines = rng.choice(self.written)
            # a search writes version 3; a pair and a list are the same in all
            lines = ([f"fbas-cert {rng.choice([1, 2])}"] if rng.random() < 0.5 else lines[:1]) + lines[1:]
        else:
            subject = Subject(rng, self.config())
            kind = rng.choice(plain.KINDS)
            lines = subject.header(kind) + random_body(rng, subject, kind) + ["end"]
        for _ in range(rng.choice([0, 1, 1, 1, 1, 2, 3])):
            lines = mutated_lines(rng, lines, subject, self.others) or [""]
        self.others = (self.others + [rng.choice(lines)])[-300:]
        cert = "".join(line + "\n" for line in lines).encode()
        if rng.random() < 0.1:
            cert = mutated_bytes(rng, cert)
        if rng.random() < 0.02:
            cert = cert[: rng.randrange(len(cert) + 1)]
        files = {"config": subject.data, "cert": cert}
        if rng.random() < (0.97 if b"org-blocking" in cert else 0.1):
            files["orgs"] = mutated_json(rng, subject.orgs) if rng.random() < 0.05 else subject.orgs
        return Case("check", ["check", "config", "cert"] + (["--orgs=orgs"] if "orgs" in files else []), files, None)

    def proof(self) -> Case:
        """A proof of a formula that is exported, mostly a changed one."""
        rng = self.rng
        subject = Subject(rng, self.config())
        lines = random_proof(rng, subject)
        for _ in range(rng.choice([0, 0, 1, 1, 2])):
            lines = mutated_lines(rng, lines or [""], subject, self.others)
        proof = "".join(line + "\n" for line in lines).encode()
        if rng.random() < 0.1:
            proof = mutated_bytes(rng, proof)
        if rng.random() < 0.2:
            proof = proof[:-1]
        words = ["check-lrat", "config", "cert"] + subject.options() + subject.formula
        return Case("proof", words, {"config": subject.data, "cert": proof}, subject)

    def search(self) -> Case:
        rng = self.rng
        subject = Subject(rng, random_config(rng))
        command = rng.choice(self.program.searches)
        budget = rng.choice([0, 1, 2, 3, 5, 20, 1000000])
        words = [command, "config", "cert", "--budget", str(budget)]
        if command == "dset":
            words += (["--from=" + subject.start] if subject.start else []) + ["--set=" + ",".join(subject.given)]
        elif command == "splits":
            words += subject.options() + ["--set="]
        else:
            words += subject.options()
        files = {"config": subject.data, "cert": b"old\n"}
        if command == "org-blocking":
            words.append("--orgs=orgs")
            files["orgs"] = subject.orgs
        return Case("search", words, files, (command, subject, budget))

    def trial(self) -> Case:
        """The trial configuration of a few organisations."""
        rng = self.rng
        count, budget = rng.choice([1, 1, 2, 2, 3, 4]), rng.choice([0, 1, 2, 5, 30, 1000000])
        subject = Subject(rng, trial_config(count))
        subject.start, subject.given, subject.faulty, subject.system = None, [], set(), subject.whole
        words = ["trial", str(count), "cert"] + (["--budget", str(budget)] if budget != 1000000 else [])
        return Case("search", words, {"cert": b"old\n"}, ("trial", subject, budget))

    def count(self, case: Case) -> None:
        """Counts the certificate by its kind and version, if it was accepted."""
        status, said = self.program.said
        if case.kind == "proof":
            self.verified += status == 0
        elif status in (0, 2):
            self.accepted[said.split("\n")[0].split(" ")[1], case.files["cert"][10:11].decode()] += 1

    def told(self) -> str:
        kinds = ", ".join(" ".join([kind] + [str(self.accepted[kind, it]) for it in "123"]) for kind in plain.KINDS)
        return f"{kinds}; proofs of other solvers that were verified: {self.verified}"

    def keep(self, case: Case) -> None:
        """Keeps the certificate that the search wrote."""
        with open(os.path.join(self.program.folder, "cert"), "rb") as it:
            cert = it.read()
        if cert != b"old\n" and len(cert) < 5000:
            self.written = (self.written + [(case.wanted[1], cert.decode().split("\n")[:-1])])[-200:]

    def question(self) -> Case:
        rng = self.rng
        subject = Subject(rng, self.config())
        command = rng.choice(["closure", "greatest", "available", "blocks", "vblocks", "export"])
        if command in ("available", "closure", "vblocks"):
            subject.given, subject.faulty = [], set()
        if command in ("closure", "vblocks"):
            subject.start, subject.system = None, subject.whole
        node = rng.choice(subject.names or ["a"])
        given = set(rng.sample(subject.names, rng.randint(0, min(4, len(subject.names)))))
        words = [command, "config"] + (["--from=" + subject.start] if subject.start else [])
        words += ["--faulty=" + ",".join(subject.given)] if subject.given else []
        words += ["--node=" + node] if command in ("closure", "vblocks") else []
        words += subject.formula if command == "export" else []
        words += ["--set=" + ",".join(sorted(given))] if command in ("available", "blocks", "vblocks") else []
        return Case("question", words, {"config": subject.data}, (command, subject, node, given))

    def orgs(self) -> Case:
        rng = self.rng
        data = compact(random_orgs(rng, ["A", "B", "C", "D,E", "F"]))
        data = mutated_json(rng, data) if rng.random() < 0.7 else data
        ids = ",".join(rng.choice(["A", "A", "B", "C", "X", "", "é", "A B"]) for _ in range(rng.choice([0, 1, 1, 2])))
        return Case(
            "orgs",
            ["greatest", "config", "--orgs", "orgs", "--faulty-orgs=" + ids],
            {"config": self.config(), "orgs": data},
            None,
        )

    def whatif(self) -> Case:
        rng = self.rng
        data = self.config()
        try:
            system = plain.system_of(data)
        except plain.Fault:
            system = {}
        script = random_script(rng, system)
        if rng.random() < 0.1:
            script = mutated_bytes(rng, script)
        if rng.random() < 0.2:
            script = script[:-1]
        names = ",".join(
            rng.sample("abcdefg" if rng.random() < 0.05 else sorted(system), rng.randint(0, min(3, len(system))))
        )
        return Case(
            "whatif", ["whatif", "config", "script", "--set=" + names], {"config": data, "script": script}, names
        )

    def words_of(self, row: dict[str, Any], names: str) -> list[str]:
        """The words of a command, with all that it needs and some of what it takes."""
        files = {"CONFIG": "config", "CERT": "cert", "LRAT": "cert", "SCRIPT": "script", "N": "1"}
        values = {
            "NAME": "a",
            "NAMES": names,
            "ORGS": "orgs",
            "IDS": "A",
            "UNITS": self.rng.choice("0239"),
            "VERSION": self.rng.choice("23"),
        }
        words = [row["word"], *(files[it] for it in row["files"])]
        for option in row["options"]:
            if option["needed"] or option["value"] == "UNITS" or self.rng.random() < 0.3:
                words += (
                    ["%s=%s" % (option["name"], values[option["value"]])]
                    if self.rng.random() < 0.2
                    else [option["name"], values[option["value"]]]
                )
        return words

    def words(self) -> Case:
        rng = self.rng
        words = self.words_of(
            commands.ROWS[rng.choice(commands.WORDS)], ",".join(rng.sample("abcdefg", rng.randint(0, 3)))
        )
        words = mutated_words(rng, words) if rng.random() < 0.8 else words
        if rng.random() < 0.02:
            words.append(b"--set=\xff")  # type: ignore[arg-type]
        return Case(
            "words",
            words,
            {
                "config": self.config(),
                "cert": b"old\n",
                "script": b"retire a\n",
                "orgs": b'[{"id":"A","validators":["a"]}]',
            },
            None,
        )


def parts(data: bytes) -> Any:
    """The lines of a certificate, or the marks of a JSON text."""
    return data.splitlines(keepends=True) if b"\n" in data else re.findall(rb'"[^"]*"|[0-9]+|.', data, re.DOTALL)


def shrunk(program: Any, case: Case) -> Any:
    """The case with parts of its files left out, as long as something is wrong; tried in pieces that grow smaller."""
    for name in sorted(case.files):
        size = max(1, len(parts(case.files[name])) // 2)
        while size:
            at = 0
            while at < len(parts(case.files[name])):
                pieces = parts(case.files[name])
                less = case._replace(files=dict(case.files, **{name: b"".join(pieces[:at] + pieces[at + size :])}))
                if program.fault(less):
                    case = less
                else:
                    at += size
            size //= 2
    return case


def shown(program: Any, number: int, case: Case) -> str:
    """A case whose answer is wrong, made smaller where that is no change of the question."""
    if case.kind not in ("search", "question", "proof"):
        case = shrunk(program, case)
    files = "".join(f"\n  {name} {data[:2000]!r}" for name, data in sorted(case.files.items()))
    return f"case {number}: {program.fault(case)}\n  words {case.words!r}{files}"
