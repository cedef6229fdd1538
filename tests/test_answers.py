"""The answers of the program to worked questions: status, output and certificate.

Each row is data. The expected values come from the definitions by hand, and digests from sha256sum. Each row runs in a
folder of its own with the files config, cert, orgs and script, of which those that the row lacks are empty. What a
search writes is checked, beside the same organisations.
"""

from __future__ import annotations

import collections
from collections.abc import Callable, Iterable, Iterator
from pathlib import Path
from typing import Any

import pytest
from process import USAGE, organisations, sha256, system

CHECK = "check config cert"

NONE = "[]"
TWO = system("pq", 2)
THREE = system("abc", 2)
FOUR = system("abcd", 3)
PAIRS = "[" + system("ab", 2)[1:-1] + "," + system("cd", 2)[1:-1] + "]"
# Node a needs two of b, which stands twice, and node b needs itself.
REPEATED = (
    '[{"publicKey":"a","quorumSet":{"threshold":2,"validators":["b","b"]}},{"publicKey":"b",'
    '"quorumSet":{"threshold":1,"validators":["b"]}}]'
)
# Node x needs node y, which is not declared.
UNDECLARED = '[{"publicKey":"x","quorumSet":{"threshold":1,"validators":["y"]}}]'
# A node that needs one inner quorum set, whose threshold is 0.
ZERO_INSIDE = (
    '[{"publicKey":"a","quorumSet":{"threshold":1,"validators":[],"innerQuorumSets":[{"threshold":0,'
    '"validators":["a"]}]}}]'
)
# A node whose threshold is 2^53 - 1 of no entries, beside a member that is skipped.
LARGE_THRESHOLD = '[{"publicKey":"a","latitude":1.25,"quorumSet":{"threshold":9007199254740991,"validators":[]}}]'
# Two pairs that know nothing of each other, and a node without a quorum set.
APART = PAIRS[:-1] + ',{"publicKey":"bb"}]'
# Each node needs the one before it; the last of them has thresholds that leave no choice.
CHAIN = (
    '[{"publicKey":"d","quorumSet":{"threshold":1,"validators":["c"]}},{"publicKey":"c","quorumSet":{"threshold":1,'
    '"validators":["b"]}},{"publicKey":"b","quorumSet":{"threshold":9,"validators":[],'
    '"innerQuorumSets":[{"threshold":0,"validators":["a"]}]}},{"publicKey":"e","quorumSet":{"threshold":1,'
    '"validators":["d"]}}]'
)
# An inner quorum set of one node that is the quorum set of the other.
INNER = (
    '[{"publicKey":"x","quorumSet":{"threshold":2,"validators":["x"],"innerQuorumSets":[{"threshold":1,'
    '"validators":["x","y"]}]}},{"publicKey":"y","quorumSet":{"threshold":1,"validators":["x","y"]}}]'
)
# 200 nodes, of which each needs half of all: all in one order, or each from itself on, or of all but itself.
NUMBERED = [chr(97 + it // 20) + chr(97 + it % 20) for it in range(200)]
HALF = system(NUMBERED, 100)
ROTATED = system(NUMBERED, 100, is_rotated=True)
LEFT_OUT = system(NUMBERED, 100, leaves_out=True)


def alone(names: Iterable[str]) -> str:
    """Nodes that each need themselves alone."""
    return (
        "["
        + ",".join(f'{{"publicKey":"{it}","quorumSet":{{"threshold":1,"validators":["{it}"]}}}}' for it in names)
        + "]"
    )


def alike(names: list[str], quorum_set: str) -> str:
    """Nodes that have one quorum set."""
    return "[" + ",".join(f'{{"publicKey":"{it}","quorumSet":{quorum_set}}}' for it in names) + "]"


def behind(count: int, node: str) -> str:
    """So many nodes without quorum sets, and another."""
    return "[" + "".join(f'{{"publicKey":"n{it}"}},' for it in range(count)) + node + "]"


def with_set(quorum_set: str) -> str:
    """Node x, with this quorum set."""
    return f'[{{"publicKey":"x","quorumSet":{quorum_set}}}]'


def nested(count: int) -> str:
    """A quorum set of no entries inside so many others."""
    return '{"threshold":1,"innerQuorumSets":[' * count + '{"threshold":1}' + "]}" * count


def validators(names: list[str]) -> str:
    return with_set('{"threshold":1,"validators":[%s]}' % ",".join(f'"{it}"' for it in names))


# Each node needs two of three organisations, by two of their three nodes.
NINE = alike(
    ["p1", "p2", "p3", "q1", "q2", "q3", "r1", "r2", "r3"],
    (
        '{"threshold":2,"validators":[],"innerQuorumSets":[{"threshold":2,"validators":["p1","p2","p3"]},'
        '{"threshold":2,"validators":["q1","q2","q3"]},{"threshold":2,"validators":["r1","r2","r3"]}]}'
    ),
)
# One organisation with node a and a node that is not there.
ORG = '[{"id":"A","validators":["a","zz"]}]'
TOGETHER = '[{"id":"A","validators":["a","b"]}]'
# Two organisations that share a node.
OVERLAPPING = '[{"id":"B","validators":["b","c"]},{"id":"A","validators":["a","b"]}]'
# One that names a stranger alone, and one without members.
WITHOUT_MEMBERS = '[{"id":"S","validators":["zz"]},{"id":"N"}]'
# One that has a node of each of two pairs.
ACROSS_PAIRS = '[{"id":"X","validators":["a","c"]}]'
OF_THREE_NODES = (
    '[{"id":"P","validators":["p1","p2","p3"]},{"id":"Q","validators":["q1","q2","q3"]},{"id":"R","validators":["r1",'
    '"r2","r3"]}]'
)
THREE_ORGS = '[{"id":"Q","validators":["c","b"]},{"id":"P"},{"id":"A","validators":["a","c","a"]}]'
EQUAL_IDS = '[{"id":"A"},{"id":"A"}]'

# Words that are no order, and files that are missing, over THREE.
NO_ORDERS = [
    ("", 3, USAGE),
    ("--help", 3, USAGE),
    ("check config", 3, USAGE),
    ("check config config", 3, "usage same-path\n"),
    ("check config missing", 6, ""),
    ("check missing cert", 6, ""),
    ("export config --formula 1", 3, USAGE),
    ("export config --formula 4", 3, USAGE),
    ("check-lrat config cert --formula 02", 3, USAGE),
    ("check config cert --formula 2", 3, USAGE),
]

# Configurations, words and the answers.
PLAIN = [
    (ZERO_INSIDE, "show config", 0, "nodes 1\nentries 2\nunset 0\nthreshold a .0 0 1\n"),
    (ZERO_INSIDE, "greatest config", 0, "greatest\n"),
    (LARGE_THRESHOLD, "show config", 0, "nodes 1\nentries 0\nunset 0\nthreshold a . 9007199254740991 0\n"),
    (REPEATED, "show config", 0, "nodes 2\nentries 3\nunset 0\nrepeated a . b\n"),
    (REPEATED, "greatest config", 0, "greatest a b\n"),
    (UNDECLARED, "show config", 0, "nodes 2\nentries 1\nunset 1\n"),
    (UNDECLARED, "greatest config --faulty y", 0, "greatest x\n"),
    (UNDECLARED, "available config --set y", 1, "available no\nunmet x\n"),
    ("[]", "available config --set=", 0, "available yes\n"),
]

# Sets that block three organisations of three nodes, or leave a quorum.
BLOCKED = [
    ("blocks config --set p1,p2,q1", 1, "blocks no\nquorum p3 q2 q3 r1 r2 r3\n"),
    ("blocks config --set=p1,p2,q1,q2", 0, "blocks yes\n"),
]

# Words with names, over THREE, to their first fault.
NAMED = [
    ("vblocks config --node a --set b,c", 0, "vblocks yes\n"),
    ("vblocks config --node a --set b", 1, "vblocks no\n"),
    ("vblocks config --node a --set a,a", 0, "vblocks yes\n"),
    ("greatest config --faulty a", 0, "greatest b c\n"),
    ("blocks config --set a,,b", 3, "usage empty-name --set 2\n"),
    ("blocks config --set a,z", 3, "usage unknown-name --set 2\n"),
    ("blocks config --set a,z,", 3, "usage unknown-name --set 2\n"),
    ("blocks config --set z --faulty a,\x7f", 3, "usage bad-name --faulty 2\n"),
    ("vblocks config --node a,b --set z", 3, "usage bad-name --node 1\n"),
    ("vblocks config --node= --set z", 3, "usage empty-name --node 1\n"),
]

# Words over PAIRS that speak of the trust closure of a node.
CLOSED = [
    ("greatest config --from a", 0, "greatest a b\n"),
    ("closure config --node a", 0, "closure a b\n"),
    ("blocks config --from a --set a,c", 0, "blocks yes\n"),
    ("available config --from a --set b", 1, "available no\nunmet a\n"),
    ("greatest config --from a --faulty c", 0, "greatest a b\n"),
    ("greatest config --from z", 3, "usage unknown-name --from 1\n"),
]

# Words over THREE, organisations, and the answers.
ORGANISED = [
    ("greatest config --orgs orgs --faulty-orgs A", ORG, 0, "greatest b c\n"),
    ("greatest config --orgs orgs --faulty-orgs B", ORG, 3, "usage unknown-name --faulty-orgs 1\n"),
    ("greatest config --faulty-orgs A", ORG, 3, "usage unknown-name --faulty-orgs 1\n"),
    ("greatest config --orgs orgs", '[{"id":"A"},{"id":"A"}]', 4, "orgs duplicate-org 1\n"),
    ("greatest config --orgs orgs --faulty-orgs A --faulty b", ORG, 0, "greatest c\n"),
    ("greatest config --orgs orgs", "{}", 4, "orgs not-orgs\n"),
]

# Two nodes that need both, of which each names itself first, and its formula by the version.
TWO_ORDERS = system("pq", 2, is_rotated=True)
VERSIONS = [
    (
        2,
        0,
        (
            f"c formula 2\nc config {sha256(TWO_ORDERS)}\nc from\nc faulty\nc 1 a p\nc 2 a q\nc 3 b p\nc 4 b q\np cnf"
            " 8 16\n1 2 0\n3 4 0\n-1 -3 0\n-2 -4 0\n-5 1 0\n-5 2 0\n-1 5 0\n-6 2 0\n-6 1 0\n-2 6 0\n-7 3 0\n-7 4"
            " 0\n-3 7 0\n-8 4 0\n-8 3 0\n-4 8 0\n"
        ),
    ),
    (
        3,
        0,
        (
            f"c formula 3\nc config {sha256(TWO_ORDERS)}\nc from\nc faulty\nc 1 a p\nc 2 a q\nc 3 b p\nc 4 b q\np cnf"
            " 6 12\n1 2 0\n3 4 0\n-1 -3 0\n-2 -4 0\n-5 1 0\n-5 2 0\n-1 5 0\n-2 5 0\n-6 3 0\n-6 4 0\n-3 6 0\n-4 6 0\n"
        ),
    ),
]
# Proofs of these formulas: what is said of the second in each version.
ORDERS_PROOF = "13 -1 0 7 6 3 4 2 0\n14 0 13 1 8 5 0\n"
ORDERS_LINES = [
    ("check-lrat config cert", 0, "verified\nfrom\nfaulty\n"),
    ("check-lrat config cert --formula 3", 0, "verified\nfrom\nfaulty\n"),
    ("check-lrat config cert --formula 2", 5, "refused step 1 id-order 16 13\n"),
]

# Configurations, words, and the formula that is written.
EXPORTED = [
    (
        TWO,
        "export config",
        0,
        (
            "c formula 3\nc config d5ccec4a141b4b11eb0b80bb62d235f24e373c62aa2fa9f6fb33f6b1e2871f41\nc from\nc"
            " faulty\nc 1 a p\nc 2 a q\nc 3 b p\nc 4 b q\np cnf 6 12\n1 2 0\n3 4 0\n-1 -3 0\n-2 -4 0\n-5 1 0\n-5 2"
            " 0\n-1 5 0\n-2 5 0\n-6 3 0\n-6 4 0\n-3 6 0\n-4 6 0\n"
        ),
    ),
    (
        THREE,
        "export config --faulty a",
        0,
        (
            "c formula 3\nc config f823e204944abcff32c8dadffba2a0178a590a613358f9a6f271b651cd4e6fbb\nc from\nc faulty"
            " a\nc 1 a b\nc 2 a c\nc 3 b b\nc 4 b c\np cnf 6 10\n1 2 0\n3 4 0\n-1 -3 0\n-2 -4 0\n-5 1 2 0\n-1 5 0\n-2"
            " 5 0\n-6 3 4 0\n-3 6 0\n-4 6 0\n"
        ),
    ),
    (
        "[]",
        "export config",
        0,
        (
            "c formula 3\nc config 4f53cda18c2baa0c0354bb5f9a3ecbe5ed12ab4d8e11ba873c2f11161202b945\nc from\nc"
            " faulty\np cnf 0 2\n0\n0\n"
        ),
    ),
]

# Configurations, words, the answers, and what `check` says of the certificates.
SEARCHES = [
    (THREE, "intersect config c", 0, "intersects yes\n", "accepted refutation\nfrom\nfaulty\n"),
    (
        THREE,
        "intersect config c --faulty a",
        1,
        "intersects no\nfirst b\nsecond c\n",
        "accepted pair\nfrom\nfaulty a\n",
    ),
    ("[]", "intersect config c", 0, "intersects yes\n", "accepted refutation\nfrom\nfaulty\n"),
    (UNDECLARED, "intersect config c", 0, "intersects yes\n", "accepted refutation\nfrom\nfaulty\n"),
    (
        FOUR,
        "dset config c --set a",
        0,
        "available yes\nintersects yes\ndset yes\n",
        "accepted refutation\nfrom\nfaulty a\n",
    ),
    (
        FOUR,
        "dset config c --set a,b",
        1,
        "available no\nunmet c d\nintersects no\nfirst c\nsecond d\ndset no\n",
        "accepted pair\nfrom\nfaulty a b\n",
    ),
    (
        FOUR,
        "dset config c --set a,b --budget 0",
        1,
        "available no\nunmet c d\nintersects unknown 0\ndset no\n",
        "accepted partial 0\nfrom\nfaulty a b\n",
    ),
    (
        FOUR,
        "dset config c --set a,b --budget 1",
        1,
        "available no\nunmet c d\nintersects no\nfirst c\nsecond d\ndset no\n",
        "accepted pair\nfrom\nfaulty a b\n",
    ),
    (PAIRS, "intersect config c", 1, "intersects no\nfirst a b\nsecond c d\n", "accepted pair\nfrom\nfaulty\n"),
    (PAIRS, "intersect config c --from a", 0, "intersects yes\n", "accepted refutation\nfrom a\nfaulty\n"),
    (PAIRS, "splits config c --set a", 0, "splits yes\nfirst b\nsecond c d\n", "accepted pair\nfrom\nfaulty a\n"),
    (PAIRS, "splits config c --set c --from a", 1, "splits no\n", "accepted refutation\nfrom a\nfaulty\n"),
    (
        THREE,
        "splits config c --set a --faulty b --budget 0",
        1,
        "splits no\n",
        "accepted refutation\nfrom\nfaulty a b\n",
    ),
    (
        THREE,
        "intersect config c --orgs orgs --faulty-orgs A",
        1,
        "intersects no\nfirst b\nsecond c\n",
        "accepted pair\nfrom\nfaulty a\n",
    ),
    (THREE, "intersect config c --budget 0", 2, "intersects unknown 0\n", "accepted partial 0\nfrom\nfaulty\n"),
]

# Configurations, words, and the refusals. No certificate is made.
REFUSED_SEARCHES = [
    (THREE, "intersect config c --budget 4000000001", 3, USAGE),
    (THREE, "intersect config c --faulty z", 3, "usage unknown-name --faulty 1\n"),
    (THREE, "splits config orgs --set a --orgs orgs", 3, "usage same-path\n"),
    (THREE, "intersect config config", 3, "usage same-path\n"),
    ("{", "intersect config c", 4, "config not-json\n"),
    (THREE, "intersect missing c", 6, ""),
]

# The same of lists and smallest quorums: what is printed, and what `check` says of the certificates.
SEARCHED_LISTS = [
    (
        THREE,
        "blocking config cert",
        0,
        "blocking 3\nset a b\nset a c\nset b c\n",
        "accepted blocking 3\nfrom\nfaulty\nset a b\nset a c\nset b c\n",
    ),
    (
        THREE,
        "blocking config cert --faulty a",
        0,
        "blocking 1\nset b c\n",
        "accepted blocking 1\nfrom\nfaulty a\nset b c\n",
    ),
    ("[]", "blocking config cert", 0, "blocking 1\nset\n", "accepted blocking 1\nfrom\nfaulty\nset\n"),
    ("[]", "blocking config cert --budget 1", 0, "blocking 1\nset\n", "accepted blocking 1\nfrom\nfaulty\nset\n"),
    (
        PAIRS,
        "blocking config cert",
        0,
        "blocking 4\nset a c\nset a d\nset b c\nset b d\n",
        "accepted blocking 4\nfrom\nfaulty\nset a c\nset a d\nset b c\nset b d\n",
    ),
    (
        PAIRS,
        "blocking config cert --from a",
        0,
        "blocking 2\nset a\nset b\n",
        "accepted blocking 2\nfrom a\nfaulty\nset a\nset b\n",
    ),
    (
        THREE,
        "blocking config cert --budget 0",
        2,
        "blocking unknown 0\n",
        "accepted partial-blocking 0\nfrom\nfaulty\n",
    ),
    (
        THREE,
        "quorums config cert",
        0,
        "quorums 3\nset a b\nset a c\nset b c\n",
        "accepted quorums 3\nfrom\nfaulty\nset a b\nset a c\nset b c\n",
    ),
    (
        THREE,
        "quorums config cert --faulty a",
        0,
        "quorums 2\nset b\nset c\n",
        "accepted quorums 2\nfrom\nfaulty a\nset b\nset c\n",
    ),
    (REPEATED, "quorums config cert", 0, "quorums 1\nset b\n", "accepted quorums 1\nfrom\nfaulty\nset b\n"),
    ("[]", "quorums config cert", 0, "quorums 0\n", "accepted quorums 0\nfrom\nfaulty\n"),
    (
        PAIRS,
        "quorums config cert",
        0,
        "quorums 2\nset a b\nset c d\n",
        "accepted quorums 2\nfrom\nfaulty\nset a b\nset c d\n",
    ),
    (THREE, "quorums config cert --budget 0", 2, "quorums unknown 0\n", "accepted partial-quorums 0\nfrom\nfaulty\n"),
    (REPEATED, "least config cert", 0, "least 1\nset b\n", "accepted least 1\nfrom\nfaulty\nset b\n"),
    (PAIRS, "least config cert --from a", 0, "least 2\nset a b\n", "accepted least 2\nfrom a\nfaulty\nset a b\n"),
    ("[]", "least config cert", 0, "least none\n", "accepted least none\nfrom\nfaulty\n"),
    (THREE, "least config cert --budget 0", 2, "least unknown 0\n", "accepted partial-least 0\nfrom\nfaulty\n"),
]

# Configurations, organisations, words, the answers, and what `check` says of the certificates beside these
# organisations.
GROUP_LISTS = [
    (
        THREE,
        TOGETHER,
        "org-blocking config cert --orgs orgs",
        0,
        "org-blocking 1\nset org:A\n",
        "accepted org-blocking 1\nfrom\nfaulty\nset org:A\n",
    ),
    (
        THREE,
        TOGETHER,
        "org-blocking config cert --orgs orgs --faulty a",
        0,
        "org-blocking 1\nset node:c org:A\n",
        "accepted org-blocking 1\nfrom\nfaulty a\nset node:c org:A\n",
    ),
    (
        THREE,
        OVERLAPPING,
        "org-blocking config cert --orgs orgs",
        0,
        "org-blocking 2\nset org:A\nset org:B\n",
        "accepted org-blocking 2\nfrom\nfaulty\nset org:A\nset org:B\n",
    ),
    (
        THREE,
        WITHOUT_MEMBERS,
        "org-blocking config cert --orgs orgs",
        0,
        "org-blocking 3\nset node:a node:b\nset node:a node:c\nset node:b node:c\n",
        "accepted org-blocking 3\nfrom\nfaulty\nset node:a node:b\nset node:a node:c\nset node:b node:c\n",
    ),
    (
        "[]",
        "[]",
        "org-blocking config cert --orgs orgs",
        0,
        "org-blocking 1\nset\n",
        "accepted org-blocking 1\nfrom\nfaulty\nset\n",
    ),
    (
        PAIRS,
        ACROSS_PAIRS,
        "org-blocking config cert --orgs orgs --from a",
        0,
        "org-blocking 2\nset node:b\nset org:X\n",
        "accepted org-blocking 2\nfrom a\nfaulty\nset node:b\nset org:X\n",
    ),
    (
        PAIRS,
        ACROSS_PAIRS,
        "org-blocking config cert --orgs orgs",
        0,
        "org-blocking 2\nset node:b node:d\nset org:X\n",
        "accepted org-blocking 2\nfrom\nfaulty\nset node:b node:d\nset org:X\n",
    ),
    (
        THREE,
        TOGETHER,
        "org-blocking config cert --orgs orgs --budget 0",
        2,
        "org-blocking unknown 0\n",
        "accepted partial-org-blocking 0\nfrom\nfaulty\n",
    ),
]

# How many organisations a trial has, words, the answers, and what `check` says of the certificates.
TRIALS = [
    (
        1,
        "trial 1 c",
        0,
        "trial 1\nnodes 3\nvariables 18\nclauses 27\nintersects yes\n",
        "accepted refutation\nfrom\nfaulty\n",
    ),
    (
        2,
        "trial 2 c",
        0,
        "trial 2\nnodes 6\nvariables 34\nclauses 52\nintersects yes\n",
        "accepted refutation\nfrom\nfaulty\n",
    ),
    (
        4,
        "trial 4 c --budget 10000",
        0,
        "trial 4\nnodes 12\nvariables 82\nclauses 122\nintersects yes\n",
        "accepted refutation\nfrom\nfaulty\n",
    ),
    (
        4,
        "trial 4 c --budget 0",
        2,
        "trial 4\nnodes 12\nvariables 82\nclauses 122\nintersects unknown 0\n",
        "accepted partial 0\nfrom\nfaulty\n",
    ),
]

# Trials that are refused. No file is made in a folder that is not there.
REFUSED_TRIALS = [
    ("trial 0 c", 3, USAGE),
    ("trial 101 c", 3, USAGE),
    ("trial 1 c --faulty a", 3, USAGE),
    ("trial 1 nowhere/c", 7, ""),
]

# What stands behind the digest in certificates of THREE, and what is said of them.
PAIR_CERTIFICATES = [
    ("from\nfaulty a\nkind pair\nfirst b\nsecond c\nend\n", 0, "accepted pair\nfrom\nfaulty a\n"),
    ("from a\nfaulty a\nkind pair\nfirst b\nsecond c\nend\n", 0, "accepted pair\nfrom a\nfaulty a\n"),
    ("from\nfaulty\nkind pair\nfirst a b\nsecond b c\nend\n", 5, "refused overlap 7 b\n"),
    ("from\nfaulty\nkind pair\nfirst a\nsecond b c\nend\n", 5, "refused not-quorum 6\n"),
    ("from\nfaulty a\nkind pair\nfirst b\nsecond c\nend\nx", 5, "refused trailing\n"),
    ("from\nfaulty a\nkind pair\nfirst b\nsecond c\nend", 5, "refused truncated 8\n"),
]

# Configurations, and their first fault.
FAULTY_CONFIGURATIONS = [
    ("", "config not-json\n"),
    ("{}", "config not-nodes\n"),
    ("[1]", "config not-node 0\n"),
    ('[{"publicKey":"a"},{"publicKey":"a"}]', "config duplicate 1\n"),
    ('[{"publicKey":"a","quorumSet":{"threshold":-1}}]', "config bad-quorum-set 0 threshold\n"),
    ('[{"publicKey":"a","quorumSet":{}}]', "config bad-quorum-set 0 threshold\n"),
    (
        (
            '[{"publicKey":"aaaaaaaaaaaaaaaaaaaaaaaaaaaaaaaaaaaaaaaaaaaaaaaaaaaaaaaaaaaaaaaaaaaaaaaaaaaaaaaaaaaaaaaaaa'
            'aaaaaaaaaaaaaaaaaaaaaaaaaaaaaaaaaaaaaaa"}]'
        ),
        "config bad-key 0\n",
    ),
]

# A configuration, a version, a kind, what stands behind its line in a certificate of the whole configuration without
# faulty nodes, and what is said of that.
CERTIFICATES = [
    (
        TWO,
        1,
        "refutation",
        "formula 8 16\n17 -1 0 7 6 3 4 2 0\n18 0 17 1 10 8 0\nend\n",
        0,
        "accepted refutation\nfrom\nfaulty\n",
    ),
    (TWO, 1, "refutation", "formula 8 16\n17 -1 0 7 6 3 4 2 0\n18 0 17 1 10 8 0\n", 5, "refused truncated 9\n"),
    (
        TWO,
        1,
        "refutation",
        "formula 8 16\n17 -1 0 6 7 3 4 2 0\n18 0 17 1 10 8 0\nend\n",
        5,
        "refused step 7 not-unit 1\n",
    ),
    (
        TWO,
        1,
        "refutation",
        "formula 8 16\n17 -1 0 -7 6 3 4 2 0\n18 0 17 1 10 8 0\nend\n",
        5,
        "refused step 7 rat-step 1\n",
    ),
    (
        TWO,
        1,
        "refutation",
        "formula 8 16\n17 -1 0 7 6 3 4 2 0\n17 d 17 0\n18 0 17 1 10 8 0\nend\n",
        5,
        "refused step 9 no-such-clause 17\n",
    ),
    (TWO, 1, "refutation", "formula 8 17\n17 -1 0 7 6 3 4 2 0\n18 0 17 1 10 8 0\nend\n", 5, "refused formula 6\n"),
    (TWO, 1, "refutation", "formula 8 16\n17 -1 0 7 6 3 4 2 0\n18 0 17 1 10 8 0\nend\nx", 5, "refused trailing\n"),
    (TWO, 1, "refutation", "formula 8 16\nend\n", 5, "refused not-refuted 7\n"),
    (
        TWO,
        1,
        "refutation",
        "formula 8 16\n16 -1 0 7 6 3 4 2 0\n18 0 17 1 10 8 0\nend\n",
        5,
        "refused step 7 id-order 16 16\n",
    ),
    (TWO, 1, "refutation", "formula 8 16\n17 9 0 1 0\n18 0 17 1 10 8 0\nend\n", 5, "refused step 7 bad-literal 9\n"),
    (TWO, 1, "refutation", "formula 8 16\n17 -1 1 0 1 0\n18 0 17 1 10 8 0\nend\n", 5, "refused step 7 tautology 1\n"),
    (TWO, 1, "refutation", "formula 8 16\n17 -1 0 7 6 0\n18 0 17 1 10 8 0\nend\n", 5, "refused step 7 no-conflict\n"),
    (
        TWO,
        1,
        "refutation",
        "formula 8 16\n17 -1 0 7 6 3 4 2 0\n18 0 17 1 10 8 0\n19 0 1 0\nend\n",
        5,
        "refused bad-line 9\n",
    ),
    (TWO, 1, "partial", "formula 8 16\n17 -1 0 7 6 3 4 2 0\nend\n", 2, "accepted partial 1\nfrom\nfaulty\n"),
    (TWO, 1, "partial", "formula 8 16\n17 1 2 0 1 0\nend\n", 5, "refused not-new 7\n"),
    (TWO, 1, "partial", "formula 8 16\n17 -1 0 7 6 3 4 2 0\n18 -1 0 17 0\nend\n", 5, "refused not-new 8\n"),
    (TWO, 1, "partial", "formula 8 16\n17 -1 0 7 6 3 4 2 0\n18 0 17 1 10 8 0\nend\n", 5, "refused bad-line 8\n"),
    (
        TWO,
        2,
        "refutation",
        "formula 6 12\n13 -1 0 7 6 3 4 2 0\n14 0 13 1 8 5 0\nend\n",
        0,
        "accepted refutation\nfrom\nfaulty\n",
    ),
    (TWO, 1, "refutation", "formula 6 12\n13 -1 0 7 6 3 4 2 0\n14 0 13 1 8 5 0\nend\n", 5, "refused formula 6\n"),
    (TWO, 2, "refutation", "formula 8 16\n17 -1 0 7 6 3 4 2 0\n18 0 17 1 10 8 0\nend\n", 5, "refused formula 6\n"),
    (NONE, 1, "refutation", "formula 0 2\n3 0 1 0\nend\n", 0, "accepted refutation\nfrom\nfaulty\n"),
    (THREE, 1, "partial", "formula 36 53\n54 7 -1 0 -6 0\nend\n", 2, "accepted partial 1\nfrom\nfaulty\n"),
    (THREE, 1, "partial", "formula 36 53\n54 7 -1 0 -4 0\nend\n", 5, "refused step 7 rat-step 1\n"),
    (THREE, 1, "partial", "formula 36 53\n54 9 -2 -7 0 -8 -9 0\nend\n", 2, "accepted partial 1\nfrom\nfaulty\n"),
    (THREE, 1, "partial", "formula 36 53\n54 9 -2 -7 0 -8 0\nend\n", 5, "refused step 7 rat-missing 9\n"),
    (TWO, 1, "blocking", "q 1 p q\nb 2 p\nb 3 q\n4 1 0 -2 0\n5 0 1 2 3 0\nend\n", 5, "refused step 9 rat-step 1\n"),
    (
        THREE,
        1,
        "blocking",
        "q 1 a b\nq 2 a c\nq 3 b c\nb 4 a b\nb 5 a c\nb 6 b c\n7 -1 0 4 5 3 0\n8 0 7 1 2 6 0\nend\n",
        0,
        "accepted blocking 3\nfrom\nfaulty\nset a b\nset a c\nset b c\n",
    ),
    (
        THREE,
        1,
        "blocking",
        "q 1 a b\nq 2 a c\nq 3 b c\nb 4 a b\nb 5 a c\n7 -1 0 4 5 3 0\n8 0 7 1 2 6 0\nend\n",
        5,
        "refused step 12 no-such-clause 6\n",
    ),
    (
        THREE,
        1,
        "blocking",
        "q 1 a b\nq 2 a c\nq 3 b c\nb 4 a b\nb 5 a c\nb 6 a b\n7 -1 0 4 5 3 0\n8 0 7 1 2 6 0\nend\n",
        5,
        "refused not-new 11\n",
    ),
    (THREE, 1, "blocking", "b 1 a\nend\n", 5, "refused not-blocking 6\n"),
    (THREE, 1, "blocking", "b 1 a b c\nend\n", 5, "refused not-minimal 6\n"),
    (THREE, 1, "blocking", "q 1 a\nend\n", 5, "refused not-quorum 6\n"),
    (THREE, 1, "blocking", "q 1 a b\nq 1 a c\nend\n", 5, "refused step 7 id-order 1 1\n"),
    (THREE, 1, "partial-blocking", "q 1 a b\nend\n", 2, "accepted partial-blocking 1\nfrom\nfaulty\n"),
    (THREE, 1, "partial-blocking", "q 1 a b\nq 2 a b c\nend\n", 5, "refused not-new 7\n"),
    (
        PAIRS,
        2,
        "quorums",
        "q 1 a b\nq 2 c d\nb 3 a c\nb 4 a d\nb 5 b c\nb 6 b d\n7 1 0 3 4 2 0\n8 0 7 1 5 6 2 0\nend\n",
        0,
        "accepted quorums 2\nfrom\nfaulty\nset a b\nset c d\n",
    ),
    (PAIRS, 2, "quorums", "q 1 a b\nq 2 a b c d\n", 5, "refused not-minimal 7\n"),
    (
        THREE,
        2,
        "quorums",
        "b 1 a b\nb 2 a c\nb 3 b c\nq 4 a b\nq 5 a c\nq 6 b c\n7 -1 0 4 5 3 0\n8 0 7 1 2 6 0\nend\n",
        0,
        "accepted quorums 3\nfrom\nfaulty\nset a b\nset a c\nset b c\n",
    ),
    (THREE, 2, "quorums", "b 1 a b c\nb 2 a b c\nq 3 a b\nq 4 a b\n", 5, "refused not-new 9\n"),
    (THREE, 2, "quorums", "q 1 a\n", 5, "refused not-quorum 6\n"),
    (THREE, 2, "quorums", "b 1 a\n", 5, "refused not-blocking 6\n"),
    (NONE, 2, "quorums", "b 1\n2 0 1 0\nend\n", 0, "accepted quorums 0\nfrom\nfaulty\n"),
    (THREE, 2, "partial-quorums", "q 1 a b\nb 2 a b\nend\n", 2, "accepted partial-quorums 2\nfrom\nfaulty\n"),
    (THREE, 2, "partial-quorums", "b 1 a b\nb 2 a b c\n", 5, "refused not-new 7\n"),
    (
        THREE,
        2,
        "least",
        (
            "counter 9 9\ns 10 a b\nb 11 a b\nb 12 a c\nb 13 b c\n14 -2 0 3 10 8 7 4 1 12 0\n15 0 14 11 13 1 2 10 8"
            " 0\nend\n"
        ),
        0,
        "accepted least 2\nfrom\nfaulty\nset a b\n",
    ),
    (THREE, 2, "least", "counter 9 9\ns 10 a b\ns 11 a c\n", 5, "refused not-smaller 8\n"),
    (THREE, 2, "least", "counter 9 9\ns 10 a b c\ns 11 a b\ns 12 a\n", 5, "refused not-quorum 9\n"),
    (THREE, 2, "least", "counter 9 9\nb 10 a\n", 5, "refused not-blocking 7\n"),
    (THREE, 2, "least", "counter 9 9\ns 9 a b\n", 5, "refused step 7 id-order 9 9\n"),
    (THREE, 2, "least", "counter 9 9\nq 10 a b\n", 5, "refused bad-line 7\n"),
    (THREE, 2, "least", "counter 9 8\n", 5, "refused formula 6\n"),
    (THREE, 2, "least", "s 1 a b\n", 5, "refused bad-line 6\n"),
    (THREE, 2, "quorums", "s 1 a b\n", 5, "refused bad-line 6\n"),
    (NONE, 2, "least", "counter 0 0\nb 1\n2 0 1 0\nend\n", 0, "accepted least none\nfrom\nfaulty\n"),
    (
        THREE,
        2,
        "partial-least",
        "counter 9 9\ns 10 a b c\ns 11 a b\nb 12 a b\nend\n",
        2,
        "accepted partial-least 1\nfrom\nfaulty\n",
    ),
    (THREE, 2, "partial-least", "counter 9 9\nb 10 a b\nb 11 a b\n", 5, "refused not-new 8\n"),
    (THREE, 1, "quorums", "end\n", 5, "refused bad-line 5\n"),
    (THREE, 1, "least", "counter 9 9\n", 5, "refused bad-line 5\n"),
]

# The same of THREE, beside TOGETHER: a kind, and what stands behind the two digests.
GROUP_CERTIFICATES = [
    ("org-blocking", "q 1 a b\nb 2 org:A\n3 0 1 2 0\nend\n", 0, "accepted org-blocking 1\nfrom\nfaulty\nset org:A\n"),
    ("org-blocking", "q 1 a b\nb 2 org:B\n", 5, "refused unknown-node 8\n"),
    ("org-blocking", "b 1 a b\n", 5, "refused unknown-node 7\n"),
    ("org-blocking", "b 1 node:c\n", 5, "refused not-blocking 7\n"),
    ("org-blocking", "b 1 node:c org:A\n", 5, "refused not-minimal 7\n"),
    ("org-blocking", "b 1 org:A\nb 2 org:A\n", 5, "refused not-new 8\n"),
    ("org-blocking", "q 1 a\n", 5, "refused not-quorum 7\n"),
    ("org-blocking", "q 1 org:A\n", 5, "refused unknown-node 7\n"),
    ("org-blocking", "q 1 a b\nq 1 a c\n", 5, "refused step 8 id-order 1 1\n"),
    ("partial-org-blocking", "q 1 a b c\nb 2 org:A\nend\n", 2, "accepted partial-org-blocking 2\nfrom\nfaulty\n"),
    ("partial-org-blocking", "q 1 a b\nq 2 a b c\n", 5, "refused not-new 8\n"),
]

# Words over a list of organisations that is accepted beside TOGETHER, other organisations, and what is said.
BESIDE_OTHERS = [
    ("check config cert", TOGETHER, 5, "refused no-orgs\n"),
    (
        "check config cert --orgs orgs",
        TOGETHER + " ",
        5,
        (
            "refused orgs-digest 869b0a4786eb55a02c08305777861934f79d995dd9b336a3ba78b7a01e67122d"
            " 7b5f9a4c8723dde25ab1ea74c16d8583ac71dfcaef781d30ce77361c34a1bb87\n"
        ),
    ),
    ("check config cert --orgs orgs", "{", 4, "orgs not-json\n"),
    ("check config orgs --orgs orgs", TOGETHER, 3, "usage same-path\n"),
]

# Proofs over TWO, and what is said of them: behind a comment; without the last line feed; behind lines without a word,
# with one behind the empty lemma that is not looked at; an empty file; a proof that ends early, twice; a comment that
# begins with a space; a clause that is not there; a wrong hint.
PROOFS = [
    ("c proof\n13 -1 0 7 6 3 4 2 0\n14 0 13 1 8 5 0\n", 0, "verified\nfrom\nfaulty\n"),
    ("13 -1 0 7 6 3 4 2 0\n14 0 13 1 8 5 0", 0, "verified\nfrom\nfaulty\n"),
    ("\n \t\nc\n13 -1 0 7 6 3 4 2 0\n14 0 13 1 8 5 0\nend\n", 0, "verified\nfrom\nfaulty\n"),
    ("", 5, "refused not-refuted 1\n"),
    ("13 -1 0 7 6 3 4 2 0\n", 5, "refused not-refuted 2\n"),
    ("13 -1 0 7 6 3 4 2 0", 5, "refused not-refuted 2\n"),
    (" c proof\n", 5, "refused bad-line 1\n"),
    ("c\n14 0 13 1 8 5 0\n", 5, "refused step 2 no-such-clause 13\n"),
    ("13 -1 0 7 6 3 4 0\n", 5, "refused step 1 no-conflict\n"),
]

# Words over the proof of TWO that p deleted leaves nothing apart.
PROOF_LINES = [
    ("check-lrat config cert --from p --faulty p", 0, "verified\nfrom p\nfaulty p\n"),
    ("check-lrat config cert", 5, "refused step 1 id-order 12 8\n"),
    ("check-lrat config config", 3, "usage same-path\n"),
    ("check-lrat config orgs --orgs orgs", 3, "usage same-path\n"),
    ("check-lrat config nowhere --faulty z", 3, "usage unknown-name --faulty 1\n"),
    ("check-lrat config nowhere", 6, ""),
]

# A configuration, a script, words, and what is said: a threshold is raised; a node is retired; nothing is edited; the
# last line feed opens no line; a new name joins, and the numbers of the set move; a set inside another is changed; of
# two equal validators one goes.
TRIED = [
    (
        THREE,
        "threshold a . 3",
        "whatif config script --set c",
        "edit 0\ngreatest a b c\navailable yes\nedit 1\ngreatest a b c\navailable no\nunmet a\n",
    ),
    (
        THREE,
        "retire c",
        "whatif config script --set=",
        "edit 0\ngreatest a b c\navailable yes\nedit 1\ngreatest a b\navailable no\nunmet c\n",
    ),
    (THREE, "", "whatif config script --set c", "edit 0\ngreatest a b c\navailable yes\n"),
    (
        THREE,
        "retire a\ndeclare a\n",
        "whatif config script --set a",
        (
            "edit 0\ngreatest a b c\navailable yes\nedit 1\ngreatest b c\navailable yes\nedit 2\ngreatest b"
            " c\navailable yes\n"
        ),
    ),
    (
        THREE,
        "add a . aa\ndeclare aa\nadd aa . aa\n",
        "whatif config script --set c",
        (
            "edit 0\ngreatest a b c\navailable yes\nedit 1\ngreatest a b c\navailable no\nunmet aa\nedit 2\ngreatest a"
            " b c\navailable no\nunmet aa\nedit 3\ngreatest a aa b c\navailable yes\n"
        ),
    ),
    (
        ZERO_INSIDE,
        "threshold a .0 1\n",
        "whatif config script --set=",
        "edit 0\ngreatest\navailable no\nunmet a\nedit 1\ngreatest a\navailable yes\n",
    ),
    (
        REPEATED,
        "drop a . b\nthreshold a . 1\n",
        "whatif config script --set=",
        (
            "edit 0\ngreatest a b\navailable yes\nedit 1\ngreatest b\navailable no\nunmet a\nedit 2\ngreatest a"
            " b\navailable yes\n"
        ),
    ),
]

# Scripts over THREE and their first faults, in the order of the faults; then lines that are no edits.
FAULTY_SCRIPTS = [
    ("drop a . z", "script not-there 1\n"),
    ("threshold a .0 1", "script no-set 1\n"),
    ("declare a", "script already 1\n"),
    ("retire z", "script unknown-node 1\n"),
    ("threshold a . 01", "script bad-line 1\n"),
    ("retire c\nretire c", "script no-set 2\n"),
    ("add c . d\nadd d . a", "script no-set 2\n"),
    ("drop a . c\ndrop a . c", "script not-there 2\n"),
    ("threshold a . 18446744073709551615\nthreshold a . 18446744073709551616", "script bad-line 2\n"),
    ("threshold a .99999999999999999999 1", "script no-set 1\n"),
    ("threshold a .00 1", "script bad-line 1\n"),
    ("threshold a 0 1", "script bad-line 1\n"),
    ("retire  c", "script bad-line 1\n"),
    ("retire c ", "script bad-line 1\n"),
    ("retire c\r\n", "script bad-line 1\n"),
    ("retire c\n\n", "script bad-line 2\n"),
    ("\n", "script bad-line 1\n"),
    ("remove c", "script bad-line 1\n"),
    ("declare a,b", "script bad-line 1\n"),
    ("declare d\nadd a . d\nretire e", "script unknown-node 3\n"),
]

# Words over THREE and an empty script.
SCRIPT_LINES = [
    ("whatif config script", 3, USAGE),
    ("whatif config --set a", 3, USAGE),
    ("whatif config script --set a --from a", 3, USAGE),
    ("whatif config nowhere --set a,z", 3, "usage unknown-name --set 2\n"),
    ("whatif config nowhere --set a", 6, ""),
    ("whatif config config --set a", 10, "script bad-line 1\n"),
]

# Configurations, and what `show` says of them.
CONFIGURATIONS = [
    ("", 4, "config not-json\n"),
    ("[", 4, "config not-json\n"),
    ('[{"publicKey":"a","latitude":1e400}]', 4, "config not-json\n"),
    ("{}", 4, "config not-nodes\n"),
    ('[{"publicKey":"a"},1,{}]', 4, "config not-node 1\n"),
    ("[{}]", 4, "config bad-key 0\n"),
    ('[{"publicKey":"a"},{"publicKey":7}]', 4, "config bad-key 1\n"),
    ('[{"publicKey":""}]', 4, "config bad-key 0\n"),
    ('[{"publicKey":"a b"}]', 4, "config bad-key 0\n"),
    ('[{"publicKey":"a,b","quorumSet":1}]', 4, "config bad-key 0\n"),
    ('[{"publicKey":"a"},{"publicKey":"a","quorumSet":1}]', 4, "config duplicate 1\n"),
    ("[]", 0, "nodes 0\nentries 0\nunset 0\n"),
    ('[{"publicKey":"a","quorumSet":null}]', 0, "nodes 1\nentries 0\nunset 1\n"),
    ('[{"publicKey":"a,","publicKey":"b"}]', 0, "nodes 1\nentries 0\nunset 1\n"),
    (b"[\xff]", 4, "config not-json\n"),
]

# Quorum sets of a node x, and what `show` says of its configuration.
QUORUM_SETS = [
    ("[]", 4, "config bad-quorum-set 0 shape\n"),
    ("{}", 4, "config bad-quorum-set 0 threshold\n"),
    ('{"threshold":-1}', 4, "config bad-quorum-set 0 threshold\n"),
    ('{"threshold":1.0}', 4, "config bad-quorum-set 0 threshold\n"),
    ('{"threshold":18446744073709551616}', 4, "config bad-quorum-set 0 threshold\n"),
    ('{"threshold":1,"threshold":"1"}', 4, "config bad-quorum-set 0 threshold\n"),
    ('{"threshold":null,"validators":{}}', 4, "config bad-quorum-set 0 threshold\n"),
    ('{"threshold":1,"validators":{},"innerQuorumSets":1}', 4, "config bad-quorum-set 0 validators\n"),
    ('{"threshold":1,"validators":["a","b c"]}', 4, "config bad-quorum-set 0 validators\n"),
    ('{"threshold":1,"innerQuorumSets":{}}', 4, "config bad-quorum-set 0 inner\n"),
    ('{"threshold":1,"innerQuorumSets":[null]}', 4, "config bad-quorum-set 0 shape\n"),
    (
        '{"threshold":1,"innerQuorumSets":[{"threshold":1,"innerQuorumSets":1},{}]}',
        4,
        "config bad-quorum-set 0 inner\n",
    ),
    (
        '{"threshold":18446744073709551615,"validators":null,"innerQuorumSets":null}',
        0,
        "nodes 1\nentries 0\nunset 0\nthreshold x . 18446744073709551615 0\n",
    ),
    (r'{"thres\u0068old":0}', 0, "nodes 1\nentries 0\nunset 0\nthreshold x . 0 0\n"),
]

# Organisations among three nodes without quorum sets, and what `greatest` says.
ORGANISATIONS = [
    ("[", 4, "orgs not-json\n"),
    ("{}", 4, "orgs not-orgs\n"),
    ("[1]", 4, "orgs bad-org 0\n"),
    ('[{"id":"A"},{"validators":[]}]', 4, "orgs bad-org 1\n"),
    ('[{"id":"A B"}]', 4, "orgs bad-org 0\n"),
    ('[{"id":"A"},{"id":"A"}]', 4, "orgs duplicate-org 1\n"),
    ('[{"id":"A"},{"id":"A","validators":1}]', 4, "orgs duplicate-org 1\n"),
    ('[{"id":"A","validators":{}},{"id":"A"}]', 4, "orgs bad-org 0\n"),
    ('[{"id":"A","validators":["a",1]}]', 4, "orgs bad-org 0\n"),
    ('[{"id":"A","validators":["a","z z"]}]', 4, "orgs bad-org 0\n"),
    ("[]", 0, "greatest\n"),
    ('[{"id":"A","validators":null,"name":[]},{"id":"B"}]', 0, "greatest\n"),
]

# Organisations of three nodes, of which each needs itself alone; lists of ids; and the nodes that are left, or the
# first fault of the list.
MEMBERS = [
    (ORG, "", 0, "greatest a b c\n"),
    (ORG, "A", 0, "greatest b c\n"),
    (ORG, "A,A", 0, "greatest b c\n"),
    (ORG, "A,", 3, "usage empty-name --faulty-orgs 2\n"),
    (ORG, "B", 3, "usage unknown-name --faulty-orgs 1\n"),
    (ORG, "a", 3, "usage unknown-name --faulty-orgs 1\n"),
    (ORG, "A,B,A B", 3, "usage unknown-name --faulty-orgs 2\n"),
    (ORG, "A,A B,B", 3, "usage bad-name --faulty-orgs 2\n"),
    (THREE_ORGS, "A", 0, "greatest b\n"),
    (THREE_ORGS, "P", 0, "greatest a b c\n"),
    (THREE_ORGS, "P,Q", 0, "greatest a\n"),
    (THREE_ORGS, "A,Q", 0, "greatest\n"),
    ("[]", "A", 3, "usage unknown-name --faulty-orgs 1\n"),
]

# Texts as lists of the names A, B~ and C of nodes that each need themselves alone, with the nodes that are left or the
# first fault; and as a name.
NAMES = [
    ("", 0, "greatest A B~ C\n", 3, "usage empty-name --node 1\n"),
    ("B~", 0, "greatest A C\n", 0, "closure B~\n"),
    ("C,A", 0, "greatest B~\n", 3, "usage bad-name --node 1\n"),
    ("A,C,A", 0, "greatest B~\n", 3, "usage bad-name --node 1\n"),
    ("D", 3, "usage unknown-name --faulty 1\n", 3, "usage unknown-name --node 1\n"),
    ("A,,D", 3, "usage empty-name --faulty 2\n", 3, "usage bad-name --node 1\n"),
    ("A,B~,", 3, "usage empty-name --faulty 3\n", 3, "usage bad-name --node 1\n"),
    ("A,D,,", 3, "usage unknown-name --faulty 2\n", 3, "usage bad-name --node 1\n"),
    ("A, C", 3, "usage bad-name --faulty 2\n", 3, "usage bad-name --node 1\n"),
]

# Nodes, and all on whom they depend: in two pairs and a node alone, and in a chain through bad thresholds.
CLOSURES = [
    (APART, "a", "closure a b\n"),
    (APART, "d", "closure c d\n"),
    (APART, "bb", "closure bb\n"),
    (CHAIN, "e", "closure a b c d e\n"),
    (CHAIN, "b", "closure a b\n"),
    (CHAIN, "a", "closure a\n"),
]

# Configurations at the limits, what is said of each fault of a configuration, and the longest file.
LIMITS = [
    (lambda: with_set(nested(31)), 0, f"nodes 1\nentries 31\nunset 0\nthreshold x {'.0' * 31} 1 0\n"),
    (lambda: with_set(nested(32)), 4, "config too-deep 0\n"),
    (lambda: "[" * 127 + "]" * 127, 4, "config not-node 0\n"),
    (lambda: "[" * 128 + "]" * 128, 4, "config not-json\n"),
    (lambda: validators(["x"] + [f"n{it}" for it in range(1, 16384)]), 0, "nodes 16384\nentries 16384\nunset 16383\n"),
    (lambda: validators(["x"] + [f"n{it}" for it in range(1, 16385)]), 4, "config too-many-nodes 16385\n"),
    (lambda: validators(["x"] + ["n0"] * 999999), 0, "nodes 2\nentries 1000000\nunset 1\nrepeated x . n0\n"),
    (lambda: validators(["x"] + ["n0"] * 1000000), 4, "config too-many-entries 1000001\n"),
    (lambda: "[", 4, "config not-json\n"),
    (lambda: "{}", 4, "config not-nodes\n"),
    (lambda: behind(3, "1"), 4, "config not-node 3\n"),
    (lambda: "[{}]", 4, "config bad-key 0\n"),
    (lambda: behind(12, '{"publicKey":"n0"}'), 4, "config duplicate 12\n"),
    (lambda: behind(1, with_set(nested(32))[1:-1]), 4, "config too-deep 1\n"),
    (lambda: behind(0, with_set("[]")[1:-1]), 4, "config bad-quorum-set 0 shape\n"),
    (lambda: behind(1, with_set("{}")[1:-1]), 4, "config bad-quorum-set 1 threshold\n"),
    (lambda: behind(2, with_set('{"threshold":1,"validators":1}')[1:-1]), 4, "config bad-quorum-set 2 validators\n"),
    (lambda: behind(3, with_set('{"threshold":1,"innerQuorumSets":1}')[1:-1]), 4, "config bad-quorum-set 3 inner\n"),
    (lambda: behind(16384, '{"publicKey":"x"}'), 4, "config too-many-nodes 16385\n"),
    (
        lambda: with_set('{"threshold":1,"innerQuorumSets":[%s]}' % ",".join(['{"threshold":1}'] * 1000001)),
        4,
        "config too-many-entries 1000001\n",
    ),
    (lambda: " " * 16777217, 4, "config too-long\n"),
]

# The same of organisations.
LIMITS_OF_ORGANISATIONS = [
    (lambda: numbered_ids(4096), 0, "greatest\n"),
    (lambda: numbered_ids(4097), 4, "orgs too-many-orgs 4097\n"),
    (lambda: '[{"id":"A"},{"id":"B"},1]', 4, "orgs bad-org 2\n"),
    (lambda: EQUAL_IDS, 4, "orgs duplicate-org 1\n"),
    (lambda: "[", 4, "orgs not-json\n"),
    (lambda: "{}", 4, "orgs not-orgs\n"),
]

# Searches, with the numbers of variables and clauses of their formula and of the steps in their certificates, where
# these are told.
WITH_FORMULAS = [
    (THREE, "intersect config c --budget 1000000", 0, "intersects yes\n", "16 25", None),
    (THREE, "intersect config c --faulty a --budget 1000000", 1, "intersects no\nfirst b\nsecond c\n", None, None),
    (THREE, "intersect config c --budget 0", 2, "intersects unknown 0\n", "16 25", 0),
    (THREE, "intersect config c --budget 1", 2, "intersects unknown 1\n", "16 25", 1),
    (TWO, "intersect config c --budget 729", 0, "intersects yes\n", "6 12", None),
    (NONE, "intersect config c --budget 0", 0, "intersects yes\n", "0 2", None),
    (THREE, "splits config c --set a --budget 1000000", 0, "splits yes\nfirst b\nsecond c\n", None, None),
    (THREE, "splits config c --faulty a --set b --budget 1000000", 1, "splits no\n", None, None),
    (FOUR, "dset config c --set a --budget 1000000", 0, "available yes\nintersects yes\ndset yes\n", None, None),
    (
        FOUR,
        "dset config c --set a,b --budget 1000000",
        1,
        "available no\nunmet c d\nintersects no\nfirst c\nsecond d\ndset no\n",
        None,
        None,
    ),
    (
        "",
        "trial 50 c --budget 600",
        0,
        "trial 50\nnodes 150\nvariables 3078\nclauses 5608\nintersects yes\n",
        "3078 5608",
        None,
    ),
]

# The formula of the inner quorum set that is shared: its gate is written before that of x, and y uses it again.
SHARED_INNER = (
    "c from\nc faulty\nc 1 a x\nc 2 a y\nc 3 b x\nc 4 b y\np cnf 8 14\n1 2 0\n3 4 0\n-1 -3 0\n-2 -4 0\n-5 1 2 0\n-6 1"
    " 0\n-6 5 0\n-1 6 0\n-2 5 0\n-7 3 4 0\n-8 3 0\n-8 7 0\n-3 8 0\n-4 7 0\n"
)


def numbered_ids(count: int) -> str:
    return "[" + ",".join(f'{{"id":"o{it}"}}' for it in range(count)) + "]"


def certificate(config: str, version: int, kind: str, body: str, start: str = "from\nfaulty\n") -> str:
    return f"fbas-cert {version}\nconfig {sha256(config)}\n{start}kind {kind}\n{body}"


def beside(orgs: str, kind: str, body: str) -> str:
    """A certificate of this kind for THREE beside organisations."""
    return certificate(THREE, 2, kind, f"orgs {sha256(orgs)}\n{body}")


# Words or their line, the files, the status, the text or a test of it, what `check` says of the certificate that is
# written, and what is asked of that.
Row = collections.namedtuple("Row", "words files status text accepted holds")
LIST_OF_GROUPS = beside(TOGETHER, "org-blocking", "q 1 a b\nb 2 org:A\n3 0 1 2 0\nend\n")


def row(
    words: Any, status: int, text: Callable[..., Any] | str, accepted: Any = None, holds: Any = None, **files: Any
) -> Row:
    return Row(words.split() if isinstance(words, str) else words, files, status, text, accepted, holds)


def is_not_made(cert: None) -> bool:
    return cert is None


def is_of(formula: str | None, steps: int | None) -> Callable[..., Any]:
    """Whether a certificate is of a formula of this size and has so many steps; None is not asked for."""

    def holds(cert: str) -> bool:
        lines = cert.split("\n")
        return (formula is None or "formula " + formula in lines) and (
            steps is None or lines.index("end") - lines.index("formula " + formula) - 1 == steps
        )

    return holds


def questions() -> Iterator[tuple[str, list[Row]]]:
    """What the plain questions answer, and which words are no order."""
    yield "no orders", [row(words, status, text, config=THREE) for words, status, text in NO_ORDERS]
    yield "plain questions", [row(words, status, text, config=config) for config, words, status, text in PLAIN]
    yield "sets that block organisations", [row(words, status, text, config=NINE) for words, status, text in BLOCKED]
    yield "names", [row(words, status, text, config=THREE) for words, status, text in NAMED]
    yield "trust closures", [row(words, status, text, config=PAIRS) for words, status, text in CLOSED]
    yield "organisations", [
        row(words, status, text, config=THREE, orgs=orgs) for words, orgs, status, text in ORGANISED
    ]
    yield "formulas", [row(words, status, text, config=config) for config, words, status, text in EXPORTED]
    yield "the formula of a shared inner quorum set", [
        row("export config", 0, f"c formula 3\nc config {sha256(INNER)}\n{SHARED_INNER}", config=INNER)
    ]
    yield "a formula with each gate once on a side, in any order", [
        row(words, 0, lambda it: "p cnf 30500 60402" in it.split("\n"), config=config)
        for words, config in (("export config --formula 2", HALF), ("export config", HALF), ("export config", ROTATED))
    ]
    yield "formulas that are too large", [
        row("export config --formula 2", 9, "too-large 6020400\n", config=ROTATED),
        row("export config", 9, "too-large 5980400\n", config=LEFT_OUT),
    ]
    yield "the versions of the formula", [
        row(f"export config --formula {it}", status, text, config=TWO_ORDERS) for it, status, text in VERSIONS
    ]


def readings() -> Iterator[tuple[str, list[Row]]]:
    """What is read of configurations, organisations and lists of names."""
    nodes = '[{"publicKey":"a"},{"publicKey":"b"},{"publicKey":"c"}]'
    faulty, node, ids = "--faulty=", "--node=", "--faulty-orgs="
    yield "configurations", [
        row("show config", status, text, config=config) for config, status, text in CONFIGURATIONS
    ]
    yield "quorum sets", [row("show config", status, text, config=with_set(it)) for it, status, text in QUORUM_SETS]
    yield "limits", [row("show config", status, text, config=config) for config, status, text in LIMITS]
    yield "organisations that are read", [
        row("greatest config --orgs orgs", status, text, config=nodes, orgs=orgs)
        for orgs, status, text in ORGANISATIONS + LIMITS_OF_ORGANISATIONS
    ]
    yield "members", [
        row(["greatest", "config", "--orgs", "orgs", ids + it], status, text, config=alone("abc"), orgs=orgs)
        for orgs, it, status, text in MEMBERS
    ]
    yield "no organisations", [
        row("greatest config --faulty-orgs A", 3, "usage unknown-name --faulty-orgs 1\n", config=alone("abc")),
        row("greatest config --faulty-orgs=", 0, "greatest a b c\n", config=alone("abc")),
    ]
    config = alone(["C", "A", "B~"])
    yield "lists of names", [
        row(["greatest", "config", faulty + it], status, text, config=config) for it, status, text, _, _ in NAMES
    ]
    yield "single names", [
        row(["closure", "config", node + it], status, text, config=config) for it, _, _, status, text in NAMES
    ]
    yield "closures", [row("closure config --node " + it, 0, text, config=config) for config, it, text in CLOSURES]


def searches() -> Iterator[tuple[str, list[Row]]]:
    """What the searches answer, and that their certificates are accepted."""
    spent = {
        name: certificate(THREE, 3, kind, body)
        for name, kind, body in (("c", "partial", "formula 16 25\nend\n"), ("cert", "partial-blocking", "end\n"))
    }
    groups = "org-blocking 3\nset org:P org:Q\nset org:P org:R\nset org:Q org:R\n"
    yield "searches", [
        row(words, status, text, accepted, config=config, orgs=ORG)
        for config, words, status, text, accepted in SEARCHES
    ]
    yield "searches that are refused", [
        row(words, status, text, holds=is_not_made, config=config, orgs=ORG)
        for config, words, status, text in REFUSED_SEARCHES
    ]
    yield "searches that are too large", [
        row("intersect config c", 9, "too-large 5980400\n", holds=is_not_made, config=LEFT_OUT),
        row(
            "least config c", 9, "too-large 4000205\n", holds=is_not_made, config=alone(f"n{it}" for it in range(2827))
        ),
    ]
    yield "certificates of no unit", [
        row(
            "intersect config c --budget 0",
            2,
            "intersects unknown 0\n",
            holds=lambda it: it == spent["c"],
            config=THREE,
        ),
        row(
            "blocking config cert --budget 0",
            2,
            "blocking unknown 0\n",
            holds=lambda it: it == spent["cert"],
            config=THREE,
        ),
    ]
    yield "sizes of formulas", [
        row(words, status, text, holds=is_of(formula, steps), config=config)
        for config, words, status, text, formula, steps in WITH_FORMULAS
    ]
    yield "lists", [
        row(words, status, text, accepted, config=config) for config, words, status, text, accepted in SEARCHED_LISTS
    ]
    yield "lists of organisations", [
        row(words, status, text, accepted, config=config, orgs=orgs)
        for config, orgs, words, status, text, accepted in GROUP_LISTS
    ]
    yield "two of three organisations", [
        row(
            "org-blocking config cert --orgs orgs",
            0,
            groups,
            "accepted " + groups.replace("3\n", "3\nfrom\nfaulty\n", 1),
            config=NINE,
            orgs=OF_THREE_NODES,
        )
    ]
    yield "trials", [
        row(words, status, text, accepted, config=organisations(count))
        for count, words, status, text, accepted in TRIALS
    ]
    yield "trials that are refused", [row(words, status, text) for words, status, text in REFUSED_TRIALS]


def checks() -> Iterator[tuple[str, list[Row]]]:
    """What `check` and `check-lrat` say."""
    both = CHECK + " --orgs orgs"
    pair = "from a\nfaulty\nkind pair\nfirst a b\nsecond c d\nend\n"
    some = certificate(THREE, 2, "partial-blocking", "end\n")
    yield "pairs", [
        row(CHECK, status, text, config=THREE, cert=f"fbas-cert 1\nconfig {sha256(THREE)}\n{lines}")
        for lines, status, text in PAIR_CERTIFICATES
    ]
    yield "a pair of a trust closure", [
        row(CHECK, 5, "refused unknown-node 7\n", config=PAIRS, cert=f"fbas-cert 1\nconfig {sha256(PAIRS)}\n{pair}")
    ]
    yield "configurations beside no certificate", [
        row(CHECK, 4, text, config=config) for config, text in FAULTY_CONFIGURATIONS
    ]
    yield "a configuration that is too long", [row(CHECK, 4, "config too-long\n", config=lambda: " " * 16777217)]
    yield "certificates", [
        row(CHECK, status, text, config=config, cert=certificate(config, version, kind, body))
        for config, version, kind, body, status, text in CERTIFICATES
    ]
    yield "a formula of a certificate that is too large", [
        row(CHECK, 9, "too-large 6020400\n", config=HALF, cert=certificate(HALF, 1, "refutation", "formula 0 2\n"))
    ]
    yield "digests", [
        row(
            CHECK,
            5,
            f"refused digest {sha256(it)} {sha256(other)}\n",
            config=other,
            cert=f"fbas-cert 1\nconfig {sha256(it)}\n{lines}",
        )
        for it, other, lines in (
            (
                TWO,
                TWO + " ",
                "from\nfaulty\nkind refutation\nformula 8 16\n17 -1 0 7 6 3 4 2 0\n18 0 17 1 10 8 0\nend\n",
            ),
            (NONE, THREE, ""),
        )
    ]
    yield "lists beside organisations", [
        row(both, status, text, config=THREE, orgs=TOGETHER, cert=beside(TOGETHER, kind, body))
        for kind, body, status, text in GROUP_CERTIFICATES
    ]
    yield "a list beside other organisations", [
        row(words, status, text, config=THREE, orgs=orgs, cert=LIST_OF_GROUPS)
        for words, orgs, status, text in BESIDE_OTHERS
    ]
    yield "the line of the organisations", [
        row(
            CHECK,
            5,
            "refused bad-line 6\n",
            config=THREE,
            orgs=TOGETHER,
            cert=certificate(THREE, 2, "org-blocking", "orgs A\n"),
        ),
        row(
            both,
            5,
            "refused bad-line 5\n",
            config=THREE,
            orgs=TOGETHER,
            cert=certificate(THREE, 1, "org-blocking", ""),
        ),
    ]
    yield "organisations beside another kind", [
        row(both, 2, "accepted partial-blocking 0\nfrom\nfaulty\n", config=THREE, orgs=TOGETHER, cert=some),
        row(both, 4, "orgs duplicate-org 1\n", config=THREE, orgs=EQUAL_IDS, cert=some),
    ]
    yield "proofs", [
        row("check-lrat config cert", status, text, config=TWO, cert=proof) for proof, status, text in PROOFS
    ]
    yield "words of proofs", [
        row(words, status, text, config=TWO, orgs=ORG, cert="8 0 1 2 3 0\n") for words, status, text in PROOF_LINES
    ]
    yield "proofs by the version of the formula", [
        row(words, status, text, config=TWO_ORDERS, cert=ORDERS_PROOF) for words, status, text in ORDERS_LINES
    ]


def scripts() -> Iterator[tuple[str, list[Row]]]:
    """What is said of edits that are tried one after another."""
    words = "whatif config script --set c"
    yield "scripts", [row(words, 0, text, config=config, script=script) for config, script, words, text in TRIED]
    yield "scripts with a fault", [
        row(words, 10, text, config=THREE, script=script) for script, text in FAULTY_SCRIPTS
    ]
    yield "words before scripts", [row(words, status, text, config=THREE) for words, status, text in SCRIPT_LINES]
    yield "long scripts", [
        row(words, 10, "script bad-line 1\n", config=THREE, script="\n" * 1048576),
        row(words, 10, "script too-long\n", config=THREE, script="\n" * 1048577),
    ]


def every_row() -> Iterator[Any]:
    for part in (questions, readings, searches, checks, scripts):
        for name, rows in part():
            for it in rows:
                yield pytest.param(it, id=f"{name}: {' '.join(it.words)}"[:120])


@pytest.mark.parametrize("row", every_row())
def test_the_answer_is(run: Any, tmp_path: Path, row: Row) -> None:
    """And then what `check` says of the certificate that the words name, where it is to be accepted."""
    for file in ("config", "cert", "orgs", "script"):
        put(tmp_path / file, row.files.get(file, ""))
    status, text, error = run(*row.words, cwd=tmp_path)
    assert (status, error) == (row.status, "")
    if callable(row.text):
        assert row.text(text)
    else:
        assert text == row.text
    made = "cert" if "cert" in row.words else "c"
    if row.accepted is not None:
        status = 2 if row.accepted.startswith("accepted partial") else 0
        orgs = ["--orgs", "orgs"] if row.files.get("orgs") else []
        assert run("check", "config", made, *orgs, cwd=tmp_path) == (status, row.accepted, "")
    if row.holds is not None:
        cert = tmp_path / made
        assert row.holds(cert.read_text(encoding="utf-8") if cert.exists() else None)


def put(path: Path, data: Any) -> None:
    """Writes a file; great ones are made when they are wanted."""
    data = data() if callable(data) else data
    path.write_bytes(data if isinstance(data, bytes) else data.encode())
