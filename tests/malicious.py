"""Files that were made to break the program, each with the one text and status that is its answer."""

from __future__ import annotations

import hashlib
import re
from collections.abc import Callable, Iterator
from typing import Any, NamedTuple, Union

# A file, or what makes it when it is wanted.
Content = Union[bytes, Callable[[], bytes]]

MOST_LINE = 134217728


def system(nodes: str, threshold: int) -> bytes:
    """A configuration in which each node needs so many of all of them."""
    names = ",".join(f'"{node}"' for node in nodes)
    sets = [
        f'{{"publicKey":"{node}","quorumSet":{{"threshold":{threshold},"validators":[{names}]}}}}' for node in nodes
    ]
    return ("[" + ",".join(sets) + "]").encode()


def one(quorum_set: bytes) -> bytes:
    """A configuration of one node, a."""
    return b'[{"publicKey":"a","quorumSet":' + quorum_set + b"}]"


def nested(depth: int) -> bytes:
    """A quorum set of this depth."""
    return (
        b'{"threshold":1,"innerQuorumSets":[' * (depth - 1)
        + b'{"threshold":1,"validators":["a"]}'
        + b"]}" * (depth - 1)
    )


def head(config: bytes, kind: str, start: str = "", faulty: str = "", version: int = 1) -> bytes:
    digest = hashlib.sha256(config).hexdigest()
    return f"fbas-cert {version}\nconfig {digest}\nfrom{start}\nfaulty{faulty}\nkind {kind}\n".encode()


TWO = system("pq", 2)
THREE = system("abc", 2)
APART = b"[" + system("ab", 2)[1:-1] + b"," + system("cd", 2)[1:-1] + b"]"
EMPTY = b"[]"

LEMMA = b"17 -1 0 7 6 3 4 2 0"
REFUTATION = head(TWO, "refutation") + b"formula 8 16\n" + LEMMA + b"\n18 0 17 1 10 8 0\nend\n"
REFUTED = "accepted refutation\nfrom\nfaulty\n"
SHARED = (
    head(TWO, "refutation").replace(b"fbas-cert 1", b"fbas-cert 2")
    + b"formula 6 12\n13 -1 0 7 6 3 4 2 0\n14 0 13 1 8 5 0\nend\n"
)
# Two nodes that need both, of which each names itself first.
CROSSED = TWO.replace(
    b'"q","quorumSet":{"threshold":2,"validators":["p","q"]', b'"q","quorumSet":{"threshold":2,"validators":["q","p"]'
)


def crossed(version: int) -> bytes:
    """A refutation for them in which their gates are one."""
    return head(CROSSED, "refutation", version=version) + SHARED.partition(b"refutation\n")[2]


PAIR = head(THREE, "pair", faulty=" a") + b"first b\nsecond c\nend\n"
PARTIAL = head(TWO, "partial") + b"formula 8 16\n" + LEMMA + b"\nend\n"
RAT = head(THREE, "partial") + b"formula 36 53\n54 9 -2 -7 0 -8 -9 0\nend\n"


def seventh(line: bytes) -> bytes:
    """The refutation with other text on line 7."""
    return REFUTATION.replace(LEMMA, line)


def before(line: bytes) -> bytes:
    """The refutation with a line put before line 7."""
    return REFUTATION.replace(LEMMA, line + b"\n" + LEMMA)


def shown(nodes: int, entries: int, unset: int, *found: str) -> str:
    return f"nodes {nodes}\nentries {entries}\nunset {unset}\n" + "".join(line + "\n" for line in found)


# What 'show' says of a configuration.
CONFIGURATIONS: list[tuple[str, Content, int, str]] = [
    ("no byte", b"", 4, "config not-json\n"),
    ("one byte", b"\x00", 4, "config not-json\n"),
    ("a byte order mark", b"\xef\xbb\xbf[]", 4, "config not-json\n"),
    ("a byte behind the array", b"[]x", 4, "config not-json\n"),
    ("127 arrays in one another", b"[" * 127 + b"]" * 127, 4, "config not-node 0\n"),
    ("128 arrays in one another", b"[" * 128 + b"]" * 128, 4, "config not-json\n"),
    ("16,777,216 opened arrays", lambda: b"[" * 16777216, 4, "config not-json\n"),
    ("16,777,216 spaces", lambda: b" " * 16777216, 4, "config not-json\n"),
    ("16,777,217 spaces", lambda: b" " * 16777217, 4, "config too-long\n"),
    ("16,777,216 bytes of two", lambda: TWO + b" " * (16777216 - len(TWO)), 0, shown(2, 4, 0)),
    ("an object", b"{}", 4, "config not-nodes\n"),
    ("a number as a node", b"[1]", 4, "config not-node 0\n"),
    ("bad UTF-8 in a member that is skipped", b'[{"publicKey":"a","x":"\xff"}]', 4, "config not-json\n"),
    ("half of a surrogate pair", b'[{"publicKey":"a","x":"\\ud800"}]', 4, "config not-json\n"),
    ("a number without a binary64", b'[{"publicKey":"a","x":1e400}]', 4, "config not-json\n"),
    ("a number of 100,000 digits", b'[{"publicKey":"a","x":' + b"9" * 100000 + b"}]", 4, "config not-json\n"),
    ("the least number above 0, and less", b'[{"publicKey":"a","x":1e-400}]', 0, shown(1, 0, 1)),
    ("a node without a key", b"[{}]", 4, "config bad-key 0\n"),
    ("a key with a comma", b'[{"publicKey":"a,b"}]', 4, "config bad-key 0\n"),
    ("a key with a line feed", b'[{"publicKey":"a\\nb"}]', 4, "config bad-key 0\n"),
    ("a key with a 0 byte", b'[{"publicKey":"a\\u0000"}]', 4, "config bad-key 0\n"),
    ("a key of 129 bytes", b'[{"publicKey":"' + b"k" * 129 + b'"}]', 4, "config bad-key 0\n"),
    ("a key of 128 bytes", b'[{"publicKey":"' + b"k" * 128 + b'"}]', 0, shown(1, 0, 1)),
    ("a key twice", b'[{"publicKey":"a"},{"publicKey":"\\u0061"}]', 4, "config duplicate 1\n"),
    (
        "a member twice",
        b'[{"publicKey":"b","publicKey":"a","quorumSet":{"threshold":1,"thres\\u0068old":2}}]',
        0,
        shown(1, 0, 0, "threshold a . 2 0"),
    ),
    (
        "threshold 2^64 - 1",
        one(b'{"threshold":18446744073709551615,"validators":["a"]}'),
        0,
        shown(1, 1, 0, "threshold a . 18446744073709551615 1"),
    ),
    (
        "threshold 2^64",
        one(b'{"threshold":18446744073709551616,"validators":["a"]}'),
        4,
        "config bad-quorum-set 0 threshold\n",
    ),
    ("threshold -1", one(b'{"threshold":-1}'), 4, "config bad-quorum-set 0 threshold\n"),
    ("threshold -0", one(b'{"threshold":-0}'), 4, "config bad-quorum-set 0 threshold\n"),
    ("threshold 1.0", one(b'{"threshold":1.0}'), 4, "config bad-quorum-set 0 threshold\n"),
    ("threshold 01", one(b'{"threshold":01}'), 4, "config not-json\n"),
    (
        "no quorum set among the inner ones",
        one(b'{"threshold":1,"innerQuorumSets":[null]}'),
        4,
        "config bad-quorum-set 0 shape\n",
    ),
    ("depth 32", one(nested(32)), 0, shown(1, 32, 0)),
    ("depth 33", one(nested(33)), 4, "config too-deep 0\n"),
    (
        "a number at depth 33",
        one(nested(33).replace(b'{"threshold":1,"validators":["a"]}', b"1")),
        4,
        "config too-deep 0\n",
    ),
    (
        "1,000,000 entries",
        lambda: one(b'{"threshold":1,"validators":[' + b'"a",' * 999999 + b'"a"]}'),
        0,
        shown(1, 1000000, 0, "repeated a . a"),
    ),
    (
        "1,000,001 entries",
        lambda: one(b'{"threshold":1,"validators":[' + b'"a",' * 1000000 + b'"a"]}'),
        4,
        "config too-many-entries 1000001\n",
    ),
    (
        "1,000,001 empty quorum sets",
        lambda: one(b'{"threshold":0,"innerQuorumSets":[' + b'{"threshold":0},' * 1000000 + b'{"threshold":0}]}'),
        4,
        "config too-many-entries 1000001\n",
    ),
    (
        "16,385 names",
        one(b'{"threshold":1,"validators":[' + b",".join(b'"%d"' % i for i in range(16384)) + b"]}"),
        4,
        "config too-many-nodes 16385\n",
    ),
    (
        "16,384 names",
        one(b'{"threshold":1,"validators":[' + b",".join(b'"%d"' % i for i in range(16383)) + b"]}"),
        0,
        shown(16384, 16383, 16383),
    ),
]

# What 'greatest' says of two nodes, with a file of organisations and A as the faulty one.
ORGANISATIONS: list[tuple[str, Content, int, str]] = [
    ("no byte", b"", 4, "orgs not-json\n"),
    ("an object", b"{}", 4, "orgs not-orgs\n"),
    ("128 arrays in one another", b"[" * 128 + b"]" * 128, 4, "orgs not-json\n"),
    ("127 arrays in one another", b"[" * 127 + b"]" * 127, 4, "orgs bad-org 0\n"),
    ("16,777,217 spaces", lambda: b" " * 16777217, 4, "orgs too-long\n"),
    ("an id twice", b'[{"id":"A"},{"id":"A","validators":1}]', 4, "orgs duplicate-org 1\n"),
    ("validators that are no list", b'[{"id":"A"},{"id":"B","validators":{}}]', 4, "orgs bad-org 1\n"),
    (
        "4,097 organisations",
        b"[" + b",".join(b'{"id":"%d"}' % i for i in range(4097)) + b"]",
        4,
        "orgs too-many-orgs 4097\n",
    ),
    (
        "4,096 organisations, none with the id",
        b"[" + b",".join(b'{"id":"%d"}' % i for i in range(4096)) + b"]",
        3,
        "usage unknown-name --faulty-orgs 1\n",
    ),
    (
        "a node named a million times",
        lambda: b'[{"id":"A","validators":[' + b'"p",' * 1000000 + b'"zz"]}]',
        0,
        "greatest q\n",
    ),
]

# What 'check' says of a configuration and a certificate.
CERTIFICATES: list[tuple[str, Content, Content, int, str]] = [
    ("as it should be", TWO, REFUTATION, 0, REFUTED),
    (
        "the greatest id",
        TWO,
        seventh(b"9223372036854775807 -1 0 7 6 3 4 2 0"),
        5,
        "refused step 8 id-order 9223372036854775807 18\n",
    ),
    ("an id of 2^63", TWO, seventh(b"9223372036854775808 -1 0 7 6 3 4 2 0"), 5, "refused bad-line 7\n"),
    ("an id of 2^64 + 17", TWO, seventh(b"18446744073709551633 -1 0 7 6 3 4 2 0"), 5, "refused bad-line 7\n"),
    ("an id of 100,000 digits", TWO, seventh(b"1" * 100000 + b" -1 0 7 6 3 4 2 0"), 5, "refused bad-line 7\n"),
    ("a leading 0", TWO, seventh(b"017 -1 0 7 6 3 4 2 0"), 5, "refused bad-line 7\n"),
    ("a plus sign", TWO, seventh(b"+17 -1 0 7 6 3 4 2 0"), 5, "refused bad-line 7\n"),
    ("the id 0", TWO, seventh(b"0 -1 0 7 6 3 4 2 0"), 5, "refused bad-line 7\n"),
    ("a negative id", TWO, seventh(b"-17 -1 0 7 6 3 4 2 0"), 5, "refused bad-line 7\n"),
    ("the literal -2^31", TWO, seventh(b"17 -2147483648 0 7 6 3 4 2 0"), 5, "refused bad-line 7\n"),
    ("the hint -0", TWO, seventh(b"17 -1 0 -0 6 3 4 2 0"), 5, "refused bad-line 7\n"),
    ("a hint of -2^63", TWO, seventh(b"17 -1 0 -9223372036854775808 6 3 4 2 0"), 5, "refused bad-line 7\n"),
    (
        "a hint of 1 - 2^63",
        TWO,
        seventh(b"17 -1 0 -9223372036854775807 6 3 4 2 0"),
        5,
        "refused step 7 no-such-clause 9223372036854775807\n",
    ),
    (
        "a hint of 2^63 - 1",
        TWO,
        seventh(b"17 -1 0 9223372036854775807 6 3 4 2 0"),
        5,
        "refused step 7 no-such-clause 9223372036854775807\n",
    ),
    (
        "no hint but 2^63 - 1",
        TWO,
        seventh(b"17 -1 0 9223372036854775807 0"),
        5,
        "refused step 7 no-such-clause 9223372036854775807\n",
    ),
    (
        "no hint but 1 - 2^63",
        TWO,
        seventh(b"17 -1 0 -9223372036854775807 0"),
        5,
        "refused step 7 no-such-clause 9223372036854775807\n",
    ),
    ("no hint but 2^63", TWO, seventh(b"17 -1 0 9223372036854775808 0"), 5, "refused bad-line 7\n"),
    ("no closing 0", TWO, seventh(b"17 -1 0 7 6 3 4 2"), 5, "refused bad-line 7\n"),
    ("two closing 0", TWO, seventh(LEMMA + b" 0"), 5, "refused bad-line 7\n"),
    ("no 0 at all", TWO, seventh(b"17 -1 7 6 3 4 2"), 5, "refused bad-line 7\n"),
    ("the id alone", TWO, seventh(b"17"), 5, "refused bad-line 7\n"),
    ("a line without a word", TWO, seventh(b""), 5, "refused bad-line 7\n"),
    ("a line of blanks", TWO, seventh(b" \t "), 5, "refused bad-line 7\n"),
    ("blanks around the words", TWO, seventh(b"\t 17  -1 0\t7 6 3 4 2 0 \t"), 0, REFUTED),
    ("a carriage return", TWO, seventh(LEMMA + b"\r"), 5, "refused bad-line 7\n"),
    ("a 0 byte", TWO, seventh(LEMMA + b"\x00"), 5, "refused bad-line 7\n"),
    ("bytes that are no UTF-8", TWO, seventh(b"17 \xff 0 7 6 3 4 2 0"), 5, "refused bad-line 7\n"),
    ("digits of another script", TWO, seventh("1７ -1 0 7 6 3 4 2 0".encode()), 5, "refused bad-line 7\n"),
    ("the greatest literal", TWO, seventh(b"17 2147483647 0 1 0"), 5, "refused step 7 bad-literal 2147483647\n"),
    ("the least literal", TWO, seventh(b"17 -2147483647 0 1 0"), 5, "refused step 7 bad-literal -2147483647\n"),
    ("a literal one above the variables", TWO, seventh(b"17 9 0 1 0"), 5, "refused step 7 bad-literal 9\n"),
    ("a fault of the step before one of the line", TWO, seventh(b"17 -1 0 6 7 3 4 2 x"), 5, "refused bad-line 7\n"),
    (
        "a lemma with a million literals",
        TWO,
        lambda: seventh(b"17" + b" -1" * 1000000 + b" 0 7 6 3 4 2 0"),
        0,
        REFUTED,
    ),
    (
        "a lemma with a million hints behind the conflict",
        TWO,
        lambda: seventh(b"17 -1 0 7 6 3 4 2" + b" -99" * 1000000 + b" 0"),
        0,
        REFUTED,
    ),
    (
        "a lemma with a million hints that say nothing new",
        TWO,
        lambda: seventh(b"17 -1 0" + b" 7" * 1000000 + b" 6 3 4 2 0"),
        0,
        REFUTED,
    ),
    ("a lemma and its negation", TWO, seventh(b"17 -1 1 0 1 0"), 5, "refused step 7 tautology 1\n"),
    ("a deletion of what came twice", TWO, seventh(b"17 d 1 1 0"), 5, "refused step 7 no-such-clause 1\n"),
    ("a deletion of what is not held", TWO, seventh(b"17 d 17 0"), 5, "refused step 7 no-such-clause 17\n"),
    ("a deletion of what is wanted later", TWO, before(b"17 d 2 0"), 5, "refused step 8 no-such-clause 2\n"),
    ("an empty deletion", TWO, before(b"17 d 0"), 0, REFUTED),
    ("a deletion under an old id", TWO, before(b"1 d 16 0"), 0, REFUTED),
    ("a deletion under the greatest id", TWO, before(b"9223372036854775807 d 16 0"), 0, REFUTED),
    ("a deletion without an id", TWO, before(b"d 16 0"), 5, "refused bad-line 7\n"),
    ("a deletion of a negative id", TWO, before(b"17 d -1 0"), 5, "refused bad-line 7\n"),
    (
        "a deletion of all clauses",
        TWO,
        before(b"17 d" + b"".join(b" %d" % i for i in range(1, 17)) + b" 0"),
        5,
        "refused step 8 no-such-clause 7\n",
    ),
    ("the same lemma again", TWO, before(LEMMA), 5, "refused step 8 id-order 17 17\n"),
    ("an empty lemma at once", TWO, seventh(b"17 0 0"), 5, "refused step 7 no-conflict\n"),
    ("an empty lemma by itself", TWO, seventh(b"17 0 17 0"), 5, "refused step 7 no-such-clause 17\n"),
    ("a step behind the empty lemma", TWO, REFUTATION.replace(b"end", b"19 d 17 0\nend"), 5, "refused bad-line 9\n"),
    ("each gate once", TWO, SHARED, 0, REFUTED),
    ("each gate once, in version 1", TWO, SHARED.replace(b"fbas-cert 2", b"fbas-cert 1"), 5, "refused formula 6\n"),
    (
        "each gate anew, in version 2",
        TWO,
        REFUTATION.replace(b"fbas-cert 1", b"fbas-cert 2"),
        5,
        "refused formula 6\n",
    ),
    ("each gate once, in version 3", TWO, SHARED.replace(b"fbas-cert 2", b"fbas-cert 3"), 0, REFUTED),
    ("gates in order, in version 3", CROSSED, crossed(3), 0, REFUTED),
    ("gates in order, in version 2", CROSSED, crossed(2), 5, "refused formula 6\n"),
    ("version 4", TWO, SHARED.replace(b"fbas-cert 2", b"fbas-cert 4"), 5, "refused bad-line 1\n"),
    ("no lemma", TWO, head(TWO, "refutation") + b"formula 8 16\nend\n", 5, "refused not-refuted 7\n"),
    ("the last line feed missing", TWO, REFUTATION[:-1], 5, "refused truncated 9\n"),
    ("end missing", TWO, REFUTATION[:-4], 5, "refused truncated 9\n"),
    ("a byte behind the end", TWO, REFUTATION + b"\n", 5, "refused trailing\n"),
    ("end and a space", TWO, REFUTATION.replace(b"end", b"end "), 5, "refused bad-line 9\n"),
    ("end and a carriage return", TWO, REFUTATION.replace(b"end", b"end\r"), 5, "refused bad-line 9\n"),
    ("no byte", TWO, b"", 5, "refused truncated 1\n"),
    ("the wrong numbers", TWO, REFUTATION.replace(b"8 16", b"8 17"), 5, "refused formula 6\n"),
    (
        "the greatest numbers",
        TWO,
        REFUTATION.replace(b"8 16", b"9223372036854775807 9223372036854775807"),
        5,
        "refused formula 6\n",
    ),
    ("a number of 2^63", TWO, REFUTATION.replace(b"8 16", b"8 9223372036854775808"), 5, "refused bad-line 6\n"),
    ("no clauses", TWO, REFUTATION.replace(b"8 16", b"8 0"), 5, "refused bad-line 6\n"),
    ("two spaces", TWO, REFUTATION.replace(b"8 16", b"8  16"), 5, "refused bad-line 6\n"),
    ("a tab", TWO, REFUTATION.replace(b"8 16", b"8\t16"), 5, "refused bad-line 6\n"),
    ("an empty lemma of no nodes", EMPTY, head(EMPTY, "refutation") + b"formula 0 2\n3 0 1 0\nend\n", 0, REFUTED),
    (
        "a literal of no nodes",
        EMPTY,
        head(EMPTY, "refutation") + b"formula 0 2\n3 1 0 1 0\nend\n",
        5,
        "refused step 7 bad-literal 1\n",
    ),
    (
        "the empty lemma in a partial certificate",
        TWO,
        PARTIAL.replace(b"end", b"18 0 17 1 10 8 0\nend"),
        5,
        "refused bad-line 8\n",
    ),
    (
        "a lemma twice in a partial certificate",
        TWO,
        PARTIAL.replace(b"end", b"18 -1 0 17 0\nend"),
        5,
        "refused not-new 8\n",
    ),
    ("a RAT step", THREE, RAT, 2, "accepted partial 1\nfrom\nfaulty\n"),
    ("a RAT step without its last clause", THREE, RAT.replace(b" -9 0", b" 0"), 5, "refused step 7 rat-missing 9\n"),
    ("a RAT step without a clause", THREE, RAT.replace(b" -8 -9 0", b" 0"), 5, "refused step 7 no-conflict\n"),
    ("a RAT step whose clauses fall", THREE, RAT.replace(b"-8 -9", b"-9 -8"), 2, "accepted partial 1\nfrom\nfaulty\n"),
    (
        "a RAT hint of a clause without the literal",
        THREE,
        RAT.replace(b"-8 -9", b"-4 -8 -9"),
        5,
        "refused step 7 rat-step 1\n",
    ),
    (
        "a RAT hint of a clause that is deleted",
        THREE,
        RAT.replace(b"54 9", b"53 d 9 0\n54 9"),
        5,
        "refused step 8 no-such-clause 9\n",
    ),
    ("a RAT hint in an empty lemma", TWO, seventh(b"17 0 -1 0"), 5, "refused step 7 rat-step 1\n"),
    (
        "a million RAT hints of one clause",
        THREE,
        lambda: RAT.replace(b" -8 -9", b" -8" * 1000000 + b" -9"),
        2,
        "accepted partial 1\nfrom\nfaulty\n",
    ),
    (
        "a million RAT hints of one clause, and one left out",
        THREE,
        lambda: RAT.replace(b" -8 -9", b" -9" * 1000000),
        5,
        "refused step 7 rat-missing 8\n",
    ),
    ("a pair", THREE, PAIR, 0, "accepted pair\nfrom\nfaulty a\n"),
    ("a carriage return on line 1", THREE, PAIR.replace(b"cert 1", b"cert 1\r"), 5, "refused bad-line 1\n"),
    ("no byte of a pair", THREE, b"", 5, "refused truncated 1\n"),
    ("version 3 and no more", THREE, b"fbas-cert 3\n", 5, "refused truncated 2\n"),
    ("version 4 and no more", THREE, b"fbas-cert 4\n", 5, "refused bad-line 1\n"),
    (
        "a carriage return behind the kind",
        THREE,
        PAIR.replace(b"kind pair", b"kind pair\r"),
        5,
        "refused bad-line 5\n",
    ),
    ("a stranger in a set", THREE, PAIR.replace(b"first b", b"first z"), 5, "refused unknown-node 6\n"),
    ("names of a set out of order", THREE, PAIR.replace(b"first b", b"first c b"), 5, "refused bad-line 6\n"),
    ("another line for the end", THREE, PAIR.replace(b"end", b"third"), 5, "refused bad-line 8\n"),
    ("carriage returns", THREE, PAIR.replace(b"\n", b"\r\n"), 5, "refused bad-line 1\n"),
    ("upper-case digits", THREE, PAIR.replace(PAIR[19:83], PAIR[19:83].upper()), 5, "refused bad-line 2\n"),
    ("63 digits", THREE, PAIR.replace(PAIR[19:83], PAIR[19:82]), 5, "refused bad-line 2\n"),
    (
        "another configuration",
        TWO,
        PAIR,
        5,
        f"refused digest {hashlib.sha256(THREE).hexdigest()} {hashlib.sha256(TWO).hexdigest()}\n",
    ),
    ("an unknown name", THREE, PAIR.replace(b"from", b"from z"), 5, "refused unknown-node 3\n"),
    ("two names", THREE, PAIR.replace(b"from", b"from a b"), 5, "refused bad-line 3\n"),
    ("faulty nodes out of order", THREE, PAIR.replace(b"faulty a", b"faulty b a"), 5, "refused bad-line 4\n"),
    ("a faulty node twice", THREE, PAIR.replace(b"faulty a", b"faulty a a"), 5, "refused bad-line 4\n"),
    ("unknown faulty nodes out of order", THREE, PAIR.replace(b"faulty a", b"faulty z y"), 5, "refused bad-line 4\n"),
    ("an unknown faulty node", THREE, PAIR.replace(b"faulty a", b"faulty z"), 5, "refused unknown-node 4\n"),
    ("a name that is no key", THREE, PAIR.replace(b"faulty a", b"faulty a,b"), 5, "refused unknown-node 4\n"),
    ("an unknown kind", THREE, PAIR.replace(b"kind pair", b"kind other"), 5, "refused bad-line 5\n"),
    ("no kind", THREE, PAIR.replace(b"kind pair", b"kind"), 5, "refused bad-line 5\n"),
    ("a set of nobody", THREE, PAIR.replace(b"first b", b"first"), 5, "refused not-quorum 6\n"),
    ("a faulty node in a set", THREE, PAIR.replace(b"first b", b"first a b"), 5, "refused not-quorum 6\n"),
    (
        "the sets in the other order",
        THREE,
        PAIR.replace(b"first b\nsecond c", b"first c\nsecond b"),
        0,
        "accepted pair\nfrom\nfaulty a\n",
    ),
    (
        "the lines in the other order",
        THREE,
        PAIR.replace(b"first b\nsecond c", b"second c\nfirst b"),
        5,
        "refused bad-line 6\n",
    ),
    ("one set twice", THREE, PAIR.replace(b"second c", b"second b"), 5, "refused overlap 7 b\n"),
    (
        "a quorum outside the trust closure",
        APART,
        head(APART, "pair", " a") + b"first a b\nsecond c d\nend\n",
        5,
        "refused unknown-node 7\n",
    ),
    (
        "a name of a million bytes",
        THREE,
        lambda: PAIR.replace(b"first b", b"first " + b"b" * 1000000),
        5,
        "refused unknown-node 6\n",
    ),
    (
        "a million names",
        THREE,
        lambda: PAIR.replace(b"first b", b"first" + b"".join(b" %06d" % i for i in range(1000000))),
        5,
        "refused unknown-node 6\n",
    ),
    (
        "134,217,728 spaces and no more",
        THREE,
        lambda: head(THREE, "pair") + b" " * MOST_LINE,
        5,
        "refused truncated 6\n",
    ),
    (
        "a line of 134,217,728 spaces",
        THREE,
        lambda: head(THREE, "pair") + b" " * MOST_LINE + b"\n",
        5,
        "refused bad-line 6\n",
    ),
    (
        "134,217,729 spaces",
        THREE,
        lambda: head(THREE, "pair") + b" " * (MOST_LINE + 1),
        5,
        "refused line-too-long 6\n",
    ),
    (
        "a first line of 134,217,729 bytes",
        THREE,
        lambda: b"x" * (MOST_LINE + 1) + b"\n",
        5,
        "refused line-too-long 1\n",
    ),
    ("a lemma with blanks up to 134,217,728 bytes", TWO, lambda: seventh(LEMMA.ljust(MOST_LINE)), 0, REFUTED),
    (
        "a lemma with blanks up to 134,217,729 bytes",
        TWO,
        lambda: seventh(LEMMA.ljust(MOST_LINE + 1)),
        5,
        "refused line-too-long 7\n",
    ),
]

# The same, of lists of sets.
BLOCKS = b"q 1 a b\nq 2 a c\nq 3 b c\nb 4 a b\nb 5 a c\nb 6 b c\n7 -1 0 4 5 3 0\n8 0 7 1 2 6 0\nend\n"
BLOCKING = head(THREE, "blocking") + BLOCKS
LISTED = "accepted blocking 3\nfrom\nfaulty\nset a b\nset a c\nset b c\n"
SOME = head(THREE, "partial-blocking")
QUORUMS = head(THREE, "quorums", version=2) + re.sub(rb"(?m)^[qb]", lambda it: b"b" if it[0] == b"q" else b"q", BLOCKS)

LEAST_LINES = (
    b"counter 9 9\ns 10 a b\nb 11 a b\nb 12 a c\nb 13 b c\n14 -2 0 3 10 8 7 4 1 12 0\n15 0 14 11 13 1 2 10 8 0\nend\n"
)
LEAST = head(THREE, "least", version=2) + LEAST_LINES
SOME_LEAST = head(THREE, "partial-least", version=2)

LISTS: list[tuple[str, Content, Content, int, str]] = [
    ("as it should be", THREE, BLOCKING, 0, LISTED),
    ("a set left out", THREE, BLOCKING.replace(b"b 6 b c\n", b""), 5, "refused step 12 no-such-clause 6\n"),
    ("a set again", THREE, BLOCKING.replace(b"b 6 b c", b"b 6 a b"), 5, "refused not-new 11\n"),
    (
        "a set again once its clause is deleted",
        THREE,
        BLOCKING.replace(b"7 -1", b"7 d 6 0\nb 7 b c\n8 -1").replace(b"8 0 7 1 2 6", b"9 0 8 1 2 7"),
        0,
        LISTED,
    ),
    ("a set that does not block", THREE, BLOCKING.replace(b"b 4 a b", b"b 4 a"), 5, "refused not-blocking 9\n"),
    ("a set of nobody", THREE, BLOCKING.replace(b"b 4 a b", b"b 4"), 5, "refused not-blocking 9\n"),
    ("a set that is not minimal", THREE, BLOCKING.replace(b"b 4 a b", b"b 4 a b c"), 5, "refused not-minimal 9\n"),
    ("no quorum", THREE, BLOCKING.replace(b"q 1 a b", b"q 1 a"), 5, "refused not-quorum 6\n"),
    ("a quorum of nobody", THREE, BLOCKING.replace(b"q 1 a b", b"q 1"), 5, "refused not-quorum 6\n"),
    ("an unknown node", THREE, BLOCKING.replace(b"q 1 a b", b"q 1 a z"), 5, "refused unknown-node 6\n"),
    ("names out of order", THREE, BLOCKING.replace(b"q 1 a b", b"q 1 b a"), 5, "refused bad-line 6\n"),
    ("the id 0", THREE, BLOCKING.replace(b"q 1 a b", b"q 0 a b"), 5, "refused bad-line 6\n"),
    ("a leading 0", THREE, BLOCKING.replace(b"q 1 a b", b"q 01 a b"), 5, "refused bad-line 6\n"),
    ("an id of 2^63", THREE, BLOCKING.replace(b"q 1 a b", b"q 9223372036854775808 a b"), 5, "refused bad-line 6\n"),
    (
        "the greatest id",
        THREE,
        BLOCKING.replace(b"q 1 a b", b"q 9223372036854775807 a b"),
        5,
        "refused step 7 id-order 9223372036854775807 2\n",
    ),
    ("two spaces", THREE, BLOCKING.replace(b"q 1 a b", b"q 1  a b"), 5, "refused bad-line 6\n"),
    ("an id again", THREE, BLOCKING.replace(b"q 2", b"q 1"), 5, "refused step 7 id-order 1 1\n"),
    ("a literal above the nodes", THREE, BLOCKING.replace(b"7 -1", b"7 -4"), 5, "refused step 12 bad-literal -4\n"),
    ("a line behind the empty lemma", THREE, BLOCKING.replace(b"end", b"q 9 a b\nend"), 5, "refused bad-line 14\n"),
    ("no empty lemma", THREE, BLOCKING.replace(b"8 0 7 1 2 6 0\n", b""), 5, "refused not-refuted 13\n"),
    ("a step of a refutation", TWO, before(b"q 17 p q"), 5, "refused bad-line 7\n"),
    ("one quorum of some", THREE, SOME + b"q 1 a b\nend\n", 2, "accepted partial-blocking 1\nfrom\nfaulty\n"),
    ("nothing of some", THREE, SOME + b"end\n", 2, "accepted partial-blocking 0\nfrom\nfaulty\n"),
    ("a greater quorum", THREE, SOME + b"q 1 a b\nq 2 a b c\nend\n", 5, "refused not-new 7\n"),
    ("a lesser quorum", THREE, SOME + b"q 1 a b c\nq 2 a b\nend\n", 2, "accepted partial-blocking 2\nfrom\nfaulty\n"),
    ("an empty lemma of some", THREE, SOME + b"q 1 a b\n2 0 1 0\nend\n", 5, "refused bad-line 7\n"),
    (
        "nobody blocks no nodes",
        EMPTY,
        head(EMPTY, "blocking") + b"b 1\n2 0 1 0\nend\n",
        0,
        "accepted blocking 1\nfrom\nfaulty\nset\n",
    ),
    (
        "nobody blocks no nodes, of some",
        EMPTY,
        head(EMPTY, "partial-blocking") + b"b 1\nend\n",
        2,
        "accepted partial-blocking 1\nfrom\nfaulty\n",
    ),
    ("nobody twice", EMPTY, head(EMPTY, "blocking") + b"b 1\nb 2\n", 5, "refused not-new 7\n"),
    ("all quorums", THREE, QUORUMS, 0, LISTED.replace("blocking", "quorums")),
    ("all quorums in version 1", THREE, QUORUMS.replace(b"cert 2", b"cert 1"), 5, "refused bad-line 5\n"),
    ("a quorum left out", THREE, QUORUMS.replace(b"q 6 b c\n", b""), 5, "refused step 12 no-such-clause 6\n"),
    ("a quorum again", THREE, QUORUMS.replace(b"q 6 b c", b"q 6 a b"), 5, "refused not-new 11\n"),
    ("a quorum that is not minimal", THREE, QUORUMS.replace(b"q 4 a b", b"q 4 a b c"), 5, "refused not-minimal 9\n"),
    (
        "a blocking set that is not minimal",
        THREE,
        QUORUMS.replace(b"b 3 b c", b"b 3 a b c"),
        5,
        "refused step 12 no-conflict\n",
    ),
    (
        "no quorums",
        EMPTY,
        head(EMPTY, "quorums", version=2) + b"b 1\n2 0 1 0\nend\n",
        0,
        "accepted quorums 0\nfrom\nfaulty\n",
    ),
    ("a smallest quorum", THREE, LEAST, 0, "accepted least 2\nfrom\nfaulty\nset a b\n"),
    ("a smallest quorum in version 1", THREE, LEAST.replace(b"cert 2", b"cert 1"), 5, "refused bad-line 5\n"),
    (
        "a quorum that is not smaller",
        THREE,
        LEAST.replace(b"s 10 a b\n", b"s 10 a b\ns 11 a c\n"),
        5,
        "refused not-smaller 8\n",
    ),
    (
        "a smaller set that is no quorum",
        THREE,
        LEAST.replace(b"s 10 a b\n", b"s 10 a b\ns 11 a\n"),
        5,
        "refused not-quorum 8\n",
    ),
    (
        "a larger quorum told as a smallest",
        THREE,
        LEAST.replace(b"s 10 a b\n", b"s 10 a b c\n"),
        5,
        "refused step 11 not-unit 3\n",
    ),
    ("no smallest quorum listed", THREE, LEAST.replace(b"s 10 a b\n", b""), 5, "refused step 10 no-such-clause 10\n"),
    ("a quorum by the other letter", THREE, LEAST.replace(b"s 10", b"q 10"), 5, "refused bad-line 7\n"),
    ("a smaller quorum in a list", THREE, BLOCKING.replace(b"q 1 ", b"s 1 "), 5, "refused bad-line 6\n"),
    ("a counter of one clause less", THREE, LEAST.replace(b"counter 9 9", b"counter 9 8"), 5, "refused formula 6\n"),
    (
        "a counter of one variable more",
        THREE,
        LEAST.replace(b"counter 9 9", b"counter 10 9"),
        5,
        "refused formula 6\n",
    ),
    ("a formula for a counter", THREE, LEAST.replace(b"counter", b"formula"), 5, "refused bad-line 6\n"),
    (
        "a counter with a zero before it",
        THREE,
        LEAST.replace(b"counter 9 9", b"counter 09 9"),
        5,
        "refused bad-line 6\n",
    ),
    (
        "a counter of 2^63 clauses",
        THREE,
        LEAST.replace(b"counter 9 9", b"counter 9 9223372036854775808"),
        5,
        "refused bad-line 6\n",
    ),
    ("nothing behind the kind", THREE, head(THREE, "least", version=2), 5, "refused truncated 6\n"),
    ("an id of the counter", THREE, LEAST.replace(b"s 10 a b", b"s 9 a b"), 5, "refused step 7 id-order 9 9\n"),
    (
        "no quorum at all",
        EMPTY,
        head(EMPTY, "least", version=2) + b"counter 0 0\nb 1\n2 0 1 0\nend\n",
        0,
        "accepted least none\nfrom\nfaulty\n",
    ),
    (
        "a part of a search for a smallest",
        THREE,
        SOME_LEAST + b"counter 9 9\ns 10 a b c\ns 11 a b\nb 12 a b\nend\n",
        2,
        "accepted partial-least 1\nfrom\nfaulty\n",
    ),
    (
        "a blocking set again in a part",
        THREE,
        SOME_LEAST + b"counter 9 9\nb 10 a b\nb 11 a b\n",
        5,
        "refused not-new 8\n",
    ),
    (
        "the empty lemma in a part of a search for a smallest",
        THREE,
        SOME_LEAST + b"counter 9 9\n10 0 1 0\n",
        5,
        "refused bad-line 7\n",
    ),
    (
        "some quorums",
        THREE,
        head(THREE, "partial-quorums", version=2) + b"q 1 a b\nend\n",
        2,
        "accepted partial-quorums 1\nfrom\nfaulty\n",
    ),
]

# The same beside organisations, where two of the three nodes are one.
TOGETHER = b'[{"id":"A","validators":["a","b"]}]'
BESIDE = b"orgs " + hashlib.sha256(TOGETHER).hexdigest().encode() + b"\n"
GROUPS = head(THREE, "org-blocking", version=2) + BESIDE + b"q 1 a b\nb 2 org:A\n3 0 1 2 0\nend\n"
SOME_GROUPS = head(THREE, "partial-org-blocking", version=2) + BESIDE
STOPPED = "accepted org-blocking 1\nfrom\nfaulty\nset org:A\n"


def beside(orgs: Any) -> bytes:
    """The certificate of no group, beside these organisations."""
    return (
        head(EMPTY, "org-blocking", version=2)
        + b"orgs "
        + hashlib.sha256(orgs).hexdigest().encode()
        + b"\nb 1\n2 0 1 0\nend\n"
    )


GROUPED: list[tuple[str, Content, Content, Content, int, str]] = [
    ("as it should be", THREE, TOGETHER, GROUPS, 0, STOPPED),
    (
        "a space behind the organisations",
        THREE,
        TOGETHER + b" ",
        GROUPS,
        5,
        f"refused orgs-digest {hashlib.sha256(TOGETHER).hexdigest()} {hashlib.sha256(TOGETHER + b' ').hexdigest()}\n",
    ),
    (
        "the digest of the configuration",
        THREE,
        TOGETHER,
        GROUPS.replace(BESIDE, b"orgs " + GROUPS[19:83] + b"\n"),
        5,
        f"refused orgs-digest {hashlib.sha256(THREE).hexdigest()} {hashlib.sha256(TOGETHER).hexdigest()}\n",
    ),
    ("no digest", THREE, TOGETHER, GROUPS.replace(BESIDE, b""), 5, "refused bad-line 6\n"),
    ("63 digits", THREE, TOGETHER, GROUPS.replace(BESIDE, BESIDE[:-2] + b"\n"), 5, "refused bad-line 6\n"),
    (
        "upper-case digits",
        THREE,
        TOGETHER,
        GROUPS.replace(BESIDE, b"orgs " + BESIDE[5:].upper()),
        5,
        "refused bad-line 6\n",
    ),
    ("the digest twice", THREE, TOGETHER, GROUPS.replace(BESIDE, BESIDE * 2), 5, "refused bad-line 7\n"),
    ("nothing behind the kind", THREE, TOGETHER, head(THREE, "org-blocking", version=2), 5, "refused truncated 6\n"),
    ("version 1", THREE, TOGETHER, GROUPS.replace(b"cert 2", b"cert 1"), 5, "refused bad-line 5\n"),
    ("a node for its group", THREE, TOGETHER, GROUPS.replace(b"b 2 org:A", b"b 2 a b"), 5, "refused unknown-node 8\n"),
    (
        "the node of an organisation as a group",
        THREE,
        TOGETHER,
        GROUPS.replace(b"b 2 org:A", b"b 2 node:a node:b"),
        5,
        "refused unknown-node 8\n",
    ),
    ("a group for a node", THREE, TOGETHER, GROUPS.replace(b"q 1 a b", b"q 1 org:A"), 5, "refused unknown-node 7\n"),
    (
        "an organisation that is not there",
        THREE,
        TOGETHER,
        GROUPS.replace(b"org:A", b"org:B"),
        5,
        "refused unknown-node 8\n",
    ),
    (
        "groups out of order",
        THREE,
        TOGETHER,
        GROUPS.replace(b"b 2 org:A", b"b 2 org:A node:c"),
        5,
        "refused bad-line 8\n",
    ),
    ("a set of nobody", THREE, TOGETHER, GROUPS.replace(b"b 2 org:A", b"b 2"), 5, "refused not-blocking 8\n"),
    (
        "a set that does not block",
        THREE,
        TOGETHER,
        GROUPS.replace(b"b 2 org:A", b"b 2 node:c"),
        5,
        "refused not-blocking 8\n",
    ),
    (
        "a set that is not minimal",
        THREE,
        TOGETHER,
        GROUPS.replace(b"b 2 org:A", b"b 2 node:c org:A"),
        5,
        "refused not-minimal 8\n",
    ),
    ("a set again", THREE, TOGETHER, GROUPS.replace(b"3 0", b"b 3 org:A\n4 0"), 5, "refused not-new 9\n"),
    (
        "a quorum again",
        THREE,
        TOGETHER,
        GROUPS.replace(b"q 1 a b\nb 2 org:A\n3 0", b"q 1 a b\nq 2 a b\nb 3 org:A\n4 0").replace(
            b"1 2 0\nend", b"1 3 0\nend"
        ),
        0,
        STOPPED,
    ),
    ("no quorum", THREE, TOGETHER, GROUPS.replace(b"q 1 a b", b"q 1 a"), 5, "refused not-quorum 7\n"),
    (
        "a quorum of more groups",
        THREE,
        TOGETHER,
        GROUPS.replace(b"q 1 a b", b"q 1 a b c"),
        5,
        "refused step 9 not-unit 1\n",
    ),
    (
        "a literal above the groups",
        THREE,
        TOGETHER,
        GROUPS.replace(b"3 0", b"3 3 0"),
        5,
        "refused step 9 bad-literal 3\n",
    ),
    ("no empty lemma", THREE, TOGETHER, GROUPS.replace(b"3 0 1 2 0\n", b""), 5, "refused not-refuted 9\n"),
    (
        "one set of some",
        THREE,
        TOGETHER,
        SOME_GROUPS + b"b 1 org:A\nend\n",
        2,
        "accepted partial-org-blocking 1\nfrom\nfaulty\n",
    ),
    ("a greater quorum of some", THREE, TOGETHER, SOME_GROUPS + b"q 1 a b\nq 2 a b c\n", 5, "refused not-new 8\n"),
    ("an empty lemma of some", THREE, TOGETHER, SOME_GROUPS + b"q 1 a b\n2 0 1 0\n", 5, "refused bad-line 8\n"),
    ("nobody of no nodes", EMPTY, b"[]", beside(b"[]"), 0, "accepted org-blocking 1\nfrom\nfaulty\nset\n"),
    (
        "nobody beside 4,096 organisations of strangers",
        EMPTY,
        ORGANISATIONS[8][1],
        beside(ORGANISATIONS[8][1]),
        0,
        "accepted org-blocking 1\nfrom\nfaulty\nset\n",
    ),
    (
        "an organisation of strangers",
        THREE,
        b'[{"id":"Z","validators":["z"]}]',
        (
            head(THREE, "org-blocking", version=2)
            + b"orgs "
            + hashlib.sha256(b'[{"id":"Z","validators":["z"]}]').hexdigest().encode()
            + b"\nb 1 org:Z\n"
        ),
        5,
        "refused unknown-node 7\n",
    ),
    ("another kind", THREE, TOGETHER, BLOCKING, 0, LISTED),
    ("another kind beside what is no organisation", THREE, b"[1]", BLOCKING, 4, "orgs bad-org 0\n"),
]

# What 'check-lrat' says of a proof of the formula of two nodes, which has 6 variables and 12 clauses.
FIRST = b"13 -1 0 7 6 3 4 2 0\n"
LAST = b"14 0 13 1 8 5 0\n"
VERIFIED = "verified\nfrom\nfaulty\n"

PROOFS: list[tuple[str, Content, int, str]] = [
    ("as it should be", FIRST + LAST, 0, VERIFIED),
    ("no byte", b"", 5, "refused not-refuted 1\n"),
    ("a line feed", b"\n", 5, "refused not-refuted 2\n"),
    ("a step and no more", FIRST, 5, "refused not-refuted 2\n"),
    ("a step without a line feed", FIRST[:-1], 5, "refused not-refuted 2\n"),
    ("the last line feed missing", FIRST + LAST[:-1], 0, VERIFIED),
    ("bytes of all kinds behind the empty lemma", FIRST + LAST + bytes(range(256)) * 1000, 0, VERIFIED),
    ("a comment", b"c proof\n" + FIRST + LAST, 0, VERIFIED),
    ("a comment without a space", b"cnf\n" + FIRST + LAST, 0, VERIFIED),
    ("a comment of all bytes", b"c" + bytes(it for it in range(256) if it != 10) + b"\n" + FIRST + LAST, 0, VERIFIED),
    ("a comment behind the last step", FIRST + b"c", 5, "refused not-refuted 3\n"),
    ("a comment that begins with a space", b" c\n" + FIRST + LAST, 5, "refused bad-line 1\n"),
    ("a comment in capitals", b"C\n" + FIRST + LAST, 5, "refused bad-line 1\n"),
    ("lines of blanks", b"\n \n\t\n" + FIRST + b" \t \n" + LAST, 0, VERIFIED),
    ("a carriage return alone", b"\r\n" + FIRST + LAST, 5, "refused bad-line 1\n"),
    ("carriage returns", (FIRST + LAST).replace(b"\n", b"\r\n"), 5, "refused bad-line 1\n"),
    ("a 0 byte", FIRST[:-1] + b"\x00\n" + LAST, 5, "refused bad-line 1\n"),
    ("a certificate", SHARED, 5, "refused bad-line 1\n"),
    ("steps of the formula in version 1", LEMMA + b"\n18 0 17 1 10 8 0\n", 5, "refused step 2 not-unit 3\n"),
    ("no step but an end", FIRST + b"end\n", 5, "refused bad-line 2\n"),
    ("a line of a list", b"q 13 p q\n", 5, "refused bad-line 1\n"),
    ("no closing 0 and no line feed", FIRST + LAST[:-2], 5, "refused bad-line 2\n"),
    ("a digit short of a line", FIRST + b"1", 5, "refused bad-line 2\n"),
    ("an id of the formula", b"12 -1 0 7 6 3 4 2 0\n", 5, "refused step 1 id-order 12 12\n"),
    (
        "the greatest id",
        b"9223372036854775807 -1 0 7 6 3 4 2 0\n" + LAST,
        5,
        "refused step 2 id-order 9223372036854775807 14\n",
    ),
    ("a literal one above the variables", b"13 7 0 1 0\n", 5, "refused step 1 bad-literal 7\n"),
    ("a hint of what is not held", b"13 -1 0 13 0\n", 5, "refused step 1 no-such-clause 13\n"),
    ("a hint of what is deleted", b"12 d 7 0\n" + FIRST, 5, "refused step 2 no-such-clause 7\n"),
    ("deletions of what is not needed", b"1 d 9 10 11 12 0\n" + FIRST + b"13 d 2 0\n" + LAST, 0, VERIFIED),
    ("a deletion of what came twice", b"12 d 1 1 0\n", 5, "refused step 1 no-such-clause 1\n"),
    ("a RAT step", b"13 -5 0 -7 -8 0\n", 5, "refused step 1 no-conflict\n"),
    ("the empty lemma with a RAT hint", b"13 0 -1 0\n", 5, "refused step 1 rat-step 1\n"),
    ("an empty lemma at once", b"13 0 0\n", 5, "refused step 1 no-conflict\n"),
    ("a million comments", lambda: b"c\n" * 1000000 + FIRST + LAST, 0, VERIFIED),
    ("a million comments and no step", lambda: b"c\n" * 1000000, 5, "refused not-refuted 1000001\n"),
    ("a lemma with a million literals", lambda: b"13" + b" -1" * 1000000 + b" 0 7 6 3 4 2 0\n" + LAST, 0, VERIFIED),
    ("a comment of 134,217,728 bytes", lambda: b"c" * MOST_LINE + b"\n" + FIRST + LAST, 0, VERIFIED),
    ("a comment of 134,217,729 bytes", lambda: b"c" * (MOST_LINE + 1), 5, "refused line-too-long 1\n"),
    (
        "blanks up to 134,217,729 bytes",
        lambda: FIRST + b" " * (MOST_LINE + 1) + b"\n" + LAST,
        5,
        "refused line-too-long 2\n",
    ),
    ("an empty lemma with blanks up to 134,217,728 bytes", lambda: FIRST + LAST[:-1].ljust(MOST_LINE), 0, VERIFIED),
    (
        "an empty lemma with blanks up to 134,217,729 bytes",
        lambda: FIRST + LAST[:-1].ljust(MOST_LINE + 1),
        5,
        "refused line-too-long 2\n",
    ),
]


# Scripts over two of two, p and q, with the set p, and their answers.
BEFORE = "edit 0\ngreatest p q\navailable no\nunmet q\n"
SCRIPTS: list[tuple[str, Content, int, str]] = [
    ("nothing", b"", 0, BEFORE),
    ("1,048,576 bytes of line feeds", lambda: b"\n" * 1048576, 10, "script bad-line 1\n"),
    ("1,048,577 bytes", lambda: b"\n" * 1048577, 10, "script too-long\n"),
    ("one line of 1,048,576 bytes", lambda: b"retire " + b"p" * 1048569, 10, "script bad-line 1\n"),
    ("a threshold of a million digits", lambda: b"threshold p . " + b"1" * 1048562, 10, "script bad-line 1\n"),
    ("a path of a million digits", lambda: b"threshold p ." + b"1" * 1048561 + b" 1", 10, "script no-set 1\n"),
    ("a path of half a million places", lambda: b"threshold p " + b".0" * 524281 + b" 1", 10, "script no-set 1\n"),
    (
        "a threshold of 2^64 - 1",
        b"threshold p . 18446744073709551615",
        0,
        BEFORE + "edit 1\ngreatest\navailable no\nunmet q\n",
    ),
    ("a threshold of 2^64", b"threshold p . 18446744073709551616", 10, "script bad-line 1\n"),
    (
        "a name of 128 bytes",
        b"declare " + b"x" * 128,
        0,
        BEFORE + f"edit 1\ngreatest p q\navailable no\nunmet q {'x' * 128}\n",
    ),
    ("a name of 129 bytes", b"declare " + b"x" * 129, 10, "script bad-line 1\n"),
    ("a zero byte", b"retire p\0", 10, "script bad-line 1\n"),
    ("no UTF-8", b"retire \xff", 10, "script bad-line 1\n"),
    ("a tab between words", b"retire\tp", 10, "script bad-line 1\n"),
    ("a carriage return", b"retire p\r\n", 10, "script bad-line 1\n"),
    ("a byte order mark", b"\xef\xbb\xbfretire p", 10, "script bad-line 1\n"),
    ("a configuration", TWO, 10, "script bad-line 1\n"),
]

# Nodes and entries at the limits, what comes to them, and the answer.
LIMITS: list[tuple[str, Content, Content, str]] = [
    (
        "one node too many",
        lambda: b"[" + b",".join(b'{"publicKey":"n%05d"}' % i for i in range(16384)) + b"]",
        b"declare x",
        "script too-many-nodes 1 16385\n",
    ),
    (
        "one entry too many",
        lambda: one(b'{"threshold":1,"validators":[' + b",".join([b'"a"'] * 1000000) + b"]}"),
        b"add a . a",
        "script too-many-entries 1 1000001\n",
    ),
    (
        "one entry too many, of a new node",
        lambda: one(b'{"threshold":1,"validators":[' + b",".join([b'"a"'] * 1000000) + b"]}"),
        b"add a . x",
        "script too-many-entries 1 1000001\n",
    ),
]


# A certificate, or so it begins: what is none would be kept.
OLD = b"fbas-cert 2\nold\n"


class Row(NamedTuple):
    """What is asked over which files, and the answer. Great files are made when they are wanted."""

    name: str
    words: list[str]
    files: dict[str, Content]
    status: int
    text: str


def every_row() -> Iterator[Row]:
    """All of them."""
    for name, config, status, text in CONFIGURATIONS:
        yield Row("configuration: " + name, ["show", "config"], {"config": config}, status, text)
    words = ["greatest", "config", "--orgs", "orgs", "--faulty-orgs", "A"]
    for name, orgs, status, text in ORGANISATIONS:
        yield Row("organisations: " + name, words, {"config": TWO, "orgs": orgs}, status, text)
    words = ["check", "config", "cert"]
    for name, config, cert, status, text in CERTIFICATES + LISTS:
        yield Row("certificate: " + name, words, {"config": config, "cert": cert}, status, text)
    for name, cert, text in (
        ("without them", GROUPS, "refused no-orgs\n"),
        ("without them and with a faulty line", GROUPS.replace(b"orgs ", b"orgs  "), "refused bad-line 6\n"),
    ):
        yield Row("certificate beside organisations: " + name, words, {"config": THREE, "cert": cert}, 5, text)
    words = ["check", "config", "cert", "--orgs", "orgs"]
    for name, config, orgs, cert, status, text in GROUPED:
        files = {"config": config, "orgs": orgs, "cert": cert}
        yield Row("certificate beside organisations: " + name, words, files, status, text)
    for name, proof, status, text in PROOFS:
        yield Row("proof: " + name, ["check-lrat", "config", "cert"], {"config": TWO, "cert": proof}, status, text)
    words = ["whatif", "config", "script", "--set", "p"]
    for name, script, status, text in SCRIPTS:
        yield Row("script: " + name, words, {"config": TWO, "script": script}, status, text)
    words = ["whatif", "config", "script", "--set="]
    for name, config, script, text in LIMITS:
        yield Row("script: " + name, words, {"config": config, "script": script}, 10, text)
