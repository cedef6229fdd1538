"""Runs of every command over small files, which the tests give too little memory in turn."""

from __future__ import annotations

import hashlib
import os
import sys

sys.path.append(os.path.join(os.path.dirname(os.path.dirname(os.path.abspath(__file__))), "bench"))
import malicious
import trials

FOUR = malicious.system("abcd", 3)
ORGS = b'[{"id":"A","validators":["a","zz"]}]'
# Each of the three groups wants another with it: node:b, node:c and org:A.
GROUPS = (
    malicious.head(malicious.THREE, "org-blocking", version=2)
    + b"orgs "
    + hashlib.sha256(ORGS).hexdigest().encode()
    + b"\n"
)
GROUPS += (
    b"q 1 a b\nq 2 a c\nq 3 b c\nb 4 node:b node:c\nb 5 node:b org:A\nb 6 node:c org:A\n7 -1 0 4 5 2 0\n8 0 7 1 3 6"
    b" 0\nend\n"
)
SCRIPT = b"threshold a . 3\nadd b . d\ndeclare d\nadd d . d\ndrop b . c\nretire c\n"
# A search over its formula is not done when that begins anew over gates written out.
DRAWN = trials.drawn(20, 10, 6, 1).encode()

# What is run over which configuration. 'cert' holds an old certificate before, or what is checked.
RUNS = [
    ("intersect config cert", malicious.THREE, malicious.OLD),
    ("intersect config cert --faulty a", malicious.THREE, malicious.OLD),
    ("intersect config cert --budget 3", malicious.THREE, malicious.OLD),
    ("intersect config cert --orgs orgs --faulty-orgs A", malicious.THREE, malicious.OLD),
    ("intersect config cert", DRAWN, malicious.OLD),
    ("intersect config cert --budget 250", DRAWN, malicious.OLD),
    ("blocking config cert", malicious.THREE, malicious.OLD),
    ("blocking config cert --budget 3", malicious.THREE, malicious.OLD),
    ("quorums config cert", malicious.THREE, malicious.OLD),
    ("quorums config cert --budget 3", malicious.THREE, malicious.OLD),
    ("check config cert", malicious.THREE, malicious.QUORUMS),
    ("least config cert", malicious.THREE, malicious.OLD),
    ("least config cert --budget 3", malicious.THREE, malicious.OLD),
    ("check config cert", malicious.THREE, malicious.LEAST),
    ("org-blocking config cert --orgs orgs", malicious.THREE, malicious.OLD),
    ("org-blocking config cert --orgs orgs --budget 3", malicious.THREE, malicious.OLD),
    ("check config cert --orgs orgs", malicious.THREE, GROUPS),
    ("check config cert", malicious.THREE, GROUPS),
    ("dset config cert --set a", FOUR, malicious.OLD),
    ("splits config cert --set a", malicious.APART, malicious.OLD),
    ("trial 1 cert", malicious.EMPTY, malicious.OLD),
    ("trial 2 cert --budget 3", malicious.EMPTY, malicious.OLD),
    ("check config cert", malicious.THREE, malicious.PAIR),
    ("check config cert", malicious.TWO, malicious.REFUTATION),
    ("check config cert", malicious.TWO, malicious.SHARED),
    ("check config cert", malicious.TWO, malicious.PARTIAL),
    ("check config cert", malicious.THREE, malicious.RAT),
    ("check config cert", malicious.THREE, malicious.BLOCKING),
    ("check config cert", malicious.THREE, malicious.SOME + b"q 1 a b\nb 2 a b\nend\n"),
    ("check config cert", malicious.THREE, malicious.PAIR[:-1]),
    ("check-lrat config cert", malicious.TWO, b"c\n" + malicious.FIRST + malicious.LAST),
    ("check-lrat config cert --from a --orgs orgs --faulty-orgs A", malicious.THREE, b"9 0 1 2 3 0\n"),
    ("whatif config script --set a", malicious.THREE, malicious.OLD),
    ("whatif config faulty --set a", malicious.THREE, malicious.OLD),
    ("show config", malicious.THREE, malicious.OLD),
    ("closure config --node a", malicious.APART, malicious.OLD),
    ("greatest config --from a --faulty b", malicious.APART, malicious.OLD),
    ("available config --set a", FOUR, malicious.OLD),
    ("blocks config --set a --orgs orgs --faulty-orgs A", FOUR, malicious.OLD),
    ("vblocks config --node a --set b,c", malicious.THREE, malicious.OLD),
    ("export config", malicious.THREE, malicious.OLD),
    ("show config", b"[1]", malicious.OLD),
    ("greatest config --faulty z", malicious.THREE, malicious.OLD),
    ("check config", malicious.THREE, malicious.OLD),
]
