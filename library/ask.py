#!/usr/bin/env python3
"""A caller in Python: ask.py CONFIG [NODE..] asks whether the network can fork if these nodes lie, and has the
certificate checked.

The package is installed by `pip install dist/quorums-*.whl`.
"""

from __future__ import annotations

import sys

from quorums import Quorums, Refused


def main(path: str, *faulty: str) -> str | int:
    with open(path, "rb") as it:
        network = Quorums(it.read())
    try:
        found = network.intersect(faulty=faulty)
    except Refused as refused:
        return str(refused)
    if found.yes is False:
        print(f"it can fork: {' '.join(map(str, found['first']))} / {' '.join(map(str, found['second']))}")
    else:
        print("it cannot fork" if found.yes else "not known")
    print("the checker: " + network.check(found.certificate).text.splitlines()[0])
    return 0


if __name__ == "__main__":
    sys.exit(main(*sys.argv[1:]))
