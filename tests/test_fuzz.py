"""Runs the program on made-up files and words (tests/fuzz.py): no crash, and what the second checker answers.

    pytest tests/test_fuzz.py --cases N --seed N --kind KIND

All cases are of one kind where one is named, as whatif; with -s it says which kinds of certificates were accepted.
"""

from __future__ import annotations

import os
import random
import tempfile
from collections.abc import Callable

import fuzz
import pytest

MOST_SHOWN = 10


def test_made_up_files_and_words_are_answered_as_the_plain_checker_says(
    program: str, cases: Callable[[int, int], int], seed: Callable[[int], int], request: pytest.FixtureRequest
) -> None:
    kind, faults = request.config.getoption("--kind"), []
    with tempfile.TemporaryDirectory(dir="/dev/shm" if os.path.isdir("/dev/shm") else None) as folder:
        judge = fuzz.Program(program, folder)
        maker = fuzz.Maker(random.Random(seed(1)), judge)
        for number in range(cases(400, 20000)):
            case = getattr(maker, kind)() if kind else maker.case()
            if judge.fault(case) is not None:
                faults.append(fuzz.shown(judge, number, case))
                if len(faults) == MOST_SHOWN:
                    break
            elif case.kind == "search":
                maker.keep(case)
            elif case.kind in ("check", "proof"):
                maker.count(case)
    print(f"certificates that were accepted, of versions 1, 2 and 3: {maker.told()}")
    assert not faults, "\n".join(faults)
