"""The library on the cases of tests/coverage/corpus, each judged.

Each is asked in guarded memory, over a heap that counts: the answer is the same twice; a certificate that a search
made is accepted, and without its last byte refused; nodes that are renamed in order, elements that are turned round
and members that are skipped change no more than they have to; with one unit more a certificate begins alike; in a room
of one byte less there is no answer; no byte beside the room and no block of memory is left over. What 'check',
'check-lrat' and 'whatif' say is what tests/plain_checker.py says. With each 61st growth of memory refused, by itself
and with all later ones, the answer is the same, or 8; with --long each growth is.

With --long libFuzzer then changes the cases of each target for a minute (--fuzz=SECONDS), with the branches of the
library counted; without the toolchain it is that of dist/, uncounted.
"""

from __future__ import annotations

from collections.abc import Iterator

import build
import cases
import pytest


@pytest.fixture(scope="module")
def coverage(program: str) -> Iterator[cases.Coverage]:
    with cases.room() as folder:
        yield cases.Coverage(folder)


@pytest.mark.parametrize("target", cases.TARGETS)
def test_each_case_of_the_corpus_gets_a_right_answer(
    target: str, coverage: cases.Coverage, request: pytest.FixtureRequest
) -> None:
    try:
        coverage.ask_cases(target, coverage.corpus(target), 1 if request.config.getoption("--long") else 61)
    except build.Missing as why:
        pytest.skip(str(why))


@pytest.fixture(scope="module")
def fuzzer() -> str:
    """The program of libFuzzer, over the library with its branches counted if that can be made."""
    try:
        compiler = build.fuzzer()
        try:
            library = build.counting("-O1")[0]
        except build.Missing:
            library = build.archive()
        return build.linked(build.FUZZ, "fuzz", library, by=compiler, more=("-fsanitize=fuzzer", "-no-pie"))
    except build.Missing as why:
        pytest.skip(str(why))


@pytest.mark.long
@pytest.mark.parametrize("target", cases.TARGETS)
def test_a_search_guided_by_coverage_finds_no_wrong_answer(
    target: str, coverage: cases.Coverage, fuzzer: str, request: pytest.FixtureRequest
) -> None:
    coverage.fuzz(target, request.config.getoption("--fuzz", 60), fuzzer)
