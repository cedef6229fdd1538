"""What is written outside the crates, linter by linter (tests/lint.py says which files each of them reads)."""

from __future__ import annotations

import pytest

import lint


@pytest.mark.parametrize("name", lint.LINTERS)
def test_a_linter_finds_nothing(name: str) -> None:
    why = lint.missing(name)
    if why:
        pytest.skip(why)
    linter = lint.Linter()
    lint.LINTERS[name](linter)
    assert linter.read, "it has read no file"
    assert linter.findings == ""
    assert not linter.broken, "it ends badly, without a finding"
