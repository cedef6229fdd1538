"""The documents and what they name, rule by rule (tests/documents.py says which rules there are)."""

from __future__ import annotations

from collections.abc import Callable, Iterator

import pytest

import documents


@pytest.mark.parametrize("rule", documents.OF_EACH, ids=lambda it: it.__name__)
@pytest.mark.parametrize("name", documents.DOCUMENTS)
def test_no_document_breaks_a_rule(name: str, rule: Callable[[str, str], Iterator[str]]) -> None:
    assert [*rule(name, documents.text_of(name))] == []


@pytest.mark.parametrize("rule", documents.OF_ALL, ids=lambda it: it.__name__)
def test_the_documents_fit_the_repository(rule: Callable[[], Iterator[str]]) -> None:
    assert [*rule()] == []
