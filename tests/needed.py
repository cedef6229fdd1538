"""What a test needs of the machine."""

from __future__ import annotations

import shutil

import pytest


def needs(*tools: str) -> pytest.MarkDecorator:
    """Skips a test where one of these tools is not installed."""
    missing = [it for it in tools if not shutil.which(it)]
    return pytest.mark.skipif(bool(missing), reason=f"there is no {' and no '.join(missing)}")
