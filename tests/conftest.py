"""What all tests share: the program and the library, networks, how many cases are made up, and what is left out where
it takes long or the machine lacks something."""

from __future__ import annotations

import os
import shutil
import sys
from collections.abc import Callable
from typing import Any, TYPE_CHECKING

import pytest

sys.dont_write_bytecode = True
TOP = os.path.dirname(os.path.dirname(os.path.abspath(__file__)))
# (behind what is installed; the folder of each test comes first by itself)
sys.path += [os.path.join(TOP, it) for it in ("bench", "tools/build", "tools/maintain", "tools/use", "library/python")]
# (a failed comparison in one of these is shown with both sides, as in a test)
pytest.register_assert_rewrite("memory")

import chosen
from networks import Networks, example

if TYPE_CHECKING:
    from quorums import Quorums


def pytest_addoption(parser: Any) -> None:
    group = parser.getgroup("what is tried")
    group.addoption("--long", action="store_true", help="more cases, and the tests that take long")
    group.addoption("--cases", type=int, metavar="N", help="how many cases each test makes that makes them up")
    group.addoption("--seed", type=int, metavar="N", help="from which number it makes them")
    group.addoption("--part", type=part, metavar="K/N", help="only the K-th of every N tests")
    group.addoption("--fuzz", type=int, metavar="SECONDS", default=60, help="how long libFuzzer searches, with --long")
    group.addoption(
        "--page", metavar="PAGE", help="the page that tests/test_web_page.py opens, instead of one it makes"
    )
    group.addoption("--data", metavar="FOLDER", help="more networks for it: NAME.json and NAME-orgs.json")
    group.addoption("--kind", help="only cases of this kind, where a test makes several: of tests/fuzz.py, as whatif")


def part(word: str) -> slice:
    """The tests of a part, K/N: from the K-th on every N-th."""
    which, count = (int(it) for it in word.split("/"))
    if not 1 <= which <= count:
        raise ValueError
    return slice(which - 1, None, count)


def pytest_configure(config: Any) -> None:
    # (the Python package reads it when it is imported)
    os.environ["QUORUM_LIBRARY"] = chosen.library()


def pytest_collection_modifyitems(config: Any, items: list[Any]) -> None:
    """What takes long is left out unless it is asked for, and of the rest what is of another part."""
    kept = [it for it in items if config.getoption("--long") or not it.get_closest_marker("long")]
    kept = kept[config.getoption("--part") or slice(None)]
    config.hook.pytest_deselected(items=[it for it in items if it not in kept])
    items[:] = kept


def pytest_runtest_setup(item: Any) -> None:
    """What the machine lacks is a reason to skip a test."""
    if item.get_closest_marker("browser") and not shutil.which("chromium"):
        pytest.skip("there is no Chromium")
    if item.get_closest_marker("toolchain"):
        import toolchain

        try:
            toolchain.Toolchain()
        except toolchain.Unfit as why:
            pytest.skip(str(why))
    if item.path.parent.name == "python" and not os.path.exists(chosen.library()):
        pytest.skip("libquorum.so is not built: run tools/build/library")


@pytest.fixture(scope="session")
def program() -> str:
    """The path of the program."""
    found = chosen.path()
    assert os.access(found, os.X_OK), "there is no program: tools/build/program makes it"
    return found


@pytest.fixture(scope="session")
def library() -> str:
    """The path of libquorum.so."""
    if not os.path.exists(chosen.library()):
        pytest.skip("libquorum.so is not built: run tools/build/library")
    return chosen.library()


@pytest.fixture(scope="session")
def run(program: str) -> Callable[..., chosen.Ran]:
    """Runs the program: run(*words, cwd=..) gives its status, output and what is on standard error."""
    return chosen.run


@pytest.fixture(scope="session")
def page() -> str:
    """The page of dist/, if it is of the sources of the program."""
    if not chosen.is_of_dist():
        pytest.skip("the page of dist/ is of other sources than those here")
    return os.path.join(chosen.DIST, "quorums.html")


@pytest.fixture(scope="session")
def networks(tmp_path_factory: Any) -> Networks:
    """Networks by their files."""
    return Networks(str(tmp_path_factory.mktemp("networks")))


@pytest.fixture(scope="session")
def cases(request: Any) -> Callable[[int, int], int]:
    """How many cases a test makes up: what --cases says, else the first number, or the second with --long."""

    def count(usually: int, if_long: int) -> int:
        asked: int | None = request.config.getoption("--cases")
        return asked if asked is not None else if_long if request.config.getoption("--long") else usually

    return count


@pytest.fixture(scope="session")
def seed(request: Any) -> Callable[[int], int]:
    """From which number a test makes up its cases: what --seed says, else the one given."""

    def number(usually: int) -> int:
        asked: int | None = request.config.getoption("--seed")
        return usually if asked is None else asked

    return number


@pytest.fixture
def three() -> Quorums:
    from quorums import Quorums

    return Quorums(example("three.json"))


@pytest.fixture
def network() -> Quorums:
    from quorums import Quorums

    return Quorums(example("network.json"), orgs=example("orgs.json"))
