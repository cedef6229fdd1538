"""What the classes of the package make of the answers, and of wrong arguments."""

from __future__ import annotations

import pickle
import subprocess
import sys
import threading
import time
from collections.abc import Callable
from typing import Any

import pytest
from chosen import PACKAGE, TOP
from networks import as_json, example, flat, node

from quorums import Ended, Lost, Quorums, Refused, Stop, TooLarge, answer, trial
from quorums import usage, worker

# A question that takes far longer than any test waits.
LONG = as_json(flat(60, 40))


def test_an_answer_is_neither_true_nor_false(three: Quorums) -> None:
    for found in (three.intersect(), three.intersect(faulty=["a"]), three.blocking(), three.show()):
        with pytest.raises(TypeError, match="look at its yes"):
            bool(found)


def test_yes_no_and_unknown(three: Quorums) -> None:
    assert three.intersect().yes is True
    assert three.intersect(faulty=["a"]).yes is False
    unknown = three.intersect(budget=0)
    assert (unknown.yes, unknown.value, unknown.known, unknown.units) == (None, None, False, 0)
    assert (
        three.available("a").yes,
        three.dset(["a"]).yes,
        three.blocks(["a", "b"]).yes,
        three.vblocks("a", ["b"]).yes,
        three.splits("a").yes,
    ) == (True, False, True, False, True)
    assert trial(2).yes is True


def test_a_list_is_not_answered_yes_or_no(three: Quorums) -> None:
    for found in (three.blocking(), three.greatest(), three.show(), three.check(example("blocking.cert"))):
        with pytest.raises(TypeError, match="is not answered yes or no"):
            found.yes


def test_values_by_command(three: Quorums, network: Quorums) -> None:
    pairs = (("a", "b"), ("a", "c"), ("b", "c"))
    assert three.blocking().value == three.quorums().value == pairs
    assert three.least().size == 2 and three.least().value in pairs
    assert three.least(budget=0).value is None
    assert three.closure("a").value == ("a", "b", "c")
    assert three.greatest(faulty="a,b").value == ("c",)
    assert three.show().value == {"nodes": 3, "entries": 9, "unset": 0}
    assert network.org_blocking().value == (
        ("org:alder", "org:beech"),
        ("org:alder", "org:cedar"),
        ("org:beech", "org:cedar"),
    )
    assert Quorums(example("two.json")).check_lrat(example("two.lrat")).value.startswith("verified\n")  # type: ignore[union-attr]  # noqa: E501


def test_no_quorum_has_no_smallest_one() -> None:
    none = Quorums(as_json([node("a")]))
    assert (none.least().value, none.least().known, none.least()["least"]) == (None, True, ("none",))
    assert none.greatest().value == ()


def test_numbers_are_numbers_and_names_are_not(three: Quorums) -> None:
    assert three.show()["nodes"] == (3,)
    assert three.least()["least"] == (2,)
    assert three.blocking()["blocking"] == (3,)
    assert three.intersect(budget=0)["intersects"] == ("unknown", 0)
    digits = Quorums(as_json([node("12", 5, ["12", "12", "7"]), node("7", 1, ["7"])]))
    assert digits.closure("12").value == ("12", "7")
    assert digits.closure("12")["closure"] == ("12", "7")
    assert digits.show()["threshold"] == ("12", ".", 5, 3)
    assert digits.show()["repeated"] == ("12", ".", "12")
    assert digits.quorums().sets == (("7",),)


def test_check_gives_the_kind_and_refuses(three: Quorums, network: Quorums) -> None:
    forked = three.intersect(faulty=["a"])
    assert three.check(forked.certificate).value == three.check(forked.certificate).kind == "pair"
    assert (forked["first"], forked["second"]) == (("b",), ("c",))
    part = three.check(three.blocking(budget=1).certificate)
    assert (part.value, part.status) == ("partial-blocking", 2)
    stop = network.org_blocking()
    assert network.check(stop.certificate).sets == stop.sets
    for wrong in (b"", forked.certificate[:-1], forked.certificate.replace(b"second c", b"second b")):
        with pytest.raises(Refused) as refused:
            three.check(wrong)
        assert refused.value.status == 5 and refused.value.text.startswith("refused ")


def test_refusals(three: Quorums) -> None:
    for asked, status, text in (
        (lambda: three.greatest(faulty=["z"]), 3, "usage unknown-name --faulty 1"),
        (lambda: Quorums(b"{}").show(), 4, "config not-nodes"),
        (lambda: three.whatif(b"x", nodes=[]), 10, "script bad-line 1"),
        (lambda: trial(101), 3, "usage: quorum_cli COMMAND"),
    ):
        with pytest.raises(Refused) as refused:
            asked()
        assert (refused.value.status, str(refused.value)) == (status, text)
        again = pickle.loads(pickle.dumps(refused.value))
        assert (again.status, again.text) == (refused.value.status, refused.value.text)


@pytest.mark.parametrize(
    "asked, said",
    [
        (lambda it: Quorums("x"), "config must be bytes, not str"),  # type: ignore[arg-type]
        (lambda it: Quorums(b"", orgs=None), "orgs must be bytes, not NoneType"),
        (lambda it: Quorums(b"", room="1"), "room must be an int, not str"),  # type: ignore[arg-type]
        (lambda it: it.intersect(budget="5"), "budget must be an int, not str"),
        (lambda it: it.intersect(budget=True), "budget must be an int, not bool"),
        (lambda it: it.intersect(budget=1.5), "budget must be an int, not float"),
        (lambda it: it.export(formula="2"), "formula must be an int, not str"),
        (lambda it: it.check_lrat(b"", formula=True), "formula must be an int, not bool"),
        (lambda it: it.intersect(faulty=3), "faulty must be a str or several, not int"),
        (lambda it: it.intersect(faulty=b"a"), "faulty must be a str or several, not bytes"),
        (lambda it: it.intersect(faulty=["a", 3]), "faulty must have str, not int"),
        (lambda it: it.intersect(from_node=["a"]), "from_node must be a str, not list"),
        (lambda it: it.intersect(timeout="5"), "timeout must be a number of seconds, not str"),
        (lambda it: it.intersect(stop=threading.Event()), "stop must be a Stop, not Event"),
        (lambda it: it.closure(7), "node must be a str, not int"),
        (lambda it: it.check("text"), "certificate must be bytes, not str"),
        (lambda it: it.whatif("text", nodes=[]), "script must be bytes, not str"),
        (lambda it: it.check_lrat(None), "proof must be bytes, not NoneType"),
        (lambda it: it.ask("intersect", {"node": "a"}), "intersect takes no argument node"),
        (lambda it: it.ask("closure", {}), "closure needs the argument node"),
        (lambda it: it.ask("sing", {}), "the library has no command sing"),
        (lambda it: trial("4"), "count must be an int, not str"),  # type: ignore[arg-type]
        (lambda it: answer("show"), "words must be several words, not str"),
        (lambda it: answer([3]), "words must be str or bytes, not int"),  # type: ignore[list-item]
    ],
)
def test_a_wrong_type_is_named(three: Quorums, asked: Callable[..., Any], said: str) -> None:
    with pytest.raises(TypeError) as raised:
        asked(three)
    assert str(raised.value) == said


def test_the_version_of_the_formula() -> None:
    """Two nodes that need both, of which each names itself first: so their gates are the same in version 3 alone."""
    orders = Quorums(as_json([node("p", 2, ["p", "q"]), node("q", 2, ["q", "p"])]))
    sizes = {None: ("c formula 3", "p cnf 6 12"), 3: ("c formula 3", "p cnf 6 12"), 2: ("c formula 2", "p cnf 8 16")}
    for formula, (first, size) in sizes.items():
        lines = orders.export(formula=formula).text.splitlines()
        assert (lines[0], size in lines) == (first, True)
    proof = b"13 -1 0 7 6 3 4 2 0\n14 0 13 1 8 5 0\n"
    assert orders.check_lrat(proof).text == orders.check_lrat(proof, formula=3).text == "verified\nfrom\nfaulty\n"
    for formula, status, text in ((2, 5, "refused step 1 id-order 16 13"), (4, 3, "usage: quorum_cli COMMAND")):
        with pytest.raises(Refused) as refused:
            orders.check_lrat(proof, formula=formula)
        assert (refused.value.status, str(refused.value)) == (status, text)


def test_a_zero_byte_smuggles_in_no_word(three: Quorums) -> None:
    with pytest.raises(ValueError, match="zero byte"):
        three.greatest(faulty="a\0--from=b")


def test_too_large(monkeypatch: pytest.MonkeyPatch) -> None:
    # (for this test alone, since tests/packaging.py has the name of a package that others import)
    monkeypatch.syspath_prepend(f"{TOP}/tests")
    import process

    with pytest.raises(TooLarge):
        Quorums(process.WIDE.encode()).intersect()


def test_a_small_room_grows(three: Quorums) -> None:
    assert Quorums(three.config, room=1).blocking().sets == three.blocking().sets


def test_a_call_ends_after_its_time() -> None:
    began = time.monotonic()
    with pytest.raises(TimeoutError, match="not answered in 0.5 s"):
        Quorums(LONG).quorums(timeout=0.5, budget=4000000000)
    assert time.monotonic() - began < 5


def test_a_call_is_ended_from_another_thread() -> None:
    stop, found = Stop(), []

    def ask() -> None:
        try:
            found.append(Quorums(LONG).quorums(stop=stop, budget=4000000000))
        except Ended as ended:
            found.append(ended)  # type: ignore[arg-type]

    running = threading.Thread(target=ask)
    running.start()
    time.sleep(0.5)
    stop.end()
    running.join(5)
    assert not running.is_alive() and isinstance(found[0], Ended)
    with pytest.raises(Ended):
        Quorums(LONG).show(stop=stop)


def test_in_a_process_of_its_own_the_answer_is_the_same(three: Quorums) -> None:
    for options in ({}, {"faulty": ["a"]}):
        here, there = three.intersect(**options), three.intersect(timeout=60, **options)  # type: ignore[arg-type]
        assert (here.status, here.text, here.certificate) == (there.status, there.text, there.certificate)
    with pytest.raises(Refused):
        three.greatest(faulty=["z"], timeout=60)
    # (the process is kept for the next call)
    assert len(worker.IDLE.workers) >= 1


def test_a_process_that_is_lost_is_said() -> None:
    stop = Stop()
    threading.Timer(0.5, lambda: [it.process.kill() for it in list(stop.workers)]).start()  # type: ignore[func-returns-value]  # noqa: E501
    with pytest.raises(Lost, match="ended by signal 9"):
        Quorums(LONG).quorums(stop=stop, budget=4000000000)


STARTS_A_LONG_CALL = """
import os, subprocess, sys, threading, time
from quorums import Quorums
network = Quorums(sys.stdin.buffer.read())
threading.Thread(target=lambda: network.quorums(timeout=600, budget=4000000000), daemon=True).start()
time.sleep(1.5)
children = subprocess.run(["pgrep", "-P", str(os.getpid()), "-f", "quorums.worker"], stdout=subprocess.PIPE)
print(children.stdout.decode(), flush=True)
os._exit(0)
"""


def test_a_process_ends_with_the_one_that_started_it() -> None:
    code = STARTS_A_LONG_CALL
    ran = subprocess.run(
        [sys.executable, "-c", code],
        input=LONG,
        stdout=subprocess.PIPE,
        timeout=60,
        env={**__import__("os").environ, "PYTHONPATH": PACKAGE},
    )
    child = int(ran.stdout.split()[0])
    for _ in range(50):
        if not alive(child):
            return
        time.sleep(0.1)
    pytest.fail("the process of the call still runs")


def alive(process: int) -> bool:
    try:
        with open(f"/proc/{process}/stat") as it:
            return it.read().rpartition(")")[2].split()[0] != "Z"
    except FileNotFoundError:
        return False


def test_the_table_is_that_of_the_usage_text() -> None:
    rows = usage.commands()
    assert {it.line for it in rows.values()} == {
        line for line in answer([])[1].decode().splitlines()[1:] if not line.startswith("COMMON")
    }
    assert [it.word for it in rows.values() if it.is_search] == [
        "intersect",
        "dset",
        "splits",
        "blocking",
        "trial",
        "quorums",
        "least",
        "org-blocking",
    ] or set(rows) > {"splitting"}
    assert rows["org-blocking"].option("--orgs").needed and not rows["intersect"].option("--orgs").needed


def test_the_methods_are_those_of_the_table() -> None:
    ran = subprocess.run([sys.executable, f"{PACKAGE}/make_commands.py", "--check"], stdout=subprocess.PIPE)
    assert (ran.returncode, ran.stdout) == (0, b"")
