"""Runs the program as a process: every status that it can end with, its exact output, and nothing on standard error.

What no contract can say is shown here: that the machine's files are opened, read, emptied and written, and that a
failing device, a closed output or a file that may not be read ends as it should.
"""

from __future__ import annotations

import os
import subprocess
import tempfile
import threading
from collections.abc import Iterator

import plain_checker
import pytest
import trials
from process import ORGS, PAIR, PROOF, SETS, SPENT, THREE, TWO, UNLISTED, USAGE, LISTED, Folder, lemmas, sha256

# How large trials are, by the number of their organisations.
TRIALS = {
    1: "trial 1\nnodes 3\nvariables 18\nclauses 27\n",
    4: "trial 4\nnodes 12\nvariables 82\nclauses 122\n",
}

# The words, the status, the text that is put out, and what a file then holds (None: there is none).
ROWS = [
    ("show three", 0, "nodes 3\nentries 9\nunset 0\n", {}),
    ("check three pair", 0, "accepted pair\nfrom\nfaulty a\n", {"pair": PAIR}),
    ("check three listed", 0, "accepted blocking 3\nfrom\nfaulty\n" + SETS, {"listed": LISTED}),
    ("available three --set a,b", 1, "available no\nunmet c\n", {}),
    ("", 3, USAGE, {}),
    ("--help", 3, USAGE, {}),
    ("greatest three --faulty z", 3, "usage unknown-name --faulty 1\n", {}),
    ("show bad", 4, "config not-json\n", {}),
    ("check three cut", 5, "refused truncated 1\n", {}),
    ("show missing", 6, "", {}),
    ("show .", 6, "", {}),
    ("show hidden", 6, "", {}),
    ("check three missing", 6, "", {"missing": None}),
    ("export wide", 9, "too-large 5980400\n", {}),
    ("intersect three made --faulty a", 1, "intersects no\nfirst b\nsecond c\n", {"made": PAIR}),
    ("check three made", 0, "accepted pair\nfrom\nfaulty a\n", {}),
    ("intersect three spent --budget 0", 2, "intersects unknown 0\n", {"spent": SPENT}),
    ("check three spent", 2, "accepted partial 0\nfrom\nfaulty\n", {}),
    ("intersect three refuted", 0, "intersects yes\n", {}),
    ("check three refuted", 0, "accepted refutation\nfrom\nfaulty\n", {}),
    (
        "dset three dispensable --set a",
        1,
        "available yes\nintersects no\nfirst b\nsecond c\ndset no\n",
        {"dispensable": PAIR},
    ),
    ("splits three split --set a", 0, "splits yes\nfirst b\nsecond c\n", {"split": PAIR}),
    ("blocking three list", 0, "blocking 3\n" + SETS, {}),
    ("check three list", 0, "accepted blocking 3\nfrom\nfaulty\n" + SETS, {}),
    ("blocking three list --faulty c", 0, "blocking 1\nset a b\n", {}),
    ("blocking three unlisted --budget 0", 2, "blocking unknown 0\n", {"unlisted": UNLISTED}),
    ("check three unlisted", 2, "accepted partial-blocking 0\nfrom\nfaulty\n", {}),
    ("blocking three three", 3, "usage same-path\n", {"three": THREE}),
    ("quorums three sets", 0, "quorums 3\n" + SETS, {}),
    ("check three sets", 0, "accepted quorums 3\nfrom\nfaulty\n" + SETS, {}),
    ("quorums three less --faulty a", 0, "quorums 2\nset b\nset c\n", {}),
    ("quorums three none --budget 0", 2, "quorums unknown 0\n", {}),
    ("check three none", 2, "accepted partial-quorums 0\nfrom\nfaulty\n", {}),
    ("least three fewest --faulty a,b", 0, "least 1\nset c\n", {}),
    ("check three fewest", 0, "accepted least 1\nfrom\nfaulty a b\nset c\n", {}),
    ("least three none --budget 0", 2, "least unknown 0\n", {}),
    ("check three none", 2, "accepted partial-least 0\nfrom\nfaulty\n", {}),
    ("org-blocking three groups --orgs orgs", 0, "org-blocking 1\nset org:A\n", {"orgs": ORGS}),
    ("check three groups --orgs orgs", 0, "accepted org-blocking 1\nfrom\nfaulty\nset org:A\n", {}),
    ("check three groups", 5, "refused no-orgs\n", {}),
    ("check three groups --orgs orgless", 5, f"refused orgs-digest {sha256(ORGS)} {sha256('[]')}\n", {}),
    ("check three listed --orgs orgs", 0, "accepted blocking 3\nfrom\nfaulty\n" + SETS, {}),
    ("check three listed --orgs bad", 4, "orgs not-json\n", {}),
    ("check three listed --orgs missing", 6, "", {}),
    ("check three orgs --orgs orgs", 3, "usage same-path\n", {"orgs": ORGS}),
    ("org-blocking three orgs --orgs orgs", 3, "usage same-path\n", {"orgs": ORGS}),
    ("org-blocking three kept --orgs bad", 4, "orgs not-json\n", {"kept": None}),
    ("org-blocking three kept --orgs missing", 6, "", {"kept": None}),
    ("org-blocking three kept", 3, USAGE, {"kept": None}),
    ("org-blocking three fewer --orgs orgs --faulty-orgs A", 0, "org-blocking 1\nset node:c\n", {}),
    ("check three fewer --orgs orgs", 0, "accepted org-blocking 1\nfrom\nfaulty a b\nset node:c\n", {}),
    ("org-blocking three ungrouped --orgs orgs --budget 0", 2, "org-blocking unknown 0\n", {}),
    ("check three ungrouped --orgs orgs", 2, "accepted partial-org-blocking 0\nfrom\nfaulty\n", {}),
    ("trial 1 tried", 0, TRIALS[1] + "intersects yes\n", {}),
    ("check one tried", 0, "accepted refutation\nfrom\nfaulty\n", {}),
    ("trial 4 tried --budget 10000", 0, TRIALS[4] + "intersects yes\n", {}),
    ("trial 1 untried --budget 0", 2, TRIALS[1] + "intersects unknown 0\n", {}),
    ("check one untried", 2, "accepted partial 0\nfrom\nfaulty\n", {}),
    ("trial 0 kept", 3, USAGE, {"kept": None}),
    ("trial 101 kept", 3, USAGE, {"kept": None}),
    ("trial 1 nowhere/made", 7, "", {}),
    ("check-lrat two proof", 0, "verified\nfrom\nfaulty\n", {"proof": PROOF, "two": TWO}),
    ("check-lrat two cutproof", 0, "verified\nfrom\nfaulty\n", {}),
    ("check-lrat two nothing", 5, "refused not-refuted 1\n", {"nothing": ""}),
    ("check-lrat two proof --from p --faulty p", 5, "refused step 2 not-unit 1\n", {}),
    ("check-lrat two missing", 6, "", {"missing": None}),
    ("check-lrat two .", 6, "", {}),
    ("check-lrat two missing --faulty z", 3, "usage unknown-name --faulty 1\n", {}),
    ("check-lrat wide missing", 6, "", {}),
    ("check-lrat wide proof", 9, "too-large 5980400\n", {}),
    ("check-lrat two two", 3, "usage same-path\n", {"two": TWO}),
    ("check-lrat two proof --budget 3", 3, USAGE, {}),
    (
        "whatif three raise --set c",
        0,
        "edit 0\ngreatest a b c\navailable yes\nedit 1\ngreatest a b c\navailable no\nunmet a\n",
        {"three": THREE},
    ),
    (
        "whatif three retire --set=",
        0,
        "edit 0\ngreatest a b c\navailable yes\nedit 1\ngreatest a b\navailable no\nunmet c\n",
        {"retire": "retire c\n"},
    ),
    ("whatif three nothing --set a,b", 0, "edit 0\ngreatest a b c\navailable no\nunmet c\n", {}),
    ("whatif three twice --set c", 10, "script no-set 2\n", {}),
    ("whatif three three --set c", 10, "script bad-line 1\n", {"three": THREE}),
    ("whatif three missing --set c", 6, "", {"missing": None}),
    ("whatif three . --set c", 6, "", {}),
    ("whatif three missing --set z", 3, "usage unknown-name --set 1\n", {}),
    ("whatif bad missing --set z", 4, "config not-json\n", {}),
    ("whatif three raise", 3, USAGE, {}),
    ("intersect three longer --faulty a", 1, "intersects no\nfirst b\nsecond c\n", {"longer": PAIR}),
    ("intersect three three", 3, "usage same-path\n", {"three": THREE}),
    ("intersect three kept --faulty z", 3, "usage unknown-name --faulty 1\n", {"kept": None}),
    ("intersect three kept --budget 4000000001", 3, USAGE, {"kept": None}),
    ("intersect missing kept", 6, "", {"kept": None}),
    ("intersect wide kept", 9, "too-large 5980400\n", {"kept": None}),
    ("intersect three nowhere/made", 7, "", {}),
    ("intersect three .", 7, "", {}),
    ("intersect three barred", 7, "", {"barred": "as it was\n"}),
    ("intersect three /dev/full", 7, "", {}),
]


@pytest.fixture(scope="module")
def place(program: str) -> Iterator[Folder]:
    """The folder of files. (pytest's own are closed to a user without rights.)"""
    with tempfile.TemporaryDirectory() as folder:
        yield Folder(folder, program)


# (in this order: what a row writes is read by a later one)
@pytest.mark.parametrize("words, status, text, files", ROWS, ids=[words for words, *_ in ROWS])
def test_status_output_and_files_are(
    place: Folder, words: str, status: int, text: str, files: dict[str, str | None]
) -> None:
    found = place.run(words)
    held = {name: place.held(name) for name in files}
    assert (found, held) == ((status, text, ""), files)


def test_both_sides_of_sixty_organisations_are_counted(place: Folder) -> None:
    """By lemmas that no other order of decisions finds so soon."""
    status, text, error = place.run("trial 60 counted")
    assert (status, text.splitlines()[-1:], error) == (0, ["intersects yes"], ""), "sixty organisations"
    assert place.run("check sixty counted") == (0, "accepted refutation\nfrom\nfaulty\n", ""), "their certificate"
    assert sum(1 for _ in lemmas(place.held("counted") or "")) < 700, "their lemmas"


def test_a_long_search_forgets_lemmas(place: Folder) -> None:
    """From 500 to 1,000 at a time: forty nodes, each of which wants six of ten."""
    place.put("drawn", trials.configuration("random:40:10:6:1"))
    status, text, error = place.run("intersect drawn forgetful")
    assert (status, text.splitlines()[-1:], error) == (0, ["intersects yes"], ""), "a long search"
    deletions = [line.split(" ")[2:-1] for line in (place.held("forgetful") or "").splitlines() if " d " in line]
    assert (len(deletions) > 0, all(500 <= len(ids) <= 1000 for ids in deletions)) == (True, True), "its deletions"
    assert place.run("check drawn forgetful") == (0, "accepted refutation\nfrom\nfaulty\n", ""), "its certificate"
    count = sum(1 for _ in lemmas(place.held("forgetful") or ""))
    assert 5000 < count < 15000, "its lemmas, of which there are some 8,100"


@pytest.mark.parametrize("size, threshold, is_whole", [(10, 6, True), (12, 7, True), (17, 11, False)])
def test_a_search_goes_over_gates_written_out(place: Folder, size: int, threshold: int, is_whole: bool) -> None:
    """Where they are whole no lemma has a variable of their counters."""
    config = trials.drawn(26, size, threshold, 1)
    place.put("drawn", config)
    name = f"26 nodes that want {threshold} of {size}"
    status, text, error = place.run("intersect drawn shown")
    assert (status, text.splitlines()[-1:], error) == (0, ["intersects yes"], ""), name
    assert place.run("check drawn shown") == (0, "accepted refutation\nfrom\nfaulty\n", ""), name + ", checked"
    certificate = place.held("shown") or ""
    checked = plain_checker.check(config.encode(), certificate.encode())
    assert checked == (0, "accepted refutation\nfrom\nfaulty\n"), name + ", checked by another"
    found = [abs(literal) for lemma in lemmas(certificate) for literal in lemma]
    assert (len(found) > 0, max(found, default=0) <= 2 * 26) == (True, is_whole), name + ", the variables of lemmas"


def test_a_configuration_comes_from_a_pipe(place: Folder) -> None:
    os.mkfifo(place.path("pipe"))
    os.chmod(place.path("pipe"), 0o666)

    def fill() -> None:
        with open(place.path("pipe"), "w") as pipe:
            pipe.write(THREE)

    filling = threading.Thread(target=fill, daemon=True)
    filling.start()
    found = place.run("greatest pipe --faulty a")
    filling.join(10)
    assert found == (0, "greatest b c\n", "")


def test_a_full_device_is_a_write_fault(place: Folder) -> None:
    with open("/dev/full", "w") as full:
        found = place.run("show three", stdout=full)
    assert found == (7, "", "")


def test_a_certificate_stays_before_a_full_device(place: Folder) -> None:
    with open("/dev/full", "w") as full:
        found = place.run("intersect three whole --faulty a", stdout=full)
    assert (found, place.held("whole")) == ((7, "", ""), PAIR)


def test_a_closed_output_is_a_write_fault(place: Folder) -> None:
    found = place.run("show three", stdout=subprocess.DEVNULL, before=lambda: os.close(1))
    assert found == (7, "", "")


def test_a_pipe_that_nobody_reads_is_a_write_fault(place: Folder) -> None:
    reading, writing = os.pipe()
    os.close(reading)
    found = place.run("show three", stdout=writing)
    os.close(writing)
    assert found == (7, "", "")
