"""How a certificate takes the place of what was there, on the machine, written by a user without rights.

No file but a certificate is lost to one, whatever CERT names; what a failure, a full disk or a kill leaves there is
the old file or the new one, whole; and no answer goes to a certificate where an output is closed.
"""

from __future__ import annotations

import ctypes
import itertools
import os
import resource
import signal
import stat
import subprocess
import tempfile
import threading
from collections.abc import Callable, Iterator, Sequence
from typing import Any

import pytest
from process import FILES, SPENT, THREE, Folder

PTRACE_TRACEME, PTRACE_SYSCALL = 0, 24
LIBC = ctypes.CDLL(None, use_errno=True)
LIBC.ptrace.argtypes = [ctypes.c_long, ctypes.c_long, ctypes.c_void_p, ctypes.c_void_p]

# Organisations of the three nodes, and a file that is nobody's certificate.
ORGS = '[{"id":"A","validators":["a"]}]'
OTHER = "fbas-cert, or so it seems\n"
# Stands for the certificate that is written.
MADE = "made"

# Each command that writes, its status and the last line that it puts out.
WRITING = [
    ("intersect three CERT", 0, "intersects yes"),
    ("intersect three CERT --faulty a", 1, "second c"),
    ("intersect three CERT --budget 0", 2, "intersects unknown 0"),
    ("dset three CERT --set a", 1, "dset no"),
    ("splits three CERT --set a", 0, "second c"),
    ("blocking three CERT", 0, "set b c"),
    ("trial 1 CERT", 0, "intersects yes"),
]

# A name of CONFIG or ORGS in the place of CERT, what is made first, and the name under which the bytes are then.
ALIASES = [
    ("intersect three ./three", None, "three~"),
    ("intersect three FOLDER/three", None, "three~"),
    ("intersect three up/three", ("link", ".", "up"), "three~"),
    ("intersect three alias", ("link", "three", "alias"), "three"),
    ("intersect three further", ("links", "three", "further"), "three"),
    ("intersect three alias", ("hard", "three", "alias"), "three"),
    ("intersect three orgs", None, "orgs~"),
    ("intersect three ./orgs --orgs orgs", None, "orgs~"),
    ("intersect three alias --orgs orgs", ("link", "orgs", "alias"), "orgs"),
    ("intersect three alias --orgs orgs", ("hard", "orgs", "alias"), "orgs"),
    ("blocking three.part three", ("move", "three", "three.part"), "three.part"),
    ("blocking three orgs --orgs orgs.part", ("move", "orgs", "orgs.part"), "orgs.part"),
]


class Place:
    """A folder of its own, in which the program runs."""

    def __init__(self, folder: Folder, name: str, files: dict[str, str]) -> None:
        self.folder, self.name = folder, name
        os.mkdir(self.path(""), 0o777)
        os.chmod(self.path(""), 0o777)
        for file, text in files.items():
            self.put(file, text)

    def path(self, file: str) -> str:
        return os.path.join(self.folder.path(self.name), file)

    def put(self, file: str, text: str, mode: int = 0o666) -> None:
        with open(self.path(file), "w") as it:
            it.write(text)
        os.chmod(self.path(file), mode)

    def held(self, file: str) -> str:
        return self.folder.held(os.path.join(self.name, file))

    def files(self) -> list[str]:
        return sorted(os.listdir(self.path("")))

    def run(self, words: str, **how: Any) -> tuple[int, list[str], str]:
        """The status, the last line, and what is on standard error."""
        status, text, error = self.folder.run(words, within=self.name, **how)
        return status, text.split("\n")[-2:-1], error

    def check(self, cert: str, config: str = "three") -> int:
        return self.run(f"check {config} {cert}")[0]


Places = Callable[..., Place]
Ended = tuple[int, list[str], str]
DONE: Ended = (1, ["second c"], "")
FAILED: Ended = (7, [], "")


@pytest.fixture(scope="module")
def places(program: str) -> Iterator[Places]:
    """Makes folders with a configuration, organisations, the configuration of `trial 1`, and further files."""
    with tempfile.TemporaryDirectory() as top:
        folder, count = Folder(top, program), itertools.count(1)

        def place(**files: str) -> Place:
            return Place(folder, f"place{next(count)}", {"three": THREE, "orgs": ORGS, "one": FILES["one"], **files})

        yield place


@pytest.fixture(scope="module")
def made(places: Places) -> dict[str, str]:
    """What each command that writes puts into its certificate."""
    place, texts = places(), {}
    for words, status, line in WRITING:
        assert place.run(words.replace("CERT", "made")) == (status, [line], ""), words
        texts[words] = place.held("made")
    return texts


@pytest.fixture(scope="module")
def pair(made: dict[str, str]) -> str:
    """The certificate that most searches here write."""
    return made["intersect three CERT --faulty a"]


def little_room() -> None:
    signal.signal(signal.SIGXFSZ, signal.SIG_IGN)
    resource.setrlimit(resource.RLIMIT_FSIZE, (20, 20))


class Traced:
    """A run that stops before and after each call of the system (ptrace)."""

    def __init__(self, place: Place, words: str) -> None:
        self.status: int | None = None
        self.process = os.fork()
        if self.process == 0:
            try:
                nothing = os.open("/dev/null", os.O_RDWR)
                for number in range(3):
                    os.dup2(nothing, number)
                os.chdir(place.path(""))
                place.folder.give_up_rights()
                LIBC.ptrace(PTRACE_TRACEME, 0, None, None)
                os.execv(place.folder.program, [place.folder.program, *words.split()])
            finally:
                os._exit(127)
        self.waits()

    def waits(self) -> None:
        """Waits until it stops or ends."""
        _, status = os.waitpid(self.process, 0)
        if not os.WIFSTOPPED(status):
            self.status = os.waitstatus_to_exitcode(status)

    def go(self, stops: int) -> bool:
        """Lets it go on for so many stops; whether it has ended."""
        for _ in range(stops):
            if self.status is not None:
                return True
            LIBC.ptrace(PTRACE_SYSCALL, self.process, None, None)
            self.waits()
        return self.status is not None

    def kill(self) -> None:
        if self.status is None:
            os.kill(self.process, signal.SIGKILL)
            self.waits()


@pytest.mark.parametrize("words, status, line", WRITING, ids=[words for words, *_ in WRITING])
def test_no_answer_goes_into_a_certificate_where_outputs_are_closed(
    places: Places, made: dict[str, str], words: str, status: int, line: str
) -> None:
    for closed in [(1,), (0, 1), (1, 2), (0, 1, 2), (0,), (2,), (0, 2)]:
        place = places()
        found = place.run(words.replace("CERT", "t"), before=lambda: [os.close(number) for number in closed])  # type: ignore[func-returns-value]  # noqa: E501
        assert found == ((7, [], "") if 1 in closed else (status, [line], "")), f"{words} without {closed}"
        assert (place.held("t"), place.files()) == (
            made[words],
            ["one", "orgs", "t", "three"],
        ), f"{words} without {closed}: certificate"
        config = "one" if words.startswith("trial") else "three"
        assert place.check("t", config) == (2 if status == 2 else 0), f"{words} without {closed}: check"


@pytest.mark.parametrize("words, first, kept", ALIASES)
def test_no_input_is_lost_to_a_certificate_of_another_name(
    places: Places, words: str, first: tuple[str, str, str] | None, kept: str
) -> None:
    place = places()
    if first:
        kind, old, new = first
        if kind == "link":
            os.symlink(old, place.path(new))
        elif kind == "links":
            os.symlink(old, place.path("nearer"))
            os.symlink("nearer", place.path(new))
        elif kind == "hard":
            os.link(place.path(old), place.path(new))
        elif kind == "move":
            os.rename(place.path(old), place.path(new))
    words = words.replace("FOLDER", place.path("")[:-1])
    cert = words.split()[2]
    want = ["intersects yes"] if words.startswith("intersect") else ["set b c"]
    assert place.run(words) == (0, want, ""), words
    assert place.held(kept) == (ORGS if kept.startswith("orgs") else THREE), words + ": kept"
    place.put("whole", THREE)
    assert place.check(cert, "whole") == 0, words + ": check"
    held = [place.held(name) for name in place.files() if os.path.isfile(place.path(name))]
    assert (held.count(THREE) > 1, ORGS in held) == (True, True), words + ": nothing is lost"
    assert [name for name in place.files() if name.endswith(".part") and name != kept] == [], (
        words + ": no new file is left"
    )


def over(
    place: Place,
    found: Ended,
    after: dict[str, str],
    words: str = "intersect three t --faulty a",
    before: Callable[..., Any] | None = None,
) -> None:
    """A search over a certificate's name `t` that stands for something, and the files that are there then."""
    if before:
        before(place)
    assert place.run(words) == found
    for name, text in after.items():
        assert place.held(name) == text, name
    assert place.files() == sorted(["one", "orgs", "three", *(name for name in after if after[name] is not None)])


def linked(name: str) -> Callable[[Place], None]:
    """What makes a link of this name to the file u."""
    return lambda place: os.symlink("u", place.path(name))


# What stands under the certificate's name or beside it, what is done first, how the search ends, and the files then,
# where MADE is its certificate.
OVER: list[tuple[str, dict[str, str], Callable[[Place], None] | None, Ended, dict[str, str]]] = [
    ("nothing", {}, None, DONE, {"t": MADE}),
    ("a certificate", {"t": SPENT}, None, DONE, {"t": MADE}),
    ("an empty file", {"t": ""}, None, DONE, {"t": MADE}),
    ("a link to a certificate", {"u": SPENT}, linked("t"), DONE, {"t": MADE, "u": SPENT}),
    ("a link to another file", {"u": OTHER}, linked("t"), DONE, {"t": MADE, "u": OTHER}),
    ("a link to nothing", {}, linked("t"), DONE, {"t": MADE}),
    (
        "a hard link",
        {"u": OTHER},
        lambda it: os.link(it.path("u"), it.path("t")),
        DONE,
        {"t": MADE, "t~": OTHER, "u": OTHER},
    ),
    ("a file that may not be written", {}, lambda it: it.put("t", SPENT, 0o444), FAILED, {"t": SPENT}),
    ("what a killed run left", {"t.part": SPENT}, None, DONE, {"t": MADE}),
    ("another file in its place", {"t.part": OTHER}, None, DONE, {"t": MADE, "t.part": OTHER}),
    ("a link in its place", {"u": OTHER}, linked("t.part"), DONE, {"t": MADE, "u": OTHER, "t.part": OTHER}),
    ("another file beside another", {"t": OTHER, "t.part": OTHER}, None, FAILED, {"t": OTHER, "t.part": OTHER}),
]


@pytest.mark.parametrize("what, files, before, found, after", OVER, ids=[it[0] for it in OVER])
def test_a_certificate_takes_the_place_of(
    places: Places,
    pair: str,
    what: str,
    files: dict[str, str],
    before: Callable[[Place], None] | None,
    found: Ended,
    after: dict[str, str],
) -> None:
    over(places(**files), found, {name: pair if text == MADE else text for name, text in after.items()}, before=before)


def test_each_other_file_is_kept_by_a_name_of_its_own(places: Places, pair: str) -> None:
    place = places(t=OTHER)
    over(place, DONE, {"t": pair, "t~": OTHER})
    place.put("t", "[]")
    assert place.run("blocking three t") == (0, ["set b c"], "")
    assert (place.held("t~"), place.held("t~2"), place.check("t")) == (OTHER, "[]", 0)
    assert place.run("intersect three t --faulty a") == DONE
    assert (place.held("t"), place.files()) == (pair, ["one", "orgs", "t", "three", "t~", "t~2"])


def test_a_name_without_room_for_its_end_is_written(places: Places, pair: str) -> None:
    over(places(), DONE, {"t" * 255: pair}, words=f"intersect three {'t' * 255} --faulty a")


def test_a_certificate_keeps_the_permissions_of_the_old(places: Places, pair: str) -> None:
    place = places()
    over(place, DONE, {"t": pair}, before=lambda it: it.put("t", SPENT, 0o606))
    assert stat.S_IMODE(os.stat(place.path("t")).st_mode) == 0o606


def test_in_a_folder_that_may_not_be_written_only_what_is_there_is_written(places: Places, pair: str) -> None:
    for old, found, held in [
        (SPENT, DONE, pair),
        ("", DONE, pair),
        (OTHER, FAILED, OTHER),
    ]:
        place = places(t=old)
        os.chmod(place.path(""), 0o555)
        assert (place.run("intersect three t --faulty a"), place.held("t")) == (found, held), old[:9]
        assert place.run("intersect three u --faulty a") == FAILED


@pytest.mark.parametrize("name", ["t", "u"], ids=["by its name", "by a link"])
def test_a_pipe_is_written_itself(places: Places, pair: str, name: str) -> None:
    place = places()
    os.mkfifo(place.path("t"))
    os.chmod(place.path("t"), 0o666)
    os.symlink("t", place.path("u"))
    read = []
    reading = threading.Thread(target=lambda: read.append(place.held("t")), daemon=True)
    reading.start()
    assert place.run(f"intersect three {name} --faulty a") == DONE
    reading.join(10)
    assert (read, place.files()) == ([pair], ["one", "orgs", "t", "three", "u"])


def test_a_device_is_written_itself(places: Places) -> None:
    place = places()
    assert place.run("intersect three /dev/full") == FAILED
    assert place.run("intersect three /dev/null") == (0, ["intersects yes"], "")


def test_a_full_disk_leaves_the_old_certificate(places: Places, pair: str) -> None:
    """A small disk where one may be mounted, without room for a second file or for so many bytes; else a limit."""
    place = places(t=SPENT)
    mounted = place.path("disk")
    os.mkdir(mounted)
    options = "size=16k,nr_inodes=4,mode=777"
    if subprocess.run(["mount", "-t", "tmpfs", "-o", options, "none", mounted], stderr=subprocess.DEVNULL).returncode:
        assert (place.run("intersect three t --faulty a", before=little_room), place.held("t"), place.files()) == (
            FAILED,
            SPENT,
            ["disk", "one", "orgs", "t", "three"],
        )
        return
    try:
        place.put("disk/t", SPENT)
        # Three pages of four are taken.
        place.put("disk/filled", "x" * 12288)
        assert (place.run("intersect three disk/t --faulty a"), place.held("disk/t"), sorted(os.listdir(mounted))) == (
            FAILED,
            SPENT,
            ["filled", "t"],
        )
        assert place.check("disk/t") == 2
        place.put("disk/filled", "x")
        place.put("disk/last", "")
        assert (place.run("intersect three disk/t --faulty a"), place.held("disk/t")) == (DONE, pair)
        assert place.check("disk/t") == 0
    finally:
        subprocess.run(["umount", mounted])


def killed(
    place: Place,
    files: dict[str, str],
    words: str,
    texts: dict[str | None, int],
    kept: Sequence[str] = (),
    config: str = "three",
) -> int:
    """A kill before and after each call of the system from the making of the certificate's file on."""
    moment, kills, ended = 0, 0, False
    while not ended:
        for name in place.files():
            if name in ("t", "t.part", "t~"):
                os.remove(place.path(name))
        for name, text in files.items():
            place.put(name, text)
        run = Traced(place, words)
        run.go(moment)
        while not kills and run.status is None and "t.part" not in place.files():
            run.go(1)
            moment += 1
        ended = run.status is not None
        run.kill()
        if not ended:
            held = place.held("t")
            right = held in texts and all(any(place.held(name) == text for name in place.files()) for text in kept)
            assert right, f"killed at moment {moment}"
            if held and held.startswith("fbas-cert "):
                assert place.check("t", config) == texts[held], f"killed at moment {moment}"
            kills += 1
            moment += 1
    assert place.held("t") == list(texts)[-1]
    return kills


def test_a_run_over_the_unfinished_file_of_another_is_kept(places: Places, pair: str) -> None:
    """That other fails, and what is there is the certificate of this."""
    place = places(t=SPENT)
    run = Traced(place, "blocking three t")
    while run.status is None and "t.part" not in place.files():
        run.go(1)
    assert (place.run("intersect three t --faulty a"), place.held("t")) == (DONE, pair)
    run.go(100000)
    assert (run.status, place.held("t"), place.files()) == (7, pair, ["one", "orgs", "t", "three"])


def test_a_kill_leaves_the_old_certificate_or_the_new(places: Places, made: dict[str, str], pair: str) -> None:
    """Before and after each call of the system that writes; some 340 kills."""
    words, kills = "intersect three t --faulty a", 0
    kills += killed(places(), {}, words, {None: 6, pair: 0})
    kills += killed(places(t=OTHER), {"t": OTHER}, words, {OTHER: 5, pair: 0}, [OTHER])
    for written, text in made.items():
        if text != SPENT:
            config = "one" if written.startswith("trial") else "three"
            texts: dict[str | None, int] = {SPENT: 5 if config == "one" else 2, text: 0}
            kills += killed(places(t=SPENT), {"t": SPENT}, written.replace("CERT", "t"), texts, config=config)
    assert kills >= 200
