"""The library as it is called from C, C++ and Python, beside the program: status, text and certificate are the same
bytes.

With --long tools/build/library builds it first. Else the library is the one that tools/build/library has built of
these sources, or that of dist/, if the program is of it. What needs a tool that is not there is skipped.
"""

from __future__ import annotations

import ctypes
import functools
import glob
import os
import random
import re
import resource
import shutil
import subprocess
import sys
import tempfile
import threading
import zipfile
from collections.abc import Callable, Iterator, Sequence
from pathlib import Path
from typing import Any, NamedTuple

import pytest

import chosen
import fuzz
import malicious
import process
from library_cases import FILES, named_as_made, questions
from needed import needs
from networks import example
from quorums import Quorums, Refused, TooLarge, binding, trial

TOP = os.path.dirname(os.path.dirname(os.path.abspath(__file__)))
OUT = os.path.join(TOP, "library", "out")
# The status of tools/build/library --built where it has built no library of these sources.
NOT_BUILT = 3
STRICT = ["-Wall", "-Wextra", "-Werror", "-pedantic", "-O2"]
# All that the shared library may call.
CALLS = {
    "malloc",
    "realloc",
    "free",
    "memcpy",
    "memmove",
    "memset",
    "memcmp",
    "bcmp",
    "strlen",
    "__cxa_finalize",
    "__gmon_start__",
    "_ITM_deregisterTMCloneTable",
    "_ITM_registerTMCloneTable",
    "__stack_chk_fail",
}
# Bytes of the smallest stack on which the examples are asked.
STACK = 1 << 20
# Bytes of the rooms of the mutated cases, in turn.
ROOMS = [1 << 16, 1 << 20, 16, 0]

# A heap that refuses some growths, counted from 1, and says whether it refused one.
REFUSING_HEAP = r"""
#include <stdbool.h>
#include <stddef.h>
#include <stdlib.h>

static unsigned long count, first, last;
static char no_memory;

struct tried { bool ok; void *at; };

void refuse(unsigned long from, unsigned long to) { count = 0, first = from, last = to; }
unsigned long growths(void) { return count; }

static bool is_refused(void) { count++; return first <= count && count <= last; }
static struct tried tried(void *at) { struct tried found = {at != NULL, at ? at : &no_memory}; return found; }

struct tried rattle_alloc(size_t size, size_t align) {
    (void)align;
    return tried(is_refused() ? NULL : malloc(size ? size : 1));
}
struct tried rattle_realloc(void *at, size_t kept, size_t size, size_t align) {
    (void)kept, (void)align;
    return tried(is_refused() ? NULL : realloc(at, size ? size : 1));
}
void rattle_dealloc(void *at) { free(at); }
"""


Answer = tuple[int, bytes, bytes]
NONE = (8, b"", b"")


class Question(NamedTuple):
    words: Sequence[str | bytes]
    files: dict[str, bytes]


QUESTIONS = [Question(*it) for it in questions()]
of_each_question = pytest.mark.parametrize(
    "number", range(len(QUESTIONS)), ids=[" ".join(map(str, it.words)) for it in QUESTIONS]
)


def held(*names: str) -> bytes:
    with open(os.path.join(TOP, *names), "rb") as it:
        return it.read()


def short(found: Answer) -> Answer:
    """An answer with its bytes cut."""
    status, text, cert = found
    text, cert = (it if len(it) < 200 else it[:200] + b".. of %d" % len(it) for it in (text, cert))
    return status, text, cert


class Program:
    """The program, over the library's four files in a folder."""

    def __init__(self, program: str, folder: str) -> None:
        self.program, self.folder = program, folder
        os.mkdir(folder)

    def answer(self, words: Sequence[str | bytes], files: dict[str, bytes]) -> Answer:
        """The status, the text, and the certificate that is made, if any."""
        for name in os.listdir(self.folder):
            os.remove(os.path.join(self.folder, name))
        given = {name: files.get(name, b"") for name in FILES}
        for name, data in given.items():
            with open(os.path.join(self.folder, name), "wb") as it:
                it.write(data)
        ended = subprocess.run(
            [self.program, *words],
            cwd=self.folder,
            stdin=subprocess.DEVNULL,
            stdout=subprocess.PIPE,
            stderr=subprocess.DEVNULL,
            timeout=300,
        )
        made = {}
        for name in os.listdir(self.folder):
            with open(os.path.join(self.folder, name), "rb") as it:
                data = it.read()
            if data != given.get(name) and not name.endswith("~"):
                made[name] = data
        # the library makes no file of another name
        if made and not set(made) <= {"made", *FILES}:
            return 7, b"", b""
        return ended.returncode, ended.stdout, b"".join(made.values())


class Library:
    """libquorum.so and what lies beside it."""

    def __init__(self, folder: str) -> None:
        self.folder, self.path = folder, os.path.join(folder, "libquorum.so")
        self.archive = os.path.join(folder, "libquorum.a")
        self.call = binding.load(self.path)

    def answer(self, words: Sequence[str | bytes], files: dict[str, bytes], **how: Any) -> Answer:
        given: dict[str, Any] = {name: data for name, data in files.items() if name in FILES}
        return binding.answer(words, **given, call=self.call, **how)

    def in_room(
        self, words: Sequence[str | bytes], files: dict[str, bytes], room: int
    ) -> tuple[int, bytes, bytes, int, bool]:
        """A call in the middle of a larger buffer: the answer, how much is wanting, and whether the rest of the buffer
        stayed as it was."""
        beside, end = 64, binding.End()
        given: list[Any] = []
        buffer = ctypes.create_string_buffer(b"\xa5" * (room + 2 * beside), room + 2 * beside)
        for data in (b"\0".join(map(os.fsencode, words)), *(files.get(name, b"") for name in FILES)):
            given += [data, len(data)]
        self.call(*given, ctypes.addressof(buffer) + beside, room, end)
        inside = buffer.raw[beside : beside + room]
        rest = buffer.raw[:beside] + buffer.raw[beside + room :]
        is_kept = rest == b"\xa5" * 2 * beside
        return end.status, inside[room - end.text :], inside[: end.cert], end.wanting, is_kept

    def compiled(self, compiler: str, *words: str, to: Path) -> str:
        """A program over the archive."""
        made = str(to / f"made by {compiler}")
        ran = subprocess.run(
            [compiler, *STRICT, *words, "-I", self.folder, "-o", made, self.archive],
            stdout=subprocess.PIPE,
            stderr=subprocess.STDOUT,
        )
        assert ran.returncode == 0, ran.stdout.decode("latin-1")
        return made


@pytest.fixture(scope="module")
def folder() -> Iterator[str]:
    """One in memory, if there is such a place: files are written and read all the time."""
    with tempfile.TemporaryDirectory(dir="/dev/shm" if os.path.isdir("/dev/shm") else None) as made:
        yield made


def folder_of_the_library(is_long: bool) -> str:
    if is_long or shutil.which("rt"):
        words = [os.path.join(TOP, "tools", "build", "library"), *(["--built"] if not is_long else [])]
        status = subprocess.run(words, stdout=subprocess.DEVNULL).returncode
        if status == 0:
            return OUT
        assert status == NOT_BUILT and not is_long, "tools/build/library fails"
    found = os.path.dirname(chosen.library())
    if found == OUT or not os.path.exists(os.path.join(found, "libquorum.a")):
        pytest.skip("none is built of these sources, which tools/build/library does, and that of dist/ is of others")
    return found


@pytest.fixture(scope="module")
def library(request: pytest.FixtureRequest) -> Iterator[Library]:
    """It is what the package loads, too."""
    made = Library(folder_of_the_library(request.config.getoption("--long")))
    before = binding.PATH
    binding.PATH = made.path
    yield made
    binding.PATH = before


@pytest.fixture(scope="module")
def asked_program(program: str, folder: str) -> Program:
    return Program(program, os.path.join(folder, "program"))


@pytest.fixture(scope="module")
def wanted(asked_program: Program) -> Callable[[int], Answer]:
    """What the program answers to a question."""
    return functools.cache(lambda number: asked_program.answer(*QUESTIONS[number]))


@needs("nm")
def test_it_exports_one_call_and_calls_nothing_that_reads_writes_or_waits(library: Library) -> None:
    def listed(*words: str) -> set[str]:
        said = subprocess.run(["nm", "-D", *words, library.path], stdout=subprocess.PIPE).stdout.decode()
        return {line.split()[-1].split("@")[0] for line in said.splitlines()}

    assert listed("--defined-only") == {"quorum_answer"}
    assert listed("--undefined-only") - CALLS == set()


@of_each_question
def test_python_gets_the_programs_answer(number: int, library: Library, wanted: Callable[[int], Answer]) -> None:
    assert library.answer(*QUESTIONS[number]) == wanted(number)


@pytest.fixture(scope="module")
def caller(library: Library, tmp_path_factory: pytest.TempPathFactory) -> str:
    source = os.path.join(TOP, "library", "ask.c")
    return library.compiled("gcc", "-std=c99", source, to=tmp_path_factory.mktemp("C"))


@needs("gcc")
@of_each_question
def test_c_gets_the_programs_answer(number: int, caller: str, wanted: Callable[[int], Answer], tmp_path: Path) -> None:
    words, files = QUESTIONS[number]
    for name, data in files.items():
        (tmp_path / name).write_bytes(data)
    made = tmp_path / "made"
    for room in ("1", str(1 << 26)):
        made.unlink(missing_ok=True)
        ended = subprocess.run(
            [caller, *words],
            cwd=tmp_path,
            env={**os.environ, "ROOM": room},
            stdin=subprocess.DEVNULL,
            stdout=subprocess.PIPE,
            timeout=300,
        )
        found = (ended.returncode, ended.stdout, made.read_bytes() if made.exists() else b"")
        assert found == wanted(number), f"in a room of {room} at first"


@needs("g++")
def test_cpp_gets_the_programs_answers(library: Library, asked_program: Program, tmp_path: Path) -> None:
    caller = library.compiled("g++", "-std=c++17", os.path.join(TOP, "library", "ask.cpp"), to=tmp_path)
    ran = subprocess.run([caller], stdout=subprocess.PIPE)
    node = b'{"publicKey":"%s","quorumSet":{"threshold":2,"validators":["a","b","c"]}}'
    config = b"[" + b",".join(node % it for it in (b"a", b"b", b"c")) + b"]"
    _, text, cert = asked_program.answer(["intersect", "config", "made", "--faulty", "a"], {"config": config})
    _, said, _ = asked_program.answer(["check", "config", "cert"], {"config": config, "cert": cert})
    assert (ran.returncode, ran.stdout) == (0, text + cert + said)


@pytest.mark.parametrize(
    "words",
    [
        [b"\xff"],
        [b"show", b"\xff"],
        [b"\xff", b"config"],
        [b"show", b"config", b"\xc3"],
        [b"show", b"config", b"--node=\xed\xa0\x80"],
        ["", "show", "config"],
        ["show", "config", ""],
        [""],
    ],
)
def test_words_that_are_no_text_and_odd_ones(words: list[Any], library: Library, asked_program: Program) -> None:
    files = {"config": malicious.THREE}
    assert library.answer(words, files) == asked_program.answer(words, files)


def test_text_that_ends_with_a_zero_byte_ends_with_an_empty_word(library: Library) -> None:
    assert library.answer(["show", "config", ""], {"config": malicious.THREE})[0] == 3


@pytest.mark.parametrize(
    "line",
    [
        "show config",
        "intersect config made",
        "intersect config made --faulty a",
        "blocking config made",
        "least config made",
        "intersect config config",
        "trial 1 made",
        "greatest config --faulty z",
    ],
)
def test_in_each_room_there_is_the_whole_answer_or_none(line: str, library: Library) -> None:
    """Or it is said exactly how much is wanting; nothing beside the room is written."""
    words, files = line.split(), {"config": malicious.THREE}
    wanted = library.answer(words, files)
    needed = len(wanted[1]) + len(wanted[2])
    for room in range(needed + 3):
        right = (*wanted, 0, True) if room >= needed else (7, b"", b"", needed, True)
        assert library.in_room(words, files, room) == right, f"in a room of {room}"


def test_a_certificate_that_the_library_does_not_make_has_no_room(library: Library) -> None:
    found = library.in_room(["intersect", "config", "other"], {"config": malicious.THREE}, 1 << 16)
    assert found[:4] == (7, b"", b"", binding.NEVER)


@of_each_question
def test_a_byte_less_than_is_wanting_is_no_room(
    number: int, library: Library, wanted: Callable[[int], Answer]
) -> None:
    """Each question in no room, in a byte less than is wanting, and in as much."""
    right = wanted(number)
    needed = len(right[1]) + len(right[2])
    for room in (0, needed - 1, needed) if needed else (0,):
        expected = (*right, 0, True) if room >= needed else (7, b"", b"", needed, True)
        assert library.in_room(*QUESTIONS[number], room) == expected, f"in a room of {room}"


class Refusing:
    """The library over a heap that refuses some growths of memory."""

    def __init__(self, library: Library, folder: Path) -> None:
        source, made = str(folder / "heap.c"), str(folder / "refusing.so")
        with open(source, "w") as it:
            it.write(REFUSING_HEAP)
        # (this heap comes first, so that of the archive stays out)
        words = [os.environ.get("CC", "cc"), "-shared", "-fPIC", "-O1", "-o", made, source, "-Wl,-u,quorum_answer"]
        subprocess.run([*words, library.archive], check=True)
        self.call, self.heap = binding.load(made), ctypes.CDLL(made)

    def ask(self, question: Question, first: int, last: int) -> Answer:
        self.heap.refuse(ctypes.c_ulong(first), ctypes.c_ulong(last))
        given: dict[str, Any] = question.files
        return binding.answer(question.words, **given, call=self.call, room=1 << 20)


@pytest.fixture(scope="module")
def refusing(library: Library, tmp_path_factory: pytest.TempPathFactory) -> Refusing:
    return Refusing(library, tmp_path_factory.mktemp("heap"))


@needs(os.environ.get("CC", "cc"))
@of_each_question
def test_a_refused_growth_of_memory_gives_the_same_answer_or_none(
    number: int, refusing: Refusing, wanted: Callable[[int], Answer]
) -> None:
    """Each growth, by itself and with all later ones."""
    question, right, most = QUESTIONS[number], wanted(number), 2**63
    # (a large file would take long; and what is refused already with ample memory has no growth to be refused)
    if len(question.files.get("config", b"")) > 2000 or refusing.ask(question, most, 0) != right:
        return
    count = refusing.heap.growths()
    for last in (0, most):
        for first in range(1, count + 1):
            found = refusing.ask(question, first, last or first)
            assert found in (right, NONE), f"growth {first} is refused, to {last or first}: {short(found)}"
    assert refusing.ask(question, 1, most)[0] == 8, "with no growth at all"
    assert refusing.ask(question, most, 0) == right, "with ample memory again"


@pytest.mark.parametrize("mebibytes", [60, 4000])
def test_a_large_file_under_a_limit_of_the_process(mebibytes: int, library: Library, asked_program: Program) -> None:
    config = malicious.one(b'{"threshold":1,"validators":[' + b'"a",' * 999999 + b'"a"]}')
    code = (
        "import sys\nsys.path[:0] = %r\nfrom quorums import binding\nprint(binding.answer(['show', 'config'],"
        " sys.stdin.buffer.read(), room=4096, call=binding.load(%r)))" % ([chosen.PACKAGE], library.path)
    )

    def limit() -> None:
        resource.setrlimit(resource.RLIMIT_AS, (mebibytes << 20, mebibytes << 20))

    ran = subprocess.run(
        [sys.executable, "-c", code], input=config, stdout=subprocess.PIPE, stderr=subprocess.PIPE, preexec_fn=limit
    )
    wanted = NONE if mebibytes == 60 else asked_program.answer(["show", "config"], {"config": config})
    assert ran.stdout.decode().strip() == repr(wanted), ran.stderr.decode()


def test_eight_threads_ask_at_once(library: Library, wanted: Callable[[int], Answer]) -> None:
    """All questions, each in another order."""
    answers = [wanted(it) for it in range(len(QUESTIONS))]
    wrong: list[str] = []

    def ask_all(number: int) -> None:
        order = random.Random(number)
        for at in order.sample(range(len(QUESTIONS)), len(QUESTIONS)) * 3:
            if library.answer(*QUESTIONS[at], room=1 << 20) != answers[at]:
                wrong.append(" ".join(map(str, QUESTIONS[at].words)))

    running = [threading.Thread(target=ask_all, args=(number,)) for number in range(8)]
    for it in running:
        it.start()
    for it in running:
        it.join()
    assert wrong == []


def test_a_small_stack_is_enough(library: Library, asked_program: Program) -> None:
    """Nested files among the questions."""
    nested = malicious.one(malicious.nested(32))
    deep = [b"[" * 127 + b"]" * 127, nested, malicious.one(malicious.nested(33))]
    asked = [Question(["show", "config"], {"config": it}) for it in deep]
    asked += [Question([it, "config", "made"], {"config": nested}) for it in ("intersect", "least", "quorums")]
    found: list[Answer] = []
    threading.stack_size(STACK)
    try:
        for question in [*asked, *QUESTIONS]:
            it = threading.Thread(target=lambda: found.append(library.answer(*question)))
            it.start()
            it.join()
            assert found.pop() == asked_program.answer(*question), question.words
    finally:
        threading.stack_size(0)


def unpacked(wheel: str, folder: Path) -> str:
    with zipfile.ZipFile(wheel) as it:
        it.extractall(folder / "unpacked")
    return str(folder / "unpacked")


PIP = [sys.executable, "-m", "pip", "--disable-pip-version-check"]


@pytest.fixture(scope="module")
def package(library: Library, tmp_path_factory: pytest.TempPathFactory) -> str:
    """Where the package lies, as pip installs it with nothing fetched; else as it lies in the folder."""
    folder, wheels = tmp_path_factory.mktemp("package"), glob.glob(os.path.join(library.folder, "quorums-*.whl"))
    source = wheels[0] if wheels else os.path.join(library.folder, "python")
    if subprocess.run([*PIP, "--version"], stdout=subprocess.DEVNULL, stderr=subprocess.DEVNULL).returncode:
        return unpacked(source, folder) if wheels else source
    words = [*PIP, "install", "--quiet", "--no-index", "--no-deps", "--target", str(folder / "installed"), source]
    ran = subprocess.run(words, stdout=subprocess.PIPE, stderr=subprocess.STDOUT)
    assert ran.returncode == 0, ran.stdout.decode("latin-1")
    return str(folder / "installed")


def ran_with(package: str, *words: str) -> tuple[int, str]:
    env = {name: value for name, value in os.environ.items() if name != "QUORUM_LIBRARY"}
    ran = subprocess.run(
        [sys.executable, *words],
        cwd=TOP,
        env={**env, "PYTHONPATH": package},
        stdout=subprocess.PIPE,
        stderr=subprocess.STDOUT,
    )
    return ran.returncode, ran.stdout.decode()


def test_pip_installs_this_version(package: str) -> None:
    if os.path.basename(package) != "installed":
        pytest.skip("there is no pip")
    assert os.path.isdir(os.path.join(package, f"quorums-{held('VERSION').decode().strip()}.dist-info"))


def test_the_example_of_the_document_runs(package: str) -> None:
    code = re.search(r"```python\n(.*?)```", held("docs", "LIBRARY.md").decode(), re.S)[1]
    shown = code + "print(found.yes, found['first'], found['second'])"
    assert ran_with(package, "-c", shown) == (0, "False ('b',) ('c',)\n")


def test_ask_py_runs(package: str) -> None:
    words = [os.path.join(TOP, "library", "ask.py"), os.path.join(TOP, "examples", "three.json"), "a"]
    assert ran_with(package, *words) == (0, "it can fork: b / c\nthe checker: accepted pair\n")


@pytest.fixture
def asked_three(library: Library) -> Quorums:
    return Quorums(example("three.json"))


@pytest.fixture
def asked_network(library: Library) -> Quorums:
    return Quorums(example("network.json"), orgs=example("orgs.json"))


def test_a_no_has_both_quorums_and_its_certificate(asked_three: Quorums) -> None:
    forked = asked_three.intersect(faulty=["a"])
    assert (forked.yes, forked.status, forked["first"], forked["second"]) == (False, 1, ("b",), ("c",))
    assert forked.certificate == example("pair.cert").replace(b"cert 2", b"cert 3")
    assert asked_three.check(forked.certificate).value == "pair"
    with pytest.raises(KeyError):
        forked["third"]


def test_a_yes_is_none_where_the_budget_is_spent(asked_three: Quorums) -> None:
    asked = (asked_three.intersect(), asked_three.intersect(budget=0), asked_three.intersect(faulty=""))
    assert [it.yes for it in asked] == [True, None, True]


def test_lists_are_sets_of_names(asked_three: Quorums, asked_network: Quorums) -> None:
    assert (asked_three.blocking().sets, asked_three.quorums().sets) == ((("a", "b"), ("a", "c"), ("b", "c")),) * 2
    assert (asked_three.least()["least"], len(asked_three.least()["set"])) == ((2,), 2)
    stop = asked_network.org_blocking()
    pairs = (("org:alder", "org:beech"), ("org:alder", "org:cedar"), ("org:beech", "org:cedar"))
    assert (stop.sets, asked_network.check(stop.certificate).sets) == (pairs, pairs)


def test_plain_questions_give_their_lines(asked_three: Quorums) -> None:
    three = asked_three
    assert three.closure("a")["closure"] == ("a", "b", "c")
    assert three.greatest(faulty="a,b")["greatest"] == ("c",)
    assert three.show()["nodes"] == (3,)
    asked = (three.available("a"), three.dset(["a"]), three.blocks(["a", "b"]), three.vblocks("a", ["b"]))
    assert [it.yes for it in (*asked, three.splits("a"))] == [True, False, True, False, True]


def test_organisations_lie_as_they_do_in_the_program(asked_network: Quorums, asked_program: Program) -> None:
    words = ["intersect", "config", "made", "--orgs=orgs", "--faulty-orgs=alder"]
    files = {"config": asked_network.config, "orgs": asked_network.orgs}
    assert asked_network.intersect(faulty_orgs=["alder"]).status == asked_program.answer(words, files)[0]


def test_edits_proofs_formulas_and_trials(asked_network: Quorums) -> None:
    assert len(asked_network.whatif(example("leaving.script"), nodes=["GWATCH"]).all("edit")) > 1
    two = Quorums(example("two.json"))
    assert two.check_lrat(example("two.lrat")).lines[0] == ("verified", ())
    assert two.export()["p"] == ("cnf", 6, 12)
    assert trial(2).yes is True


def test_a_small_room_grows(asked_three: Quorums) -> None:
    assert Quorums(example("three.json"), room=1).blocking().sets == asked_three.blocking().sets


@pytest.mark.parametrize(
    "ask, status",
    [
        (lambda three: three.greatest(faulty=["z"]), 3),
        (lambda _: Quorums(b"{}").show(), 4),
        (lambda three: three.check(b""), 5),
        (lambda three: three.whatif(b"x", nodes=[]), 10),
    ],
    ids=["a name", "a configuration", "a certificate", "a script"],
)
def test_what_is_refused_is_raised_with_its_status(
    ask: Callable[[Quorums], Any], status: int, asked_three: Quorums
) -> None:
    with pytest.raises(Refused) as raised:
        ask(asked_three)
    assert raised.value.status == status


@pytest.mark.parametrize(
    "ask, error",
    [
        (lambda three: three.greatest(node="a"), TypeError),
        (lambda three: three.greatest(other="a"), TypeError),
        (lambda _: Quorums(process.WIDE.encode()).intersect(), TooLarge),
    ],
    ids=["an option of others", "an unknown option", "a formula that is too large"],
)
def test_what_cannot_be_asked_is_an_error(
    ask: Callable[[Any], Any], error: type[Exception], asked_three: Quorums
) -> None:
    with pytest.raises(error):
        ask(asked_three)


@pytest.mark.parametrize("row", malicious.every_row(), ids=lambda row: row.name)
def test_a_file_made_to_break_it_gets_its_one_answer(row: malicious.Row, library: Library) -> None:
    files = {name: data() if callable(data) else data for name, data in row.files.items()}
    status, text, _ = library.answer(row.words, files)
    assert (status, text.decode("latin-1")) == (row.status, row.text)


def test_mutated_files_and_words(
    library: Library,
    asked_program: Program,
    folder: str,
    cases: Callable[[int, int], int],
    seed: Callable[[int], int],
) -> None:
    room = os.path.join(folder, "fuzz")
    os.mkdir(room)
    maker = fuzz.Maker(random.Random(seed(53)), fuzz.Program(asked_program.program, room))
    for number in range(cases(500, 2000)):
        case = maker.case()
        words = named_as_made(case.words)
        wanted = asked_program.answer(words, case.files)
        found = library.answer(words, case.files, room=ROOMS[number % len(ROOMS)])
        assert found == wanted, f"case {number}: {words!r} over {case.files!r}"
        if case.kind == "search" and wanted[2]:
            with open(os.path.join(room, "cert"), "wb") as it:
                it.write(wanted[2])
            maker.keep(case)
