"""Tries the installed script: what it says of faulty words, what it shows while the program works, and questions asked
in parts.

The tree is what `make install` puts into an empty folder, moved to another. It is tried with the program, and with one
that does nothing but wait and answer.
"""

from __future__ import annotations

import os
import pty
import random
import re
import shutil
import signal
import subprocess
import tempfile
import time
from collections.abc import Callable, Iterator
from typing import Any

import pytest
from chosen import TOP

pytestmark = pytest.mark.skipif(not shutil.which("make"), reason="there is no make")

SAYS = "quorum_cli: "
INTERSECT = "intersect CONFIG CERT [COMMON] [--budget UNITS]"

# Words, and what is said of them before the usage text.
FAULTY = [
    ("intersct three t", "no command 'intersct'; the nearest is intersect"),
    ("verify three t", "no command 'verify'"),
    ("org_blocking three t", "no command 'org_blocking'; the nearest is org-blocking"),
    ("--from a intersect three t", "the first word is a command, and '--from' is none"),
    ("intersect three", "CERT is missing: " + INTERSECT),
    ("show", "CONFIG is missing: show CONFIG"),
    ("show three four", "'four' is one word too many: show CONFIG"),
    ("greatest three --fauly a", "greatest has no option '--fauly'; the nearest is --faulty"),
    ("greatest three --fault a", "greatest has no option '--fault'; the nearest is --faulty"),
    ("greatest three -x", "greatest has no option '-x'"),
    ("check three t --budget 3", "--budget is no option of check: check CONFIG CERT [--orgs ORGS]"),
    ("greatest three --faulty", "--faulty has no value: greatest CONFIG [COMMON]"),
    ("greatest three --faulty --from a", "--faulty has no value: greatest CONFIG [COMMON]"),
    ("greatest three --faulty -a", "a value that begins with - is written '--faulty=-a': greatest CONFIG [COMMON]"),
    ("greatest three --faulty a --faulty=b", "--faulty stands twice; a list is separated by commas"),
    ("blocks three", "--set is missing: blocks CONFIG --set NAMES [COMMON]"),
    ("intersect three t --budget 07", "--budget is a number from 0 to 4000000000, not '07'"),
    ("intersect three t --budget 4000000001", "--budget is a number from 0 to 4000000000, not '4000000001'"),
    ("trial 0 t", "N is a number from 1 to 100, not '0'"),
    ("trial 101 t", "N is a number from 1 to 100, not '101'"),
    (b"show \xff.json", "a word is not UTF-8, and names of files have to be: $'\\377.json'"),
    (b"show three \x1b[2Jx", "$'\\E[2Jx' is one word too many: show CONFIG"),
    (b"sh\xc3\xa4w three", "no command $'sh\\303\\244w'; the nearest is show"),
    ("intersect three --help=x", "intersect has no option '--help'"),
]

# Words, the line that the program prints, its status, and what is said after it.
NAMED = [
    (
        "greatest three --faulty a,z",
        "usage unknown-name --faulty 2",
        3,
        "'z', item 2 of --faulty, is no node of three",
    ),
    (
        "greatest three --faulty-orgs x --orgs orgs",
        "usage unknown-name --faulty-orgs 1",
        3,
        "'x', item 1 of --faulty-orgs, is no organisation of orgs",
    ),
    ("closure three --node=", "usage empty-name --node 1", 3, "item 1 of --node is empty"),
    ("intersect three three", "usage same-path", 3, "'three' is also the name of a file that is read"),
    ("show nowhere", "", 6, "a file could not be read: there is no file nowhere"),
    ("intersect three nowhere/t", "", 7, "an output could not be written: there is no folder nowhere"),
    ("show bad", "config not-json", 4, ""),
    ("show three", "nodes 3\nentries 9\nunset 0", 0, ""),
    (
        "greatest three --orgs misfit --faulty-orgs A",
        "greatest b c",
        0,
        "3 of 5 validators of misfit are not in three",
    ),
    (
        "greatest three --orgs=misfit --faulty-orgs=alpha.org",
        "greatest b c",
        0,
        "3 of 5 validators of misfit are not in three",
    ),
    (
        "greatest three --faulty-orgs B,Alpha --orgs misfit",
        "greatest c",
        0,
        "3 of 5 validators of misfit are not in three",
    ),
    (
        "greatest three --orgs misfit --faulty-orgs C",
        "greatest a b c",
        0,
        (
            "3 of 5 validators of misfit are not in three\nquorum_cli: --faulty-orgs deletes nobody: no validator of"
            " these organisations is in three"
        ),
    ),
    (
        "greatest three --orgs misfit --faulty-orgs Beta",
        "usage unknown-name --faulty-orgs 1",
        3,
        (
            "3 of 5 validators of misfit are not in three\nquorum_cli: 'Beta', item 1 of --faulty-orgs, is no"
            " organisation of misfit"
        ),
    ),
    ("greatest three --orgs bad", "orgs not-json", 4, ""),
]

# Words of the script's own, and what is said of them with status 3 and nothing printed.
OWN = [
    ("show three --seconds 5", "--seconds does not fit show, which has no --budget"),
    ("closure three --node a --seconds=5", "--seconds does not fit closure, which has no --budget"),
    ("check three t --seconds 5", "--seconds does not fit check, which has no --budget"),
    ("intersect three t --seconds x", "--seconds is a number of seconds as 60 or 0.5, not 'x'"),
    ("intersect three t --seconds -1", "--seconds is a number of seconds as 60 or 0.5, not '-1'"),
    ("intersect three t --seconds", "--seconds is a number of seconds as 60 or 0.5, not ''"),
    ("intersect three t --seconds 1 --seconds=2", "--seconds stands twice"),
    ("intersect pipe t --seconds 1", "--seconds asks more than once, and 'pipe' is no file"),
    ("intersect three pipe --seconds 1", "--seconds asks more than once, and 'pipe' is no file"),
]

# Of what random words are made.
VOCABULARY = (
    "show greatest intersect check blocks trial blockin three t orgs bad --faulty --from --orgs --set --budget --fault"
    " -- - a a,b z 3 07 --faulty=a --set=-b --budget=9".split()
    + [""]
)

# A program that answers as asked: it notes its words, takes SLOW seconds from the budget SLOW_FROM on, writes its
# certificate in WRITING seconds, and has its answer from the budget ENOUGH on.
PROGRAM = """#!/bin/bash
echo "$*" >>"$LOG"
exec 6<> <(:)
waits() { read -rt "$1" -u 6; }
[ -z "${STATUS:-}" ] || { echo "odd $STATUS"; exit $STATUS; }
budget=1000000 cert=${@: -1}
[ "$2" != --budget ] || budget=$3
[ "$budget" -lt "${SLOW_FROM:-9999999999}" ] || waits "${SLOW:-0}"
exec 5>"$cert.part"
printf 'fbas-cert 2\\nconfig x\\nfrom\\nfaulty\\nkind %sblocking\\nb 1 a\\nb 2 %s\\nend\\n' \\
  "$([ "$budget" -ge "${ENOUGH:-9999999999}" ] || echo partial-)" "$budget" >&5
[ "$budget" -lt "${SLOW_FROM:-9999999999}" ] || waits "${WRITING:-0}"
mv "$cert.part" "$cert"
if [ "$budget" -ge "${ENOUGH:-9999999999}" ]; then printf 'blocking 2\\nset a\\nset b\\n'; exit 0; fi
echo "blocking unknown $budget"
exit 2
"""


def system(nodes: str, threshold: int) -> str:
    names = ",".join(f'"{it}"' for it in nodes)
    return "[%s]" % ",".join(
        f'{{"publicKey":"{it}","quorumSet":{{"threshold":{threshold},"validators":[{names}]}}}}' for it in nodes
    )


MISFIT = """[{"id":"A","name":"Alpha","homeDomain":"alpha.org","validators":["a","x"]},
{"id":"B","name":"Beta","validators":["b"]},
{"id":"C","name":"Beta","validators":["y","z"]}]"""
FILES = {"three": system("abc", 2), "orgs": '[{"id":"A","validators":["a","b"]}]', "misfit": MISFIT, "bad": "{"}


class Script:
    """The script in an installed tree with the program, and in one with a program that waits as it is asked to."""

    def __init__(self, folder: str, program: str) -> None:
        self.folder = folder
        first, self.real, self.slow = (os.path.join(folder, it) for it in ("first", "a tree", "slow"))
        ended = subprocess.run(
            ["make", "-s", "-C", TOP, "install", "PROGRAM=" + program, "DESTDIR=" + first, "PREFIX=/usr"],
            stdout=subprocess.PIPE,
            stderr=subprocess.STDOUT,
        )
        assert (ended.returncode, ended.stdout) == (0, b""), "make install"
        shutil.move(os.path.join(first, "usr"), self.real)
        shutil.copytree(self.real, self.slow)
        self.program = self.path(self.real, "libexec/gemzulat/quorum_cli")
        self.write(self.path(self.slow, "libexec/gemzulat/quorum_cli"), PROGRAM)
        self.here = os.path.join(folder, "here")
        self.fill(self.here)

    def path(self, *names: str) -> str:
        return os.path.join(self.folder, *names)

    def write(self, name: str, text: str) -> None:
        with open(name, "w") as it:
            it.write(text)

    def read(self, name: str) -> str:
        with open(os.path.join(self.here, name)) as it:
            return it.read()

    def fill(self, folder: str) -> None:
        os.mkdir(folder)
        for name, text in FILES.items():
            self.write(os.path.join(folder, name), text)
        os.mkfifo(os.path.join(folder, "pipe"))

    def env(self, **env: Any) -> dict[str, str]:
        return {
            "PATH": "/usr/bin:/bin",
            "LANG": "C.UTF-8",
            "TMPDIR": self.folder,
            "LOG": os.path.join(self.folder, "log"),
            **env,
        }

    def words_of(self, words: bytes | str) -> list[bytes | str]:
        return (
            [it for it in words.split(b" " if isinstance(words, bytes) else " ")]  # type: ignore[arg-type]
            if not isinstance(words, list)
            else words
        )

    def run(
        self,
        words: Any,
        tree: Any = None,
        cwd: Any = None,
        program: str | None = None,
        limits: str = "",
        **env: Any,
    ) -> tuple[int, str, str]:
        """The status, the output and standard error."""
        script = program or self.path(tree or self.real, "bin", "quorum_cli")
        if tree == self.slow:
            self.forget()
        started = (
            [script, *self.words_of(words)]
            if not limits
            else ["bash", "-c", limits + '; exec "$0" "$@"', script, *self.words_of(words)]
        )
        ended = subprocess.run(
            started,
            cwd=cwd or self.here,
            env=self.env(**env),
            stdin=subprocess.DEVNULL,
            stdout=subprocess.PIPE,
            stderr=subprocess.PIPE,
            timeout=60,
        )
        return ended.returncode, ended.stdout.decode(), ended.stderr.decode()

    def asked(self) -> list[str]:
        """The words that the waiting program got since this was asked last."""
        log = os.path.join(self.folder, "log")
        if not os.path.exists(log):
            return []
        with open(log) as it:
            lines = it.read().splitlines()
        os.remove(log)
        return lines

    def budgets(self) -> list[int]:
        return [int(it.split()[2]) for it in self.asked()]

    def forget(self) -> None:
        """A part that was finished before would be gone on with."""
        if os.path.exists(os.path.join(self.here, "c")):
            os.remove(os.path.join(self.here, "c"))

    def start(self, words: str, terminal: int | None = None, **env: str) -> subprocess.Popen[bytes]:
        self.forget()
        how: dict[str, Any] = {
            "cwd": self.here,
            "env": self.env(**env),
            "stdin": subprocess.DEVNULL,
            "start_new_session": True,
        }
        out = terminal if terminal is not None else subprocess.PIPE
        return subprocess.Popen(
            [self.path(self.slow, "bin", "quorum_cli"), *words.split()], stdout=out, stderr=out, **how
        )

    def wait_for(self, budget: int) -> None:
        for _ in range(400):
            log = os.path.join(self.folder, "log")
            if os.path.exists(log):
                with open(log) as it:
                    if f" --budget {budget} " in it.read():
                        return
            time.sleep(0.05)
        raise AssertionError(f"no part of {budget} is asked")

    def ends_all(self, name: str, group: int) -> None:
        for _ in range(200):
            left = subprocess.run(
                ["ps", "-o", "pid=,stat=,args=", "--sid", str(group)], stdout=subprocess.PIPE
            ).stdout.decode()
            if not [it for it in left.splitlines() if "Z" not in it.split()[1] and "sleep" not in it]:
                break
            time.sleep(0.05)
        else:
            assert left == "", name
        subprocess.run(["pkill", "-KILL", "-s", str(group)])

    def on_terminal(self, words: str, **env: str) -> tuple[int, str]:
        """What stands on a terminal to which all goes, line by line, each with what it was rewritten from."""
        reading, terminal = pty.openpty()
        started = self.start(words, terminal, **env)
        os.close(terminal)
        text = b""
        while True:
            try:
                more = os.read(reading, 4096)
            except OSError:
                break
            if not more:
                break
            text += more
        os.close(reading)
        return started.wait(timeout=20), text.decode().replace("\r\n", "\n").replace("\x1b[K", "")


@pytest.fixture(scope="module")
def installed(program: str) -> Iterator[Script]:
    with tempfile.TemporaryDirectory() as folder:
        yield Script(folder, program)


@pytest.fixture
def script(installed: Script) -> Script:
    """The script, and nothing noted of what others have asked."""
    installed.asked()
    return installed


@pytest.mark.parametrize("words, said", FAULTY)
def test_a_word_at_fault_is_named_before_the_usage_text(script: Script, words: str | bytes, said: str) -> None:
    bare = script.run(words, program=script.program)
    assert script.run(words) == (3, bare[1], SAYS + said + "\n")
    assert bare[1].startswith("usage: quorum_cli COMMAND\n")


@pytest.mark.parametrize("words, line, status, said", NAMED)
def test_what_is_at_fault_is_named_after_the_programs_line(
    script: Script, words: str, line: str, status: int, said: str
) -> None:
    assert script.run(words) == (status, line + "\n" if line else "", SAYS + said + "\n" if said else "")


@pytest.mark.parametrize("words, said", OWN)
def test_a_fault_of_the_scripts_own_words_is_named(script: Script, words: str, said: str) -> None:
    assert script.run(words) == (3, "", SAYS + said + "\n")


def test_no_words_are_the_programs(script: Script) -> None:
    assert script.run([]) == (3, script.run([], program=script.program)[1], "")


def test_a_kept_file_is_named(script: Script) -> None:
    script.write(os.path.join(script.here, "t"), "[]")
    assert script.run("intersect three t") == (0, "intersects yes\n", SAYS + "t was no certificate: kept as t~\n")


def test_what_the_script_takes_for_a_fault_is_one_of_the_programs(
    script: Script, cases: Callable[[int, int], int], seed: Callable[[int], int]
) -> None:
    """And the other way round; the output is the same."""
    choice = random.Random(seed(1))
    other = os.path.join(script.folder, "other")
    script.fill(other)
    for _ in range(cases(60, 150)):
        words = choice.choices(VOCABULARY, k=choice.randint(1, 6))
        if choice.random() < 0.7:
            words[0] = choice.choice(VOCABULARY[:6])
        bare, found = script.run(words, program=script.program, cwd=other), script.run(words)
        assert found[:2] == bare[:2], f"{words}: the answer"
        lines = [it for it in found[2].splitlines() if " was no certificate: kept as " not in it]
        assert len(lines) == (1 if bare[0] in (3, 6, 7) else 0), f"{words}: what is said: {lines}"


def test_help_and_version_fit_the_program(script: Script) -> None:
    usage = script.run([], program=script.program)[1]
    with open(os.path.join(TOP, "VERSION")) as it:
        version = it.read().strip()
    for words in ("--help", "-h", "help"):
        status, text, error = script.run(words)
        assert (status, text.startswith(usage + "\n"), error) == (0, True, ""), words
    for words in ("--version", "-V"):
        assert script.run(words) == (0, f"quorum_cli {version}\n", ""), words
    for line in usage.splitlines()[1:-1]:
        name = line.split()[0]
        status, text, error = script.run([name, "--help"])
        assert (status, text.startswith(f"usage: quorum_cli {line}\n"), error) == (0, True, ""), name + " --help"
        offered = re.findall(r"^  (--[\w-]+)", text, re.M)
        wanted = (
            re.findall(r"--[\w-]+", line.replace("[COMMON]", usage.splitlines()[-1]))
            + (["--seconds"] if "--budget" in line else [])
            + ["--progress"]
        )
        assert sorted(offered) == sorted(wanted), name + " --help: options"
    assert script.run("help intersect")[1] == script.run("intersect --help")[1], "help of a command"
    assert script.run("intersct --help")[::2] == (
        3,
        SAYS + "no command 'intersct'; the nearest is intersect\n",
    ), "help of none"


@pytest.mark.parametrize("files", [8, 12, 19])
def test_too_few_files_are_named(script: Script, files: int) -> None:
    said = SAYS + f"only {files} files may be open (ulimit -n), and 20 are wanted\n"
    assert script.run("show three", limits=f"ulimit -n {files}") == (70, "", said)


def test_twenty_files_are_enough(script: Script) -> None:
    ended = script.run("intersect three t --seconds 9", limits="ulimit -n 20")
    assert ended == (0, "intersects yes\n", "")


def test_a_program_that_breaks_off_or_is_not_there_is_named(script: Script) -> None:
    script.write(script.path(script.slow, "libexec/gemzulat/quorum_cli"), "#!/bin/sh\nkill -SEGV $$\n")
    ended = script.run("show three", tree=script.slow, limits="ulimit -s 512")
    assert ended == (
        139,
        "",
        SAYS + "the program broke off: its stack may be too small (ulimit -s is 512, and 8192 is usual)\n",
    ), "a small stack"
    os.remove(script.path(script.slow, "libexec/gemzulat/quorum_cli"))
    status, out, error = script.run("show three", tree=script.slow)
    assert (
        status,
        out,
        error.endswith("/libexec/gemzulat/quorum_cli: make install puts it there\n"),
        error.count("\n"),
    ) == (70, "", True, 1), "no program"
    script.write(script.path(script.slow, "libexec/gemzulat/quorum_cli"), PROGRAM)
    os.chmod(script.path(script.slow, "libexec/gemzulat/quorum_cli"), 0o755)


def test_a_question_is_asked_in_parts(script: Script) -> None:
    """What is asked, what is answered, and whose certificate stands there."""
    begun = time.monotonic()
    assert script.run("blocking three c --seconds 60", tree=script.slow, ENOUGH="4000") == (
        0,
        "blocking 2\nset a\nset b\n",
        "",
    ), "an answer"
    assert (script.budgets(), "b 2 4000\n" in script.read("c"), time.monotonic() - begun < 20) == (
        [0, 1000, 4000],
        True,
        True,
    ), "its budgets"
    assert script.run("blocking three c --budget 5000 --seconds=60", tree=script.slow) == (
        2,
        "blocking unknown 5000\n",
        "",
    ), "a ceiling"
    assert (script.budgets(), "b 2 5000\n" in script.read("c")) == ([0, 1000, 4000, 5000], True), "its budgets"
    assert (script.run("blocking three c --budget=0 --seconds 60", tree=script.slow), script.budgets()) == (
        (2, "blocking unknown 0\n", ""),
        [0],
    ), "a ceiling of 0"


def test_words_of_another_status_are_asked_once(script: Script) -> None:
    script.run("blocking --seconds 60 --faulty --x -- three c", tree=script.slow, STATUS="4")
    assert script.asked() == ["blocking --faulty --x -- three c"], "faulty words"
    found = script.run("blocking --faulty a --seconds 60 --budget 7 -- three c", tree=script.slow, STATUS="4")
    assert (found, script.asked()) == (
        (4, "odd 4\n", ""),
        ["blocking --budget 0 --faulty a -- three c"],
    ), "another status"


def test_the_last_finished_part_is_the_answer_when_the_time_is_up(script: Script) -> None:
    begun = time.monotonic()
    found = script.run("blocking three c --seconds 8.5", tree=script.slow, SLOW_FROM="4000", SLOW="50")
    assert (found, 8.4 < time.monotonic() - begun < 30) == ((2, "blocking unknown 1000\n", ""), True), "the time is up"
    assert (
        script.budgets(),
        "b 2 1000\n" in script.read("c"),
        os.path.exists(script.path(script.here, "c.part")),
    ) == ([0, 1000, 4000], True, False), "its certificate"
    found = script.run("blocking three c --seconds 8", tree=script.slow, SLOW_FROM="1000", WRITING="14")
    assert (found, "b 2 1000\n" in script.read("c")) == (
        (2, "blocking unknown 1000\n", ""),
        True,
    ), "it writes when the time is up"
    found = script.run("blocking three c --seconds 8", tree=script.slow, SLOW_FROM="1000", WRITING="14", ENOUGH="1000")
    assert found == (0, "blocking 2\nset a\nset b\n", ""), "it writes the answer"
    found = script.run("blocking three c --seconds 0", tree=script.slow, SLOW_FROM="0", SLOW="1")
    assert (found, "b 2 0\n" in script.read("c")) == (
        (2, "blocking unknown 0\n", ""),
        True,
    ), "the first part is finished"


def test_an_output_without_room_is_named(script: Script) -> None:
    assert script.run("blocking three c --seconds 5", tree=script.slow, TMPDIR="/nowhere") == (
        7,
        "",
        SAYS + "no file can be made in /nowhere, which --seconds needs\n",
    ), "no room for its output"
    assert [it for it in os.listdir(script.folder) if it.startswith("quorum_cli")] == [], "nothing is left"
    with open("/dev/full", "w") as full:
        started = [script.path(script.slow, "bin", "quorum_cli"), "blocking", "three", "c", "--seconds", "5"]
        ended = subprocess.run(
            started, cwd=script.here, env=script.env(ENOUGH="0"), stdout=full, stderr=subprocess.PIPE, timeout=60
        )
    assert (ended.returncode, ended.stderr.decode()) == (
        7,
        SAYS + "an output could not be written: the standard output or c took no more\n",
    ), "a full output"


@pytest.mark.parametrize(
    "number, status, out",
    [
        (signal.SIGINT, 2, b"blocking unknown 1000\n"),
        (signal.SIGTERM, -signal.SIGTERM, b""),
        (signal.SIGHUP, -signal.SIGHUP, b""),
    ],
    ids=["SIGINT", "SIGTERM", "SIGHUP"],
)
def test_a_signal_ends_the_script_and_the_program(script: Script, number: int, status: int, out: bytes) -> None:
    """Ctrl-C is for both at once, as from a terminal, and leaves the answer of the last part."""
    started = script.start("blocking three c --seconds 60", SLOW_FROM="4000", SLOW="31")
    script.wait_for(4000)
    time.sleep(0.3)
    os.killpg(started.pid, number)
    found = started.communicate(timeout=20)
    assert (started.returncode, found, "b 2 1000\n" in script.read("c")) == (status, (out, b""), True)
    script.ends_all(f"after {number}", started.pid)


def test_a_second_interrupt_ends_the_first_part(script: Script) -> None:
    started = script.start("blocking three c --seconds 60", SLOW_FROM="0", SLOW="31")
    script.wait_for(0)
    time.sleep(0.3)
    os.killpg(started.pid, signal.SIGINT)
    time.sleep(0.5)
    assert started.poll() is None, "the first part goes on"
    os.killpg(started.pid, signal.SIGINT)
    assert (started.communicate(timeout=20), started.returncode) == ((b"", b""), -signal.SIGINT), "the second Ctrl-C"
    script.ends_all("after the second Ctrl-C", started.pid)
    script.asked()


def test_progress_is_a_line_that_is_rewritten_and_the_output_stays_by_itself(script: Script) -> None:
    status, out, error = script.run(
        "blocking three c --progress", tree=script.slow, SLOW_FROM="0", SLOW="2.3", ENOUGH="0"
    )
    assert (status, out) == (0, "blocking 2\nset a\nset b\n"), "--progress: the output"
    lines = [it.strip() for it in error.strip("\r\n").split("\r")]
    shape = r"quorum_cli: [12] s, [0-9]+ MB, working"
    assert [bool(re.fullmatch(shape, it)) for it in lines[:-1]] == [True, True], f"--progress: lines: {lines}"
    assert bool(
        re.fullmatch(r"quorum_cli: [2-9]\.[0-9] s, 8 lines of c, 2 sets", lines[-1])
    ), f"--progress: the last: {lines[-1]}"
    status, out, error = script.run(
        "blocking three c --progress", tree=script.slow, SLOW_FROM="0", WRITING="2.5", ENOUGH="0"
    )
    assert bool(re.search(r"\rquorum_cli: [12] s, [0-9]+ MB, 8 lines of c written *\r", error)), "--progress: writing"
    status, out, error = script.run(
        "blocking three c --progress --seconds 6.5", tree=script.slow, SLOW_FROM="4000", SLOW="50"
    )
    assert (status, out) == (2, "blocking unknown 1000\n"), "in parts"
    assert bool(
        re.search(
            r"\rquorum_cli: [1-6] s of 6.5, [0-9]+ MB, 1000 units, 8 lines of c, 2 sets, at most 4000 now *\r",
            error,
        )
    ), "in parts: a line"
    assert bool(re.search(r"\rquorum_cli: [6-9]\.[0-9] s, 8 lines of c, 2 sets *\n$", error)), "in parts: the last"
    assert (
        script.run("blocking three c", tree=script.slow, SLOW_FROM="0", SLOW="1.2", ENOUGH="0")[2] == ""
    ), "without --progress"
    assert re.sub(r"[0-9.]+ s *", "S", script.run("show three --progress")[2]) == "\rquorum_cli: S\n", "no certificate"
    script.asked()
    status, text = script.on_terminal("blocking three c", SLOW_FROM="0", SLOW="1.9", ENOUGH="0")
    text = re.sub(
        r"(\rquorum_cli: [1-9] s, [0-9]+ MB, [a-z0-9 ]+)+\r", "MOVING ", re.sub(r"[0-9]\.[0-9] s", "S s", text)
    )
    assert (status, text) == (
        0,
        "MOVING quorum_cli: S s, 8 lines of c, 2 sets\nblocking 2\nset a\nset b\n",
    ), "a terminal"
    assert script.on_terminal("blocking three c", ENOUGH="0")[1].endswith(
        "blocking 2\nset a\nset b\n"
    ), "a terminal, an answer soon"
    script.asked()


def test_the_program_in_parts_writes_the_certificate_of_one_run(script: Script) -> None:
    assert script.run("intersect three whole --seconds 60") == (0, "intersects yes\n", ""), "an answer in parts"
    script.run("intersect three once")
    assert script.read("whole") == script.read("once"), "the same certificate"
    assert script.run("intersect three part --budget 1 --seconds 60") == script.run(
        "intersect three part --budget 1"
    ), "no more than the ceiling"
    assert script.run("dset three part --set a --budget 0 --seconds 60") == script.run(
        "dset three part --set a --budget 0"
    ), "dset"
    assert script.run("intersect three nowhere/t --seconds 60") == (
        7,
        "",
        SAYS + "an output could not be written: there is no folder nowhere\n",
    ), "no room"
    assert script.run("intersect three /dev/null --seconds 60") == (
        0,
        "intersects yes\n",
        "",
    ), "a certificate that goes nowhere"
    script.write(os.path.join(script.here, "mine"), "[]")
    assert script.run("intersect three mine --seconds 60") == (
        0,
        "intersects yes\n",
        SAYS + "mine was no certificate: kept as mine~\n",
    ), "a kept file"


def test_a_part_that_was_finished_before_is_gone_on_with(script: Script) -> None:
    """Where it is of the very question and is accepted."""
    tree = script.path("noting")
    shutil.copytree(script.real, tree)
    script.write(
        script.path(tree, "libexec/gemzulat/quorum_cli"),
        f'#!/bin/sh\necho "$*" >>"$LOG"\nexec "{script.program}" "$@"\n',
    )
    net = os.path.join(TOP, "examples", "network.json")
    whole = script.run(["blocking", net, "set"])
    orgs = os.path.join(TOP, "examples", "orgs.json")
    for name, words, before, taken in [
        ("a part of the question", ["blocking", net, "c"], ["blocking", net, "c"], True),
        (
            "a part of organisations",
            ["org-blocking", net, "c", "--orgs", orgs],
            ["org-blocking", net, "c", "--orgs=" + orgs],
            True,
        ),
        ("a part of another question", ["blocking", net, "c"], ["blocking", net, "c", "--faulty", "GAAA1"], False),
        ("a part of another kind", ["quorums", net, "c"], ["blocking", net, "c"], False),
        ("a part that is not accepted", ["blocking", net, "c"], None, False),
    ]:
        if before:
            assert script.run([*before, "--budget", "3"])[0] == 2, name + ": before"
        else:
            script.run(["blocking", net, "c", "--budget", "3"])
            script.write(os.path.join(script.here, "c"), script.read("c").replace("GBBB2 ", "", 1))
        script.asked()
        found = script.run([*words, "--seconds", "60"], tree=tree)
        assert found == script.run([*words[:2], "d", *words[3:]]), name
        asked = [it.split() for it in script.asked()]
        assert [it[0] for it in asked if it[0] != "check" and it[4] == "c"] == [words[0]] * (1 if taken else 2), (
            name + f": what is asked: {asked}"
        )
    script.run(["blocking", net, "c", "--budget", "3"])
    held = script.read("c")
    assert (script.run(["blocking", net, "c", "--seconds", "0"], tree=tree), script.read("c") == held) == (
        (2, "blocking unknown 3\n", ""),
        True,
    ), "no time for more"
    script.run(["blocking", net, "c", "--budget", "3"])
    assert script.run(["blocking", net, "c", "--seconds", "60", "--budget", "2"], tree=tree) == (
        2,
        "blocking unknown 2\n",
        "",
    ), "no more than it has"
    assert script.run(["blocking", net, "c", "--seconds", "60", "--budget", "5"], tree=tree) == (
        2,
        "blocking unknown 5\n",
        "",
    ), "more than it has"
    assert script.run(["blocking", net, "c", "--seconds", "60"]) == whole, "all of it"
    script.asked()
