"""Runs tools/use/hints, tools/use/pair and tools/use/refutation on files that a slip hands them: what they say, and
that they put out nothing then; and the last two on formulas of each version.

Whether what they make is right is shown by the examples of the documents, where `check-lrat` and `check` read it. Of
tools/maintain/arguments, tools/maintain/twice and tools/maintain/callers it shows what they count, and that
docs/DECISIONS.md names each contract that the first of them lists; of tools/maintain/uses, which names it sees in a
text and in crates.txt; of tools/maintain/limits, which constants it sees, which have a number in a sample, and that it
lists none; of tools/maintain/memory-answers, which calls a test runs. The program is not needed.
"""

from __future__ import annotations

import functools
import importlib.machinery
import importlib.util
import os
import re
import subprocess
import types
from pathlib import Path

import pytest

TOP = os.path.dirname(os.path.dirname(os.path.abspath(__file__)))
# x or y, and the three others: unsatisfiable.
FORMULA = b"c config 00\nc from\nc faulty\nc 1 a p\nc 2 b p\np cnf 2 4\n1 2 0\n1 -2 0\n-1 2 0\n-1 -2 0\n"
NO_PROOF = "is binary: give the solver --no-binary"
NO_LIST = "of second is no list of literals that ends with 0"

# The tool, the formula, the second file, the status, standard output, and what standard error has.
ROWS = [
    ("hints", FORMULA, b"1 0\n0\n", 0, "5 1 0 1 2 0\n6 0 5 3 4 0\n", ""),
    ("hints", FORMULA, b"c a comment \xff\nd 1 2 0\n", 1, "4 d 1 0\n", "does not come to the empty lemma"),
    ("hints", FORMULA, b"a\x02\x00a\x00", 1, "", NO_PROOF),
    ("hints", FORMULA, b"a\x02", 1, "", NO_PROOF),
    ("hints", FORMULA, b"d\x02\x04\x00a\x02\x00a\x00", 1, "", NO_PROOF),
    ("hints", FORMULA, b"1 0\n0 x\n", 1, "5 1 0 1 2 0\n", "line 2 " + NO_LIST),
    ("hints", FORMULA, b"1\n", 1, "", "line 1 " + NO_LIST),
    ("hints", FORMULA, b"", 1, "", "does not come to the empty lemma"),
    (
        "pair",
        FORMULA,
        b"SAT\n1 -2 0\n",
        0,
        "fbas-cert 2\nconfig 00\nfrom\nfaulty\nkind pair\nfirst\nsecond p\nend\n",
        "",
    ),
    (
        "pair",
        FORMULA,
        b"s SATISFIABLE\nv 1 -2\nv 0\n",
        0,
        "fbas-cert 2\nconfig 00\nfrom\nfaulty\nkind pair\nfirst\nsecond p\nend\n",
        "",
    ),
    ("pair", FORMULA, b"", 1, "", "has no literal"),
    ("pair", FORMULA, b"INDET\n", 1, "", "has no literal"),
    ("pair", FORMULA, b"SAT\n0\n", 1, "", "has no literal"),
    ("pair", FORMULA, b"UNSAT\n", 1, "", "no satisfying assignment"),
    ("refutation", FORMULA, b"5 1 0 1 2 0\n", 1, "", "does not come to the empty lemma"),
    ("refutation", FORMULA, b"5 1 0 0\n6 0\n", 1, "", "has a lemma without hints"),
    ("refutation", FORMULA, b"a\x02\x00a\x00", 1, "", "is no text of an LRAT proof"),
]
# The line of the version before the formula, none in an older text, and that of the certificate which is made of it.
VERSIONS = [(b"c formula 3\n", "fbas-cert 3\n"), (b"c formula 2\n", "fbas-cert 2\n"), (b"", "fbas-cert 2\n")]
# The tool, the second file, and what follows the first line of the certificate.
MADE = [
    ("pair", b"SAT\n1 -2 0\n", "config 00\nfrom\nfaulty\nkind pair\nfirst\nsecond p\nend\n"),
    (
        "refutation",
        b"c a comment\n5 1 0 1 2 0\n\n6 0 5 3 4 0\n7 0 6 0\n",
        "config 00\nfrom\nfaulty\nkind refutation\nformula 2 4\n5 1 0 1 2 0\n6 0 5 3 4 0\nend\n",
    ),
]

ROWS += [(tool, line + FORMULA, held, 0, first + rest, "") for line, first in VERSIONS for tool, held, rest in MADE]

# Functions, and of each how many arguments and clauses it has.
CODE = """
/// fn of_a_comment(one, two)
fn none() { inner(|ensures| { "requires { fn(" }) }
pub fn two<A: Fn(u8) -> u8, const N: usize>(first: [u8; 3], // one, two
    second: &Map<u8, (u8, u8)>, // the last
) -> Result<[u8; 3], Fault>
    requires some { a < b }
    ensures { OnOk result (λ r. { r } ≡ codes "}") }
    ensures last { elim x [ (λ y. y) ] }
{ let quote = b'"'; }
fn declared(&self, x: [u8; 2]) -> u8
    ensures { result ≡ 1 };
"""
COUNTS = [("none", 0, 0), ("two", 2, 3), ("declared", 2, 1)]

# An import, and the names that another crate brings in by it.
IMPORTS = [
    ("use Rattle.low.specs.Found.{Lines as Other, word_of}", "low", {"", "Lines", "word_of"}),
    ("use Rattle.low.specs.declared.answers.Answer.TheVariants as shown", "low", {"", "Answer", "TheVariants"}),
    ("use low::{Answer, Search};", "low", {"", "Answer", "Search"}),
    ("    low::verified(alloc)", "low", {"", "verified", "alloc"}),
]

# A name, its crates, which crates bring it in from which, and whether it may stand twice.
TWICE = [
    ("word", ["a", "b"], {}, True),
    ("word", ["a", "b"], {"a": {"word": {"c"}}}, True),
    ("word", ["a", "b"], {"a": {"word": {"c"}}, "b": {"word": {"d"}}}, False),
    ("Found", ["a", "b"], {"a": {"Found": {"c"}}, "b": {"Found": {"d"}}}, True),
    ("Found", ["a", "b"], {"a": {"Found": {"c"}}, "b": {"Found": {"c", "d"}}}, False),
    ("Found", ["a", "b"], {"a": {"Found": {"b"}}, "b": {"Found": {"d"}}}, False),
    ("unless", ["a", "b"], {"a": {"unless": {"c"}}, "b": {"unless": {"c"}}}, True),
    (
        "Text",
        ["a", "b", "cert_lines"],
        {"a": {"Text": {"c"}}, "b": {"Text": {"c"}}, "cert_lines": {"Text": {"d"}}},
        True,
    ),
    (
        "Text",
        ["a", "b", "cert_lines"],
        {"a": {"Text": {"c"}}, "b": {"Text": {"d"}}, "cert_lines": {"Text": {"d"}}},
        False,
    ),
]

# A text, its kind, and the libraries of NAMED that it names.
NAMED = {"low", "high", "other"}
NAMES = [
    ("use low::Answer;\nfn one() { crate::high::two() }", ".rt", {"low"}),
    ("use low as high;\n// other::three()\n/// other::four()", ".rt", {"low"}),
    (
        "ghost use Rattle.low.specs.Found.{word_of};\nfn one() { high ::two::<other::Three>() }",
        ".rt",
        {"low", "high", "other"},
    ),
    ("let low = self.high.other();", ".rt", set()),
    ("use Rattle.low.specs.Found.{word_of}\n-- use Rattle.other.specs.Found\nword : high ≡ other", ".antt", {"low"}),
    ("word = Rattle.low.word --> Rattle.other.word", ".antt", {"low", "other"}),
]
LINES = "# A room: of two\n\nlow:\nhigh staticlib: low other # both\n"

# A text of another crate, a function of the crate `low`, the type it is a method of, and whether the text calls it.
CALLS = [
    ("use low::{find, list};", "list", "", True),
    ("use low::{find, listed};", "list", "", False),
    ("use high::{list};", "list", "", False),
    ("    low::list(alloc)", "list", "", True),
    ("    set.count()", "count", "Set", True),
    ("    Set::of(alloc)", "of", "Set", True),
    ("    let count = 3;", "count", "Set", False),
]

# A text of code and its constants, and a text of samples and those that it has a number of.
CONSTANTS = (
    (
        '/// const NOT: u8 = 1;\nconst MOST: usize = 3;\n    pub(crate) const FIRST: &[u8; 2] = b"ab";\nfn const_of(x:'
        " u8) {}\n"
    ),
    ["MOST", "FIRST"],
)
SAMPLES = (
    "most : MOST ≡ 3\nmost = refl\ntenth : TENTH ≡ MOST / 10\nsame : MOST ≡ OTHER\nlaw : (x : ℕ) → LAST ≡ x\n",
    {"MOST", "TENTH"},
)

# A crate and one above it, with calls that can want memory: a test runs two of the three.
WANTING = {
    "low": (
        "pub fn made(alloc: Global) -> Result<u8, AllocError>\n    ensures { result ≡ Ok 1 }\n{\n    other(alloc)\n}\n"
        "fn other(alloc: Global) -> Result<u8, AllocError> {\n    Ok(1)\n}\n\n"
        "pub fn lone(alloc: Global) -> Result<u8, AllocError> {\n    Ok(2)\n}\n"
    ),
    "above": "use low::made;\n\n#[test]\nfn shows() {\n    let it = made(Global);\n}\n",
}

# A law, and a function that does something.
LAWS = [
    "pub fn what_is_listed_is_found()\n    ensures { (x : ℕ) → Finds x }\n{}\n",
    "pub fn list(alloc: Global) -> u32\n    ensures { result ≡ 1 }\n{\n    1\n}\n",
]


@functools.cache
def tool(name: str) -> types.ModuleType:
    """A tool as a module."""
    loader = importlib.machinery.SourceFileLoader(name, os.path.join(TOP, "tools", "maintain", name))
    made = importlib.util.module_from_spec(importlib.util.spec_from_loader(name, loader))
    loader.exec_module(made)
    return made


@pytest.mark.parametrize("name, formula, second, status, text, said", ROWS)
def test_a_tool_says_what_is_wrong_with_a_file(
    name: str, formula: bytes, second: bytes, status: int, text: str, said: str, tmp_path: Path
) -> None:
    (tmp_path / "first").write_bytes(formula)
    (tmp_path / "second").write_bytes(second)
    ended = subprocess.run(
        [os.path.join(TOP, "tools", "use", name), "first", "second"],
        cwd=tmp_path,
        stdout=subprocess.PIPE,
        stderr=subprocess.PIPE,
        timeout=60,
    )
    error = ended.stderr.decode()
    assert (ended.returncode, ended.stdout.decode()) == (status, text)
    assert said in error and "Traceback" not in error and (status == 0) == (error == "")


def test_limits_sees_constants() -> None:
    limits = tool("limits")
    assert limits.constants_of(CONSTANTS[0]) == CONSTANTS[1]
    assert limits.sampled(SAMPLES[0]) == SAMPLES[1]


def test_each_limit_has_a_number() -> None:
    assert tool("limits").unnamed() == ([], [])


def test_memory_answers_finds_the_calls_that_a_test_runs() -> None:
    callers, memory = tool("callers"), tool("memory-answers")
    code = {crate: {callers.ROOT / "crates" / crate / "src" / "lib.rt": text} for crate, text in WANTING.items()}
    named = memory.functions(callers, code)
    ways = memory.reached(named, {"above": ["low"]}, set(named))
    assert sorted(it.name for it in ways) == ["made", "other", "shows"]


@pytest.mark.parametrize("text, kind, names", NAMES)
def test_uses_finds_names_in_a_text(text: str, kind: str, names: set[str]) -> None:
    assert tool("uses").names_in(text, kind) & NAMED == names


def test_uses_reads_the_lines_of_crates_txt() -> None:
    assert tool("uses").lines_of(LINES) == {"low": [], "high": ["low", "other"]}


def test_arguments_counts_arguments_and_clauses() -> None:
    assert list(tool("arguments").functions(CODE)) == COUNTS


@pytest.mark.parametrize("text, crate, names", IMPORTS)
def test_twice_reads_imports(text: str, crate: str, names: set[str]) -> None:
    twice = tool("twice")
    ((model, code, path),) = twice.IMPORT.findall(text)
    assert (model or code, twice.names_of(path) | {""}) == (crate, names)


@pytest.mark.parametrize("name, crates, cited, may", TWICE)
def test_twice_knows_what_may_stand_twice(
    name: str, crates: list[str], cited: dict[str, dict[str, set[str]]], may: bool
) -> None:
    assert (tool("twice").reason_of(name, crates, cited) is not None) == may


@pytest.mark.parametrize("text, name, owner, is_called", CALLS)
def test_callers_finds_calls(text: str, name: str, owner: str, is_called: bool) -> None:
    assert tool("callers").is_called("low", name, owner, [], [text]) == is_called


def test_callers_tells_a_law_from_a_function() -> None:
    assert [tool("callers").is_law(text, 0) for text in LAWS] == [True, False]


def test_each_public_function_has_a_caller() -> None:
    callers = tool("callers")
    assert sorted(name for _, name in callers.uncalled()) == sorted(callers.KEPT)


def test_decisions_names_each_contract_of_many_clauses() -> None:
    arguments = tool("arguments")
    with open(os.path.join(TOP, "docs", "DECISIONS.md"), encoding="utf-8") as it:
        (line,) = re.findall(r"^- \*\*Contracts of more than twelve clauses\*\*.*", it.read(), re.M)
    functions = arguments.functions_of(arguments.crates_of_the_program())
    long = {name for _, name, _, clauses in functions if clauses > arguments.MOST_CLAUSES}
    assert long <= {*re.findall(r"`(\w+)`", line)}
