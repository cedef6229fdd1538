#!/usr/bin/env python3
"""Checks the documents: what they name and link to, the crates and their picture, and that they can be read.

A definition is named as `crate/specs/File.antt`: `word`, `word`, or `word` and `word` in `crate/specs/File.antt`; the
file lies in crates/, and each word stands in it. Any other name in backquotes that is written as names of the code are
(`is_rising`, `TheConstants`, `File.antt`) stands somewhere in the repository. A sentence has fewer than 30 words, a
cell of a table fewer than 200 characters, and a paragraph or an item of a list fewer than six lines. A line of these
has at most 140 characters. Excepted are code blocks, and what tools make: the tables of numbers that bench/tables.py
fills in (from `<!-- tables.py PART -->` to `<!-- end -->`), what stands from `<!-- .. from here -->` to `<!-- to here
-->`, and docs/SPECIFICATION.md. That one is compared with the specs. Each fault is a line; status 0 if there is none,
else 1. tests/test_documents.py asks the same.
"""

from __future__ import annotations

import functools
import os
import re
import subprocess
import sys
import textwrap
from collections.abc import Callable, Iterator

TOP = os.path.dirname(os.path.dirname(os.path.abspath(__file__)))
FOLDER = sorted(os.listdir(os.path.join(TOP, "docs")))
DOCUMENTS = [
    *("README.md", "CHANGELOG.md", "CONTRIBUTING.md", "SECURITY.md"),
    *(f"docs/{name}" for name in FOLDER if name.endswith(".md")),
]
NAMED = re.compile(r"`([a-z_0-9]+/(?:src|specs|proofs|must-fail)/[\w./]+)`((?::\s+`[^`]+`(?:(?:,| and)\s+`[^`]+`)*)?)")
# The same the other way round: words, and then the file in which they are.
NAMED_BEFORE = re.compile(
    r"(`[^`]+`(?:(?:,| and)\s+`[^`]+`)*)\s+in\s+`([a-z_0-9]+/(?:src|specs|proofs|must-fail)/[\w./]+)`"
)
# Names as the code has them: words joined by `_` or `::`, or with a capital inside, or a file's name.
CODED = re.compile(r"`((?:[A-Za-z]\w*::)*[A-Za-z]\w*(?:\.antt|\.rt|\.py|\.edit)?)`")
# A sentence has fewer words than this, a cell of a table fewer characters, and a paragraph fewer lines of this width.
MOST_WORDS, MOST_CELL, MOST_LINES, WIDTH = 30, 200, 6, 140
# What is made by a tool, and read as it is: a document, and parts of one.
MADE = {"docs/SPECIFICATION.md"}
FILLED = "<!-- tables\\.py .*?<!-- end -->|<!--[^>]* from here -->.*?<!-- to here -->"
# Words for which the documents have plainer ones: after, given, borrowed, the number of.
UNUSUAL = re.compile(r"\b(behind|told|lent|so many)\b", re.I)
# Names of the toolchain that the documents cite.
FOREIGN = {"TheConstants"}
# The document whose names of the toolchain tests/test_trusted.py compares with what a check says.
TRUSTED = "docs/TRUSTED.md"
PATH = re.compile(r"`((?:crates|docs|tools|tests|bench|examples|library|\.ci)/[\w./-]+)`")
# What is built where a document names it.
BUILT = {"crates/quorum_library/out/libquorum_library.a", "library/out"}
# The types of C for those of the code.
TYPES = {"u8": "uint8_t", "usize": "size_t"}


def text_of(name: str) -> str:
    with open(os.path.join(TOP, name), encoding="utf-8") as it:
        return it.read()


def anchor(head: str) -> str:
    """The anchor that a heading gets."""
    return re.sub(r"[^\w\- ]", "", head.lower()).replace(" ", "-")


def anchors(text: str) -> set[str]:
    return {anchor(head.strip()) for head in re.findall(r"^#+ (.*)$", text, re.M)}


@functools.cache
def held_words() -> set[str]:
    """Every word of the repository's code, tools and names of files."""
    words: set[str] = set()
    for part in ("crates", "tools", "tests", "bench", "library"):
        for folder, inner, files in os.walk(os.path.join(TOP, part)):
            inner[:] = [it for it in inner if it not in ("out", "__pycache__")]
            for name in files:
                words |= {name, *name.split(".")}
                if re.search(r"\.(rt|antt|py|h|c|cpp)$", name) or part == "tools":
                    words |= set(re.findall(r"\w+", text_of(os.path.join(folder, name))))
    return words | set(text_of("crates.txt").replace(":", " ").split())


def is_coded(name: str) -> bool:
    """Whether a name is written as one of the code, and not as a plain word or a word of a format."""
    return bool(re.search(r"_|::|\.|[a-z][A-Z]", name)) and not name.isupper()


def written(text: str) -> str:
    """The text without what is excepted: code blocks, what tools fill in, and comments."""
    return re.sub(f"^```.*?^```|{FILLED}|<!--.*?-->", "", text, flags=re.S | re.M)


def paragraphs(text: str) -> tuple[list[str], list[str]]:
    """The paragraphs, items of lists and headings of a text, and apart from these the cells of its tables."""
    prose, cells = [""], list[str]()
    for line in written(text).split("\n"):
        line = line.lstrip("> ")
        if line.startswith("|"):
            cells += [cell.strip() for cell in line.strip("|").split("|")]
            prose.append("")
        elif not line or re.match(r"(-|\d+\.|#+) ", line):
            prose.append(re.sub(r"^(-|\d+\.|#+) ", "", line))
        else:
            prose[-1] = (prose[-1] + " " + line.strip()).strip()
    return prose, cells


def sentences_of(paragraph: str) -> list[str]:
    """Its sentences, in which a name in backquotes counts as one word, and a link as its text."""
    bare = re.sub(r"\]\([^)\s]*\)", "]", re.sub(r"`[^`]*`", "x", paragraph))
    return re.split(r"(?<=[.?!])[)*]*\s+", bare)


def words_in(text: str) -> int:
    return sum(1 for word in text.split() if re.search(r"\w", word))


def found_in(pattern: str, name: str) -> str:
    """What a file has in the place of a pattern's group."""
    match = re.search(pattern, text_of(name), re.S)
    return match[1] if match else ""


def parameters(code: str) -> Iterator[str]:
    """The parameters of the library's call, as the header for C has them."""
    for name, kind in re.findall(r"(?m)^    (\w+): (.*),$", code):
        if kind == "&mut QuorumEnd":
            yield f"quorum_end *{name}"
        elif kind != "Global":
            yield {"&[u8]": f"const uint8_t *{name}", "&mut [u8]": f"uint8_t *{name}"}[kind]
            yield f"size_t {name}_len"


def tool(name: str) -> list[str]:
    return [sys.executable, os.path.join(TOP, "tools", "maintain", name)]


def uses_of(text: str) -> dict[str, list[str]]:
    """The crates of crates.txt, each with those that its line names."""
    lines = (line.partition(":") for line in text.split("\n") if ":" in line and not line.startswith("#"))
    return {crate.split()[0]: named.split() for crate, _, named in lines}


def definitions(name: str, text: str) -> Iterator[str]:
    """Each file of the sources that a document names exists, and each word stands in it."""
    before = ((path, words) for words, path in NAMED_BEFORE.findall(text))
    for path, words in [*NAMED.findall(text), *before]:
        place = os.path.join("crates", path)
        if not os.path.exists(os.path.join(TOP, place)):
            yield f"{name} names {path}, which is not there"
        if words and os.path.isfile(os.path.join(TOP, place)):
            held = text_of(place)
            for word in re.findall(r"`([^`]+)`", words):
                if not re.search(rf"(?<![\w-]){re.escape(word)}(?![\w-])", held):
                    yield f"{name} names {word} of {path}, where it is not"
    for path in PATH.findall(text):
        if path not in BUILT and not os.path.exists(os.path.join(TOP, path)):
            yield f"{name} names {path}, which is not there"


def names(name: str, text: str) -> Iterator[str]:
    """Each name of the code, wherever it is cited, is there."""
    for cited in sorted(set(CODED.findall(text))):
        if is_coded(cited) and cited not in FOREIGN and name != TRUSTED:
            parts = [cited] if "." in cited else cited.split("::")
            if not held_words().issuperset(parts):
                yield f"{name} names {cited}, which stands nowhere"


def sentences(name: str, text: str) -> Iterator[str]:
    """No sentence, cell or paragraph is long, and no word is used for which there is a plainer one."""
    if name in MADE:
        return
    prose, cells = paragraphs(text)
    for line in written(text).split("\n"):
        if len(line) > WIDTH and not line.startswith("|"):
            yield f"{name} has a line of {len(line)} characters: {line[:80]}"
    for paragraph in prose + cells:
        for sentence in sentences_of(paragraph):
            count = words_in(sentence)
            if count >= MOST_WORDS:
                yield f"{name} has a sentence of {count} words: {sentence.strip()[:80]}"
        if UNUSUAL.search(re.sub(r"`[^`]*`", "x", paragraph)):
            yield f"{name} has an unusual word: {paragraph[:80]}"
    for cell in cells:
        if len(cell) >= MOST_CELL:
            yield f"{name} has a cell of {len(cell)} characters: {cell[:80]}"
    for paragraph in prose:
        lines = len(textwrap.wrap(paragraph, WIDTH))
        if lines >= MOST_LINES:
            yield f"{name} has a paragraph of {lines} lines: {paragraph[:80]}"


def links(name: str, text: str) -> Iterator[str]:
    """Each link to a file of the repository, or to a heading in it, leads somewhere."""
    for link in re.findall(r"\]\(([^)\s]+)\)", text):
        if re.match(r"[a-z]+:", link):
            continue
        path, _, place = link.partition("#")
        target = os.path.normpath(os.path.join(os.path.dirname(name), path)) if path else name
        there = os.path.exists(os.path.join(TOP, target))
        if not there or (place and place not in anchors(text_of(target))):
            yield f"{name} links to {link}, which is not there"


def folders() -> Iterator[str]:
    """The map says which crates lack a folder."""
    crates = crates_of_the_map()
    rows = re.findall(r"^\| `(src|specs|proofs|must-fail)/` \|[^|]*\|([^|]*)\|", text_of("docs/MAP.md"), re.M)
    for folder, lacking in rows:
        without = {it for it in crates if not os.path.isdir(os.path.join(TOP, "crates", it, folder))}
        if without != set(re.findall(r"`(\w+)`", lacking)):
            yield f"docs/MAP.md names other crates without {folder}/ than {' '.join(sorted(without))}"


def header() -> Iterator[str]:
    """The header for C has the fields and parameters of the code, and the Python package the same fields."""
    text = text_of("library/quorum.h")
    comments = (re.sub(r"(?m)^ \* ?", "", it) for it in re.findall(r"/\*(.*?)\*/", text, re.S))
    yield from sentences("library/quorum.h", "\n\n".join(comments))
    code = found_in(r"pub struct QuorumEnd \{(.*?)\n\}", "crates/quorum_answers/src/answer.rt")
    fields = [(TYPES[kind], name) for name, kind in re.findall(r"pub (\w+): (\w+),", code)]
    struct = found_in(r"typedef struct quorum_end \{(.*?)\}", "library/quorum.h")
    if re.findall(r"(?m)^ *(\w+) (\w+);", struct) != fields:
        yield "library/quorum.h has other fields than QuorumEnd"
    binding = "library/python/quorums/binding.py"
    bound = re.findall(r'\("(\w+)", ctypes\.c_(\w+)\)', found_in(r"_fields_ = \[(.*?)\]\n", binding))
    if [("uint8_t" if kind == "uint8" else kind, name) for name, kind in bound] != fields:
        yield f"{binding} has other fields than QuorumEnd"
    called = found_in(r"void quorum_answer\((.*?)\)", "library/quorum.h").split(",")
    wanted = list(parameters(text_of("crates/quorum_library/src/lib.rt")))
    if [" ".join(it.split()) for it in called] != wanted:
        yield "library/quorum.h has other parameters than quorum_answer"


def specification() -> Iterator[str]:
    """docs/SPECIFICATION.md is what the specs say."""
    made = subprocess.run([*tool("specification"), "--check"], stderr=subprocess.PIPE)
    if made.returncode:
        yield made.stderr.decode().strip() or "tools/maintain/specification --check fails"


def picture() -> Iterator[str]:
    """The picture is the one of crates.txt."""
    drawn = subprocess.run([*tool("crates-picture"), "--print"], stdout=subprocess.PIPE).stdout.decode()
    if text_of("docs/crates.svg") != drawn:
        yield "docs/crates.svg is not that of crates.txt: run tools/maintain/crates-picture"


def crates_of_the_map() -> list[str]:
    return re.findall(r"^\| `([a-z_0-9]+)` \|", text_of("docs/MAP.md"), re.M)


def crates() -> Iterator[str]:
    """The map has each crate once, in the order of the layers, and README says how many the program stands on."""
    listed, uses = crates_of_the_map(), uses_of(text_of("crates.txt"))
    if sorted(listed) != sorted(uses):
        yield f"docs/MAP.md lists other crates than crates.txt: {sorted(set(listed) ^ set(uses))}"
    needed: set[str] = set()
    waiting = ["quorum_cli"]
    while waiting:
        crate = waiting.pop()
        if crate in uses and crate not in needed:
            needed.add(crate)
            waiting += uses[crate]
    if f"its {len(needed)} crates" not in text_of("README.md"):
        yield f"README.md says another number of crates than {len(needed)}"
    for at, crate in enumerate(listed):
        late = [it for it in uses.get(crate, []) if it in uses and it in listed[at:]]
        if late:
            yield f"docs/MAP.md has {crate} before {' '.join(late)}, on which it stands"


# What is asked of each document, and what of the repository as a whole.
OF_EACH: tuple[Callable[[str, str], Iterator[str]], ...] = (definitions, names, links, sentences)
OF_ALL: tuple[Callable[[], Iterator[str]], ...] = (header, specification, picture, crates, folders)


def main() -> int:
    faults = [fault for name in DOCUMENTS for rule in OF_EACH for fault in rule(name, text_of(name))]
    faults += [fault for rule in OF_ALL for fault in rule()]
    for fault in faults:
        print(f"documents: {fault}")
    return 1 if faults else 0


if __name__ == "__main__":
    sys.exit(main())
