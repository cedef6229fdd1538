"""The page of tools/build/web-page: its module in node, and the page in Chromium, beside the program.

Status, text and certificate of each question are the program's, byte for byte: in node on the examples, on files that
are refused and on networks of tests/watchers.py; in Chromium as an operator asks, by file field and by a real drop,
each certificate saved by its link. Also tried: the guide's story, the summary of the four networks of
tests/summary.py, the switch to things as they are now, stopping, want of memory, a file of 16 MiB, that nothing
leaves the page, its own digest, names that act as markup, three widths, the dark, the keyboard, and what a screen
reader hears.

The page is made over the module of that of dist/, or with --long anew from the proved library; without esbuild it is
that of dist/. With --page=PAGE it is one that was made, and --data=FOLDER has more networks (NAME.json,
NAME-orgs.json). With --basetemp=FOLDER the screenshots are kept there.
"""

from __future__ import annotations

import base64
import glob
import gzip
import hashlib
import http.server
import json
import os
import re
import shlex
import shutil
import subprocess
import tempfile
import threading
import time
from collections.abc import Iterator
from pathlib import Path
from typing import Any

import pytest

import browser
import chosen
import summary
import watchers
from needed import needs

TOP = os.path.dirname(os.path.dirname(os.path.abspath(__file__)))
MAKER = os.path.join(TOP, "tools", "build", "web-page")
EXAMPLES = os.path.join(TOP, "examples")
MOST_BYTES = 750_000
WIDTHS = {"phone": 360, "tablet": 768, "desk": 1280}
MIB = 1 << 20
SHOWN = "document.body?.dataset.state === 'idle'"
# What the page has for a console, by shorter names.
BY_NAME = """
for (const name of ['called', 'files', 'lying', 'network', 'silent']) {
  Object.defineProperty(globalThis, name, { get: () => page.state[name] });
}
for (const name of ['$', 'asTurns', 'sha256']) globalThis[name] = page[name];
"""


def held(*path: str) -> bytes:
    with open(os.path.join(*path), "rb") as it:
        return it.read()


def written(content: bytes, *path: str) -> str:
    place = os.path.join(*path)
    with open(place, "wb") as it:
        it.write(content)
    return place


def module_in(page: str) -> bytes:
    """The module, as it is packed in the page."""
    return gzip.decompress(base64.b64decode(re.search(rb'id="module">([^<]*)<', held(page)).group(1)))


def number_at(data: bytes, at: int) -> tuple[int, int]:
    """A number in LEB128, and where it ends."""
    value = shift = 0
    while True:
        byte = data[at]
        value, shift, at = value | (byte & 127) << shift, shift + 7, at + 1
        if byte < 128:
            return value, at


def number(value: int) -> bytes:
    """A number as LEB128."""
    made = bytearray()
    while value > 127:
        made.append(value & 127 | 128)
        value >>= 7
    return bytes([*made, value])


def limited(module: bytes, mebibytes: int) -> bytes:
    """The module with a memory that cannot grow above so much: the fifth section is that of the memory."""
    at = 8
    while True:
        kind, (size, start) = module[at], number_at(module, at + 1)
        if kind == 5:
            least, _ = number_at(module, start + 2)
            body = b"\x01\x01" + number(least) + number(mebibytes * 16)
            return module[:at] + b"\x05" + number(len(body)) + body + module[start + size :]
        at = start + size


def few_units(config: bytes) -> str:
    """The budget of a list of a whole network, which may take long: the first few sets show the same."""
    return "3000" if len(json.loads(config)) < 150 else "1000"


def by_program(words: list[str], files: dict[str, bytes], folder: str) -> tuple[int, bytes, bytes]:
    """Status, text and certificate of the program, over files of these names in a folder of their own."""
    with tempfile.TemporaryDirectory(dir=folder) as room:
        for name, content in files.items():
            written(content, room, name)
        before = set(os.listdir(room))
        ended = subprocess.run(
            [chosen.path(), *words],
            cwd=room,
            stdin=subprocess.DEVNULL,
            stdout=subprocess.PIPE,
            stderr=subprocess.DEVNULL,
            timeout=3000,
        )
        made = [name for name in sorted(os.listdir(room)) if name not in before]
        return ended.returncode, ended.stdout, held(room, made[0]) if made else b""


# In node.


def node_cases(networks: list[tuple[str, str]]) -> Iterator[tuple[list[str], dict[str, bytes]]]:
    """Words and files, as the call names them."""
    e = {name: held(EXAMPLES, name) for name in os.listdir(EXAMPLES)}
    three, two, net = (
        {"config": e["three.json"]},
        {"config": e["two.json"]},
        {"config": e["network.json"], "orgs": e["orgs.json"]},
    )
    yield [], {}
    yield ["--help"], {}
    yield ["show"], {}
    yield ["show", "config"], {"config": b""}
    for content in (b"[{}]", b"\xff", b"{", e["orgs.json"], b"[" * 200, e["three.json"] + b"]"):
        yield ["show", "config"], {"config": content}
    for words in (
        ["show"],
        ["closure", "--node", "a"],
        ["closure", "--node", "é"],
        ["closure", "--node", "d"],
        ["greatest", "--faulty", "a"],
        ["available", "--set", "a"],
        ["blocks", "--set", "a,b"],
        ["blocks", "--set", "a,,b"],
        ["vblocks", "--node", "a", "--set", "b"],
        ["export", "--faulty", "a"],
    ):
        yield [words[0], "config", *words[1:]], three
    for words in (
        ["intersect"],
        ["intersect", "--faulty", "a"],
        ["intersect", "--budget", "0"],
        ["dset", "--set", "a"],
        ["splits", "--set", "a"],
        ["blocking"],
        ["blocking", "--budget", "2"],
        ["quorums"],
        ["least"],
        ["least", "--budget", "1"],
    ):
        yield [words[0], "config", "made", *words[1:]], three
    for cert in ("pair.cert", "blocking.cert", "least.cert", "two.cert"):
        yield ["check", "config", "cert"], {**three, "cert": e[cert]}
        yield ["check", "config", "cert"], {**three, "cert": e[cert][:-9]}
    yield ["check", "config", "config"], three
    yield ["check-lrat", "config", "cert"], {**two, "cert": e["two.lrat"]}
    yield ["check-lrat", "config", "cert", "--faulty=p"], {**two, "cert": e["two.lrat"]}
    yield ["whatif", "config", "script", "--set", "GWATCH"], {**net, "script": e["leaving.script"]}
    yield ["whatif", "config", "script", "--set", "GWATCH"], {**net, "script": b"retire GNONE\n"}
    yield ["intersect", "config", "made", "--orgs", "orgs", "--faulty-orgs", "alder"], net
    yield ["intersect", "config", "made", "--orgs", "orgs", "--faulty-orgs", "elm"], net
    some: list[list[str]] = [[], ["--faulty-orgs", "alder"], ["--from", "GAAA1"], ["--budget", "2"]]
    for words in some:
        yield ["org-blocking", "config", "made", "--orgs", "orgs", *words], net
    groups = {**three, "cert": e["groups.cert"], "orgs": e["groups.json"]}
    yield ["check", "config", "cert", "--orgs", "orgs"], groups
    yield ["check", "config", "cert"], groups
    yield ["check", "config", "cert", "--orgs", "orgs"], {**groups, "orgs": b"[]"}
    for count in ("1", "4", "30", "0", "101"):
        yield ["trial", count, "made"], {}
    for config, orgs in networks:
        files = {"config": held(config), "orgs": held(orgs)}
        first = json.loads(files["orgs"])[0]["id"]
        yield ["show", "config"], files
        yield ["greatest", "config"], files
        yield ["intersect", "config", "made"], files
        yield ["intersect", "config", "made", "--orgs=orgs", "--faulty-orgs=" + first], files
        yield ["blocking", "config", "made", "--budget", few_units(files["config"])], files


# What the page is made by, over a module that is there.
MAKING = ("esbuild", "zopfli")


@pytest.fixture(scope="module")
def folder(tmp_path_factory: pytest.TempPathFactory) -> str:
    """What is given to the page, saved by it, and made."""
    return str(tmp_path_factory.mktemp("page", numbered=False))


@pytest.fixture(scope="module")
def tried_page(request: pytest.FixtureRequest, program: str, folder: str) -> str:
    """The page that is tried."""
    named = request.config.getoption("--page", None)
    if named:
        return os.path.abspath(named)
    words: list[str] = []
    if request.config.getoption("--long"):
        missing = [it for it in (*MAKING, "wasm-opt") if not shutil.which(it)]
        if missing:
            pytest.skip(f"there is no {' and no '.join(missing)} (Debian's esbuild, zopfli, binaryen)")
    else:
        of_dist: str = request.getfixturevalue("page")
        if not all(map(shutil.which, MAKING)):
            return of_dist
        words = ["--module", written(module_in(of_dist), folder, "over.wasm")]
    made = os.path.join(folder, "quorums.html")
    ended = subprocess.run([MAKER, "-o", made, *words], stdout=subprocess.PIPE, stderr=subprocess.STDOUT)
    assert ended.returncode == 0, ended.stdout.decode("utf-8", "replace")[-1000:]
    return made


@pytest.fixture(scope="module")
def module(tried_page: str) -> bytes:
    return module_in(tried_page)


def more_networks(config: pytest.Config) -> list[tuple[str, str]]:
    """Those of --data, and their organisations."""
    data = config.getoption("--data", None)
    found = [(it, it[:-5] + "-orgs.json") for it in sorted(glob.glob(os.path.join(data, "*.json")))] if data else []
    return [(config, orgs) for config, orgs in found if os.path.exists(orgs)]


def pytest_generate_tests(metafunc: pytest.Metafunc) -> None:
    """A test that wants a network is run on each."""
    if "network" in metafunc.fixturenames:
        found = ["split", "needed", *more_networks(metafunc.config)]
        ids = [it if isinstance(it, str) else os.path.basename(it[0]) for it in found]
        metafunc.parametrize("network", found, ids=ids, indirect=True)


@pytest.fixture(scope="module")
def made_networks(folder: str) -> dict[str, list[str]]:
    return watchers.write(folder, ["split", "needed"])


@pytest.fixture
def network(request: Any, made_networks: dict[str, list[str]]) -> tuple[str, str]:
    """The files of a network and of its organisations."""
    config, orgs = made_networks[request.param] if isinstance(request.param, str) else request.param
    return config, orgs


@needs("node")
def test_the_module_in_node_answers_as_the_program_does(
    module: bytes, folder: str, made_networks: dict[str, list[str]], request: pytest.FixtureRequest
) -> None:
    """Each case, and each certificate back to both."""
    path, room = written(module, folder, "module.wasm"), os.path.join(folder, "node")
    networks = [(config, orgs) for config, orgs in made_networks.values()] + more_networks(request.config)
    cases = list(node_cases(networks))
    wanted = [by_program(words, files, folder) for words, files in cases]
    for (words, files), (status, _, cert) in list(zip(cases, wanted)):
        if cert and words[0] != "trial":
            cases.append((["check", "config", "cert"], {"config": files["config"], "cert": cert}))
            wanted.append(by_program(*cases[-1], folder))
    os.makedirs(room)
    asked = []
    for at, (words, files) in enumerate(cases):
        paths = {name: written(content, room, f"{at}.{name}.in") for name, content in files.items()}
        asked.append({"words": words, "files": paths})
    listed = written(json.dumps(asked).encode(), folder, "cases.json")
    ended = subprocess.run(
        ["node", os.path.join(TOP, "tests", "web_ask.mjs"), path, listed, room],
        stdout=subprocess.PIPE,
        stderr=subprocess.PIPE,
        timeout=3000,
    )
    assert ended.returncode == 0, ended.stderr.decode()[-500:]
    ends = json.loads(ended.stdout)
    assert len(ends) == len(wanted)
    for at, (end, want) in enumerate(zip(ends, wanted)):
        found = (end["status"], held(room, f"{at}.text"), held(room, f"{at}.cert"))
        same = found == want
        assert same, f"{' '.join(cases[at][0])}: {found[0]}, {found[1][:80]!r}, not {want[0]}, {want[1][:80]!r}"


def ended_with(*words: str) -> int:
    return subprocess.run([MAKER, *words], stdout=subprocess.PIPE, stderr=subprocess.PIPE).returncode


@needs(*MAKING)
def test_the_tool_makes_the_same_page_again(module: bytes, tmp_path: Path) -> None:
    path, page = written(module, str(tmp_path), "made.wasm"), str(tmp_path / "made.html")
    assert ended_with("-o", page, "--module", path) == 0
    first = held(page)
    assert held(page + ".sha256").decode() == f"{hashlib.sha256(first).hexdigest()}  made.html\n"
    assert ended_with("-o", page, "--module", path) == 0
    assert held(page) == first


@needs(*MAKING)
@pytest.mark.parametrize(
    "words, status",
    [
        ("-o PAGE --module FOLDER/none.wasm", 1),
        ("-o PAGE --module FOLDER/large.wasm", 1),
        ("-o FOLDER/none/made.html", 1),
        ("", 2),
    ],
    ids=["no module", "too large", "no folder", "no name"],
)
def test_the_tool_makes_no_page_if_something_is_wrong(words: str, status: int, tmp_path: Path) -> None:
    written(os.urandom(MOST_BYTES), str(tmp_path), "large.wasm")
    page = written(b"as it was", str(tmp_path), "made.html")
    assert ended_with(*(it.replace("PAGE", page).replace("FOLDER", str(tmp_path)) for it in words.split())) == status
    assert held(page) == b"as it was"


# In Chromium.


class Tab(browser.Browser):
    """Chromium with the page in it, and what an operator does there."""

    def __init__(self, path: str, profile: str, downloads: str) -> None:
        self.events: list[dict[str, Any]] = []
        # (errors that nothing in the page caught)
        self.thrown: list[dict[str, Any]] = []
        self.downloads = downloads
        super().__init__(path, profile)
        for method in ("Runtime.enable", "Log.enable", "Network.enable", "DOM.enable"):
            self.call(method)
        self.call("Browser.setDownloadBehavior", behavior="allow", downloadPath=downloads, eventsEnabled=True)

    def heard(self) -> dict[str, Any]:
        message = super().heard()
        if "method" in message:
            self.events.append(message)
            if message["method"] == "Runtime.exceptionThrown":
                self.thrown.append(message)
        return message

    def js(self, script: str) -> Any:
        got = self.call("Runtime.evaluate", expression=script, awaitPromise=True, returnByValue=True)
        if "exceptionDetails" in got:
            raise OSError("%s: %s" % (script[:100], json.dumps(got["exceptionDetails"])[:400]))
        return got["result"].get("value")

    def wait(self, script: str, seconds: float = 600) -> None:
        end = time.monotonic() + seconds
        while not self.js(script):
            if time.monotonic() > end:
                raise OSError("waited for: %s" % script)
            time.sleep(0.02)

    def show(self, page: str | None, width: int = 1280, scheme: str = "light", url: str | None = None) -> None:
        if url is None:
            self.open(page, width, scheme)
        else:
            self.call("Page.navigate", url=url)
        self.wait(SHOWN, 60)
        self.js(BY_NAME)

    def give(self, which: str, path: str) -> None:
        """A file by its field, which is asked about at once."""
        root = self.call("DOM.getDocument")["root"]["nodeId"]
        field = self.call("DOM.querySelector", nodeId=root, selector="#" + which)["nodeId"]
        name = os.path.basename(path)
        self.call("DOM.setFileInputFiles", nodeId=field, files=[os.path.abspath(path)])
        self.wait("called.%s === %s" % (which, json.dumps(name)))
        self.wait(SHOWN)

    def drop(self, paths: list[str]) -> None:
        """Files that are dragged over the page and dropped."""
        data = {"items": [], "files": [os.path.abspath(path) for path in paths], "dragOperationsMask": 1}
        for kind in ("dragEnter", "dragOver", "drop"):
            self.call("Input.dispatchDragEvent", type=kind, x=300, y=300, data=data)

    def choose(self, question: str, **fields: Any) -> None:
        """A question with its fields; nodes and organisations are ticked by their name."""
        self.js(
            "$('question').value = %s; $('question').dispatchEvent(new Event('change')); for (const it of [silent,"
            " lying]) it.show(network); $('from').value = ''; $('budget').value = ''"
            % json.dumps(question)
        )
        for name, value in fields.items():
            if name in ("set", "faulty"):
                for key in value:
                    found = self.js(
                        "(() => { const box = [...$('%s').querySelectorAll('.boxes label')].find(it => it.title ==="
                        " %s); box?.querySelector('input').click(); return !!box; })()" % (name, json.dumps(key))
                    )
                    if not found:
                        raise OSError("there is no box for %s" % key)
            else:
                self.js(
                    "$('%s').value = %s; $('%s').dispatchEvent(new Event('change'))" % (name, json.dumps(value), name)
                )

    def ask(self, seconds: float = 600) -> None:
        """Asks, and waits for the answer."""
        before = self.js("document.body.dataset.answers ?? '0'")
        self.js("$('ask').click()")
        self.wait(
            "%s && ((document.body.dataset.answers ?? '0') !== %s || !$('trouble').hidden ||"
            " !!document.querySelector('#head')?.textContent.match(/^(Stopped|There is no answer)/))"
            % (SHOWN, json.dumps(before)),
            seconds,
        )

    def alone(self, question: str) -> None:
        """One question in place of the summary that is asked first."""
        self.choose(question)
        self.ask()

    def summary(self) -> str:
        """The lines of the summary: labels, and what is said."""
        return "\n".join(
            self.js("[...document.querySelectorAll('.summary dt, .summary dd')].map(it => it.textContent)")
        )

    def head(self) -> str:
        return self.js("document.querySelector('#head')?.textContent ?? ''")

    def answer(self) -> str:
        return self.js("$('answer-body').innerText")

    def saved(self, text: str) -> bytes:
        """What a link saves."""
        at = self.js(
            "[...document.querySelectorAll('#answer a[download]')].findIndex(it => it.textContent.startsWith(%s))"
            % json.dumps(text)
        )
        return self.saved_by("#answer a[download]", at) if at >= 0 else b""

    def saved_by(self, selector: str, at: int = 0) -> bytes:
        link = "document.querySelectorAll(%s)[%d]" % (json.dumps(selector), at)
        name = self.js("%s?.download ?? ''" % link)
        if not name:
            return b""
        path = os.path.join(self.downloads, name)
        if os.path.exists(path):
            os.remove(path)
        del self.events[:]
        self.js("%s.click()" % link)
        end = time.monotonic() + 60
        while not any(
            it["method"] == "Browser.downloadProgress" and it["params"]["state"] == "completed" for it in self.events
        ):
            self.js("0")
            time.sleep(0.01)
            if time.monotonic() > end:
                raise OSError("%s was not saved" % name)
        return held(path)

    def key(self, name: str, code: int | None = None, text: str | None = None) -> None:
        for kind in ("keyDown", "keyUp"):
            given = {"type": kind, "key": name, "code": name, "windowsVirtualKeyCode": code or 0}
            if text and kind == "keyDown":
                given["text"] = text
            self.call("Input.dispatchKeyEvent", **given)


class Shown:
    """The page in Chromium."""

    def __init__(self, tab: Tab, page: str, module: bytes, folder: str, pictures: str) -> None:
        self.tab = tab
        self.page = page
        self.module = module
        self.folder = folder
        self.pictures = pictures

    def picture(self, name: str) -> None:
        high = min(self.tab.js("document.documentElement.scrollHeight"), 6000)
        self.tab.picture(os.path.join(self.pictures, name + ".png"), high)

    def beside(self, name: str, files: dict[str, bytes]) -> bytes:
        """The answer that is shown is what the shown command prints, and the saved certificate the one that it
        writes."""
        words = shlex.split(self.tab.js("$('command').textContent"))[1:]
        status, text, cert = by_program(words, files, self.folder)
        shown = self.tab.js("document.querySelector('#answer pre').textContent").encode()
        summary = self.tab.js(
            "document.querySelector('#answer details > summary').closest('#answer-body').innerHTML.match(/own words,"
            " status (\\d+)/)[1]"
        )
        whole = self.tab.saved("Save all of it") or shown
        saved = self.tab.saved("Save the certificate")
        same = (int(summary), whole, saved) == (status, text, cert)
        assert same, f"{name}: {' '.join(words)}: {summary}, {whole[:200]!r}, not {status}, {text[:200]!r}"
        if cert:
            checked = self.tab.js("document.querySelector('#checked')?.previousSibling.className")
            assert checked == "good", f"{name}: checked: {self.tab.answer()[:300]}"
        return cert

    def turns(self, name: str, config: str, files: dict[str, bytes]) -> None:
        """Each organisation in turn is what the program answers of its keys, and each certificate is the one that it
        writes."""
        tab = self.tab
        tab.choose("turns")
        tab.ask()
        rows = tab.js(
            "[...document.querySelectorAll('#turns tbody tr')].map(row => [...row.children].map(it => it.innerText))"
        )
        orgs = tab.js("asTurns(network)")
        assert len(rows) == len(orgs) > 0, (name + ": each in turn", (len(rows), tab.head()))
        named = os.path.basename(config)
        forks = stops = 0
        for at, (row, org) in enumerate(zip(rows, orgs)):
            keys = ",".join(org["keys"])
            status, _, cert = by_program(["intersect", named, "made", "--faulty=" + keys], files, self.folder)
            stopped, text, _ = by_program(["blocks", named, "--set=" + keys], files, self.folder)
            forks, stops = forks + (status == 1), stops + (stopped == 0)
            lies = row[1].startswith({0: "No", 1: "Yes: ", 2: "Not decided"}[status])
            left = len(text.decode().split("\n")[1].split(" ")) - 1 if stopped else 0
            goes = row[2].startswith("%d of the other " % left) if stopped else row[2] == "Nothing goes on"
            assert row[0] == org["name"] and lies and goes, (
                "%s: %s in turn" % (name, org["name"]),
                (row, status, left),
            )
            link = tab.saved_by("#turns tbody tr:nth-child(%d) a[download]" % (at + 1))
            assert link == cert, ("%s: the certificate of %s in turn" % (name, org["name"]), (len(link), len(cert)))
        many = lambda count: "None" if count == 0 else "Each" if count == len(orgs) else str(count)  # noqa: E731
        wanted = "%s of %d organisation%s can fork it by lying; %s can stop it alone." % (
            many(forks),
            len(orgs),
            "" if len(orgs) == 1 else "s",
            many(stops).lower(),
        )
        assert tab.head() == wanted, name + ": in short"

    def fits(self, name: str) -> None:
        found = self.tab.told(browser.MEASURES)
        inside = self.tab.js("[...document.querySelectorAll('.wide')].length")
        wide = [
            it
            for it in found["out"]
            if not (inside and it.split(" ")[0] in ("TABLE", "THEAD", "TBODY", "TR", "TD", "TH", "CODE", "SPAN"))
        ]
        assert not wide and found["over"] == found["wide"] == 0, (name + ": nothing is wider than the window", found)
        assert self.tab.js("document.documentElement.scrollWidth <= innerWidth"), (
            name + ": no scrolling sideways",
            self.tab.js("document.documentElement.scrollWidth"),
        )
        least = self.tab.told(browser.CONTRAST)
        assert least[0] >= 4.5, name + ": contrast"
        small = self.tab.js(
            "[...document.querySelectorAll('main button, main select, main a.button, main summary, .boxes"
            " label')].filter(it => it.getClientRects().length && it.getBoundingClientRect().height < 24).map(it =>"
            " it.outerHTML.slice(0, 80))"
        )
        assert not small, (name + ": room for a finger", small[:4])


@pytest.fixture(scope="module")
def tab(folder: str) -> Iterator[Tab]:
    with tempfile.TemporaryDirectory(ignore_cleanup_errors=True) as profile:
        started = Tab(shutil.which("chromium") or "", profile, folder)
        yield started
        started.end()


@pytest.fixture
def shown(tab: Tab, tried_page: str, module: bytes, folder: str, tmp_path: Path) -> Iterator[Shown]:
    tab.thrown.clear()
    yield Shown(tab, tried_page, module, folder, str(tmp_path))
    assert tab.thrown == [], "an error in the page"


@pytest.mark.browser
def test_what_it_shows_of_itself(shown: Shown) -> None:
    size = os.path.getsize(shown.page)
    assert size <= MOST_BYTES, "the page is small enough"
    shown.tab.show(shown.page)
    shown.tab.wait("/^[0-9a-f]{64}$/.test($('own').textContent)")
    own, digest = shown.tab.js("$('own').textContent"), hashlib.sha256(held(shown.page)).hexdigest()
    assert own == digest, "its own digest"
    assert hashlib.sha256(shown.module).hexdigest() in shown.tab.js(
        "document.querySelector('footer').innerText"
    ), "the module's digest"
    assert held(TOP, "VERSION").decode().strip() in shown.tab.js(
        "document.querySelector('footer').innerText"
    ), "its version"
    said = shown.tab.js("document.body.innerText")
    for text in (
        "no file leaves this machine",
        "Trusted, and not proved",
        "A certificate is the remedy",
        "compilers",
    ):
        assert text in said, "it says: " + text
    _, usage, _ = by_program([], {}, shown.folder)
    commands = {line.split(" ")[0] for line in usage.decode().split("\n")[1:-1]} - {"COMMON:"}
    offered = set(shown.tab.js("[...$('question').options].map(it => it.value)"))
    assert offered == commands | {"turns", "summary"}, (
        "each command is offered, and two more questions",
        offered ^ commands,
    )


@pytest.mark.browser
def test_all_commands_on_a_network(shown: Shown, network: tuple[str, str]) -> None:
    """By file field."""
    config, orgs = network
    name = os.path.basename(config)
    tab, files = shown.tab, {os.path.basename(config): held(config), os.path.basename(orgs): held(orgs)}
    tab.show(shown.page)
    tab.give("orgs", orgs)
    tab.give("config", config)
    assert "Who can stop it?" in tab.summary() and tab.head().startswith(("It cannot fork", "It can fork")), (
        name + ": in short",
        tab.head(),
    )
    tab.alone("intersect")
    shown.beside(name + ", given", files)
    found = json.loads(files[os.path.basename(orgs)])
    keys = set(tab.js("network.keys"))
    own = [org for org in found if set(org["validators"]) & keys]
    org, other = own[0], own[1]
    one = sorted(set(org["validators"]) & keys)[0]
    cert = None
    few = {"budget": few_units(files[os.path.basename(config)])}
    asked: list[tuple[str, dict[str, Any]]] = [
        ("show", {}),
        ("greatest", {}),
        ("greatest", {"faulty": [org["id"]], "from": one}),
        ("closure", {"node": one}),
        ("intersect", {}),
        ("intersect", {"faulty": [org["id"]]}),
        ("intersect", {"faulty": [one], "from": one}),
        ("splits", {"set": [org["id"]], "budget": "20000"}),
        ("blocks", {"set": [org["id"], other["id"]]}),
        ("blocks", {"set": [one], "faulty": [other["id"]]}),
        ("available", {"set": [org["id"]]}),
        ("available", {"set": [one], "from": one}),
        ("dset", {"set": [org["id"]]}),
        ("vblocks", {"node": one, "set": [org["id"]]}),
        ("blocking", few),
        ("quorums", few),
        ("least", few),
        ("export", {}),
        ("whatif", {"set": [one], "leaves": other["id"]}),
    ]
    offered = tab.js("[...$('question').options].map(it => it.value)")
    if "org-blocking" in offered:
        asked.append(("org-blocking", few))
    for question, fields in asked:
        tab.choose(question, **fields)
        script = tab.js("$('script').value").encode() if question == "whatif" else b""
        tab.ask()
        made = shown.beside(name, {**files, "edits.script": script} if question == "whatif" else files)
        cert = made if question == "intersect" and not fields else cert
    shown.turns(name, config, files)
    path = written(cert, shown.folder, "own.cert")
    tab.give("cert", path)
    assert tab.head().startswith("Accepted: "), (name + ": its certificate is accepted", tab.head())
    shown.beside(name, {**files, "own.cert": cert})
    path = written(cert.replace(b"\nend\n", b"\n"), shown.folder, "cut.cert")
    tab.give("cert", path)
    assert tab.head() == "It is not accepted.", name + ": and a changed one is not"


@pytest.mark.browser
def test_another_solvers_proof(shown: Shown) -> None:
    tab = shown.tab
    tab.show(shown.page)
    tab.give("config", os.path.join(EXAMPLES, "two.json"))
    tab.give("cert", os.path.join(EXAMPLES, "two.lrat"))
    assert tab.head() == "The proof is right: it cannot fork."
    files = {name: held(EXAMPLES, name) for name in ("two.json", "two.lrat")}
    shown.beside("a proof", files)
    tab.choose("check-lrat", faulty=["p"])
    tab.ask()
    assert tab.head() == "It is not accepted.", "a proof of another question"
    shown.beside("a proof of another question", files)


@pytest.mark.browser
@pytest.mark.parametrize("count", ["1", "7", "20"])
def test_a_made_up_network_has_its_certificate(count: str, shown: Shown) -> None:
    tab = shown.tab
    tab.show(shown.page)
    tab.choose("trial", organisations=count)
    tab.ask()
    cert = shown.beside("a trial", {})
    network = tab.saved("Save its network")
    status, text, _ = by_program(["check", "network", "cert"], {"network": network, "cert": cert}, shown.folder)
    assert status == 0 and text.startswith(b"accepted refutation\n")


@pytest.mark.browser
def test_a_made_up_network_that_is_too_large_is_a_fault(shown: Shown) -> None:
    shown.tab.show(shown.page)
    shown.tab.choose("trial", organisations="101")
    shown.tab.ask()
    assert shown.tab.head() == "The question has a fault."


@pytest.mark.browser
def test_the_story_of_the_guide(shown: Shown) -> None:
    """The guide's story, with what stands in the guide."""
    tab = shown.tab
    tab.show(shown.page)
    tab.js("$('example').click()")
    tab.wait("document.body.dataset.answers === '1' && " + SHOWN)
    files = {"network.json": held(EXAMPLES, "network.json"), "orgs.json": held(EXAMPLES, "orgs.json")}
    assert (
        tab.js("sha256(files.config)") == hashlib.sha256(files["network.json"]).hexdigest()
    ), "the example is the one of the guide"
    assert tab.head() == "It cannot fork.", "the story: it cannot fork"
    wanted = [
        "Each of 3 organisations can fork it: Alder, Beech, Cedar.",
        "3 sets: any 2 of these 3 together: Alder, Beech, Cedar. By single nodes: 27 sets, the smallest of 4.",
    ]
    assert all(text in tab.summary() for text in wanted), ("the story: in short", tab.summary())
    assert tab.js("document.querySelectorAll('#answer details a[download]').length") == 7, (
        "the story: with its certificates",
        tab.answer(),
    )
    shown.picture("summary")
    tab.alone("intersect")
    assert tab.head() == "It cannot fork.", "the story: by one question"
    shown.beside("the story", files)
    alder, beech, cedar = (["G%s%d" % (name * 3, at) for at in (1, 2, 3)] for name in "ABC")
    steps: list[tuple[str, dict[str, Any], str, list[str]]] = [
        ("show", {}, "10 nodes.", ["108 entries", "1 without a quorum set"]),
        ("greatest", {}, "9 nodes can agree.", ["gaaa1, gaaa2, gaaa3, gbbb1"]),
        ("intersect", {"from": "GAAA1"}, "As gaaa1 sees it, it cannot fork.", ["as gaaa1 sees it"]),
        (
            "summary",
            {"from": "GAAA1"},
            "It cannot fork.",
            [
                "gaaa1 is in the greatest quorum. It goes on whichever other organisation is silent. Its slices"
                " are all met by Beech and Cedar together."
            ],
        ),
        (
            "intersect",
            {"faulty": ["alder"]},
            "It can fork.",
            ["If Alder lies, two quorums share no node", "gbbb1, gbbb2", "gccc1, gccc2"],
        ),
        ("intersect", {"faulty": ["GAAA1"]}, "It can fork.", ["gaaa2, gbbb1, gbbb2", "gaaa3, gccc1, gccc2"]),
        ("splits", {"set": ["GAAA1", "GAAA2"]}, "They can fork it by lying.", ["gbbb1, gbbb2"]),
        (
            "blocks",
            {"set": ["GAAA1", "GAAA2", "GBBB1"]},
            "It goes on without them.",
            ["gaaa3, gbbb2, gbbb3, gccc1, gccc2, gccc3"],
        ),
        ("blocks", {"set": ["GAAA1", "GAAA2", "GBBB1", "GBBB2"]}, "They stop it.", []),
        ("blocking", {}, "27 minimal blocking sets.", ["The smallest has 4 nodes", "Alder and Beech"]),
        (
            "org-blocking",
            {},
            "3 sets of organisations.",
            ["Alder and Beech", "Alder and Cedar", "Beech and Cedar"],
        ),
        ("quorums", {}, "27 minimal quorums.", ["The smallest has 4 nodes"]),
        ("least", {}, "4 nodes can agree on their own, and no fewer.", ["gaaa1, gaaa3, gbbb1, gbbb3"]),
        ("available", {"set": alder}, "Not all others go on.", ["watcher"]),
        ("blocks", {"set": alder}, "It goes on without them.", ["gbbb1, gbbb2, gbbb3, gccc1"]),
        ("closure", {"node": "GAAA1"}, "gaaa1 depends on 9 nodes.", []),
        ("vblocks", {"node": "GAAA1", "set": beech[:2]}, "They cannot stop gaaa1 by themselves.", []),
        ("vblocks", {"node": "GAAA1", "set": beech[:2] + cedar[:2]}, "They can stop gaaa1.", []),
        (
            "whatif",
            {"set": ["GBBB3", *cedar, "GWATCH"], "script": held(EXAMPLES, "leaving.script").decode()},
            "It stops.",
            ["retire GCCC1", "none"],
        ),
    ]
    for question, fields, head, texts in steps:
        tab.choose(question, **fields)
        tab.ask()
        said = tab.answer()
        assert tab.head() == head and all(text in said for text in texts), (
            "the story: %s" % question,
            (tab.head(), said[:500]),
        )
        if question == "summary":
            continue
        shown.beside(
            "the story",
            {**files, "edits.script": held(EXAMPLES, "leaving.script")} if question == "whatif" else files,
        )

    def drawn(kind: str) -> int:
        return tab.js("[...document.querySelectorAll('#drawing li .dot.%s')].length" % kind)

    tab.choose("intersect", faulty=["alder"])
    tab.ask()
    legend = tab.js("document.querySelector('.legend').innerText")
    found = [drawn(kind) for kind in ("lie", "one", "two")]
    assert found == [4, 3, 3] and "in one quorum of the two" in legend, "the picture: who lies, and both quorums"
    shown.picture("fork")
    tab.choose("blocks", set=["beech"], faulty=["GAAA1"])
    tab.ask()
    found = [drawn(kind) for kind in ("lie", "still")]
    assert found == [2, 4], "the picture: lying and silent apart"
    shown.picture("silent")
    tab.choose("blocking")
    tab.ask()
    assert (
        tab.js("document.querySelectorAll('#drawing .org .dot.ring').length") == 4
    ), "the picture: a set that stops it"
    shown.picture("blocking")


@pytest.mark.browser
@pytest.mark.parametrize(
    "groups",
    [[["network.json"]], [["orgs.json"], ["network.json"]], [["network.json", "orgs.json"]]],
    ids=["one alone", "one after the other", "both at once"],
)
def test_dropped_files_are_asked_about(groups: list[list[str]], shown: Shown) -> None:
    """And so is a dropped certificate, and a dropped script is taken."""
    tab = shown.tab
    tab.show(shown.page)
    for group in groups:
        tab.drop([os.path.join(EXAMPLES, name) for name in group])
        fields = {name: "orgs" if name == "orgs.json" else "config" for name in group}
        tab.wait(" && ".join(f"called.{field} === '{name}'" for name, field in fields.items()))
    tab.wait("document.body.dataset.answers >= '1' && " + SHOWN)
    assert tab.head() == "It cannot fork."
    tab.alone("intersect")
    cert = shown.beside("dropped", {name: held(EXAMPLES, name) for name in ("orgs.json", "network.json")})
    before = tab.js("document.body.dataset.answers")
    tab.drop([written(cert, shown.folder, "dropped.cert")])
    tab.wait(f"document.body.dataset.answers !== '{before}' && {SHOWN}")
    assert tab.head() == "Accepted: refutation."
    tab.drop([os.path.join(EXAMPLES, "leaving.script")])
    tab.wait("$('question').value === 'whatif'")
    assert tab.js("$('script').value") == held(EXAMPLES, "leaving.script").decode()


@pytest.mark.browser
def test_the_organisations_of_the_example_go_with_it(shown: Shown) -> None:
    """The organisations of the example go with it, unless others came; and they can be taken away."""
    tab, (config, orgs) = shown.tab, watchers.write(shown.folder, ["split"])["split"]
    tab.show(shown.page)
    for _ in (1, 2):
        for given, count in (([config, orgs], 7), ([config], 7), (["example"], 3), ([config], 0)):
            before = tab.js("document.body.dataset.answers ?? '0'")
            if given == ["example"]:
                tab.js("$('example').click()")
            else:
                tab.drop(given)
            tab.wait("(document.body.dataset.answers ?? '0') !== '%s' && %s" % (before, SHOWN))
            found = tab.js("network.hasOrgsFile ? network.orgs.length : 0")
            assert found == count, "organisations after %s" % [os.path.basename(it) for it in given]
    tab.drop([orgs])
    tab.wait("network.hasOrgsFile && " + SHOWN)
    tab.js("$('orgs-says').querySelector('button').click()")
    assert tab.js("!network.hasOrgsFile && network.orgs[0].id") == "franklin.example", (
        "organisations taken away",
        tab.js("network.orgs.map(it => it.id)"),
    )


@pytest.mark.browser
@pytest.mark.parametrize("name", summary.FOUR)
def test_of_four_networks_the_summary_says_what_is_so(name: str, shown: Shown) -> None:
    tab = shown.tab
    made, node, has, lacks = summary.FOUR[name]
    files = [(it, json.dumps(content).encode()) for it, content in zip(("nodes", "orgs"), made())]
    tab.show(shown.page)
    tab.drop([written(content, shown.folder, f"{name}-{it}.json") for it, content in reversed(files)])
    tab.wait("called.config && document.body.dataset.answers === '1' && " + SHOWN)
    if node:
        tab.choose("summary", **{"from": node[0]})
        tab.ask()
    said = tab.summary()
    assert [text for text in has if text not in said] == [], said
    said = tab.answer()
    assert [text for text in lacks if text in said] == [], said
    mood = tab.js("document.querySelector('#answer .verdict').className")
    assert mood == ("verdict bad" if name == "halves" else "verdict good")
    if name == "halves":
        assert tab.js("document.querySelectorAll('#answer .good').length") == 0
    for width, wide in (("phone", 360), ("desk", 1280)):
        tab.call("Emulation.setDeviceMetricsOverride", width=wide, height=900, deviceScaleFactor=1, mobile=wide < 500)
        shown.fits(width)
        shown.picture(width)


@pytest.mark.browser
def test_the_switch_to_things_as_they_are_now(shown: Shown) -> None:
    """The switch: with those that are down in a set, or about a file in which they agree with nobody."""
    tab, (nodes, orgs) = shown.tab, summary.uniform()
    nodes[0]["quorumSet"] = nodes[1]["quorumSet"]
    tab.show(shown.page)
    tab.drop(
        [
            written(json.dumps(held).encode(), shown.folder, name)
            for held, name in ((orgs, "orgs.json"), (nodes, "five.json"))
        ]
    )
    tab.wait("called.config && document.body.dataset.answers === '1' && " + SHOWN)
    assert (
        "10 sets: any 2 of these 5 together" in tab.summary()
        and (
            "Down: 1 of 5 validators here, a1. Beyond these it is stopped by 4 sets: each of Org 2, Org 3, Org 4,"
            " Org 5 alone."
        )
        in tab.summary()
    ), "both margins"
    files = {"five.json": held(shown.folder, "five.json"), "orgs.json": held(shown.folder, "orgs.json")}
    steps: tuple[tuple[str, dict[str, Any], str], ...] = (
        ("blocks", {"set": ["a2"]}, "They stop it."),
        ("greatest", {}, "4 nodes can agree."),
        ("blocking", {}, "4 minimal blocking sets."),
        ("vblocks", {"node": "a2", "set": ["a3"]}, "They can stop a2."),
    )
    for question, fields, head in steps:
        tab.choose(question, **fields)
        tab.js("$('now').checked = true")
        tab.ask()
        assert tab.head() == head, "as things are now: " + question
        now = tab.saved("The file as things are now")
        shown.beside("as things are now", {**files, "five-now.json": now} if now else files)
    tab.choose("closure", node="a2")
    assert tab.js("document.querySelector('[data-option=now]').hidden"), "no switch where it says nothing"


@pytest.mark.browser
@pytest.mark.parametrize(
    "name, content",
    [
        ("empty.json", b""),
        ("object.json", b'{"nodes":[]}'),
        ("cut.json", held(EXAMPLES, "network.json")[:-9]),
        ("orgs-first.json", b'[{"name":"x"}]'),
    ],
    ids=["empty", "an object", "cut", "organisations"],
)
def test_a_file_that_is_none_of_nodes_is_refused(name: str, content: bytes, shown: Shown) -> None:
    shown.tab.show(shown.page)
    shown.tab.give("config", written(content, shown.folder, name))
    assert shown.tab.head() == "The file is refused."
    shown.beside("refused", {name: content})


@pytest.mark.browser
def test_without_a_file_it_says_that_one_is_missing(shown: Shown) -> None:
    shown.tab.show(shown.page)
    shown.tab.js("$('ask').click()")
    shown.tab.wait("!$('trouble').hidden", 10)
    assert "file of nodes" in shown.tab.js("$('trouble').textContent")


@pytest.mark.browser
def test_names_that_would_act_as_markup_are_shown_as_they_are(shown: Shown) -> None:
    """Names that would act as markup or turn the text are shown as they are."""
    tab, evil = shown.tab, '<img src=x onerror="document.title=\'out\'"><script>document.title="out"</script>\u202e'
    nodes = [
        {
            "publicKey": "<b>%d</b>" % at,
            "name": evil,
            "homeDomain": evil,
            "quorumSet": {
                "threshold": 2,
                "validators": ["<b>%d</b>" % it for it in range(3)],
                "innerQuorumSets": [],
            },
        }
        for at in range(3)
    ]
    tab.show(shown.page)
    path = written(json.dumps(nodes).encode(), shown.folder, "evil.json")
    tab.give("config", path)
    tab.choose("blocking")
    tab.ask()
    found = tab.js(
        "[document.title, document.querySelectorAll('img, #answer b b, #drawing script').length,"
        " document.body.innerText.includes('\u202e'), $('drawing').innerText.includes('onerror')]"
    )
    assert found == ["Quorums of a Stellar network", 0, False, True], "names as they are"


@pytest.fixture(scope="module")
def large(folder: str) -> bytes:
    """A file of 16 MiB, almost all of it objects that are skipped."""
    start = b'[{"publicKey":"a","quorumSet":{"threshold":1,"validators":["a"],"innerQuorumSets":[]},"skipped":['
    whole = start + b",".join([b"{}"] * ((16 * MIB - len(start) - 3) // 3)) + b"]}]"
    return whole + b" " * (16 * MIB - len(whole))


@pytest.mark.browser
def test_a_file_of_16_mebibytes_is_read_and_a_longer_one_is_not(large: bytes, shown: Shown) -> None:
    tab = shown.tab
    tab.show(shown.page)
    tab.give("config", written(large, shown.folder, "large.json"))
    assert tab.head() == "It cannot fork."
    tab.alone("intersect")
    shown.beside("16 MiB", {"large.json": large})
    tab.give("config", written(large + b" ", shown.folder, "longer.json"))
    assert tab.head() == "The file is refused." and "config too-long" in tab.answer()


@pytest.mark.browser
def test_a_long_question_is_stopped(shown: Shown) -> None:
    """A long question is stopped, by the button and by a key, and the next one is answered."""
    tab = shown.tab
    nodes = [
        {
            "publicKey": "n%02d" % at,
            "quorumSet": {
                "threshold": 15,
                "validators": ["n%02d" % it for it in range(28)],
                "innerQuorumSets": [],
            },
        }
        for at in range(28)
    ]
    path = written(json.dumps(nodes).encode(), shown.folder, "flat.json")
    tab.show(shown.page)
    tab.give("config", path)
    for how, stop in (("button", "$('stop').click()"), ("key", None)):
        tab.choose("blocking", budget="4000000000")
        tab.js("$('ask').click()")
        tab.wait("/Answering: [1-9]/.test($('elapsed').textContent)", 30)
        running = tab.js("!$('stop').disabled && !$('progress').hidden")
        if stop:
            tab.js(stop)
        else:
            tab.key("Escape", 27)
        tab.wait(SHOWN, 10)
        assert running and tab.head() == "Stopped." and tab.js("$('progress').hidden"), (
            "stopped by " + how,
            tab.head(),
        )
        tab.choose("intersect")
        tab.ask()
        assert tab.head() == "It cannot fork.", "asked after that"


@pytest.mark.browser
@needs(*MAKING)
def test_want_of_memory_is_said(large: bytes, shown: Shown) -> None:
    """By the same page over a module whose memory cannot grow far."""
    tab, page = shown.tab, os.path.join(shown.folder, "short.html")
    module = written(limited(shown.module, 80), shown.folder, "short.wasm")
    assert ended_with("-o", page, "--module", module) == 0
    tab.show(page)
    tab.give("config", written(large, shown.folder, "large.json"))
    assert tab.head() == "Memory ran out." and "status 8" in tab.answer()
    tab.js("$('example').click()")
    tab.wait("called.config === 'network.json' && document.body.dataset.answers === '2' && " + SHOWN)
    assert tab.head() == "It cannot fork.", "asked after that"


@pytest.mark.browser
def test_nothing_leaves_the_page(shown: Shown) -> None:
    """Every way out of the page is refused: a server that is asked for anything would tell."""
    hits = []

    class Server(http.server.SimpleHTTPRequestHandler):
        def do_GET(self) -> None:
            hits.append(self.path)
            self.send_response(200)
            self.end_headers()
            if self.path == "/page.html":
                self.wfile.write(served)

        do_POST = do_GET

        def log_message(self, *_: Any) -> None:
            pass

    served = held(shown.page)
    server = http.server.ThreadingHTTPServer(("127.0.0.1", 0), Server)
    threading.Thread(target=server.serve_forever, daemon=True).start()
    tab, at = shown.tab, "http://127.0.0.1:%d" % server.server_port
    ways = {
        "fetch": "fetch('AT/fetch')",
        "fetch without an answer": "fetch('AT/fetch', {mode: 'no-cors', method: 'POST', body: 'x'})",
        "request": (
            "new Promise((done, failed) => { const it = new XMLHttpRequest(); it.onload = done; it.onerror ="
            " failed; it.open('GET', 'AT/request'); it.send(); })"
        ),
        "socket": (
            "new Promise((done, failed) => { const it = new WebSocket('AT/socket'.replace('http', 'ws'));"
            " it.onopen = done; it.onerror = failed; })"
        ),
        "events": (
            "new Promise((done, failed) => { const it = new EventSource('AT/events'); it.onopen = done; it.onerror"
            " = failed; })"
        ),
        "image": (
            "new Promise((done, failed) => { const it = new Image(); it.onload = done; it.onerror = failed; it.src"
            " = 'AT/image'; })"
        ),
        "script": (
            "new Promise((done, failed) => { const it = document.createElement('script'); it.onload = done;"
            " it.onerror = failed; it.src = 'AT/script'; document.head.append(it); })"
        ),
        "style": (
            "new Promise((done, failed) => { const it = document.createElement('link'); it.rel = 'stylesheet';"
            " it.onload = done; it.onerror = failed; it.href = 'AT/style'; document.head.append(it); })"
        ),
        "worker": (
            "new Promise((done, failed) => { const it = new Worker(URL.createObjectURL(new"
            " Blob([\"fetch('AT/worker').then(() => postMessage(1), () => postMessage(0))\"]))); it.onmessage ="
            " ({data}) => data ? done() : failed(); it.onerror = failed; })"
        ),
    }
    quiet = {
        "beacon": "navigator.sendBeacon('AT/beacon', 'x')",
        "frame": "document.body.append(Object.assign(document.createElement('iframe'), {src: 'AT/frame'}))",
        "form": (
            "(() => { const it = document.createElement('form'); it.action = 'AT/form'; it.method = 'post';"
            " it.target = 'other'; document.body.append(it); it.submit(); })()"
        ),
        "own style": (
            "document.body.append(Object.assign(document.createElement('style'), {textContent: \"@import"
            " 'AT/imported'; body { background: url(AT/ground) }\"}))"
        ),
        "script in the page": (
            "(() => { const it = document.createElement('script'); it.textContent = 'window.ran = true';"
            " document.body.append(it); })()"
        ),
    }
    tab.show(shown.page)
    tab.js("$('example').click()")
    tab.wait("document.body.dataset.answers === '1' && " + SHOWN)
    for name, way in ways.items():
        said = tab.js("(%s).then(() => 'went out', () => 'refused')" % way.replace("AT", at))
        assert said == "refused", "refused: " + name
    for way in quiet.values():
        tab.js("try { %s } catch (it) {}; 0" % way.replace("AT", at))
    time.sleep(1)
    assert tab.js("window.ran === undefined"), "no script but its own"
    assert not hits, "nothing went out"
    tab.show(None, url=at + "/page.html")
    tab.js("$('example').click()")
    tab.wait("document.body.dataset.answers === '1' && " + SHOWN)
    assert (
        tab.head() == "It cannot fork." and tab.js("$('own').textContent") == hashlib.sha256(served).hexdigest()
    ), "the same page from a server"
    assert hits == ["/page.html"], "and it asks for nothing else"
    server.shutdown()


@pytest.mark.browser
@pytest.mark.parametrize("scheme", ["light", "dark"])
@pytest.mark.parametrize("width", WIDTHS)
def test_it_fits_into_the_window(width: str, scheme: str, shown: Shown, made_networks: dict[str, list[str]]) -> None:
    tab, (config, orgs) = shown.tab, made_networks["split"]
    tab.show(shown.page, WIDTHS[width], scheme)
    shown.fits("at first")
    shown.picture("first")
    tab.give("orgs", orgs)
    tab.give("config", config)
    silent, lying = (it["id"] for it in json.loads(held(orgs))[:2])
    tab.choose("blocks", set=[silent], faulty=[lying])
    tab.ask()
    shown.picture("answered")
    tab.js("document.querySelectorAll('details').forEach(it => it.open = true)")
    shown.fits("unfolded")
    shown.picture("unfolded")


@pytest.mark.browser
def test_a_whole_question_by_keys_alone(shown: Shown) -> None:
    """A whole question by keys alone: the example, who lies, the answer, its certificate."""
    tab = shown.tab
    tab.show(shown.page)

    def focus() -> str:
        return tab.js(
            "document.activeElement.id || document.activeElement.tagName.toLowerCase() + ':' +"
            " document.activeElement.textContent.slice(0, 30)"
        )

    order = []
    tab.call("Page.bringToFront")
    for _ in range(6):
        tab.key("Tab", 9)
        order.append(focus())
    assert order[1:5] == ["config", "orgs", "cert", "example"] and order[0].startswith("a:Skip"), (
        "keys: files first",
        order,
    )
    tab.js("$('example').focus()")
    tab.key("Enter", 13, "\r")
    tab.wait("document.body.dataset.answers === '1' && " + SHOWN)
    tab.js("$('question').value = 'intersect'; $('question').dispatchEvent(new Event('change'))")
    tab.key("Tab", 9)
    assert focus() == "question", "keys: then the question"
    tab.key("Tab", 9)
    tab.key("Enter", 13, "\r")
    assert tab.js("$('faulty').querySelector('details').open"), ("keys: the list opens", focus())
    tab.key("Tab", 9)
    tab.call("Input.insertText", text="alder")
    tab.key("Tab", 9)
    tab.key(" ", 32, " ")
    assert tab.js("[...lying.orgs].join()") == "alder", ("keys: an organisation is chosen", focus())
    for _ in range(30):
        if focus() == "ask":
            break
        tab.key("Tab", 9)
    tab.key("Enter", 13, "\r")
    tab.wait("document.body.dataset.answers === '2' && " + SHOWN)
    assert tab.head() == "It can fork.", "keys: the answer"
    ring = tab.js("(() => { $('ask').focus(); return getComputedStyle($('ask'), null).outlineStyle; })()")
    assert ring != "none", ("keys: the focus is seen", ring)
    for _ in range(30):
        if focus().startswith("a:Save"):
            break
        tab.key("Tab", 9)
    assert focus().startswith("a:Save the certificate"), ("keys: the certificate is reached", focus())


@pytest.mark.browser
def test_what_a_screen_reader_has(shown: Shown) -> None:
    """What a screen reader has: each control with a name, headings in order, landmarks, and answers that are
    said."""
    tab = shown.tab
    tab.show(shown.page)
    tab.js("$('example').click()")
    tab.wait("document.body.dataset.answers === '1' && " + SHOWN)
    tab.choose("blocks", set=["beech"], faulty=["GAAA1"])
    tab.ask()
    tab.js("document.querySelectorAll('details').forEach(it => it.open = true)")
    nodes = [it for it in tab.call("Accessibility.getFullAXTree")["nodes"] if not it.get("ignored")]

    def role(it: dict[str, Any]) -> Any:
        return it.get("role", {}).get("value")

    def name(it: dict[str, Any]) -> str:
        return it.get("name", {}).get("value", "")

    controls = {
        "button",
        "link",
        "textbox",
        "searchbox",
        "combobox",
        "checkbox",
        "radio",
        "spinbutton",
        "progressbar",
        "DisclosureTriangle",
    }
    nameless = [role(it) for it in nodes if role(it) in controls and not name(it).strip()]
    assert not nameless, "heard: each control has a name"
    roles = {role(it) for it in nodes}
    assert {"main", "contentinfo", "region", "status"} <= roles or {
        "main",
        "region",
        "status",
    } <= roles, "heard: landmarks"
    levels = tab.js(
        "[...document.querySelectorAll('h1,h2,h3')].filter(it => it.getClientRects().length).map(it =>"
        " Number(it.tagName[1]))"
    )
    assert levels[0] == 1 and all(b - a <= 1 for a, b in zip(levels, levels[1:])), ("heard: headings in order", levels)
    assert tab.js("$('status').textContent") == "Answered: " + tab.head(), "heard: the answer is said"
    said = tab.js("[...document.querySelectorAll('#drawing li')].map(it => it.textContent).join('; ')")
    assert "gaaa1: lies" in said and "gbbb1: is silent" in said and "in the greatest quorum" in said, (
        "heard: the picture in words",
        said[:300],
    )
    assert tab.js("document.documentElement.lang") == "en", "heard: the language"


@pytest.mark.browser
def test_a_large_network_is_answered_soon(shown: Shown, request: pytest.FixtureRequest) -> None:
    """And the made-up one of 100 organisations, on a page just opened. Of three times the least counts: other work on
    the machine only adds to it."""
    config = os.path.join(request.config.getoption("--data", None) or "", "network-large.json")
    if not os.path.exists(config):
        pytest.skip("there is no network-large.json in the folder of --data")
    took: dict[str, list[float]] = {"intersect": [], "greatest": [], "blocks": [], "trial": []}
    for _ in range(3):
        shown.tab.show(shown.page)
        shown.tab.give("config", config)
        one = shown.tab.js("network.keys[0]")
        fields: dict[str, dict[str, Any]] = {"blocks": {"set": [one]}, "trial": {"organisations": "100"}}
        for question, times in took.items():
            shown.tab.choose(question, **fields.get(question, {}))
            began = time.monotonic()
            shown.tab.ask()
            times.append(time.monotonic() - began)
    late = {it: times for it, times in took.items() if min(times) >= (2 if it == "trial" else 1)}
    with open("/proc/loadavg") as it:
        assert late == {}, f"at a load of {it.read().split()[0]}"
