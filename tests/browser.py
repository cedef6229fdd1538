"""Chromium, as the tests drive it, and what they measure in a page."""

from __future__ import annotations

import base64
import json
import os
import re
import subprocess
from typing import Any

# What is wider than the window, which labels overlap, and in how many columns the picture stands.
MEASURES = """(() => {
  const out = [...document.querySelectorAll('main *')].filter(it =>
    !it.closest('.hidden') && it.getClientRects().length && it.getBoundingClientRect().right > innerWidth + 1);
  const labels = [...document.querySelectorAll('.org li')].map(it => it.getBoundingClientRect());
  let over = 0;
  for (let i = 0; i < labels.length; i++) for (let j = 0; j < i; j++) {
    const a = labels[i], b = labels[j];
    const across = Math.min(a.right, b.right) - Math.max(a.left, b.left);
    if (across > 1 && Math.min(a.bottom, b.bottom) - Math.max(a.top, b.top) > 1) over++;
  }
  const wide = [...document.querySelectorAll('.org li')].filter(it => it.scrollWidth > it.clientWidth + 1).length;
  const boxes = [...document.querySelectorAll('.orgs .org')].map(it => it.getBoundingClientRect());
  const lefts = new Set(boxes.map(it => Math.round(it.left)));
  const first = out.slice(0, 5).map(it => it.tagName + ' ' + it.textContent.slice(0, 40));
  return JSON.stringify({out: first, over, wide, columns: lefts.size, high: document.documentElement.scrollHeight});
})()"""

# The least contrast of a text with the ground below it, by the WCAG's formula.
CONTRAST = """(() => {
  const parts = it => it.match(/[\\d.]+/g).map(Number);
  const linear = v => { v /= 255; return v <= .03928 ? v / 12.92 : ((v + .055) / 1.055) ** 2.4; };
  const light = c => { const [r, g, b] = c.slice(0, 3).map(linear); return .2126 * r + .7152 * g + .0722 * b; };
  const ground = it => {
    for (; it; it = it.parentElement) {
      const c = parts(getComputedStyle(it).backgroundColor);
      if (c.length < 4 || c[3] > 0) return c;
    }
    return [255, 255, 255];
  };
  const says = it => [...it.childNodes].some(n => n.nodeType === 3 && n.textContent.trim());
  let least = [99, ''];
  for (const it of document.querySelectorAll('main *')) {
    if (!it.getClientRects().length || it.closest('.hidden') || !says(it)) continue;
    const a = light(parts(getComputedStyle(it).color)), b = light(ground(it));
    const ratio = (Math.max(a, b) + .05) / (Math.min(a, b) + .05);
    if (ratio < least[0]) least = [ratio, it.className + ': ' + it.textContent.slice(0, 40)];
  }
  return JSON.stringify(least);
})()"""


class Browser:
    """Chromium, told over a pipe what to do."""

    def __init__(self, path: str, folder: str) -> None:
        to_read, self.to = os.pipe()
        self.of, from_write = os.pipe()
        words = [
            path,
            "--headless=new",
            "--no-sandbox",
            "--disable-gpu",
            "--disable-dev-shm-usage",
            "--hide-scrollbars",
            "--remote-debugging-pipe",
            "--user-data-dir=" + folder,
            "about:blank",
        ]

        def opened() -> None:
            for of, to in ((to_read, 103), (from_write, 104), (103, 3), (104, 4)):
                os.dup2(of, to)

        self.process = subprocess.Popen(
            words,
            preexec_fn=opened,
            close_fds=False,
            stdin=subprocess.DEVNULL,
            stdout=subprocess.DEVNULL,
            stderr=subprocess.DEVNULL,
        )
        os.close(to_read)
        os.close(from_write)
        self.last = 0
        self.left = b""
        self.session: str | None = None
        target = self.call("Target.createTarget", url="about:blank")["targetId"]
        self.session = self.call("Target.attachToTarget", targetId=target, flatten=True)["sessionId"]
        self.call("Page.enable")

    def heard(self) -> dict[str, Any]:
        """The next message."""
        while b"\0" not in self.left:
            more = os.read(self.of, 1 << 20)
            if not more:
                raise OSError("Chromium ended")
            self.left += more
        text, self.left = self.left.split(b"\0", 1)
        message: dict[str, Any] = json.loads(text)
        return message

    def call(self, method: str, **given: Any) -> dict[str, Any]:
        self.last += 1
        asked: dict[str, Any] = {"id": self.last, "method": method, "params": given}
        if self.session is not None:
            asked["sessionId"] = self.session
        os.write(self.to, json.dumps(asked).encode() + b"\0")
        while True:
            heard = self.heard()
            if heard.get("id") == self.last:
                if "error" in heard:
                    raise OSError("%s: %s" % (method, heard["error"]))
                return heard["result"]

    def open(self, path: str, width: int, scheme: str) -> None:
        self.call(
            "Emulation.setDeviceMetricsOverride", width=width, height=900, deviceScaleFactor=1, mobile=width < 500
        )
        self.call("Emulation.setEmulatedMedia", features=[{"name": "prefers-color-scheme", "value": scheme}])
        self.call("Page.navigate", url="file://" + path)
        while self.heard().get("method") != "Page.loadEventFired":
            pass

    def told(self, script: str) -> Any:
        return json.loads(self.call("Runtime.evaluate", expression=script)["result"]["value"])

    def picture(self, path: str, high: int) -> None:
        area = {"x": 0, "y": 0, "width": self.told("innerWidth.toString()"), "height": high, "scale": 1}
        self.kept(
            path, self.call("Page.captureScreenshot", format="png", captureBeyondViewport=True, clip=area)["data"]
        )

    def printed(self, path: str) -> int:
        """The sheets of the page on A4."""
        data = self.call(
            "Page.printToPDF",
            printBackground=False,
            paperWidth=8.27,
            paperHeight=11.69,
            marginTop=0.4,
            marginBottom=0.4,
            marginLeft=0.4,
            marginRight=0.4,
        )["data"]
        return len(re.findall(rb"/Type\s*/Page\b", self.kept(path, data)))

    @staticmethod
    def kept(path: str, data: str) -> bytes:
        held = base64.b64decode(data)
        with open(path, "wb") as it:
            it.write(held)
        return held

    def end(self) -> None:
        self.session = None
        self.call("Browser.close")
        self.process.wait(60)
