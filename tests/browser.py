"""A headless Chromium, spoken to over a pipe in the Chrome DevTools Protocol, and pictures of its pages.

`Browser()` raises `NoBrowser` where there is none. Its profile is a temporary folder; `end` ends it.
"""
import base64
import fcntl
import json
import os
import select
import shutil
import subprocess
import sys
import tempfile
import time
import zlib


# Makes a page's clock go on by so many seconds with each timer that it sets, and not otherwise.
STEPS = """(() => {
  let moment = 0;
  const later = setTimeout;
  performance.now = () => moment;
  window.setTimeout = (call) => { moment += %(step)s * 1000; return later(call, 5); };
})();"""


# Becomes the program that the third argument names, with the descriptors of the first two as 3 and 4 (sh knows none above 9).
LAUNCH = "import os, sys; os.dup2(int(sys.argv[1]), 3); os.dup2(int(sys.argv[2]), 4); os.execv(sys.argv[3], sys.argv[3:])"


class NoBrowser(Exception):
    """There is no Chromium here."""


class Browser:
    def __init__(self):
        program = next(filter(None, map(shutil.which, ("chromium", "chromium-browser", "google-chrome"))), None)
        if program is None:
            raise NoBrowser("Chromium is not installed")
        self.folder = tempfile.TemporaryDirectory(prefix="browser-", ignore_cleanup_errors=True)
        self.number, self.events, self.rest = 0, [], b""
        ours, theirs = os.pipe(), os.pipe()
        self.input, self.output = ours[1], theirs[0]
        words = [program, "--headless=new", "--no-sandbox", "--disable-gpu", "--disable-dev-shm-usage", "--no-first-run", "--disable-extensions",
                 "--disable-background-networking", "--disable-component-update", "--no-default-browser-check", "--mute-audio", "--no-proxy-server",
                 f"--user-data-dir={self.folder.name}", "--remote-debugging-pipe", "about:blank"]
        environment = {**os.environ, "HOME": self.folder.name}
        # The browser reads from descriptor 3 and writes to 4; ends above them are not overwritten by one another.
        ends = [fcntl.fcntl(it, fcntl.F_DUPFD_CLOEXEC, 10) for it in (ours[0], theirs[1])]
        self.process = subprocess.Popen([sys.executable, "-c", LAUNCH, *map(str, ends), *words], stdin=subprocess.DEVNULL,
                                        stdout=subprocess.DEVNULL, stderr=subprocess.DEVNULL, pass_fds=ends, env=environment)
        for it in ends:
            os.close(it)
        os.close(ours[0])
        os.close(theirs[1])

    def end(self):
        try:
            self.call("Browser.close")
        except (OSError, RuntimeError):
            pass
        try:
            self.process.wait(20)
        except subprocess.TimeoutExpired:
            self.process.kill()
            self.process.wait()
        os.close(self.input)
        os.close(self.output)
        self.folder.cleanup()

    def message(self, seconds):
        """The next message, or None after so many seconds."""
        until = time.monotonic() + seconds
        while b"\0" not in self.rest:
            left = until - time.monotonic()
            if left <= 0 or not select.select([self.output], [], [], left)[0]:
                return None
            piece = os.read(self.output, 1 << 20)
            if not piece:
                raise RuntimeError("the browser has ended")
            self.rest += piece
        one, _, self.rest = self.rest.partition(b"\0")
        return json.loads(one)

    def call(self, method, session=None, seconds=60, **given):
        """Calls a method. Returns its result; events that come meanwhile are kept in `events`."""
        self.number += 1
        whole = {"id": self.number, "method": method, "params": given, **({"sessionId": session} if session else {})}
        os.write(self.input, json.dumps(whole).encode() + b"\0")
        until = time.monotonic() + seconds
        while (it := self.message(max(0, until - time.monotonic()))) is not None:
            if it.get("id") == self.number:
                if "error" in it:
                    raise RuntimeError(f"{method}: {it['error']}")
                return it["result"]
            if "method" in it:
                self.events.append(it)
        raise RuntimeError(f"{method}: no answer within {seconds} s")

    def open(self, url, width=1280, height=900, step=None, **features):
        return Page(self, url, width, height, step, features)


class Page:
    """A page in a window of its own size; `features` are media features, as prefers_color_scheme='dark'. where `step` is
    set, so many seconds of its clock go by with each timer that it sets."""

    def __init__(self, browser, url, width, height, step, features):
        self.browser = browser
        target = browser.call("Target.createTarget", url="about:blank")["targetId"]
        self.target, self.session = target, browser.call("Target.attachToTarget", targetId=target, flatten=True)["sessionId"]
        for area in ("Page", "Runtime", "Log", "Network"):
            self.call(f"{area}.enable")
        self.show(width, height, **features)
        if step:
            self.call("Page.addScriptToEvaluateOnNewDocument", source=STEPS % {"step": step})
        self.call("Page.navigate", url=url)
        if not self.until("location.href !== 'about:blank' && document.readyState === 'complete'", 60):
            raise RuntimeError(f"{url}: not loaded")

    def call(self, method, **given):
        return self.browser.call(method, self.session, **given)

    def show(self, width, height, **features):
        """Gives the window another size and other media features."""
        self.call("Emulation.setDeviceMetricsOverride", width=width, height=height, deviceScaleFactor=1, mobile=width < 600)
        self.call("Emulation.setEmulatedMedia", features=[{"name": key.replace("_", "-"), "value": it} for key, it in features.items()])

    def close(self):
        self.browser.call("Target.closeTarget", targetId=self.target)

    def value(self, expression):
        """The value of an expression in the page; a promise is waited for."""
        made = self.call("Runtime.evaluate", expression=expression, returnByValue=True, awaitPromise=True)
        if "exceptionDetails" in made:
            raise RuntimeError(f"{expression}: {made['exceptionDetails']}")
        return made["result"].get("value")

    def until(self, expression, seconds=20):
        """Waits until an expression is true. Returns whether it became so."""
        began = time.monotonic()
        while not self.value(expression):
            if time.monotonic() - began > seconds:
                return False
            time.sleep(0.1)
        return True

    def said(self):
        """What the page's console, its exceptions and the browser's log have said of it."""
        self.value("0")
        own = [it for it in self.browser.events if it.get("sessionId") == self.session]
        lines = [f"{it['params']['type']}: {[one.get('value', one.get('description')) for one in it['params']['args']]}" for it in own if it["method"] == "Runtime.consoleAPICalled"]
        lines += [f"exception: {it['params']['exceptionDetails']}" for it in own if it["method"] == "Runtime.exceptionThrown"]
        return lines + [f"{it['params']['entry']['level']}: {it['params']['entry']['text']} {it['params']['entry'].get('url', '')}" for it in own if it["method"] == "Log.entryAdded"]

    def policy(self):
        """The Content-Security-Policy that the document was answered with."""
        answers = [it["params"]["response"] for it in self.browser.events if it.get("sessionId") == self.session and it["method"] == "Network.responseReceived" and it["params"]["type"] == "Document"]
        fields = {key.lower(): it for key, it in answers[-1]["headers"].items()} if answers else {}
        return fields.get("content-security-policy")

    def picture(self, whole=False):
        """A picture as a PNG, of the window or of the whole page."""
        return base64.b64decode(self.call("Page.captureScreenshot", format="png", captureBeyondViewport=whole)["data"])


def lines_of(png):
    """How many different lines of pixels a PNG has, as they are packed: an even picture has few."""
    place, packed, high, wide = 8, b"", 0, 0
    while place < len(png):
        length, kind = int.from_bytes(png[place:place + 4], "big"), png[place + 4:place + 8]
        content = png[place + 8:place + 8 + length]
        if kind == b"IHDR":
            wide, high = int.from_bytes(content[:4], "big"), int.from_bytes(content[4:8], "big")
        if kind == b"IDAT":
            packed += content
        place += 12 + length
    pixels = zlib.decompress(packed)
    step = len(pixels) // high
    return len({pixels[n * step + 1:(n + 1) * step] for n in range(high)}) if wide else 0
