"""A browser without a window, Chromium, that is told what to do over two pipes (Chrome DevTools Protocol)."""

import base64
import fcntl
import json
import os
import select
import shutil
import subprocess
import time

NAMES = ("chromium", "chromium-browser", "google-chrome", "google-chrome-stable")
# It shows pages alike everywhere, asks nobody for anything, and runs as any user.
OPTIONS = """--headless=new --no-sandbox --disable-gpu --disable-dev-shm-usage --no-first-run --hide-scrollbars
--disable-background-networking --disable-component-update --force-color-profile=srgb --font-render-hinting=none
--remote-debugging-pipe""".split()
# seconds that a command may take
MOST = 120


def found():
    """The path of a browser, if there is one."""
    return next(filter(None, map(shutil.which, NAMES)), None)


def high(end):
    """The same end of a pipe by a number that is neither 3 nor 4: the browser has its own ends there."""
    other = fcntl.fcntl(end, fcntl.F_DUPFD, 10)
    os.close(end)
    return other


class Browser:
    """A browser with one page, in a folder of its own. It loads nothing from the network by itself."""

    def __init__(self, path, room):
        (theirs, self.told), (self.heard, their_end) = os.pipe(), os.pipe()
        theirs, their_end = high(theirs), high(their_end)
        words = [path, *OPTIONS, f"--user-data-dir={room}/profile", "about:blank"]
        script = 'exec 3<&"$1" 4>&"$2"; shift 2; exec "$@"'
        ends = dict(stdin=subprocess.DEVNULL, stdout=subprocess.DEVNULL, stderr=subprocess.DEVNULL)
        pipes = [str(theirs), str(their_end)]
        words = ["bash", "-c", script, "bash", *pipes, *words]
        self.process = subprocess.Popen(words, pass_fds=(theirs, their_end), **ends)
        os.close(theirs)
        os.close(their_end)
        self.number, self.rest, self.events, self.session = 0, b"", [], None
        page = next(it for it in self.do("Target.getTargets")["targetInfos"] if it["type"] == "page")
        self.session = self.do("Target.attachToTarget", targetId=page["targetId"], flatten=True)["sessionId"]
        for part in ("Page", "Runtime", "Network", "Log", "Accessibility", "Performance"):
            self.do(part + ".enable")

    def __enter__(self):
        return self

    def __exit__(self, *_):
        self.session = None
        try:
            self.do("Browser.close")
            self.process.wait(MOST)
        except (OSError, EOFError, ValueError, subprocess.TimeoutExpired):
            self.process.kill()
            self.process.wait()
        os.close(self.told)
        os.close(self.heard)

    def message(self, until):
        """The next message from the browser."""
        while b"\0" not in self.rest:
            if not select.select([self.heard], [], [], max(0, until - time.monotonic()))[0]:
                raise TimeoutError("the browser says nothing")
            more = os.read(self.heard, 1 << 20)
            if not more:
                raise EOFError("the browser ended")
            self.rest += more
        said, self.rest = self.rest.split(b"\0", 1)
        return json.loads(said)

    def do(self, method, **given):
        """What the browser answers to a command. What happens meanwhile is kept in `events`."""
        self.number += 1
        said = {"id": self.number, "method": method, "params": given}
        if self.session:
            said["sessionId"] = self.session
        octets = json.dumps(said).encode() + b"\0"
        while octets:
            octets = octets[os.write(self.told, octets) :]
        until = time.monotonic() + MOST
        while True:
            said = self.message(until)
            if said.get("id") == self.number:
                if "error" in said:
                    raise ValueError(f"{method}: {said['error']}")
                return said["result"]
            self.events.append(said)

    def wait(self, method):
        """Waits until something happened; what happened before counts."""
        until = time.monotonic() + MOST
        while not any(it.get("method") == method for it in self.events):
            self.events.append(self.message(until))

    def open(self, path):
        """Opens a file, and tells in how many seconds it is shown."""
        self.events = []
        begun = time.monotonic()
        self.do("Page.navigate", url=f"file://{path}")
        self.wait("Page.loadEventFired")
        self.value("new Promise(done => requestAnimationFrame(() => requestAnimationFrame(() => done(0))))")
        return time.monotonic() - begun

    def spent(self):
        """How many seconds of the processor the page's own process has used."""
        said = self.do("Performance.getMetrics")["metrics"]
        return next(it["value"] for it in said if it["name"] == "ProcessTime")

    def value(self, code):
        """The value of an expression in the page."""
        said = self.do("Runtime.evaluate", expression=code, returnByValue=True, awaitPromise=True)
        if "exceptionDetails" in said:
            raise ValueError(f"{code}: {said['exceptionDetails']}")
        return said["result"].get("value")

    def form(self, width, height, scheme="light", media="screen"):
        """Shows the page in a window of this size, in light or dark, on a screen or on paper."""
        size = dict(width=width, height=height, deviceScaleFactor=1, mobile=width < 600)
        self.do("Emulation.setDeviceMetricsOverride", **size)
        self.do("Emulation.setEmulatedMedia", media=media, features=[{"name": "prefers-color-scheme", "value": scheme}])

    def picture(self, path):
        """Keeps what the window shows as a picture."""
        octets = base64.b64decode(self.do("Page.captureScreenshot", format="png", optimizeForSpeed=False)["data"])
        with open(path, "wb") as file:
            file.write(octets)

    def paper(self, path):
        """Prints the page on sheets, and tells how many octets that has."""
        octets = base64.b64decode(self.do("Page.printToPDF", printBackground=False)["data"])
        with open(path, "wb") as file:
            file.write(octets)
        return octets

    def roles(self):
        """The parts of the page that a screen reader is told of, in order: of each the role and the name."""
        nodes = self.do("Accessibility.getFullAXTree")["nodes"]
        by_id = {it["nodeId"]: it for it in nodes}
        out = []

        def walk(node, depth):
            if not node.get("ignored"):
                out.append((depth, node["role"]["value"], node.get("name", {}).get("value", "")))
            for child in node.get("childIds", []):
                if child in by_id:
                    walk(by_id[child], depth + (not node.get("ignored")))

        walk(nodes[0], 0)
        return out

    def loaded(self):
        """The addresses that the page asked for."""
        return [it["params"]["request"]["url"] for it in self.events if it.get("method") == "Network.requestWillBeSent"]
