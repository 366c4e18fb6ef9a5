"""A browser without a window, in which tests open pages and ask what these hold, where Chromium is there.

Test and browser send each other messages of the DevTools protocol through pipes: JSON, each ended by a byte 0.
"""

import json
import os
import select
import shutil
import subprocess

BROWSERS = ("chromium", "chromium-browser", "google-chrome", "chrome")
# A browser takes messages from its stream 3, and answers on 4.
STARTS = 'exec "$@" 3<&0 4>&1 </dev/null >/dev/null 2>&1'
FLAGS = ("--headless", "--no-sandbox", "--disable-gpu", "--no-first-run", "--remote-debugging-pipe")
WIDE, NARROW = (2000, 1000), (400, 800)
MOST_SECONDS = 120
LOADED = 'new Promise((done) => document.readyState === "complete" ? done(true) : addEventListener("load", () => done(true)))'


def browser_here():
    """The path of a browser, or None."""
    return next(filter(None, map(shutil.which, BROWSERS)), None)


class Browser:
    """Runs until its block ends, with its files in a folder."""

    def __init__(self, path, folder):
        self.path, self.folder = path, folder
        self.sent, self.heard, self.opened, self.session = 0, b"", 0, None

    def __enter__(self):
        words = ["sh", "-c", STARTS, "sh", self.path, *FLAGS, f"--user-data-dir={self.folder}/browser", "about:blank"]
        self.ran = subprocess.Popen(words, stdin=subprocess.PIPE, stdout=subprocess.PIPE)
        target = self.ask("Target.createTarget", url="about:blank")["targetId"]
        self.session = self.ask("Target.attachToTarget", targetId=target, flatten=True)["sessionId"]
        return self

    def __exit__(self, *_):
        self.ran.kill()
        self.ran.communicate()

    def hear(self):
        """The next message of the browser."""
        while b"\0" not in self.heard:
            if not select.select([self.ran.stdout], [], [], MOST_SECONDS)[0]:
                raise TimeoutError("the browser says nothing")
            some = os.read(self.ran.stdout.fileno(), 2**20)
            if not some:
                raise EOFError("the browser has ended")
            self.heard += some
        message, _, self.heard = self.heard.partition(b"\0")
        return json.loads(message)

    def ask(self, method, **given):
        """Calls a method of the protocol, and waits for its result."""
        self.sent += 1
        message = {"id": self.sent, "method": method, "params": given}
        if self.session:
            message["sessionId"] = self.session
        self.ran.stdin.write(json.dumps(message).encode() + b"\0")
        self.ran.stdin.flush()
        while (told := self.hear()).get("id") != self.sent:
            pass
        if "error" in told:
            raise OSError(f"{method}: {told['error']}")
        return told["result"]

    def resize(self, size):
        self.ask("Emulation.setDeviceMetricsOverride", width=size[0], height=size[1], deviceScaleFactor=1, mobile=False)

    def open(self, page, hash_="", size=WIDE, scheme="light"):
        """Opens a page, with what stands after its address, in a window of a size, for a reader who prefers light colors or dark ones."""
        self.opened += 1
        file = f"{self.folder}/page{self.opened}.html"
        with open(file, "wb") as it:
            it.write(page)
        self.resize(size)
        self.ask("Emulation.setEmulatedMedia", features=[{"name": "prefers-color-scheme", "value": scheme}])
        self.ask("Page.navigate", url=f"file://{file}{hash_}")
        loaded = self.tell(LOADED)
        os.remove(file)
        return loaded

    def tell(self, script):
        """What an expression is in the page, or what it throws."""
        told = self.ask("Runtime.evaluate", expression=script, returnByValue=True, awaitPromise=True)
        return told["exceptionDetails"] if "exceptionDetails" in told else told["result"].get("value")
