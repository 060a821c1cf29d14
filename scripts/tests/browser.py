"""Drives a headless Chromium by its debugging protocol, over two pipes."""

import base64
import json
import os
import select
import shutil
import subprocess
import time

from mte_scripts import private_folder

NAMES = ("chromium", "chromium-browser", "google-chrome")


def browser():
    """The path of a Chromium, or None."""
    return next(filter(None, map(shutil.which, NAMES)), None)


class BrowserError(Exception):
    """What the browser or the page says has failed."""


class Page:
    """A page in a browser of its own, in a window of this size."""

    def __init__(self, url, width=1100, height=900, dark=False, seconds=60):
        self.folder = private_folder.temporary_folder()
        self.deadline = time.monotonic() + seconds
        down, self.down = os.pipe()
        self.up, up = os.pipe()
        words = [browser(), "--headless=new", "--no-sandbox", "--disable-gpu", "--hide-scrollbars", "--remote-debugging-pipe",
                 f"--user-data-dir={self.folder.path}", f"--window-size={width},{height}", "about:blank"]  # fmt: skip
        # Chromium reads its commands from 3, and answers on 4; sh of Debian knows no descriptors of two digits
        words = ["bash", "-c", f'exec "$@" 3<&{down} 4>&{up}', "bash", *words]
        quiet = {"stdin": subprocess.DEVNULL, "stdout": subprocess.DEVNULL, "stderr": subprocess.DEVNULL}
        self.process = subprocess.Popen(words, pass_fds=(down, up), **quiet)
        os.close(down)
        os.close(up)
        self.number, self.session, self.rest, self.errors = 0, None, b"", []
        try:
            target = self.send("Target.createTarget", url="about:blank")["targetId"]
            self.session = self.send("Target.attachToTarget", targetId=target, flatten=True)["sessionId"]
            self.send("Runtime.enable")
            self.send("Page.enable")
            self.resize(width, height)
            self.theme(dark)
            self.send("Page.navigate", url=url)
        except BrowserError:
            self.close()
            raise

    def __enter__(self):
        return self

    def __exit__(self, *_):
        self.close()

    def close(self):
        self.process.kill()
        self.process.wait()
        os.close(self.down)
        os.close(self.up)
        self.folder.close()

    def message(self):
        while b"\0" not in self.rest:
            left = self.deadline - time.monotonic()
            if left <= 0 or not select.select([self.up], [], [], left)[0]:
                raise BrowserError("the browser does not answer")
            piece = os.read(self.up, 1 << 20)
            if not piece:
                raise BrowserError("the browser ended")
            self.rest += piece
        text, _, self.rest = self.rest.partition(b"\0")
        return json.loads(text)

    def send(self, method, **words):
        """Calls a method of the protocol, and returns its result. What the page throws meanwhile is kept in `errors`."""
        self.number += 1
        call = {"id": self.number, "method": method, "params": words}
        if self.session:
            call["sessionId"] = self.session
        data = json.dumps(call).encode() + b"\0"
        while data:
            data = data[os.write(self.down, data) :]
        while True:
            told = self.message()
            if told.get("method") == "Runtime.exceptionThrown":
                self.errors.append(json.dumps(told["params"]["exceptionDetails"])[:500])
            if told.get("id") == self.number:
                if "error" in told:
                    raise BrowserError(f"{method}: {told['error']['message']}")
                return told["result"]

    def value(self, expression):
        """The value of an expression in the page; a promise is awaited."""
        told = self.send("Runtime.evaluate", expression=expression, awaitPromise=True, returnByValue=True)
        if "exceptionDetails" in told:
            raise BrowserError(f"{expression[:80]}: {told['exceptionDetails'].get('exception', {}).get('description')}")
        return told["result"].get("value")

    def until(self, expression):
        """Waits until an expression holds."""
        while not self.value(expression):
            if time.monotonic() > self.deadline:
                raise BrowserError(f"it never holds that {expression[:200]}")
            time.sleep(0.05)

    def key(self, key):
        for kind in ("keyDown", "keyUp"):
            text = {"text": key} if len(key) == 1 and kind == "keyDown" else {}
            self.send("Input.dispatchKeyEvent", type=kind, key=key, code=key, **text)

    def click(self, selector):
        self.value(f"document.querySelector({json.dumps(selector)}).click()")

    def choose_file(self, selector, path):
        """Puts a file into an element that chooses one."""
        root = self.send("DOM.getDocument")["root"]["nodeId"]
        node = self.send("DOM.querySelector", nodeId=root, selector=selector)["nodeId"]
        self.send("DOM.setFileInputFiles", nodeId=node, files=[path])

    def drop_file(self, path, x=200, y=200):
        """Drags a file from outside to a place of the page, and lets it go."""
        data = {"items": [], "files": [path], "dragOperationsMask": 1}
        for kind in ("dragEnter", "dragOver", "drop"):
            self.send("Input.dispatchDragEvent", type=kind, x=x, y=y, data=data)

    def resize(self, width, height):
        self.send("Emulation.setDeviceMetricsOverride", width=width, height=height, deviceScaleFactor=1, mobile=False)

    def theme(self, dark):
        feature = {"name": "prefers-color-scheme", "value": "dark" if dark else "light"}
        self.send("Emulation.setEmulatedMedia", features=[feature])

    def picture(self, path, whole=False):
        """A picture of the window, or of the whole page, as PNG."""
        words = {"captureBeyondViewport": True} if whole else {}
        data = self.send("Page.captureScreenshot", **words)["data"]
        with open(path, "wb") as file:
            file.write(base64.b64decode(data))
