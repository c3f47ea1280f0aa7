"""A headless Chromium, driven by its DevTools protocol over a pair of pipes."""

import base64
import contextlib
import fcntl
import json
import os
import shutil
import signal
import subprocess
import tempfile
import time

NAMES = ("chromium", "chromium-browser", "google-chrome", "google-chrome-stable")
KEYS = {"Enter": {"key": "Enter", "code": "Enter", "windowsVirtualKeyCode": 13, "text": "\r"},
        " ": {"key": " ", "code": "Space", "windowsVirtualKeyCode": 32, "text": " "}}


def browser():
    """The program, or None where none is installed."""
    return next(filter(None, map(shutil.which, NAMES)), None)


class Page:
    """A page that is opened from a file. It notes what goes wrong, and which addresses are asked for."""

    def __init__(self, path):
        self.wrong, self.asked, self.number = [], [], 0
        self.room = tempfile.mkdtemp(prefix="page-")
        theirs_in, self.ours_out = os.pipe()
        self.ours_in, theirs_out = os.pipe()
        theirs = [fcntl.fcntl(it, fcntl.F_DUPFD, 20) for it in (theirs_in, theirs_out)]

        def place():
            os.dup2(theirs[0], 3)
            os.dup2(theirs[1], 4)

        words = [browser(), "--headless=new", "--no-sandbox", "--disable-gpu", "--no-first-run", "--remote-debugging-pipe", f"--user-data-dir={self.room}"]
        self.started = subprocess.Popen(words, preexec_fn=place, pass_fds=(3, 4), env={**os.environ, "TMPDIR": self.room}, start_new_session=True,
                                        stdin=subprocess.DEVNULL, stdout=subprocess.DEVNULL, stderr=subprocess.DEVNULL)
        for it in (theirs_in, theirs_out, *theirs):
            os.close(it)
        self.input, self.session = os.fdopen(self.ours_in, "rb"), None
        try:
            self.load(path)
        except BaseException:
            self.close()
            raise

    def load(self, path):
        """Opens the file in a page of its own, and waits until it is loaded."""
        target = self.call("Target.createTarget", url="about:blank")["targetId"]
        self.session = self.call("Target.attachToTarget", targetId=target, flatten=True)["sessionId"]
        for domain in ("Page", "Runtime", "Network", "Log"):
            self.call(f"{domain}.enable")
        self.loaded = False
        self.call("Page.navigate", url=f"file://{os.path.abspath(path)}")
        while not self.loaded:
            self.take()

    def take(self):
        """The next message; an event is noted."""
        text = bytearray()
        while (byte := self.input.read(1)) not in (b"\0", b""):
            text += byte
        if not text:
            raise EOFError("the browser has ended")
        message = json.loads(text)
        method, told = message.get("method"), message.get("params", {})
        if method == "Page.loadEventFired":
            self.loaded = True
        elif method == "Runtime.exceptionThrown":
            self.wrong.append(told["exceptionDetails"].get("exception", {}).get("description") or told["exceptionDetails"]["text"])
        elif method == "Network.requestWillBeSent":
            self.asked.append(told["request"]["url"])
        return message

    def call(self, method, **words):
        self.number += 1
        message = {"id": self.number, "method": method, "params": words, **({"sessionId": self.session} if self.session else {})}
        os.write(self.ours_out, json.dumps(message).encode() + b"\0")
        while (answer := self.take()).get("id") != self.number:
            pass
        if "error" in answer:
            raise RuntimeError(f"{method}: {answer['error']['message']}")
        return answer["result"]

    def value(self, expression):
        return self.call("Runtime.evaluate", expression=expression, returnByValue=True)["result"].get("value")

    def text(self, selector):
        return self.value(f"document.querySelector({json.dumps(selector)}).textContent")

    def press(self, key):
        how = KEYS.get(key, {"key": key, "text": key})
        self.call("Input.dispatchKeyEvent", type="keyDown", **how)
        self.call("Input.dispatchKeyEvent", type="keyUp", **{name: it for name, it in how.items() if name != "text"})

    def picture(self, path):
        with open(path, "wb") as file:
            file.write(base64.b64decode(self.call("Page.captureScreenshot")["data"]))

    def close(self):
        """Ends the browser with all its processes, and then takes its folder away."""
        with contextlib.suppress(ProcessLookupError):
            os.killpg(self.started.pid, signal.SIGKILL)
        self.started.wait()
        self.input.close()
        os.close(self.ours_out)
        for _ in range(20):
            shutil.rmtree(self.room, ignore_errors=True)
            if not os.path.exists(self.room):
                break
            time.sleep(0.1)
