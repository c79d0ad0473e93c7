"""A headless Chromium that a script steers, by the messages of its developer tools over a pair of pipes."""
import base64
import json
import os
import select
import shutil
import subprocess
import tempfile
import time

NAMES = ["chromium", "chromium-browser", "google-chrome", "google-chrome-stable"]
SECONDS = 60


def find():
    """The path of a browser; none if there is none."""
    return next(filter(None, map(shutil.which, NAMES)), None)


class Browser:
    """One page in a browser."""

    def __init__(self, path):
        self.room = tempfile.TemporaryDirectory()
        ours, theirs = os.pipe(), os.pipe()  # what it reads, and what it writes
        command = [path, "--headless", "--no-sandbox", "--disable-gpu", "--no-first-run", "--window-size=1400,900",
                   f"--user-data-dir={self.room.name}", "--remote-debugging-pipe", "about:blank"]
        self.process = subprocess.Popen(
            ["bash", "-c", f'exec "$@" 3<&{ours[0]} 4>&{theirs[1]}', "bash", *command], pass_fds=[ours[0], theirs[1]],
            stdin=subprocess.DEVNULL, stdout=subprocess.DEVNULL, stderr=subprocess.DEVNULL)
        os.close(ours[0])
        os.close(theirs[1])
        self.writing, self.reading, self.left, self.number, self.session = ours[1], theirs[0], b"", 0, None
        self.errors = []
        target = self.ask("Target.createTarget", url="about:blank")["targetId"]
        self.session = self.ask("Target.attachToTarget", targetId=target, flatten=True)["sessionId"]
        for part in ["Page", "Runtime", "Log", "Network"]:
            self.ask(f"{part}.enable")

    def ask(self, method, **words):
        """The answer to one message."""
        self.number += 1
        message = {"id": self.number, "method": method, "params": words}
        if self.session:
            message["sessionId"] = self.session
        os.write(self.writing, json.dumps(message).encode() + b"\0")
        while True:
            answer = self.read()
            if answer.get("id") == self.number:
                if "error" in answer:
                    raise RuntimeError(f"{method}: {answer['error']}")
                return answer["result"]

    def read(self):
        """The next message. Faults of the page, and what it asks of a network, are kept in `errors`."""
        end = time.monotonic() + SECONDS
        while b"\0" not in self.left:
            if not select.select([self.reading], [], [], max(0, end - time.monotonic()))[0]:
                raise TimeoutError("the browser says nothing")
            got = os.read(self.reading, 1 << 20)
            if not got:
                raise EOFError("the browser has ended")
            self.left += got
        text, _, self.left = self.left.partition(b"\0")
        message = json.loads(text)
        if message.get("method") in ("Runtime.exceptionThrown", "Log.entryAdded"):
            self.errors.append(json.dumps(message["params"])[:500])
        url = message.get("params", {}).get("request", {}).get("url", "file:")
        if not url.startswith(("file:", "data:")):
            self.errors.append(url)
        return message

    def load(self, path):
        self.ask("Page.navigate", url=f"file://{path}")
        self.wait("document.readyState === 'complete' && location.href !== 'about:blank'")

    def value(self, script):
        """The value of an expression in the page."""
        found = self.ask("Runtime.evaluate", expression=script, returnByValue=True, awaitPromise=True)
        if "exceptionDetails" in found:
            raise RuntimeError(f"{script}: {found['exceptionDetails']}")
        return found["result"].get("value")

    def wait(self, script):
        end = time.monotonic() + SECONDS
        while not self.value(script):
            if time.monotonic() > end:
                raise TimeoutError(script)
            time.sleep(0.02)

    def click(self, selector, across=0.5):
        """Presses the mouse at an element, so far across it."""
        box = self.value(f"(() => {{ const it = document.querySelector({json.dumps(selector)});"
                         " it.scrollIntoView({block: 'center', inline: 'center'});"
                         " const box = it.getBoundingClientRect();"
                         f" return [box.x + box.width * {across}, box.y + box.height / 2]; }})()")
        for kind in ["mousePressed", "mouseReleased"]:
            self.ask("Input.dispatchMouseEvent", type=kind, x=box[0], y=box[1], button="left", clickCount=1)

    def type(self, text):
        self.ask("Input.insertText", text=text)

    def press(self, key, code):
        for kind in ["keyDown", "keyUp"]:
            self.ask("Input.dispatchKeyEvent", type=kind, key=key, code=key, windowsVirtualKeyCode=code)

    def picture(self, path):
        with open(path, "wb") as it:
            it.write(base64.b64decode(self.ask("Page.captureScreenshot")["data"]))

    def close(self):
        try:
            self.session = None
            self.ask("Browser.close")
        except (EOFError, OSError):
            pass
        self.process.wait(SECONDS)
        os.close(self.writing)
        os.close(self.reading)
        self.room.cleanup()
