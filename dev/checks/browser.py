"""Chromium without a window, for checks of pages."""
import json
import os
import shutil
import subprocess
import time

from tool_files import Stop

PROGRAMS = ["chromium", "chromium-browser", "google-chrome"]
SECONDS = 120


def installed():
    """The path of Chromium, or None."""
    return next(filter(None, map(shutil.which, PROGRAMS)), None)


class Browser:
    """Chromium without a window, spoken to through a pair of pipes (the protocol of its developers' tools)."""

    def __init__(self, program, folder):
        to_read, self.out = os.pipe()
        self.into, to_write = os.pipe()

        def streams():
            os.dup2(to_read, 63)
            os.dup2(to_write, 64)
            os.dup2(63, 3)
            os.dup2(64, 4)

        options = ["--headless", "--no-sandbox", "--disable-gpu", "--disable-extensions", "--remote-debugging-pipe"]
        options += [f"--user-data-dir={folder}/profile", "--window-size=1400,1000", "about:blank"]
        self.process = subprocess.Popen(
            [program, *options], preexec_fn=streams, pass_fds=(3, 4),
            stdin=subprocess.DEVNULL, stdout=subprocess.DEVNULL, stderr=subprocess.DEVNULL,
        )  # fmt: skip
        os.close(to_read)
        os.close(to_write)
        self.number, self.rest, self.session = 0, b"", None
        target = next(t for t in self.ask("Target.getTargets")["targetInfos"] if t["type"] == "page")
        self.session = self.ask("Target.attachToTarget", targetId=target["targetId"], flatten=True)["sessionId"]

    def message(self):
        while b"\0" not in self.rest:
            part = os.read(self.into, 1 << 20)
            if not part:
                raise Stop(2, "the browser ended")
            self.rest += part
        text, self.rest = self.rest.split(b"\0", 1)
        return json.loads(text)

    def ask(self, method, **params):
        """The answer to a request."""
        self.number += 1
        request = {"id": self.number, "method": method, "params": params}
        if self.session:
            request["sessionId"] = self.session
        os.write(self.out, json.dumps(request).encode() + b"\0")
        while (answer := self.message()).get("id") != self.number:
            pass
        if "error" in answer:
            raise Stop(2, f"the browser refuses {method}: {answer['error'].get('message')}")
        return answer["result"]

    def value(self, script):
        """The value of a script."""
        found = self.ask("Runtime.evaluate", expression=script, returnByValue=True)
        if "exceptionDetails" in found:
            raise Stop(2, f"a script fails: {found['exceptionDetails'].get('text')}: {script}")
        return found["result"].get("value")

    def open(self, address):
        """Opens a page, and waits until it was drawn."""
        self.ask("Page.navigate", url=address)
        end = time.monotonic() + SECONDS
        while not self.value(f"location.href === {json.dumps(address)} && document.readyState === 'complete'"):
            if time.monotonic() > end:
                raise Stop(2, f"the browser doesn't open a page within {SECONDS} s")
            time.sleep(0.02)

    def key(self, name):
        for kind in ("keyDown", "keyUp"):
            self.ask("Input.dispatchKeyEvent", type=kind, key=name, code=name)

    def point(self, x, y):
        self.ask("Input.dispatchMouseEvent", type="mouseMoved", x=x, y=y)

    def close(self):
        self.process.terminate()
        self.process.wait(timeout=SECONDS)
        os.close(self.out)
        os.close(self.into)
