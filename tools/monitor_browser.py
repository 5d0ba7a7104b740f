"""Headless Chromium for tools/test-monitor, by its debugging pipe and the standard library alone."""
import base64
import fcntl
import json
import os
import pathlib
import shlex
import shutil
import subprocess
import tempfile
import time

SECONDS = 30
OPTIONS = "--headless --no-sandbox --disable-gpu --disable-dev-shm-usage --hide-scrollbars --no-first-run --remote-debugging-pipe about:blank"
CODES = {"Escape": 27, "End": 35, "Home": 36, "ArrowLeft": 37, "ArrowRight": 39}


class Browser:
    """A browser with one page. `faults` has what the page threw."""

    def __init__(self, chromium):
        ends = [fcntl.fcntl(it, fcntl.F_DUPFD_CLOEXEC, 10) for it in (*os.pipe(), *os.pipe())]
        self.folder = tempfile.mkdtemp()
        line = f"exec {shlex.quote(chromium)} --user-data-dir={self.folder} {OPTIONS} 3<&{ends[0]} 4>&{ends[3]}"
        how = {"stdin": subprocess.DEVNULL, "stdout": subprocess.DEVNULL, "stderr": subprocess.DEVNULL}
        self.child = subprocess.Popen(["bash", "-c", line], pass_fds=(ends[0], ends[3]), **how)
        os.close(ends[0])
        os.close(ends[3])
        self.to, self.source = ends[1], open(ends[2], "rb", buffering=0)
        self.number, self.rest, self.session, self.faults = 0, b"", None, []

    def __enter__(self):
        target = self.ask("Target.createTarget", url="about:blank")["targetId"]
        self.session = self.ask("Target.attachToTarget", targetId=target, flatten=True)["sessionId"]
        self.ask("Page.enable")
        self.ask("Runtime.enable")
        return self

    def __exit__(self, *_):
        self.child.kill()
        self.child.wait()
        self.source.close()
        os.close(self.to)
        shutil.rmtree(self.folder, ignore_errors=True)

    def ask(self, method, **values):
        """Asks the browser and answers its result."""
        self.number += 1
        message = {"id": self.number, "method": method, "params": values, **({"sessionId": self.session} if self.session else {})}
        os.write(self.to, json.dumps(message).encode() + b"\0")
        while True:
            found = self.message()
            if found.get("method") == "Runtime.exceptionThrown":
                self.faults.append(found["params"]["exceptionDetails"])
            if found.get("id") == self.number:
                if "error" in found:
                    raise RuntimeError(f"{method}: {found['error']}")
                return found["result"]

    def message(self):
        while b"\0" not in self.rest:
            piece = self.source.read(1 << 16)
            if not piece:
                raise RuntimeError("the browser has ended")
            self.rest += piece
        text, _, self.rest = self.rest.partition(b"\0")
        return json.loads(text)

    def open(self, address, width, height):
        """Opens a page in a window of this size."""
        self.ask("Emulation.setDeviceMetricsOverride", width=width, height=height, deviceScaleFactor=1, mobile=width < 500)
        self.ask("Page.navigate", url=address)

    def value(self, text):
        """The value of an expression in the page."""
        return self.ask("Runtime.evaluate", expression=text, returnByValue=True)["result"].get("value")

    def text(self, name):
        return self.value(f"document.getElementById({json.dumps(name)}).textContent")

    def until(self, text):
        """Waits until an expression holds."""
        end = time.monotonic() + SECONDS
        while not self.value(f"!!({text})"):
            if time.monotonic() > end:
                raise RuntimeError(f"not so after {SECONDS} seconds: {text}")
            time.sleep(0.1)

    def press(self, key):
        """Presses a key."""
        code = CODES.get(key, ord(key[0].upper()))
        values = {"key": key, "windowsVirtualKeyCode": code, **({"text": key} if len(key) == 1 else {})}
        self.ask("Input.dispatchKeyEvent", type="keyDown", **values)
        self.ask("Input.dispatchKeyEvent", type="keyUp", key=key, windowsVirtualKeyCode=code)

    def picture(self, name, folder):
        """Keeps what is seen, the whole page, if there is a folder for it."""
        if folder:
            time.sleep(0.5)
            size = self.ask("Page.getLayoutMetrics")["cssContentSize"]
            clip = {"x": 0, "y": 0, "width": size["width"], "height": size["height"], "scale": 1}
            found = self.ask("Page.captureScreenshot", format="png", clip=clip, captureBeyondViewport=True)["data"]
            pathlib.Path(folder).mkdir(parents=True, exist_ok=True)
            pathlib.Path(folder, f"{name}.png").write_bytes(base64.b64decode(found))
