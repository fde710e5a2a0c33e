"""A headless Chromium that shows pages from the disk, by its debugging protocol over two pipes."""
from __future__ import annotations

import base64
import contextlib
import json
import os
import pathlib
import select
import shutil
import subprocess
import tempfile
import time
from typing import Any

NAMES = ("chromium", "chromium-browser", "google-chrome", "chrome")
WORDS = ("--headless", "--no-sandbox", "--disable-gpu", "--hide-scrollbars", "--no-first-run",
         "--disable-dev-shm-usage", "--remote-debugging-pipe")
SECONDS = 50
END = b"\0"


def path_of_browser() -> str | None:
    """Returns the path of the installed Chromium, or None."""
    return next(filter(None, map(shutil.which, NAMES)), None)


# The codes of keys other than letters.
KEYS = {"Tab": 9, "Enter": 13, "Escape": 27, "End": 35, "Home": 36, "ArrowLeft": 37, "ArrowUp": 38, "ArrowRight": 39,
        "ArrowDown": 40}
TEXTS = {"Enter": "\r"}
LOCAL = ("file:", "about:", "data:")
INCH = 25.4
# The error of a command that the browser was asked while it went to another page.
LEFT = "Inspected target navigated or closed"


class LeftPage(RuntimeError):
    """The browser went to another page before it answered."""


class Browser:
    """One window of a browser. `faults` has the errors of scripts, the violations of the policy, and the network requests."""

    def __init__(self, width: int = 1280, height: int = 900) -> None:
        self.width, self.height = width, height
        self.faults: list[str] = []
        self.asked, self.ahead = 0, b""
        self.session: str | None = None

    def __enter__(self) -> Browser:
        self.folder = tempfile.TemporaryDirectory(ignore_cleanup_errors=True)
        there, self.out = os.pipe()
        self.into, back = os.pipe()
        command = [path_of_browser() or NAMES[0], *WORDS, f"--user-data-dir={self.folder.name}", "about:blank"]
        shell = ["bash", "-c", f'exec "$@" 3<&{there} 4>&{back}', "bash", *command]
        quiet = subprocess.DEVNULL
        self.running = subprocess.Popen(shell, pass_fds=(there, back), stdin=quiet, stdout=quiet, stderr=quiet)
        os.close(there)
        os.close(back)
        target = self.ask("Target.createTarget", url="about:blank")["targetId"]
        self.session = self.ask("Target.attachToTarget", targetId=target, flatten=True)["sessionId"]
        for domain in ("Page", "Runtime", "Log", "Network"):
            self.ask(f"{domain}.enable")
        self.resize(self.width, self.height)
        return self

    def __exit__(self, *_: object) -> None:
        self.running.terminate()
        self.running.wait(SECONDS)
        os.close(self.out)
        os.close(self.into)
        self.folder.cleanup()

    def ask(self, method: str, **parameters: object) -> Any:
        """Sends a command, and returns its result."""
        self.asked += 1
        message: dict[str, Any] = {"id": self.asked, "method": method, "params": parameters}
        if self.session:
            message["sessionId"] = self.session
        os.write(self.out, json.dumps(message).encode() + END)
        while True:
            reply = self.next_message()
            if reply.get("id") == self.asked:
                if "error" in reply:
                    fault = LeftPage if reply["error"].get("message") == LEFT else RuntimeError
                    raise fault(f"{method}: {reply['error']}")
                return reply["result"]

    def next_message(self) -> dict[str, Any]:
        """Returns the next message; the faults in it are kept."""
        while END not in self.ahead:
            if not select.select([self.into], [], [], SECONDS)[0]:
                raise TimeoutError("the browser says nothing")
            octets = os.read(self.into, 1 << 20)
            if not octets:
                raise RuntimeError("the browser ended")
            self.ahead += octets
        text, _, self.ahead = self.ahead.partition(END)
        message: dict[str, Any] = json.loads(text)
        if message.get("method") == "Runtime.exceptionThrown":
            self.faults.append(str(message["params"]["exceptionDetails"])[:600])
        elif message.get("method") == "Log.entryAdded" and message["params"]["entry"]["level"] in ("error", "warning"):
            self.faults.append(message["params"]["entry"]["text"])
        elif message.get("method") == "Network.requestWillBeSent":
            address = message["params"]["request"]["url"]
            self.faults += [] if address.startswith(LOCAL) else [f"it asks for {address}"]
        return message

    def resize(self, width: int, height: int) -> None:
        self.ask("Emulation.setDeviceMetricsOverride", width=width, height=height, deviceScaleFactor=1, mobile=False)

    def colours(self, name: str) -> None:
        """Emulates the light or the dark colour scheme."""
        self.ask("Emulation.setEmulatedMedia", features=[{"name": "prefers-color-scheme", "value": name}])

    def open(self, path: str | pathlib.Path, part: str = "") -> float:
        """Opens a page, waits until its script is done, and returns how many seconds that took."""
        begun = time.monotonic()
        self.ask("Page.navigate", url="about:blank")
        self.ask("Page.navigate", url=pathlib.Path(path).resolve().as_uri() + part)
        if not self.wait_for("document.documentElement?.dataset.ready === 'yes'", True):
            raise TimeoutError(f"{path} is not ready: {self.faults}")
        return time.monotonic() - begun

    def wait_for(self, expression: str, wanted: object) -> Any:
        """Waits until an expression has this value, also while the browser goes to another page. Returns the last value."""
        begun, found = time.monotonic(), None
        while time.monotonic() - begun < SECONDS:
            with contextlib.suppress(LeftPage):
                found = self.value(expression)
                if found == wanted:
                    break
            time.sleep(0.02)
        return found

    def value(self, expression: str) -> Any:
        """The value of an expression in the page."""
        reply = self.ask("Runtime.evaluate", expression=expression, returnByValue=True)
        if "exceptionDetails" in reply:
            raise RuntimeError(f"{expression}: {reply['exceptionDetails']}")
        return reply["result"].get("value")

    def click(self, selector: str, part: float = 0) -> None:
        """Clicks on the middle of an element, or of the part of it that an expression returns."""
        place = f"document.querySelector({json.dumps(selector)})"
        self.value(f"{place}.scrollIntoView({{block: 'center'}})")
        box = self.value(f"(({place}).getBoundingClientRect().toJSON())")
        self.press(box["x"] + box["width"] / 2 + part, box["y"] + box["height"] / 2)

    def press(self, x: float, y: float) -> None:
        self.ask("Input.dispatchMouseEvent", type="mouseMoved", x=x, y=y)
        for kind in ("mousePressed", "mouseReleased"):
            self.ask("Input.dispatchMouseEvent", type=kind, x=x, y=y, button="left", clickCount=1)

    def key(self, name: str, many: int = 1) -> None:
        """Presses a key, once or several times."""
        text = TEXTS.get(name, "" if name in KEYS else name)
        key = {"key": name, "windowsVirtualKeyCode": KEYS.get(name, ord(name[0])), "text": text}
        for _ in range(many):
            self.ask("Input.dispatchKeyEvent", type="keyDown" if text else "rawKeyDown", **key)
            self.ask("Input.dispatchKeyEvent", type="keyUp", **key)

    def go_back(self) -> None:
        """Goes one step back in the history."""
        history = self.ask("Page.getNavigationHistory")
        before = history["entries"][history["currentIndex"] - 1]
        self.ask("Page.navigateToHistoryEntry", entryId=before["id"])

    def print(self, path: str | pathlib.Path, width: float, height: float) -> None:
        """Prints the page on paper of this size in millimetres, with the margins that it asks for."""
        size = {"paperWidth": width / INCH, "paperHeight": height / INCH, "preferCSSPageSize": False}
        reply = self.ask("Page.printToPDF", printBackground=True, **size)
        pathlib.Path(path).write_bytes(base64.b64decode(reply["data"]))

    def picture(self, path: str | pathlib.Path, box: dict[str, float] | None = None) -> None:
        """Writes a picture of the window, or of a part of the page."""
        clip: dict[str, Any] = {"clip": {**box, "scale": 1}, "captureBeyondViewport": True} if box else {}
        reply = self.ask("Page.captureScreenshot", format="png", **clip)
        pathlib.Path(path).write_bytes(base64.b64decode(reply["data"]))
