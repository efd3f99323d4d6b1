"""A browser without a window, spoken to through two pipes (Chrome's DevTools protocol)."""

from __future__ import annotations

import base64
import json
import os
import select
import shutil
import subprocess
import tempfile
import time
from pathlib import Path
from typing import Any

NAMES = ("chromium", "chromium-browser", "google-chrome", "google-chrome-stable")

# How long a browser may take for an answer, in seconds.
PATIENCE = 60


class NoAnswer(Exception):
    """The browser doesn't start, doesn't answer, or says that something failed; in one line."""


def program() -> str | None:
    """The browser of this machine, if there is one. CHROMIUM names another one."""
    named = os.environ.get("CHROMIUM")
    return shutil.which(named) if named else next(filter(None, map(shutil.which, NAMES)), None)


class Browser:
    """A browser with one page."""

    def __init__(self, path: str) -> None:
        """It is started, with a folder of its own, and ends with `close`."""
        self.folder = tempfile.TemporaryDirectory(
            prefix="credtrace-draw-", ignore_cleanup_errors=True
        )
        hers_in, self.to = os.pipe()
        self.back, hers_out = os.pipe()
        # Chromium has no sandbox for root, and doesn't start without this word then.
        rooted = ["--no-sandbox"] if os.geteuid() == 0 else []
        words = [path, *rooted, "--headless=new", "--disable-gpu", "--hide-scrollbars",
                 "--no-first-run", "--disable-extensions", "--disable-background-networking",
                 "--force-device-scale-factor=1", f"--user-data-dir={self.folder.name}",
                 "--remote-debugging-pipe", "about:blank"]
        # The browser reads from its descriptor 3 and writes to 4: the shell puts them there.
        places = f"exec \"$@\" 3<&{hers_in} 4>&{hers_out}"
        self.process = subprocess.Popen(
            ["sh", "-c", places, "sh", *words], pass_fds=(hers_in, hers_out),
            stdin=subprocess.DEVNULL, stdout=subprocess.DEVNULL, stderr=subprocess.DEVNULL,
        )
        os.close(hers_in)
        os.close(hers_out)
        self.number, self.rest, self.session = 0, b"", None
        self.told: list[dict[str, Any]] = []
        try:
            self.connect()
        except NoAnswer:
            self.close()
            raise

    def connect(self) -> None:
        """One page, whose events are told."""
        target = self.ask("Target.createTarget", url="about:blank")["targetId"]
        attached = self.ask("Target.attachToTarget", targetId=target, flatten=True)
        self.session = attached["sessionId"]
        for part in ("Page", "Runtime", "Log"):
            self.ask(f"{part}.enable")

    def close(self) -> None:
        """The browser ends."""
        try:
            self.session = None
            self.ask("Browser.close")
        except (NoAnswer, OSError):
            self.process.terminate()
        try:
            self.process.wait(10)
        except subprocess.TimeoutExpired:
            self.process.kill()
            self.process.wait()
        os.close(self.to)
        os.close(self.back)
        self.folder.cleanup()

    def ask(self, method: str, **params: Any) -> dict[str, Any]:
        """A question, and its answer; what is told meanwhile is kept."""
        self.number += 1
        question: dict[str, Any] = {"id": self.number, "method": method, "params": params}
        if self.session:
            question["sessionId"] = self.session
        try:
            os.write(self.to, json.dumps(question).encode() + b"\0")
        except BrokenPipeError:
            raise NoAnswer("the browser has ended") from None
        end = time.monotonic() + PATIENCE
        while True:
            message = self.message(end)
            if message.get("id") == self.number:
                break
            self.told.append(message)
        if "error" in message:
            raise NoAnswer(f"{method}: {message['error'].get('message')}")
        result: dict[str, Any] = message["result"]
        return result

    def message(self, end: float) -> dict[str, Any]:
        """The next message, up to a time."""
        while b"\0" not in self.rest:
            ready = select.select([self.back], [], [], max(end - time.monotonic(), 0))[0]
            more = os.read(self.back, 1 << 20) if ready else b""
            if not more:
                raise NoAnswer("the browser doesn't answer")
            self.rest += more
        text, _, self.rest = self.rest.partition(b"\0")
        message: dict[str, Any] = json.loads(text)
        return message

    def screen(self, width: int, height: int, dark: bool, scale: float = 1) -> None:
        """The size of the page's window, and whether dark pages are wanted."""
        self.ask("Emulation.setDeviceMetricsOverride", width=width, height=height,
                 deviceScaleFactor=scale, mobile=False)
        scheme = {"name": "prefers-color-scheme", "value": "dark" if dark else "light"}
        self.ask("Emulation.setEmulatedMedia", features=[scheme])

    def open(self, page: Path) -> int:
        """Opens a page; the milliseconds until it says that it is drawn."""
        self.told.clear()
        self.ask("Page.navigate", url=page.resolve().as_uri())
        end = time.monotonic() + PATIENCE
        while time.monotonic() < end:
            opened = self.value("document.readyState === 'complete' && "
                                f"location.href === {json.dumps(page.resolve().as_uri())} && "
                                "(document.documentElement.dataset.opened || 'never')")
            if opened == "never":
                raise NoAnswer(f"the page isn't drawn: {'; '.join(self.errors())}")
            if opened:
                return int(opened)
            time.sleep(0.02)
        raise NoAnswer("the page doesn't open")

    def value(self, expression: str) -> Any:
        """The value of an expression in the page."""
        found = self.ask("Runtime.evaluate", expression=expression, returnByValue=True,
                         awaitPromise=True)
        if "exceptionDetails" in found:
            raise NoAnswer(f"{expression[:60]}: {found['exceptionDetails'].get('text')}")
        return found["result"].get("value")

    def settle(self) -> None:
        """Waits until what was asked for is on the screen."""
        frame = "requestAnimationFrame"
        self.value(f"new Promise((done) => {frame}(() => {frame}(done)))")

    def point(self, left: float, top: float) -> None:
        """The pointer goes to a place."""
        self.ask("Input.dispatchMouseEvent", type="mouseMoved", x=left, y=top)
        self.settle()

    def click(self, left: float, top: float) -> None:
        """The pointer presses at a place."""
        for kind in ("mousePressed", "mouseReleased"):
            self.ask("Input.dispatchMouseEvent", type=kind, x=left, y=top, button="left",
                     clickCount=1)
        self.settle()

    def key(self, key: str) -> None:
        """A key is pressed."""
        self.ask("Input.dispatchKeyEvent", type="keyDown", key=key)
        self.ask("Input.dispatchKeyEvent", type="keyUp", key=key)
        self.settle()

    def picture(self) -> bytes:
        """What is on the screen, as PNG."""
        self.settle()
        return base64.b64decode(self.ask("Page.captureScreenshot", format="png")["data"])

    def errors(self) -> list[str]:
        """What the browser found wrong with the page."""
        found = []
        for message in self.told:
            params = message.get("params", {})
            if message.get("method") == "Runtime.exceptionThrown":
                details = params["exceptionDetails"]
                text = details.get("exception", {}).get("description") or details.get("text")
                found.append(str(text))
            if message.get("method") == "Log.entryAdded" and params["entry"]["level"] == "error":
                found.append(params["entry"]["text"])
        return found
