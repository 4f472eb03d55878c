"""A browser that a test drives: Chromium without a window, by its own protocol over a pair of pipes.

It wants nothing beside Python.
"""

from __future__ import annotations

import base64
import fcntl
import json
import os
import select
import shutil
import subprocess
import tempfile
import time
from collections.abc import Sequence
from typing import Any

NAMES = ["chromium", "chromium-browser", "google-chrome", "google-chrome-stable", "chrome"]
# the numbers that the browser reads commands from and writes answers to
READS, WRITES = 3, 4
SECONDS = 120


class BrowserError(Exception):
    """The browser doesn't start, doesn't answer, or a page's code fails."""


def find_browser() -> str | None:
    """The first browser on the path, or None."""
    return next((found for name in NAMES if (found := shutil.which(name))), None)


def _pipe() -> list[int]:
    # (numbers from 10 on, so that none is lost where 3 and 4 are made of them)
    return [fcntl.fcntl(end, fcntl.F_DUPFD_CLOEXEC, 10) for end in os.pipe()]


class Browser:
    """One browser with one page. `with Browser(program) as it:` ends it."""

    def __init__(self, program: str, options: Sequence[str] = ()) -> None:
        self.program = program
        self.folder = tempfile.TemporaryDirectory(prefix="browser-", ignore_cleanup_errors=True)
        theirs, self.out = _pipe()
        self.into, ours = _pipe()

        def connect() -> None:
            os.dup2(theirs, READS)
            os.dup2(ours, WRITES)

        words = [
            program,
            "--headless=new",
            "--remote-debugging-pipe",
            f"--user-data-dir={self.folder.name}",
            "--no-first-run",
            "--disable-gpu",
            "--disable-background-networking",
            "--disable-component-update",
            "--disable-dev-shm-usage",
            "--hide-scrollbars",
            *(["--no-sandbox"] if os.getuid() == 0 else []),
            *options,
            "about:blank",
        ]
        quiet: dict[str, Any] = {
            "stdin": subprocess.DEVNULL,
            "stdout": subprocess.DEVNULL,
            "stderr": subprocess.DEVNULL,
        }
        self.process = subprocess.Popen(words, close_fds=False, preexec_fn=connect, **quiet)
        for end in (theirs, ours):
            os.close(end)
        self.number, self.unread = 0, b""
        self.session: str | None = None
        self.events: list[dict[str, Any]] = []
        target = next(it for it in self.call("Target.getTargets")["targetInfos"] if it["type"] == "page")["targetId"]
        self.session = self.call("Target.attachToTarget", targetId=target, flatten=True)["sessionId"]
        for domain in ("Page", "Runtime"):
            self.call(f"{domain}.enable")

    def __enter__(self) -> Browser:
        return self

    def __exit__(self, *_: object) -> None:
        try:
            self.session = None
            self.call("Browser.close")
            self.process.wait(10)
        except (BrowserError, OSError, subprocess.TimeoutExpired):
            self.process.kill()
            self.process.wait()
        for end in (self.out, self.into):
            os.close(end)
        self.folder.cleanup()

    def call(self, method: str, **parameters: Any) -> dict[str, Any]:
        """One command of the protocol, and its result."""
        self.number += 1
        message: dict[str, Any] = {"id": self.number, "method": method, "params": parameters}
        if self.session:
            message["sessionId"] = self.session
        left = json.dumps(message).encode() + b"\0"
        while left:
            left = left[os.write(self.out, left) :]
        while True:
            answer = self.read(SECONDS)
            if answer.get("id") == self.number:
                break
            self.events.append(answer)
        if "error" in answer:
            raise BrowserError(f"{method}: {answer['error'].get('message')}")
        result: dict[str, Any] = answer["result"]
        return result

    def read(self, seconds: float) -> dict[str, Any]:
        """The next message of the browser."""
        end = time.monotonic() + seconds
        while b"\0" not in self.unread:
            if not select.select([self.into], [], [], max(0, end - time.monotonic()))[0]:
                raise BrowserError(f"the browser told nothing for {seconds} seconds")
            piece = os.read(self.into, 1 << 20)
            if not piece:
                raise BrowserError("the browser has ended")
            self.unread += piece
        message, self.unread = self.unread.split(b"\0", 1)
        told: dict[str, Any] = json.loads(message)
        return told

    def open(self, address: str) -> None:
        """Opens a page."""
        self.call("Page.navigate", url=address)
        self.wait("document.readyState === 'complete'")

    def reload(self) -> None:
        """Loads the page again."""
        self.call("Page.reload")

    def value(self, code: str) -> Any:
        """The value of an expression in the page; a promise is waited for."""
        told = self.call("Runtime.evaluate", expression=code, awaitPromise=True, returnByValue=True, userGesture=True)
        if "exceptionDetails" in told:
            details = told["exceptionDetails"]
            raise BrowserError(details.get("exception", {}).get("description") or details["text"])
        return told["result"].get("value")

    def wait(self, code: str, seconds: float = SECONDS) -> None:
        """Waits until an expression is true in the page."""
        end = time.monotonic() + seconds
        while True:
            try:
                if self.value(f"Boolean({code})"):
                    return
            except BrowserError as error:
                # (a page that is being left can't be asked)
                if "context" not in str(error):
                    raise
            if time.monotonic() > end:
                raise BrowserError(f"it didn't become so within {seconds} seconds: {code}")
            time.sleep(0.02)

    def resize(self, width: int, height: int, scale: float = 1, is_dark: bool = False) -> None:
        """The size of the window, and whether its user likes it dark."""
        self.call(
            "Emulation.setDeviceMetricsOverride", width=width, height=height, deviceScaleFactor=scale, mobile=False
        )
        scheme = {"name": "prefers-color-scheme", "value": "dark" if is_dark else "light"}
        self.call("Emulation.setEmulatedMedia", features=[scheme])

    def move(self, x: float, y: float, kind: str = "mouseMoved", **more: Any) -> None:
        """Moves the pointer."""
        self.call("Input.dispatchMouseEvent", type=kind, x=x, y=y, **more)

    def press(self, x: float, y: float) -> None:
        """Moves the pointer, and presses there."""
        self.move(x, y)
        for kind in ("mousePressed", "mouseReleased"):
            self.move(x, y, kind, button="left", clickCount=1)

    def drag(self, x: float, y: float, to_x: float, to_y: float, steps: int = 4) -> None:
        """Moves the pointer to a place, and from there to another one while it is pressed."""
        self.move(x, y)
        self.move(x, y, "mousePressed", button="left", clickCount=1)
        for step in range(1, steps + 1):
            self.move(x + (to_x - x) * step / steps, y + (to_y - y) * step / steps, button="left", buttons=1)
        self.move(to_x, to_y, "mouseReleased", button="left", clickCount=1)

    def wheel(self, x: float, y: float, turn: float) -> None:
        """Turns the wheel at a place: downwards by so many pixels, or upwards."""
        self.move(x, y, "mouseWheel", deltaX=0, deltaY=turn)

    def tap(self, x: float, y: float) -> None:
        """Taps with a finger; `touch` has to be on."""
        self.call("Input.dispatchTouchEvent", type="touchStart", touchPoints=[{"x": x, "y": y}])
        self.call("Input.dispatchTouchEvent", type="touchEnd", touchPoints=[])

    def touch(self, is_on: bool) -> None:
        """Whether the window is touched by fingers."""
        self.call("Emulation.setTouchEmulationEnabled", enabled=is_on, maxTouchPoints=1)

    def key(self, key: str, code: int = 0, modifiers: int = 0) -> None:
        """Presses a key."""
        for kind in ("keyDown", "keyUp"):
            more = {"windowsVirtualKeyCode": code, "modifiers": modifiers}
            self.call("Input.dispatchKeyEvent", type=kind, key=key, code=key, **more)

    def type(self, text: str) -> None:
        """Types a text where the caret is."""
        self.call("Input.insertText", text=text)

    def picture(self) -> bytes:
        """What the window shows, as a PNG."""
        return base64.b64decode(self.call("Page.captureScreenshot", format="png")["data"])
