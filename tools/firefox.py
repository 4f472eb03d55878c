"""Firefox without a window, which a test drives by its own protocol over a socket. It wants nothing beside Python."""

from __future__ import annotations

import json
import pathlib
import shutil
import socket
import subprocess
import tempfile
import time
from typing import Any

from browser import SECONDS, BrowserError

NAMES = ["firefox", "firefox-esr"]
# runs an expression in the page itself, and waits for a promise
RUNS = """const [code, done] = arguments;
const failed = (error) => done({ error: String(error) });
try {
    Promise.resolve(window.eval(code)).then((value) => done({ value: value === undefined ? null : value }), failed);
} catch (error) {
    failed(error);
}"""


def find_firefox() -> str | None:
    """The first Firefox on the path, or None."""
    return next((found for name in NAMES if (found := shutil.which(name))), None)


def free_port() -> int:
    with socket.socket() as taken:
        taken.bind(("127.0.0.1", 0))
        return int(taken.getsockname()[1])


class Firefox:
    """One browser with one page. `with Firefox(program) as it:` ends it.

    It does of what `Browser` does what needs no pointer and no keys.
    """

    def __init__(self, program: str) -> None:
        self.folder = tempfile.TemporaryDirectory(prefix="firefox-", ignore_cleanup_errors=True)
        self.program, port = program, free_port()
        pathlib.Path(self.folder.name, "user.js").write_text(
            f'user_pref("marionette.port", {port});\n', encoding="ascii"
        )
        quiet: dict[str, Any] = {
            "stdin": subprocess.DEVNULL,
            "stdout": subprocess.DEVNULL,
            "stderr": subprocess.DEVNULL,
        }
        words = [
            program,
            "--headless",
            "--marionette",
            "--no-remote",
            "--profile",
            self.folder.name,
            "--window-size=1240,780",
        ]
        self.process = subprocess.Popen(words, **quiet)
        self.number, self.unread = 0, b""
        self.socket = self.connected(port)
        self.message()
        self.call("WebDriver:NewSession", capabilities={"alwaysMatch": {"pageLoadStrategy": "normal"}})
        self.call("WebDriver:SetTimeouts", script=1000 * SECONDS, pageLoad=1000 * SECONDS)

    def connected(self, port: int) -> socket.socket:
        end = time.monotonic() + SECONDS
        while True:
            try:
                return socket.create_connection(("127.0.0.1", port), timeout=SECONDS)
            except OSError as error:
                if time.monotonic() > end or self.process.poll() is not None:
                    raise BrowserError("Firefox doesn't start") from error
                time.sleep(0.2)

    def __enter__(self) -> Firefox:
        return self

    def __exit__(self, *_: object) -> None:
        try:
            self.call("Marionette:Quit", flags=["eForceQuit"])
            self.process.wait(10)
        except (BrowserError, OSError, subprocess.TimeoutExpired):
            self.process.kill()
            self.process.wait()
        self.socket.close()
        self.folder.cleanup()

    def message(self) -> Any:
        """The next message: its length in digits, a colon, and JSON."""
        while True:
            digits, colon, rest = self.unread.partition(b":")
            if colon and len(rest) >= int(digits):
                self.unread = rest[int(digits) :]
                return json.loads(rest[: int(digits)])
            piece = self.socket.recv(1 << 20)
            if not piece:
                raise BrowserError("Firefox has ended")
            self.unread += piece

    def call(self, method: str, **parameters: Any) -> Any:
        """One command of the protocol, and its result."""
        self.number += 1
        text = json.dumps([0, self.number, method, parameters]).encode()
        self.socket.sendall(b"%d:" % len(text) + text)
        _, number, error, result = self.message()
        if number != self.number or error:
            raise BrowserError(f"{method}: {error and error.get('message')}")
        return result

    def open(self, address: str) -> None:
        """Opens a page."""
        self.call("WebDriver:Navigate", url=address)

    def reload(self) -> None:
        """Loads the page again."""
        self.call("WebDriver:Refresh")

    def value(self, code: str) -> Any:
        """The value of an expression in the page; a promise is waited for."""
        told = self.call("WebDriver:ExecuteAsyncScript", script=RUNS, args=[code])["value"]
        if told.get("error"):
            raise BrowserError(told["error"])
        return told["value"]

    def wait(self, code: str, seconds: float = SECONDS) -> None:
        """Waits until an expression is true in the page."""
        end = time.monotonic() + seconds
        while not self.value(f"Boolean({code})"):
            if time.monotonic() > end:
                raise BrowserError(f"it didn't become so within {seconds} seconds: {code}")
            time.sleep(0.02)
