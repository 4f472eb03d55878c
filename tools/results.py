"""What the tests of a tool found: each is told as it ends, and all are counted in one last line."""

from __future__ import annotations

import subprocess
import time
from collections.abc import Callable, Iterable, Iterator, Mapping
from typing import Any, TypeVar

from yuzuratchet import YuzuratchetError

PROGRESS_SECONDS = 10

Item = TypeVar("Item")


def check(is_so: object, text: str) -> None:
    """Raises where something isn't so."""
    if not is_so:
        raise AssertionError(text)


class Results:
    """What passed, failed and was skipped.

    `known` names tests that fail today, each with the reason. Where such a test fails that is told and isn't counted as
    a failure; where it passes, it is one, since the list then says what isn't so. `errors` are what a test may raise
    beside what all may.
    """

    def __init__(self, known: Mapping[str, str] | None = None, errors: Iterable[type[Exception]] = ()) -> None:
        self.known = dict(known or {})
        common = (AssertionError, OSError, YuzuratchetError, subprocess.SubprocessError)
        self.errors: tuple[type[Exception], ...] = (*common, *errors)
        self.passed = 0
        self.failed: list[str] = []
        self.skipped: list[str] = []
        self.failed_as_known: list[str] = []

    def test(self, name: str, run: Callable[..., object], *arguments: Any) -> bool:
        """Runs a test, which raises where it fails and may give a word on what it found; gives whether it passed."""
        begun = time.monotonic()
        try:
            found = run(*arguments)
        except self.errors as error:
            self.fail(name, error)
            return False
        if name in self.known:
            self.failed.append(name)
            print(
                f"FAILED {name}: it passes, so it is to leave the list of those that fail: {self.known[name]}",
                flush=True,
            )
            return False
        self.passed += 1
        print(f"ok {name}{f': {found}' if found else ''} ({time.monotonic() - begun:.1f} s)", flush=True)
        return True

    def fail(self, name: str, why: object) -> None:
        """Counts a test that failed."""
        if name in self.known:
            self.failed_as_known.append(name)
            print(f"fails as known {name} ({self.known[name]}): {why}", flush=True)
        else:
            self.failed.append(name)
            print(f"FAILED {name}: {why}", flush=True)

    def skip(self, name: str, why: str) -> None:
        """Counts a test that can't be run here."""
        self.skipped.append(name)
        print(f"skipped {name}: {why}", flush=True)

    @property
    def status(self) -> int:
        """0 where nothing failed and something passed."""
        return 0 if self.passed and not self.failed else 1

    @property
    def last_line(self) -> str:
        """All outcomes, with the names of those that didn't pass."""
        parts = [f"{self.passed} passed", counted("failed", self.failed), counted("skipped", self.skipped)]
        if self.failed_as_known:
            parts.append(counted("failed as known", self.failed_as_known))
        if not self.passed:
            parts.append("nothing was tested")
        return ", ".join(parts)


def counted(what: str, names: list[str]) -> str:
    """How many tests have an outcome, and which."""
    return f"{len(names)} {what}" + (f" ({', '.join(names)})" if names else "")


def told(items: Iterable[Item], total: int, what: str) -> Iterator[Item]:
    """Gives each of some items on, and says every few seconds how many of them were taken."""
    last = time.monotonic()
    for number, item in enumerate(items):
        if time.monotonic() - last > PROGRESS_SECONDS:
            last = time.monotonic()
            print(f"  {number} of {total} {what}", flush=True)
        yield item
