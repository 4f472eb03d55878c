"""Names for the lines of a script, as ``floor``: kept beside the script, never in it.

A name holds from its line on, up to the next one. Those of ``scene.txt`` lie in
``scene.labels.json``, with the digest of the script that they are of: to another script they say
nothing, and are left alone.
"""

from __future__ import annotations

import hashlib
import json
from bisect import bisect_right
from pathlib import Path
from typing import Final, Iterable, Iterator

from .errors import ArgumentError, WrongType

SUFFIX: Final = ".labels.json"
LONGEST: Final = 80
"""Letters of a name at most."""

Mark = tuple[int, "str | None"]
"""The line, from 1, from which on a name holds; None ends the one before."""


class Labels:
    """The names of a script's lines."""

    def __init__(self, marks: Iterable[Mark] = ()) -> None:
        self._lines: list[int] = []
        self._names: list[str | None] = []
        for line, name in marks:
            self.add(line, name)

    def add(self, line: int, name: str | None) -> None:
        """Lets a name hold from a line on, which is not before the last one that was added."""
        checked = checked_name(name)
        if self._lines and line <= self._lines[-1]:
            self._lines.pop()
            self._names.pop()
        self._lines.append(line)
        self._names.append(checked)

    def of(self, line: int) -> str | None:
        """The name of a line, which is counted from 1."""
        place = bisect_right(self._lines, line)
        return self._names[place - 1] if place else None

    def __iter__(self) -> Iterator[Mark]:
        return iter(zip(self._lines, self._names))

    def __bool__(self) -> bool:
        return any(self._names)

    def write(self, path: Path, script: bytes) -> None:
        """Writes the names beside the file of a script."""
        marks = [[line, name] for line, name in self]
        found = {"script": digest(script), "labels": marks}
        beside(path).write_text(f"{json.dumps(found)}\n", encoding="utf-8", newline="\n")

    @classmethod
    def read(cls, path: Path, script: bytes) -> Labels:
        """The names that lie beside the file of a script; none where they are of another script."""
        try:
            found = json.loads(beside(path).read_text(encoding="utf-8"))
            if found["script"] == digest(script):
                return cls((int(line), name) for line, name in found["labels"])
        except (OSError, ValueError, TypeError, KeyError):
            pass  # (a script is read whether it has names or not)
        return cls()


def checked_name(name: str | None) -> str | None:
    """The name, if it can be one: some letters in one line."""
    if name is not None and not isinstance(name, str):
        raise WrongType("name", f"a str is wanted, and not {name!r}")
    if name is not None and not (0 < len(name) <= LONGEST and name.isprintable()):
        raise ArgumentError("name", f"{name!r} is not 1 to {LONGEST} letters in one line")
    return name


def beside(path: Path) -> Path:
    """The file of the names of a script's file."""
    return path.with_suffix(SUFFIX)


def digest(script: bytes) -> str:
    """By which a script is known."""
    return hashlib.sha256(script).hexdigest()
