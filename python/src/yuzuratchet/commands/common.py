"""What the commands share: their words, the scripts and images that they read, and how they fail."""

from __future__ import annotations

import argparse
import sys
from pathlib import Path
from typing import Any, Final

from ..arguments import whole_number
from ..errors import YuzuratchetError
from ..limits import WORKERS

WELL: Final = 0
DIFFERENT: Final = 1
"""The status where a script is refused, images differ, or a suite doesn't agree."""

TROUBLE: Final = 2
"""The status where something is missing."""

STANDARD: Final = Path("-")
"""What stands for standard input, or output."""


class Refused(YuzuratchetError):
    """A script can't be drawn: the command ends with the status of a difference."""


def add_command(
    commands: Any, name: str, about: str, draws: bool = True
) -> argparse.ArgumentParser:
    """A command's own parser; one that draws is told of the program and its workers."""
    found: argparse.ArgumentParser = commands.add_parser(name, help=about, description=about)
    if draws:
        program = "the built program tiledraw; else YUZURATCHET_PROGRAM, this clone's, the path's"
        found.add_argument("--program", metavar="FILE", help=program)
        workers = f"how many threads draw beside the program's own, 0 to {WORKERS}"
        found.add_argument("--workers", metavar="N", type=whole_number(0, WORKERS), help=workers)
    return found


def how(given: argparse.Namespace) -> dict[str, Any]:
    """How the program is run, by the words."""
    return {"program": given.program, "workers": given.workers}


def refused(path: Path, line: int, number: int) -> Refused:
    """The error that a script can't be drawn."""
    name = shown_name(path)
    more = "" if path == STANDARD else f"; 'yuzuratchet check {path}' tells more"
    return Refused(f"{name}:{line}: refused with {number}{more}")


def read_bytes(path: Path) -> bytes:
    """The bytes of a file, or of standard input where the path is ``-``."""
    return sys.stdin.buffer.read() if path == STANDARD else path.read_bytes()


def shown_name(path: Path) -> str:
    """A path as messages show it."""
    return "<stdin>" if path == STANDARD else str(path)


def is_script(data: bytes) -> bool:
    """Whether the bytes of a file are those of a script, and not of an image."""
    return data.startswith(b"target ")


def check_writable(path: Path) -> None:
    """Raises OSError where a file can't be written; one that is there stays as it is."""
    was_there = path.exists()
    with path.open("ab"):
        pass
    if not was_there:
        path.unlink()
