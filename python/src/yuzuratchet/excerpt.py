"""A script up to a line: what is drawn there, and what is drawn before a line that is refused."""

from __future__ import annotations

from dataclasses import dataclass
from typing import Callable, Final

from .errors import ArgumentError
from .program import Ran

Draw = Callable[[bytes], Ran]

TRIES: Final = 8
"""How often a line further up is tried, where what stands before a refused line is refused too."""


def line_count(script: bytes) -> int:
    """How many lines a script has; the last may lack its line feed."""
    return script.count(b"\n") + (not script.endswith(b"\n") and bool(script))


def up_to(script: bytes, line: int) -> bytes:
    """The script up to a line, which is counted from 1 and included.

    The device runs nothing while the immediate context has a query open, so those that are open
    there are ended; behind the last line nothing is added. Raises
    :class:`~yuzuratchet.errors.ArgumentError` where there is no such line.
    """
    count = line_count(script)
    if not 1 <= line <= count:
        raise ArgumentError("line", f"{line} is not in 1 to {count}, the lines of the script")
    return script if line == count else lines_up_to(script, line)


def lines_up_to(script: bytes, line: int) -> bytes:
    """The first lines of a script, with the queries ended that are open there."""
    lines = script.split(b"\n")[:line]
    return b"".join(it + b"\n" for it in (*lines, *open_queries(lines)))


def open_queries(lines: list[bytes]) -> list[bytes]:
    """The lines that end the queries that the immediate context has open behind some lines."""
    opened: dict[bytes, None] = {}
    for line in lines:
        if line.startswith(b"i begin "):
            opened[line[8:]] = None
        elif line.startswith(b"i end "):
            opened.pop(line[6:], None)
    return [b"i end " + query for query in opened]


@dataclass(frozen=True)
class Played:
    """What a script gave, and what is to be seen of it.

    ``ran`` is what the whole script gave. ``shown`` is the last line whose picture ``image`` is:
    that of the script's end, or of the last line before a refused one that draws; 0 where none does.
    """

    ran: Ran
    image: bytes
    shown: int


def play(script: bytes, draw: Draw) -> Played:
    """Draws a script, and where a line is refused what stands before it."""
    ran = draw(script)
    if not ran.refused:
        return Played(ran, ran.image, line_count(script))
    shown = min(ran.refused[0] - 1, line_count(script))
    for _ in range(TRIES):
        if shown < 1:
            break
        before = draw(lines_up_to(script, shown))
        if not before.refused:
            return Played(ran, before.image, shown)
        shown = min(shown, before.refused[0]) - 1
    return Played(ran, b"", 0)
