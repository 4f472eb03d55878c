"""The history of a pixel: what each clear and each triangle that touched it found and left there.

The library tells it. What a pixel holds is made by going through the clears and triangles in the
order in which they run, one at a time; the history is that, written down, and the library's is
proved to be it. Of the scene only what queries count is drawn, which predicates may want.

>>> from yuzuratchet import read_script
>>> scene = read_script("target 2 2\\ni clearc 1 2 3 4\\n")
>>> [(it.line, it.before.colour, it.after.colour) for it in scene.history(0, 1)]
[(2, (0, 0, 0, 0), (1, 2, 3, 4))]
"""

from __future__ import annotations

from dataclasses import dataclass
from pathlib import Path
from struct import Struct
from typing import Final, Iterator

from .errors import ArgumentError, ScriptRefused
from .excerpt import up_to
from .explanation import Content
from .library import EVENTS_TOO_SMALL, PIXEL_RANGE, REFUSED, HistoryTold, tell_history
from .messages import message_of

FEW: Final = 64
"""Events for which there is room at first."""

EVENT: Final = Struct("<QQIIII4B4B4BI")
"""An event as yuzuratchet.h has it."""


@dataclass(frozen=True)
class Event:
    """What an item, a clear or a triangle, did to a pixel that it touched.

    A triangle touches the pixels that it covers inside of the scissor rectangle, unless it is
    culled; what a predicate leaves out is no item. ``item`` counts those that run, from 0. ``line``
    is that of the immediate context, from 1: it recorded the item, or executed its list, of which
    ``command`` is its command then, from 0, a kept state being the first; else ``command`` is 0.
    ``triangle`` counts those of the draw, from 0, and is 0 for a clear, which has no test to fail.
    """

    item: int
    line: int
    command: int
    triangle: int
    stencil_passed: bool
    depth_passed: bool
    before: Content
    after: Content

    @property
    def passed(self) -> bool:
        """Whether both tests passed."""
        return self.stencil_passed and self.depth_passed


def history(
    script: bytes,
    x: int,
    y: int,
    *,
    at: int | None = None,
    library: str | Path | None = None,
    room: int = FEW,
) -> list[Event]:
    """The events of a pixel over a script, or over its lines up to ``at``, which is counted from 1:
    what the pixel holds behind that line, with what is pending there drawn too.

    ``room`` is how many events are expected. Raises :class:`~yuzuratchet.errors.ScriptRefused`,
    :class:`~yuzuratchet.errors.ArgumentError` where the target has no such pixel or the script no
    such line, and :class:`~yuzuratchet.errors.LibraryMissing`.
    """
    played = script if at is None else up_to(script, at)
    told = _told(played, x, y, max(room, 1), library)
    if told.status == EVENTS_TOO_SMALL:
        told = _told(played, x, y, told.count, library)
    return [*events_in(told.events)]


def _told(script: bytes, x: int, y: int, room: int, library: str | Path | None) -> HistoryTold:
    """What the library tells of a pixel that there is, of a script that is taken."""
    for name, at in (("x", x), ("y", y)):
        if not 0 <= at < 2**32:
            raise ArgumentError(name, f"{at} is no place of a pixel")
    told = tell_history(script, x, y, room, library=library)
    if told.status == REFUSED:
        line, number = told.refused
        raise ScriptRefused(line, number, message_of(number).when)
    if told.status == PIXEL_RANGE:
        raise ArgumentError("x, y", f"the target has no pixel ({x}, {y})")
    return told


def events_in(told: bytes) -> Iterator[Event]:
    """The events that the library wrote."""
    for row in EVENT.iter_unpack(told):
        item, line, command, triangle, depth, new_depth, *rest = row
        stencil, new_stencil, stencil_passed, depth_passed, _ = rest[8:]
        before = Content(_colour(rest[:4]), depth, stencil)
        after = Content(_colour(rest[4:8]), new_depth, new_stencil)
        tests = bool(stencil_passed), bool(depth_passed)
        yield Event(item, line, command, triangle, *tests, before, after)


def _colour(channels: list[int]) -> tuple[int, int, int, int]:
    red, green, blue, alpha = channels
    return red, green, blue, alpha
