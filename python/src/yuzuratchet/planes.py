"""Depth and stencil of the whole target, asked of the device pixel by pixel, and as pictures."""

from __future__ import annotations

import hashlib
from dataclasses import dataclass
from typing import Callable, Final

import numpy as np
import numpy.typing as npt

from .errors import ScriptRefused
from .images import Pixels
from .limits import DEEPEST
from .messages import message_of
from .program import Ran
from .targa import target_sides

Draw = Callable[[bytes], Ran]
Depths = npt.NDArray[np.uint32]
Stencils = npt.NDArray[np.uint8]
Contents = npt.NDArray[np.uint32]

PIXELS_AT_ONCE = 2**20

PLANES: Final = ("depth", "stencil")

HEAT: Final = ((20, 20, 90), (120, 30, 140), (220, 60, 60), (250, 170, 40), (255, 255, 200))
"""The colours of counts, from the least to the most, with those between; the page has the same."""

SHADES: Final = 256


@dataclass(frozen=True)
class Planes:
    """Depth, as stored from 0 to 16,777,215, and stencil, 0 to 255: arrays of height and width."""

    depth: Depths
    stencil: Stencils

    @property
    def digests(self) -> tuple[str, str]:
        """SHA-256 of the depths, four bytes each with the least first, and of the stencils, row by
        row from the top."""
        depth = np.ascontiguousarray(self.depth, dtype="<u4").tobytes()
        both = depth, np.ascontiguousarray(self.stencil).tobytes()
        first, second = (hashlib.sha256(it).hexdigest() for it in both)
        return first, second

    def picture(self, name: str) -> Pixels:
        """``depth`` or ``stencil`` as a picture."""
        return depth_picture(self.depth) if name == "depth" else stencil_picture(self.stencil)


def planes_behind(script: bytes, draw: Draw) -> Planes:
    """The planes behind a script that the device takes; it takes and raises what
    :func:`contents_behind` does."""
    contents = contents_behind(script, draw)
    return Planes(contents[..., 4], contents[..., 5].astype(np.uint8))


def contents_behind(script: bytes, draw: Draw) -> Contents:
    """What the pixels hold behind a script that the device takes: an array of height, width and
    red, green, blue, alpha, depth, stencil.

    It is drawn with a question for each pixel behind it, once for each million pixels, which takes
    some two seconds each. Raises :class:`~yuzuratchet.errors.ScriptRefused` where a line is refused.
    """
    sides = target_sides(script)
    if sides is None or not script.endswith(b"\n"):
        _raise_refused(draw(script), script)
    width, height = sides or (1, 1)  # (a script without a target is refused)
    rows = max(1, PIXELS_AT_ONCE // width)
    bands = []
    for top in range(0, height, rows):
        asked = range(top, min(height, top + rows))
        numbers = _asked_rows(script, draw, asked, width)
        bands.append(numbers.reshape(len(asked), width, 8)[..., 2:].astype(np.uint32))
    return np.concatenate(bands)


def _asked_rows(script: bytes, draw: Draw, rows: range, width: int) -> npt.NDArray[np.int64]:
    """The numbers of the answers for each pixel of some rows, behind those of the script."""
    lines = "".join(f"i pixel {x} {y}\n" for y in rows for x in range(width))
    ran = draw(script + lines.encode("ascii"))
    _raise_refused(ran, script)
    count = len(rows) * width
    answers = ran.answers.split("\n")[-1 - count : -1]
    text = "\n".join(answers).replace("pixel ", "")
    return np.fromstring(text, dtype=np.int64, sep=" ")


def _raise_refused(ran: Ran, script: bytes) -> None:
    if ran.refused:
        line, number = ran.refused
        # (what the end of the script is refused for is told at the first question)
        line = min(line, script.count(b"\n") + 1)
        raise ScriptRefused(line, number, message_of(number).when)


def depth_picture(depth: Depths) -> Pixels:
    """Depths as grey: the nearest white, the farthest that was drawn dark, and black where nothing
    was drawn."""
    drawn = depth < DEEPEST
    least = int(depth.min())
    most = int(depth[drawn].max()) if drawn.any() else least
    scale = 215 / max(1, most - least)
    # (halves upwards, as the page rounds)
    grey = np.floor(255 - (depth.astype(np.float64) - least) * scale + 0.5)
    grey = np.where(drawn, grey, 0).astype(np.uint8)
    return opaque_picture(np.repeat(grey[..., None], 3, axis=2))


def stencil_picture(stencil: Stencils) -> Pixels:
    """Stencil values in colours: 0 is black, and values next to each other differ."""
    turns = (np.arange(256) * 0.381966) % 1
    shifts = np.array([0, 1 / 3, 2 / 3])
    hues = 140 + 100 * np.cos(2 * np.pi * (turns[:, None] - shifts))
    colours = np.floor(hues + 0.5).astype(np.uint8)
    colours[0] = 0
    return opaque_picture(colours[stencil])


def heat_picture(counts: Contents) -> Pixels:
    """Counts as heat: black for none, and from dark blue for the least of the others by red and
    yellow to nearly white for the most, in 256 shades."""
    touched = counts[counts > 0]
    least, most = (int(touched.min()), int(touched.max())) if touched.size else (1, 1)
    span = max(1, most - least)
    # (halves upwards, as the page rounds)
    shades = (np.maximum(counts, least).astype(np.int64) - least) * (2 * SHADES - 2) + span
    shades //= 2 * span
    picture: Pixels = _heat_colours()[np.where(counts > 0, shades + 1, 0)]
    return picture


def _heat_colours() -> npt.NDArray[np.uint8]:
    """Black, and behind it the shades, each opaque."""
    place = np.arange(SHADES) * (len(HEAT) - 1) / (SHADES - 1)
    channels = [np.interp(place, np.arange(len(HEAT)), it) for it in zip(*HEAT)]
    colours = np.full((1 + SHADES, 4), 255, np.uint8)
    colours[0, :3] = 0
    colours[1:, :3] = np.floor(np.stack(channels, axis=1) + 0.5)
    return colours


def opaque_picture(colours: npt.NDArray[np.uint8]) -> Pixels:
    """The colours, each with an alpha of 255."""
    alpha = np.full((*colours.shape[:2], 1), 255, dtype=np.uint8)
    return np.concatenate([colours, alpha], axis=2)
