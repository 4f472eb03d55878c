"""Which pixels of two images differ, by how much, in numbers and as a picture."""

from __future__ import annotations

from dataclasses import dataclass
from typing import Any, Iterator

import numpy as np
import numpy.typing as npt
from PIL import Image, ImageDraw

from .errors import ImageError
from .images import Pixels
from .planes import Planes

Values = npt.NDArray[Any]
"""An image of height, width and four channels, or a plane of height and width."""

CHANNELS = ("red", "green", "blue", "alpha")
MARK = (255, 0, 200, 255)
FRAME = (255, 140, 0, 255)
FRAME_DISTANCE = 3


@dataclass(frozen=True)
class Tolerance:
    """How far values may lie apart and still count as the same: each channel of a colour, 0 to 255,
    and depths, in units of the stored ones."""

    channel: int = 0
    depth: int = 0


EXACT = Tolerance()


@dataclass(frozen=True)
class Difference:
    """The pixels in which two images of one size differ; there is at least one.

    ``mask`` is an array of height and width, True where they differ. ``box`` is the least rectangle
    round them: left, top, and the first column and row outside. ``largest`` is the largest
    difference of each channel among those pixels; of a plane it has one number. ``tolerance`` is
    what was let pass.
    """

    mask: npt.NDArray[np.bool_]
    box: tuple[int, int, int, int]
    largest: tuple[int, ...]
    tolerance: int = 0

    @property
    def count(self) -> int:
        """How many pixels differ."""
        return int(self.mask.sum())

    def places(self) -> Iterator[tuple[int, int]]:
        """The pixels (x, y) that differ, row by row."""
        for y, x in zip(*np.nonzero(self.mask)):
            yield int(x), int(y)

    @property
    def text(self) -> str:
        """How many pixels differ, where, and at most by how much."""
        height, width = self.mask.shape
        left, top, right, bottom = self.box
        where = f"in columns {left} to {right - 1} and rows {top} to {bottom - 1}"
        more = f" by more than {self.tolerance}" if self.tolerance else ""
        return f"{self.count} of {width * height} pixels differ{more}, {where}, {self._most}"

    @property
    def _most(self) -> str:
        if len(self.largest) == 1:
            return f"at most by {self.largest[0]}"
        named = [f"{most} in {name}" for name, most in zip(CHANNELS, self.largest) if most]
        return f"at most by {', '.join(named)}"


def compare(a: Values, b: Values, tolerance: int = 0) -> Difference | None:
    """The difference of two images or planes, or None where no value differs by more than is let pass.

    Raises :class:`~yuzuratchet.errors.ImageError` where their sizes differ.
    """
    if a.shape != b.shape:
        sizes = " and ".join(f"{it.shape[1]} by {it.shape[0]}" for it in (a, b))
        raise ImageError(f"the sizes differ: {sizes} pixels")
    height, width = a.shape[:2]
    channels = (height, width, a.size // (height * width))
    apart = np.abs(a.astype(np.int64) - b.astype(np.int64)).reshape(channels)
    mask: npt.NDArray[np.bool_] = (apart > tolerance).any(axis=2)
    if not mask.any():
        return None
    rows, columns = np.nonzero(mask.any(axis=1))[0], np.nonzero(mask.any(axis=0))[0]
    box = (int(columns[0]), int(rows[0]), int(columns[-1]) + 1, int(rows[-1]) + 1)
    largest = tuple(map(int, apart[mask].max(axis=0)))
    return Difference(mask, box, largest, tolerance)


def compare_planes(a: Planes, b: Planes, tolerance: Tolerance = EXACT) -> dict[str, Difference]:
    """The differences of depth and stencil by their names; none where they are the same."""
    found = {
        "depth": compare(a.depth, b.depth, tolerance.depth),
        "stencil": compare(a.stencil, b.stencil),
    }
    return {name: it for name, it in found.items() if it}


def marked(pixels: Pixels, difference: Difference) -> Pixels:
    """The image in pale grey, the pixels that differ in a strong colour, and a frame round them."""
    grey = pixels[..., :3].mean(axis=2, keepdims=True) * 0.35 + 150
    picture = np.concatenate([np.repeat(grey, 3, axis=2), np.full_like(grey, 255)], axis=2)
    picture = picture.astype(np.uint8)
    picture[difference.mask] = MARK
    image = Image.fromarray(picture)
    left, top, right, bottom = difference.box
    corners = (
        left - FRAME_DISTANCE,
        top - FRAME_DISTANCE,
        right - 1 + FRAME_DISTANCE,
        bottom - 1 + FRAME_DISTANCE,
    )
    ImageDraw.Draw(image).rectangle(corners, outline=FRAME)
    return np.asarray(image)
