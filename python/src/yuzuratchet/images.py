"""Images: the program's TGA files and PNGs as arrays of height, width and four channels.

A channel is red, green, blue or alpha, 0 to 255. Alpha is what was drawn; a target begins with 0,
so that what nobody drew on is invisible in most viewers. An image that is saved to be looked at is
opaque, unless its alpha is asked for.
"""

from __future__ import annotations

import io
import math
from numbers import Real
from pathlib import Path
from typing import Any, Final

import numpy as np
import numpy.typing as npt
from PIL import Image, UnidentifiedImageError

from .errors import ArgumentError, ImageError, WrongType

Pixels = npt.NDArray[np.uint8]

KINDS: Final = {".png": "PNG", ".tga": "TGA", ".tif": "TIFF", ".tiff": "TIFF"}
"""Kinds of files that keep each pixel with its alpha, by their suffixes."""

LONGEST_SIDE: Final = 65_535
"""How many pixels a side of a saved image has at most."""

NOTEBOOK_SIDE: Final = 256
"""How long the longer side of an image is at least where a notebook shows it, in whole squares."""


class Picture(np.ndarray[Any, np.dtype[np.uint8]]):
    """An image as an array like any other, which a notebook shows as a picture."""

    def _repr_png_(self) -> bytes | None:
        is_image = self.ndim == 3 and self.shape[2] == 4 and self.size and self.dtype == np.uint8
        return notebook_png(self) if is_image else None


EMPTY = (
    "it is empty, as the program leaves it where a line of the script is refused or has a fault; "
    "'yuzuratchet check SCRIPT' tells which"
)


def decode(data: bytes, name: str = "the image") -> Pixels:
    """The pixels of a TGA, a PNG or another file that Pillow reads.

    Raises :class:`~yuzuratchet.errors.ImageError`.
    """
    if not data:
        raise ImageError(f"{name}: {EMPTY}")
    try:
        with Image.open(io.BytesIO(data)) as image:
            return np.asarray(image.convert("RGBA")).view(Picture)
    except UnidentifiedImageError as error:
        raise ImageError(f"{name} is no image that can be read") from error
    except (OSError, SyntaxError, ValueError) as error:
        raise ImageError(f"{name} is no image that can be read: {error}") from error


def load(path: str | Path) -> Pixels:
    """The pixels of an image's file; raises OSError and :class:`~yuzuratchet.errors.ImageError`."""
    return decode(Path(path).read_bytes(), str(path))


def encode(pixels: Pixels) -> bytes:
    """A PNG of the pixels."""
    out = io.BytesIO()
    Image.fromarray(pixels).save(out, "PNG", optimize=True)
    return out.getvalue()


def notebook_png(pixels: Pixels) -> bytes:
    """A PNG of the pixels to be looked at: opaque, and of a small image in squares."""
    shown = opaque(pixels)
    scale = NOTEBOOK_SIDE // max(shown.shape[:2])
    return encode(scaled(shown, scale) if scale > 1 else shown)


def opaque(pixels: Pixels) -> Pixels:
    """The pixels with an alpha of 255."""
    copy = pixels.copy()
    copy[..., 3] = 255
    return copy


def scaled(pixels: Pixels, scale: float) -> Pixels:
    """The pixels so many times as large each way: squares, or means (weighted by alpha).

    Raises :class:`~yuzuratchet.errors.ArgumentError` where no image can have that size.
    """
    if isinstance(scale, bool) or not isinstance(scale, Real):
        raise WrongType("scale", f"a number is wanted, and not {scale!r}")
    if not (scale > 0 and math.isfinite(scale)):
        raise ArgumentError("scale", f"{scale!r} is no number above 0")
    height, width = pixels.shape[:2]
    size = max(1, round(width * scale)), max(1, round(height * scale))
    if max(size) > LONGEST_SIDE:
        raise ArgumentError("scale", f"{max(size)} pixels a side are more than {LONGEST_SIDE}")
    how = Image.Resampling.NEAREST if scale >= 1 else Image.Resampling.BOX
    return np.asarray(Image.fromarray(pixels).resize(size, how))


def kind_of(path: str | Path) -> str:
    """The kind of file by its suffix; raises :class:`~yuzuratchet.errors.ImageError` where it has
    none that keeps each pixel."""
    suffix = Path(path).suffix.lower()
    if suffix not in KINDS:
        known = ", ".join(KINDS)
        why = "is none of those that keep each pixel as it is" if suffix else "is missing"
        raise ImageError(f"{path} can't be written: its suffix {why} ({known})")
    return KINDS[suffix]


def save(pixels: Pixels, path: str | Path, *, keep_alpha: bool = False, scale: float = 1) -> None:
    """Saves the pixels, opaque unless alpha is kept; the suffix says the kind of file.

    Raises :class:`~yuzuratchet.errors.ImageError` for a suffix that is none of :data:`KINDS`.
    """
    kind = kind_of(path)
    shown = pixels if keep_alpha else opaque(pixels)
    Image.fromarray(scaled(shown, scale)).save(path, kind)
