"""From what people write to the whole numbers of a script.

========== ============================================ ========================================
what       written as                                   in a script
========== ============================================ ========================================
coordinate pixels: int, float or Fraction               1/65,536 of a pixel, ties to even
depth      float or Fraction from 0.0 to 1.0, or the    0 (nearest) to 16,777,215 (farthest), ties
           stored integer                               upwards
colour     three or four numbers 0 to 255, or           red, green, blue, alpha, 0 to 255 each
           "#rrggbb" or "#rrggbbaa"
========== ============================================ ========================================

Colours without alpha are opaque: alpha is 255. A depth's type decides: ``1.0`` is the farthest and
``1`` the stored integer next to the nearest.
"""

from __future__ import annotations

import math
import re
from fractions import Fraction
from numbers import Integral, Rational, Real
from typing import Iterable, Sequence, Union

from .errors import ArgumentError, WrongType
from .limits import DEEPEST, SUBPIXELS

Number = Union[int, float, Fraction]
Colour = Union[str, Sequence[int]]
ScriptColour = tuple[int, int, int, int]

UNSURE = 1e-6
"""How near to a half a depth may lie that is left to exact fractions."""

HEX_COLOUR = re.compile(r"#([0-9a-fA-F]{6})([0-9a-fA-F]{2})?")


def _exact(value: object, name: str) -> Fraction:
    """The value as an exact fraction; numpy's numbers are taken, strings and infinities are not."""
    if isinstance(value, bool):
        raise WrongType(name, f"a number is wanted, and not {value}")
    if isinstance(value, Rational):
        return Fraction(int(value.numerator), int(value.denominator))
    if not isinstance(value, Real):
        raise WrongType(name, f"{value!r} is no finite number")
    if not math.isfinite(value):
        raise ArgumentError(name, f"{value!r} is no finite number")
    return Fraction(float(value))


def subpixels(pixels: Number, name: str = "coordinate") -> int:
    """A coordinate in pixels as the nearest 1/65,536 of a pixel, the even one of two.

    >>> subpixels(1.5)
    98304
    """
    if type(pixels) is int:
        return pixels * SUBPIXELS
    if isinstance(pixels, float) and math.isfinite(pixels):
        return round(pixels * SUBPIXELS)  # (exact, since the factor is a power of two)
    return round(_exact(pixels, name) * SUBPIXELS)


def stored_depth(depth: Number, name: str = "depth") -> int:
    """A depth as it is stored: an integer as it is, a float or Fraction from 0.0 to 1.0 scaled.

    >>> stored_depth(0.5), stored_depth(7)
    (8388608, 7)
    """
    if isinstance(depth, float) and 0 <= depth <= 1:
        scaled = depth * DEEPEST + 0.5
        below = math.floor(scaled)
        if UNSURE < scaled - below < 1 - UNSURE:
            return below
    elif isinstance(depth, Integral) and not isinstance(depth, bool):
        return int(depth)
    exact = _exact(depth, name)
    if not 0 <= exact <= 1:
        raise ArgumentError(name, f"{depth!r} is not in 0.0 to 1.0")
    return math.floor(exact * DEEPEST + Fraction(1, 2))


def rgba(colour: Colour, name: str = "colour") -> ScriptColour:
    """A colour as four numbers from 0 to 255.

    >>> rgba("#ff8000"), rgba((1, 2, 3, 4))
    ((255, 128, 0, 255), (1, 2, 3, 4))
    """
    if isinstance(colour, str):
        found = HEX_COLOUR.fullmatch(colour)
        if not found:
            raise ArgumentError(name, f"{colour!r} is neither #rrggbb nor #rrggbbaa")
        channels = list(bytes.fromhex(found[1] + (found[2] or "ff")))
    else:
        channels = _channels(colour, name)
    red, green, blue, alpha = channels
    return red, green, blue, alpha


def _channels(colour: Iterable[int], name: str) -> list[int]:
    try:
        channels = list(colour)
    except TypeError as error:
        raise WrongType(name, f"{colour!r} is no colour: a str, or 3 or 4 numbers") from error
    if len(channels) not in (3, 4):
        raise ArgumentError(name, f"{len(channels)} numbers are given, and a colour has 3 or 4")
    if not all(map(_is_channel, channels)):
        raise ArgumentError(name, f"{tuple(channels)!r} are not whole numbers from 0 to 255")
    return [int(it) for it in channels] + [255] * (4 - len(channels))


def _is_channel(value: object) -> bool:
    if type(value) is int:
        return 0 <= value <= 255
    is_whole = isinstance(value, Integral) and not isinstance(value, bool)
    return is_whole and 0 <= int(value) <= 255  # type: ignore[call-overload]
