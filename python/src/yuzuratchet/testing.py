"""For tests: two results are the same, or an error says where they differ, with pictures.

>>> from yuzuratchet.testing import assert_same
>>> # assert_same(run(scene), "expected.png"), or assert_same(run(scene), run(other))

:mod:`yuzuratchet.pytest_plugin` shows the pictures, and collects scripts as tests.
"""

from __future__ import annotations

from difflib import unified_diff
from pathlib import Path
from typing import Union

import numpy as np

from .difference import Difference, Tolerance, compare, compare_planes, marked
from .errors import ImageError, WrongType
from .images import Pixels, load
from .report import Pictures
from .results import Result

Picture = Union[Result, Pixels, str, Path]
"""A result, an image as an array, or the name of an image's file."""

SHOWN = 5
"""Pixels that a message lists."""


class ScenesDiffer(AssertionError):
    """Two results aren't the same. ``pictures`` has both, and what differs, with captions."""

    def __init__(self, message: str, pictures: Pictures) -> None:
        super().__init__(message)
        self.pictures = pictures


def assert_same(
    result: Result | Pixels,
    expected: Picture,
    *,
    tolerance: int = 0,
    depth_units: int = 0,
    planes: bool = False,
) -> None:
    """Raises :class:`ScenesDiffer` where two results aren't the same.

    Compared are the images, in which each channel may lie ``tolerance`` apart, and of two results
    their answers too. With ``planes`` depth, which may lie ``depth_units`` of 16,777,215 apart, and
    stencil are compared as well; each result is drawn once more for them. A result whose script was
    refused is compared by its answers alone.
    """
    allowed = Tolerance(tolerance, depth_units)
    lines = _answers(result, expected)
    drawn, wanted = _image(result), _image(expected)
    if (drawn is None) != (wanted is None):
        lines.append("one of the two was refused, and has no image")
    if drawn is None or wanted is None:
        found = None
    else:
        try:
            found = compare(wanted, drawn, allowed.channel)
        except ImageError as error:
            raise ScenesDiffer(str(error), [("expected", wanted), ("drawn", drawn)]) from error
    if found is not None and drawn is not None and wanted is not None:
        lines += _pixels(wanted, drawn, found)
    if planes and drawn is not None and wanted is not None:
        lines += _planes(result, expected, allowed)
    if lines:
        raise ScenesDiffer("\n".join(lines), _pictures(drawn, wanted, found))


def _image(of: Picture) -> Pixels | None:
    """The image of a result, an array or a file; None where a line was refused."""
    if isinstance(of, Result):
        return None if of.refused else of.image
    if isinstance(of, (str, Path)):
        return load(of)
    if isinstance(of, np.ndarray) and of.ndim == 3 and of.shape[2] == 4 and of.dtype == np.uint8:
        return of
    raise WrongType(
        "expected", f"a Result, an image or its file is wanted, not {type(of).__name__}"
    )


def _answers(result: Picture, expected: Picture) -> list[str]:
    if not (isinstance(result, Result) and isinstance(expected, Result)):
        return []
    texts = expected.text.splitlines(), result.text.splitlines()
    return list(unified_diff(*texts, "expected answers", "answers", n=0, lineterm=""))


def _pixels(wanted: Pixels, drawn: Pixels, found: Difference) -> list[str]:
    """How many pixels differ, and the first of them: expected, and drawn."""
    lines = [f"image: {found.text}"]
    for (x, y), _ in zip(found.places(), range(SHOWN)):
        colours = [" ".join(map(str, it[y, x])) for it in (wanted, drawn)]
        lines.append(f"  ({x}, {y}): {colours[0]} expected, {colours[1]} drawn")
    return lines


def _planes(result: Picture, expected: Picture, allowed: Tolerance) -> list[str]:
    if not (isinstance(result, Result) and isinstance(expected, Result)):
        raise WrongType("planes", "an image has neither depth nor stencil: two results are wanted")
    found = compare_planes(expected.planes, result.planes, allowed)
    return [f"{name}: {it.text}" for name, it in found.items()]


def _pictures(drawn: Pixels | None, wanted: Pixels | None, found: Difference | None) -> Pictures:
    shown: Pictures = []
    if wanted is not None:
        shown.append(("expected", wanted))
    if drawn is not None:
        shown.append(("drawn", drawn))
    if drawn is not None and found is not None:
        shown.append(("what differs", marked(drawn, found)))
    return shown
