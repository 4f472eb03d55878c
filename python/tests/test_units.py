"""Coordinates, depths and colours as a script has them."""

from __future__ import annotations

from fractions import Fraction

import pytest

from yuzuratchet.errors import ArgumentError
from yuzuratchet.units import rgba, stored_depth, subpixels


@pytest.mark.parametrize(
    ("pixels", "number"),
    [
        (0, 0),
        (4, 262_144),
        (-4096, -268_435_456),
        (0.5, 32_768),
        (Fraction(1, 3), 21_845),
        (Fraction(1, 131_072), 0),  # a tie goes to the even one
        (Fraction(3, 131_072), 2),
        (1 / 131_072, 0),
        (3 / 131_072, 2),
        (-3 / 131_072, -2),
    ],
)
def test_coordinates(pixels: float, number: int) -> None:
    assert subpixels(pixels) == number


@pytest.mark.parametrize(
    ("depth", "stored"),
    [
        (0.0, 0),
        (1.0, 16_777_215),
        (0.5, 8_388_608),  # 8388607.5, upwards
        (Fraction(1, 3), 5_592_405),
        (1, 1),
        (16_777_215, 16_777_215),
        (99_999_999, 99_999_999),  # a scene tells the limit, a script can have it
    ],
)
def test_depths(depth: float, stored: int) -> None:
    assert stored_depth(depth) == stored


@pytest.mark.parametrize(
    ("colour", "numbers"),
    [
        ("#0a141e28", (10, 20, 30, 40)),
        ("#FF8000", (255, 128, 0, 255)),
        ((1, 2, 3), (1, 2, 3, 255)),
        ([1, 2, 3, 4], (1, 2, 3, 4)),
    ],
)
def test_colours(colour: object, numbers: tuple[int, ...]) -> None:
    assert rgba(colour) == numbers  # type: ignore[arg-type]


@pytest.mark.parametrize("value", ["12", float("nan"), float("inf"), None, 1j])
def test_no_coordinates(value: object) -> None:
    with pytest.raises(ArgumentError, match="left: .* is no finite number"):
        subpixels(value, "left")  # type: ignore[arg-type]


@pytest.mark.parametrize("value", [-0.1, 1.5, "near"])
def test_no_depths(value: object) -> None:
    with pytest.raises(ArgumentError, match="^depth: "):
        stored_depth(value)  # type: ignore[arg-type]


@pytest.mark.parametrize(
    "value", ["red", "#12345", "#1234567", (1, 2), (1, 2, 3, 256), (0.5, 0, 0), (-1, 0, 0)]
)
def test_no_colours(value: object) -> None:
    with pytest.raises(ArgumentError, match="^colour: "):
        rgba(value)  # type: ignore[arg-type]


def test_numbers_of_numpy() -> None:
    np = pytest.importorskip("numpy")
    assert subpixels(np.float32(1.5)) == 98_304
    assert subpixels(np.int64(2)) == 131_072
    assert stored_depth(np.float64(1)) == 16_777_215
    assert stored_depth(np.int32(1)) == 1
    assert rgba(np.array([1, 2, 3, 4], dtype=np.uint8)) == (1, 2, 3, 4)
