"""Many vertices by numpy are as each alone; and what is wrong is told in pixels, by the vertex's number."""

from __future__ import annotations

import random
import sys
from fractions import Fraction
from typing import Any, Callable

import numpy as np
import pytest

from yuzuratchet import ArgumentError, CallRefused, Scene
from yuzuratchet.limits import DEEPEST
from yuzuratchet.vertices import MANY, one_by_one, vertex_line

TIES = [n / 131_072 for n in (-3, -1, 1, 3, 5)]
# depths that fall on a half, or next to one
HALVES = [float(Fraction(2 * n + 1, 2 * DEEPEST)) for n in (0, 1, 1000, DEEPEST // 2, DEEPEST - 1)]


def random_vertices(chance: random.Random, count: int) -> list[Any]:
    coordinates: list[Callable[[], Any]] = [
        lambda: chance.uniform(-4096, 4096),
        lambda: chance.randrange(-4096, 4097),
    ]
    coordinates += [lambda: chance.choice(TIES), lambda: np.float32(chance.uniform(-9, 9))]
    depths: list[Callable[[], Any]] = [
        lambda: chance.random(),
        lambda: chance.choice([0.0, 0.5, 1.0, *HALVES]),
    ]
    depths += [lambda: chance.randrange(DEEPEST + 1), lambda: np.float64(chance.random())]
    colours: list[Any] = ["#ff8000", "#01020304", (1, 2, 3), (1, 2, 3, 4), [5, 6, 7, 8]]
    made = []
    for _ in range(count):
        x, y = (chance.choice(coordinates)() for _ in range(2))
        made.append((x, y, chance.choice(depths)(), chance.choice(colours)))
    return made


@pytest.mark.parametrize("seed", range(20))
def test_many_are_as_each_alone(seed: int) -> None:
    given = random_vertices(random.Random(seed), 500)
    assert list(vertex_line("i", given).arguments) == one_by_one(given)


def test_of_one_kind() -> None:
    for depth in (1, 1.0, 0.5):
        given = [(number, 0.25, depth, "#ff8000") for number in range(200)]
        assert list(vertex_line("i", given).arguments) == one_by_one(given)


def test_fractions_are_taken_too() -> None:
    given = [(Fraction(number, 3), 0, Fraction(1, 3), "#ff8000") for number in range(200)]
    assert vertex_line("d1", given).arguments[7] == 21_845


WRONG: list[tuple[tuple[object, ...], str, str]] = [
    ((float("nan"), 0, 0.0, "#000000"), "x", "nan is no finite number"),
    ((0, float("inf"), 0.0, "#000000"), "y", "inf is no finite number"),
    ((0, 0, 1.5, "#000000"), "depth", "1.5 is not in 0.0 to 1.0"),
    ((0, 0, -0.5, "#000000"), "depth", "-0.5 is not in 0.0 to 1.0"),
    ((0, 0, 0.0, "blue"), "colour", "'blue' is neither #rrggbb nor #rrggbbaa"),
    ((0, 0, 0.0, (1, 2)), "colour", "2 numbers are given, and a colour has 3 or 4"),
    ((0, 0, 0.0, 7), "colour", "7 is no colour"),
    ((True, 0, 0.0, "#000000"), "x", "a number is wanted, and not True"),
    ((0, 0, True, "#000000"), "depth", "a number is wanted, and not True"),
    ((0, "0", 0.0, "#000000"), "y", "'0' is no finite number"),
    ((0, 0, 0.0), "vertices", r"\(0, 0, 0.0\) is not \(x, y, depth, colour\)"),
]


@pytest.mark.parametrize("count", [2, MANY + 5])
@pytest.mark.parametrize(("wrong", "argument", "why"), WRONG)
def test_what_is_wrong_is_told(count: int, wrong: Any, argument: str, why: str) -> None:
    given: list[Any] = [(0, 0, 0.0, "#000000")] * count
    given[-1] = wrong
    scene = Scene(4, 4)
    with pytest.raises(ArgumentError, match=f"^{argument}: {why}.*\\(vertex {count - 1}\\)$"):
        scene.immediate.ia_set_vertices(given)
    assert not scene.lines


@pytest.mark.parametrize("count", [2, MANY + 5])
@pytest.mark.parametrize(
    ("vertex", "why"),
    [
        ((4096.5, 0, 0.0), "x of vertex {} is 4096.5 pixels, and not in -4096 to 4096"),
        ((0, -4097, 0.0), "y of vertex {} is -4097 pixels, and not in -4096 to 4096"),
        ((0, 0, DEEPEST + 1), "the depth of vertex {} is 16777216, and not in 0 to 16777215"),
    ],
)
def test_limits_are_told_in_pixels(count: int, vertex: tuple[float, ...], why: str) -> None:
    given: list[Any] = [(0, 0, 0.0, "#000000")] * count
    given[-1] = (*vertex, "#000000")
    with pytest.raises(CallRefused) as raised:
        Scene(4, 4).immediate.ia_set_vertices(given)
    wanted = f"vertices: {why.format(count - 1)} (refusal 3)"
    assert str(raised.value) == wanted and raised.value.number == 3


@pytest.mark.parametrize("count", [2, MANY + 5])
@pytest.mark.parametrize(
    ("vertex", "why"),
    [
        ((40_000, 0, 0.0), "x of vertex {} is 40000 pixels, and not in -4096 to 4096"),
        ((0, 1e9, 0.0), "y of vertex {} is 1000000000 pixels"),
        ((0, 0, -1), "the depth of vertex {} is -1, and not in 0 to 16777215"),
        ((0, 0, 2**70), "the depth of vertex {} is 1180591620717411303424"),
    ],
)
def test_so_are_numbers_that_no_script_has(count: int, vertex: tuple[float, ...], why: str) -> None:
    given: list[Any] = [(0, 0, 0.0, "#000000")] * count
    given[-1] = (*vertex, "#000000")
    with pytest.raises(ArgumentError, match=f"^vertices: {why.format(count - 1)}"):
        Scene(4, 4, strict=False).immediate.ia_set_vertices(given)


def test_without_numpy(monkeypatch: pytest.MonkeyPatch) -> None:
    given = random_vertices(random.Random(1), 100)
    line = vertex_line("i", given)
    monkeypatch.setitem(sys.modules, "numpy", None)  # type: ignore[misc]
    plain = []
    for x, y, z, colour in given:
        depth = int(z) if isinstance(z, int) else float(z)
        plain.append((float(x), float(y), depth, colour))
    assert vertex_line("i", plain).arguments == line.arguments
