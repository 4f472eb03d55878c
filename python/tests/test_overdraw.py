"""How often pixels were touched, against their histories: the library's, or those of the plain evaluation."""

from __future__ import annotations

import random
from typing import Any, Callable

import numpy as np
import plain_device
import pytest
import random_scenes

from yuzuratchet import ArgumentError, CallRefused, Scene, ScriptRefused, read_script
from yuzuratchet.features import Feature
from yuzuratchet.history import history
from yuzuratchet.limits import STRIP_CUT
from yuzuratchet.overdraw import overdraw
from yuzuratchet.planes import heat_picture
from yuzuratchet.random_script import random_script

MOST_PIXELS = 1000

Counted = Callable[[Scene], list[int]]
"""How many events the history of each pixel of a scene has."""


@pytest.fixture(params=["plain", "library"])
def counted(request: pytest.FixtureRequest) -> Counted:
    library = request.getfixturevalue("history_library") if request.param == "library" else None

    def count(scene: Scene) -> list[int]:
        places = [(x, y) for y in range(scene.height) for x in range(scene.width)]
        if library is None:
            found = plain_device.histories(scene.script(), places)
            return [len(found[place]) for place in places]
        script = scene.script().encode("ascii")
        return [len(history(script, x, y, library=library)) for x, y in places]

    return count


@pytest.fixture
def how(program: Any) -> dict[str, Any]:
    """What counts for predicates."""
    return {"program": program}


def test_random_scenes(counted: Counted, how: dict[str, Any]) -> None:
    """Lists that are executed twice, predicates, scissors, strips with cuts, kept states, biases, and corners at
    centres and as far outside as corners may lie."""
    chance, pixels, number = random.Random(42), 0, 0
    while pixels < 3000:
        kinds = ("states", "triangles", "states", "large")
        scene = random_scenes.random_scene(chance, number, asked=0, kinds=kinds)
        number += 1
        if scene.width * scene.height > MOST_PIXELS:
            continue
        try:
            counts = overdraw(scene, **how)
        except ScriptRefused:
            continue
        assert counts.shape == (scene.height, scene.width) and counts.dtype == np.uint32
        assert counts.ravel().tolist() == counted(scene)
        pixels += counts.size


def test_random_scripts_and_their_parts(counted: Counted, how: dict[str, Any]) -> None:
    chance = random.Random(5)
    for number in range(20):
        scene = random_script(str(number), frozenset(Feature))
        line = chance.randrange(1, len(scene.lines) + 2)
        counts = overdraw(scene, at=line, **how)
        assert counts.ravel().tolist() == counted(scene.up_to(line))
        left, right = sorted(chance.randrange(scene.width + 1) for _ in range(2))
        top, bottom = sorted(chance.randrange(scene.height + 1) for _ in range(2))
        part = overdraw(scene, left, top, right, bottom, at=line, **how)
        assert part.tolist() == counts[top:bottom, left:right].tolist()


def test_worked_rows() -> None:
    corners = "0 0 5 1 1 1 1 524288 0 5 1 1 1 1 0 524288 5 1 1 1 1 524288 524288 5 1 1 1 1"
    text = f"target 8 8\ni clearc 1 2 3 4\ni raster 1 0 0\ni topology 5\ni vb {corners}\n"
    text += f"i ib 0 1 2 {STRIP_CUT} 1 3 2\ni drawi 7 0 0\n"
    scene = read_script(text)
    assert overdraw(scene).tolist() == [[2] * 8] * 8, "each centre belongs to one of both triangles"
    scene.add("i", "raster", 3, 0, 1)
    scene.add("i", "scissor", 6, 0, 4096, 7)
    scene.add("i", "drawi", 3, 0, 0)
    scene.add("i", "raster", 3, 1, 0)
    scene.add("i", "drawi", 7, 0, 0)
    assert overdraw(scene, 5, 0, 8, 2).tolist() == [[2, 3, 2], [2, 2, 2]]
    assert overdraw(scene, at=2).tolist() == [[1] * 8] * 8
    assert overdraw(scene, 3, 3, 3, 5).shape == (2, 0)


def test_a_script_without_a_triangle() -> None:
    assert overdraw(Scene(3, 2)).tolist() == [[0, 0, 0]] * 2


@pytest.mark.parametrize("rectangle", [(0, 0, 3, 1), (0, 0, 1, 3), (-1, 0, 1, 1), (0, -1, 1, 1)])
def test_pixels_outside(rectangle: tuple[int, int, int, int]) -> None:
    with pytest.raises(ArgumentError):
        overdraw(Scene(2, 2), *rectangle)


def test_a_line_that_is_refused(how: dict[str, Any]) -> None:
    scene = read_script("target 2 2\ni clearc 1 2 3 4\ni draw 3 0\n")
    with pytest.raises((CallRefused, ScriptRefused)):
        overdraw(scene, **how)
    assert overdraw(scene, at=2).tolist() == [[1, 1]] * 2
    with pytest.raises(ArgumentError):
        overdraw(scene, at=4)


def test_heat() -> None:
    picture = heat_picture(np.array([[0, 2, 3, 4, 10]], np.uint32))
    assert picture.tolist() == [
        [
            [0, 0, 0, 255],
            [20, 20, 90, 255],
            [70, 25, 115, 255],
            [120, 30, 140, 255],
            [255, 255, 200, 255],
        ]
    ]
    assert heat_picture(np.array([[0, 7]], np.uint32))[0, 1].tolist() == [20, 20, 90, 255]
    assert not heat_picture(np.zeros((1, 1), np.uint32))[..., :3].any()
