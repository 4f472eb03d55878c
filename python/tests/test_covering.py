"""Which triangles cover a pixel: worked by hand, and random ones as the plain evaluation has them."""

from __future__ import annotations

import random
from typing import Sequence

import numpy as np
import plain_device
import pytest
import random_scenes

from yuzuratchet import Scene
from yuzuratchet.covering import (
    Covered,
    Edges,
    Point,
    SnappedTriangles,
    depth_at,
    snapped,
    triangle_places,
)
from yuzuratchet.explanation import Covering
from yuzuratchet.limits import DEEPEST, STRIP_CUT
from yuzuratchet.recording import Item
from yuzuratchet.states import CullMode, RasterizerState
from yuzuratchet.unrolling import Unrolled

# the corners of half a square of eight pixels, in 1/256 pixel, and centres on its edges
LEFT_TOP = (128, 128), (2176, 128), (128, 2176)
RIGHT_BOTTOM = (2176, 128), (2176, 2176), (128, 2176)
ON_LEFT, ON_TOP, ON_DIAGONAL, ON_RIGHT = (128, 1152), (1152, 128), (1152, 1152), (2176, 1152)


def weights_at(corners: Sequence[Point], centre: Point) -> list[int] | None:
    """The weights of one triangle at a point, or None where it doesn't cover it."""
    x, y = np.array(corners, np.int64)[:, :, None].transpose(1, 0, 2)
    weights, covering = Edges.of(x, y).weights_at(centre)
    return list(map(int, weights[:, 0])) if covering.size else None


def draws_of(scene: Scene) -> list[Item]:
    items = [item for performed in Unrolled(scene).performed for item in performed.commands.items]
    return [it for it in items if it.line.word.startswith("draw")]


def strip(*places: int, base: int = 0) -> Item:
    """A draw of a strip by indices."""
    scene = Scene(4, 4)
    scene.add("i", "vb", *(number for n in range(9) for number in (n, 0, 0, 0, 0, 0, 0)))
    scene.add("i", "ib", *places)
    scene.add("i", "topology", 5)
    scene.add("i", "drawi", len(places), 0, base)
    return draws_of(scene)[0]


def test_coordinates_go_to_the_nearest_part_and_at_ties_to_the_even_one() -> None:
    given = [0, 127, 128, 129, 384, 385, 640, -127, -128, -129, -384]
    assert snapped(given).tolist() == [0, 0, 0, 1, 2, 2, 2, 0, 0, -1, -2]


@pytest.mark.parametrize("corners", [LEFT_TOP, LEFT_TOP[::-1]])
def test_left_and_top_edges_belong_to_a_triangle(corners: tuple[Point, ...]) -> None:
    assert weights_at(corners, ON_LEFT) and weights_at(corners, ON_TOP)
    assert weights_at(corners, ON_DIAGONAL) is None


def test_right_edges_do_not_belong_to_it_and_a_shared_one_belongs_to_one_of_both() -> None:
    assert weights_at(RIGHT_BOTTOM, ON_RIGHT) is None
    assert weights_at(RIGHT_BOTTOM, ON_DIAGONAL) and weights_at(LEFT_TOP, ON_DIAGONAL) is None


def test_a_triangle_without_an_area_covers_nothing() -> None:
    assert weights_at(((0, 0), (256, 256), (512, 512)), (256, 256)) is None


def test_weights_sum_to_the_area_and_tell_which_way_it_goes() -> None:
    assert weights_at(LEFT_TOP, (640, 640)) == [2048 * 1024, 2048 * 512, 2048 * 512]
    assert weights_at(LEFT_TOP[::-1], (640, 640)) == [-2048 * 512, -2048 * 512, -2048 * 1024]


def test_a_depth_is_rounded_down_before_its_bias_and_stays_in_its_range() -> None:
    assert depth_at([1, 1, 1], (0, 1, 1), 0) == 0
    assert depth_at([-2, -1, -1], (4, 7, 0), 5) == 8
    assert depth_at([1, 1, 1], (9, 9, 9), -10) == 0
    assert depth_at([1, 1, 1], (9, 9, 9), DEEPEST) == DEEPEST


def test_which_way_a_triangle_faces_says_what_culls_it() -> None:
    for is_front, culling in ((True, CullMode.FRONT), (False, CullMode.BACK)):
        covered = Covered(Covering(0, (), 0), is_front)
        culled = [covered.is_culled(RasterizerState(mode)) for mode in CullMode]
        assert culled == [mode is culling for mode in CullMode]


def test_triangles_of_strips_with_cuts() -> None:
    found = triangle_places(strip(0, 1, 2, 3, STRIP_CUT, 4, STRIP_CUT, 5, 6, 7, base=1))
    assert found.T.tolist() == [[1, 2, 3], [2, 4, 3], [6, 7, 8]]
    assert triangle_places(strip(0, 1, STRIP_CUT, 2, 3)).shape == (3, 0)


def test_a_scene_without_triangles() -> None:
    assert not [*SnappedTriangles([]).on(0, 0)]


def test_random_triangles() -> None:
    chance, found = random.Random(5), 0
    for number in range(8):
        scene = Scene(20, 20, strict=False)
        random_scenes.add_triangles(chance, scene)
        items = draws_of(scene) + [strip(0, 1, 2)]
        triangles = SnappedTriangles(items)
        plain = [plain_device.triangles_of(it) for it in items]
        for x, y in {(chance.randrange(20), chance.randrange(20)) for _ in range(20)}:
            wanted = {
                (draw, number): triangle
                for draw, those in enumerate(plain)
                for number, triangle in enumerate(those)
                if triangle.area and triangle.weights(x, y)
            }
            told = {(draw, it.covering.triangle): it for draw, it in triangles.on(x, y)}
            assert [*told] == [*wanted]
            for key, triangle in wanted.items():
                rasterizer, weights = items[key[0]].state.rasterizer, triangle.weights(x, y)
                assert weights and told[key].covering.depth == triangle.depth(weights)
                assert told[key].covering.colour == triangle.rgba
                assert told[key].is_culled(rasterizer) == triangle.is_culled(rasterizer)
            found += len(wanted)
    assert found > 100
