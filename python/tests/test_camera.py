"""The camera: expected values are worked out by hand, and whatever is drawn lies within what the device takes."""

from __future__ import annotations

import random
from pathlib import Path
from typing import Any

import numpy as np
import pytest

from yuzuratchet import ArgumentError, Scene, depth_and_stencil, run
from yuzuratchet.camera import look_at, orthographic, perspective, project
from yuzuratchet.limits import DEEPEST, FARTHEST
from yuzuratchet.meshes import Mesh
from yuzuratchet.shapes import box, checker, draw_triangles, grid, sphere

# an angle of 90 degrees: at a distance of 1 the eye sees from -1 to 1
WIDE = perspective(90, 1, 1, 3)


def triangle(*points: tuple[float, float, float], colour: str = "#ffffff") -> Mesh:
    return Mesh(points, [(0, 1, 2)], colour)


def area(a: Any, b: Any, c: Any) -> float:
    return float((b[0] - a[0]) * (c[1] - a[1]) - (c[0] - a[0]) * (b[1] - a[1]))


def test_what_the_eye_sees() -> None:
    """From (0, 0, -2) towards the origin: a point above the origin lies above, at a distance of 2."""
    seen = look_at((0, 0, -2), (0, 0, 0)) @ (3, 1, 0, 1)
    assert seen == pytest.approx((3, 1, 2, 1))
    # from the right towards the left, so z of space goes to the right of what is seen
    seen = look_at((5, 0, 0), (0, 0, 0)) @ (0, 1, 2, 1)
    assert seen == pytest.approx((2, 1, 5, 1))
    # from above, with z of space shown upwards
    seen = look_at((0, 9, 0), (0, 0, 0), up=(0, 0, 1)) @ (1, 2, 3, 1)
    assert seen == pytest.approx((1, 3, 7, 1))


def test_perspective_by_hand() -> None:
    """The near plane lies at 1, the far one at 3: at a distance of 1.5 the depth is half of the whole."""
    assert WIDE @ (0, 0, 1, 1) == pytest.approx((0, 0, 0, 1))
    assert WIDE @ (0, 0, 3, 1) == pytest.approx((0, 0, 3, 3))
    assert WIDE @ (1, -1, 1.5, 1) == pytest.approx((1, -1, 0.75, 1.5))


def test_points_on_the_target_by_hand() -> None:
    """On 8 by 4 pixels: at a distance of 2 the eye sees from -4 to 4 across and from -2 to 2 upwards."""
    camera = perspective(90, 2, 1, 3)
    found = project(triangle((-4, 2, 2), (4, 2, 2), (0, -1, 2), colour="#01020304"), camera, (8, 4))
    # the depth at a distance of 2 is 3 / 2 * (2 - 1) / 2 = 3 / 4: 12582911.25
    assert list(found) == [
        (0.0, 0.0, 12_582_911, (1, 2, 3, 4)),
        (8.0, 0.0, 12_582_911, (1, 2, 3, 4)),
        (4.0, 3.0, 12_582_911, (1, 2, 3, 4)),
    ]


def test_orthographic_by_hand() -> None:
    camera = orthographic(4, 2, near=0, far=10)
    found = project(triangle((-4, 2, 5), (4, 2, 0), (0, -1, 10)), camera, (8, 4))
    assert [it[:3] for it in found] == [(0, 0, 8_388_608), (8, 0, 0), (4, 3, DEEPEST)]


def test_faces_that_look_at_the_eye_go_clockwise() -> None:
    body = box((0, 0, 0), 1)
    camera = perspective(50, 1) @ look_at((0, 0, -5), (0, 0, 0))
    found = project(body, camera, (64, 64))
    triangles = [found[at : at + 3] for at in range(0, len(found), 3)]
    towards = body.normals()[:, 2] < -0.5
    assert all((area(*it) > 0) for it, near in zip(triangles, towards) if near)
    # the far faces, and those at the sides, which are seen from behind
    assert all((area(*it) < 0) for it, near in zip(triangles, towards) if not near)


def test_cut_at_the_near_plane_by_hand() -> None:
    """One corner lies before the plane: two triangles are left, cut in the middle of two edges."""
    found = project(triangle((0, 0, 0), (2, 2, 2), (2, -2, 2)), WIDE, (8, 8))
    # edges to (1, 1, 1) and (1, -1, 1), which lie at the right side of the target: the same pixels
    assert len(found) == 6
    assert {it[:2] for it in found} == {(8.0, 0.0), (8.0, 8.0)}
    # at distances of 1 and 2: 0, and 3 / 4 of the whole depth
    assert {it[2] for it in found} == {0, 12_582_911}
    # two corners before the plane: one triangle is left
    found = project(triangle((0, 0, 2), (1, 1, 0), (1, -1, 0)), WIDE, (8, 8))
    assert [it[:3] for it in found] == [(4, 4, 12_582_911), (6, 2, 0), (6, 6, 0)]


def test_what_lies_outside_is_dropped() -> None:
    for points in (
        ((0, 0, 0.5), (1, 0, 0.9), (0, 1, -4)),  # before the near plane, and behind the eye
        ((0, 0, 3.5), (1, 0, 4), (0, 1, 4)),  # behind the far plane
        ((4000, 0, 2), (4100, 0, 2), (4000, 9, 2)),  # more than 4,096 pixels to the right
    ):
        assert len(project(triangle(*points), WIDE, (8, 8))) == 0
    assert len(project(Mesh(np.empty((0, 3)), np.empty((0, 3), int)), WIDE, (8, 8))) == 0


def test_cut_at_the_far_plane_and_at_4096_pixels() -> None:
    camera = orthographic(8, 1, near=0, far=10)  # (a unit of space is a pixel)
    found = project(triangle((-9000, 0, 5), (0, 4, 5), (0, -4, 5)), camera, (8, 8))
    xs = [it[0] for it in found]
    assert min(xs) == -4096 and max(xs) == 4 and len(found) == 6
    found = project(triangle((0, 0, 5), (4, 0, 15), (0, 4, 5)), camera, (8, 8))
    assert max(it[2] for it in found) == DEEPEST and max(it[0] for it in found) == 6


@pytest.mark.parametrize("seed", range(30))
def test_any_mesh_can_be_drawn(seed: int) -> None:
    """Whatever lies where, no number is beyond what the device takes, and faces keep their turn and side."""
    chance = random.Random(seed)
    size = 10 ** chance.uniform(-2, 5)
    points = np.array([[chance.uniform(-size, size) for _ in range(3)] for _ in range(60)])
    faces = np.array([[chance.randrange(60) for _ in range(3)] for _ in range(100)])
    colours = np.array([(number, 0, 0, 255) for number in range(100)])
    eye = [chance.uniform(-5, 5) for _ in range(3)]
    target = chance.randrange(1, 4097), chance.randrange(1, 4097)
    camera = perspective(chance.uniform(5, 170), target[0] / target[1]) @ look_at(eye, (0, 0, 0))
    numbers = project(Mesh(points, faces, colours), camera, target).numbers
    assert len(numbers) % 3 == 0 and (np.abs(numbers[:, :2]) <= FARTHEST).all()
    assert ((numbers[:, 2] >= 0) & (numbers[:, 2] <= DEEPEST)).all()
    assert (np.diff(numbers[::3, 3]) >= 0).all()
    scene = Scene(*target)
    draw_triangles(scene.immediate, project(Mesh(points, faces, colours), camera, scene))


def test_no_gap_where_faces_are_cut(program: Path) -> None:
    """A floor under the eye, which the near plane and all sides cut: each pixel below the horizon is
    drawn once, and none above it."""
    scene = Scene(48, 32)
    camera = perspective(70, 1.5, 0.05, 5000) @ look_at((0.3, 1, 0), (0.3, 1, 1))
    with scene.immediate.counted(0):
        draw_triangles(scene.immediate, project(grid(9, 7, 700.0), camera, scene))
    scene.immediate.get_data(0)
    result = run(scene, program=program)
    drawn = result.image[..., 0] == 255
    # the horizon lies in the middle; row 16 sees the floor at a distance of some 91
    assert not drawn[:16].any() and drawn[16:].all()
    assert result.answers[0].count == 48 * 16  # type: ignore[union-attr]


def test_depth_is_that_of_the_distance(program: Path) -> None:
    """A floor seen from 1 above: at each pixel the stored depth is that of the point that is seen there,
    but for what 1/512 pixel makes, by which the device moves a corner at most."""
    near, far = 0.5, 50
    scene = Scene(40, 30)
    camera = perspective(60, 4 / 3, near, far) @ look_at((0, 1, 0), (0, 1, 1))
    draw_triangles(scene.immediate, project(grid(20, 20, 10.0), camera, scene))
    depth, _ = depth_and_stencil(scene, program=program)
    slope = (
        np.tan(np.radians(30)) * 2 * (np.arange(30) + 0.5 - 15) / 30
    )  # (downwards, by a distance of 1)
    wanted = far / (far - near) * (1 - near * slope) * DEEPEST
    moved = abs(wanted[1] - wanted[0]) / 512
    assert np.abs(depth[18:] - wanted[18:, None]).max() < moved + 1


def test_turned_bodies_hide_their_backs(program: Path) -> None:
    """Half of a sphere's faces look at the eye: with and without culling the picture is the same."""
    from yuzuratchet.states import CullMode, RasterizerState

    camera = perspective(40, 1) @ look_at((3, 2, -4), (0, 0, 0))
    ball = sphere((0, 0, 0), 1, "#ff8000").shaded((1, -2, 1))
    images = []
    for mode in (CullMode.BACK, CullMode.NONE):
        scene = Scene(64, 64)
        scene.immediate.rs_set_state(RasterizerState(cull_mode=mode))
        draw_triangles(scene.immediate, project(ball, camera, scene))
        images.append(run(scene, program=program).image)
    assert (images[0] == images[1]).all() and (images[0][..., 3] == 255).sum() > 500


@pytest.mark.parametrize(
    ("call", "argument"),
    [
        (lambda: perspective(0, 1), "degrees"),
        (lambda: perspective(180, 1), "degrees"),
        (lambda: perspective(60, 0), "aspect"),
        (lambda: perspective(60, 1, 0, 1), "near"),
        (lambda: perspective(60, 1, 2, 1), "near"),
        (lambda: orthographic(0, 1), "height"),
        (lambda: orthographic(1, -1), "aspect"),
        (lambda: orthographic(1, 1, 5, 5), "near"),
        (lambda: look_at((0, 0), (1, 1, 1)), "eye"),
        (lambda: look_at((1, 2, 3), (1, 2, 3)), "at"),
        (lambda: look_at((0, 0, 0), (0, 5, 0)), "up"),
        (lambda: project(box((0, 0, 0), 1), np.eye(3), (8, 8)), "camera"),
        (lambda: project([(0, 0, 0)], WIDE, (8, 8)), "mesh"),  # type: ignore[arg-type]
        (lambda: project(box((0, 0, 0), 1), WIDE, "scene"), "target"),  # type: ignore[arg-type]
    ],
)
def test_no_cameras(call, argument: str) -> None:  # type: ignore[no-untyped-def]
    with pytest.raises(ArgumentError) as raised:
        call()
    assert raised.value.argument == argument


def test_it_is_fast() -> None:
    """A hundred thousand faces, of which some are cut, in well under a second."""
    import time

    floor = checker(230, 230, size=40.0)
    begun = time.process_time()
    found = project(floor, perspective(70, 1.5) @ look_at((0, 1, 0), (0, 1, 1)), (64, 64))
    assert time.process_time() - begun < 2 and len(found) > 1000
