"""Rectangles, triangles, meshes and their shadows; expected values are worked out by hand."""

from __future__ import annotations

import itertools
import sys
from collections import Counter
from fractions import Fraction
from pathlib import Path
from types import ModuleType
from typing import Any, Callable

import numpy as np
import pytest

from yuzuratchet import ArgumentError, Scene
from yuzuratchet.errors import PackageMissing
from yuzuratchet.meshes import Mesh, load_mesh, mesh
from yuzuratchet.shapes import box, checker, clockwise, draw_triangles, grid, rectangle, sphere
from yuzuratchet.vertices import Vertices


def area(a: Any, b: Any, c: Any) -> float:
    return float((b[0] - a[0]) * (c[1] - a[1]) - (c[0] - a[0]) * (b[1] - a[1]))


@pytest.mark.parametrize("corners", itertools.permutations([(0, 0), (4, 0), (0, 4)]))
def test_clockwise(corners) -> None:  # type: ignore[no-untyped-def]
    turned = clockwise(*corners)
    assert sorted(turned) == sorted(corners) and turned[0] == corners[0]
    assert area(*turned) > 0  # y goes down


def test_rectangle() -> None:
    found = rectangle(1, 2, 5, 4, depth=0.5, colour="#010203")
    assert [it[:2] for it in found] == [(1, 2), (5, 2), (1, 4), (5, 2), (5, 4), (1, 4)]
    assert {it[2:] for it in found} == {(0.5, "#010203")}
    assert area(*found[:3]) == area(*found[3:]) == 8


def test_draw_triangles() -> None:
    scene = Scene(4, 4)
    draw_triangles(scene.immediate, iter(rectangle(0, 0, 4, 4)))
    assert [str(line)[:12] for line in scene.lines] == [
        "i vb 0 0 0 2",
        "i topology 4",
        "i draw 6 0",
    ]


def test_draw_triangles_in_parts() -> None:
    """A buffer takes 65,536 vertices; of triangles that are more, 65,535 are drawn at once."""
    whole = Scene(4, 4)
    draw_triangles(whole.immediate, [*rectangle(0, 0, 4, 4)[:2] * 32_768])
    assert [line.word for line in whole.lines] == ["vb", "topology", "draw"]
    scene = Scene(4, 4)
    numbers = np.arange(7 * 65_538).reshape(-1, 7) % 256
    draw_triangles(scene.immediate, Vertices(numbers))
    assert [line.word for line in scene.lines] == ["vb", "topology", "draw", "vb", "draw"]
    assert [line.arguments[0] for line in scene.lines if line.word == "draw"] == [65_535, 3]
    both = [*scene.lines[0].arguments, *scene.lines[3].arguments]
    assert both == numbers.ravel().tolist()


def test_box_faces_look_outwards() -> None:
    found = box((1, 2, 3), (1, 2, 3))
    assert found.points.min(axis=0).tolist() == [0, 0, 0]
    assert found.points.max(axis=0).tolist() == [2, 4, 6]
    assert (outwards(found, (1, 2, 3)) > 0).all()
    assert Counter(map(tuple, np.abs(found.normals()).tolist())) == {
        (1.0, 0.0, 0.0): 4,
        (0.0, 1.0, 0.0): 4,
        (0.0, 0.0, 1.0): 4,
    }
    assert is_closed(found.faces)


def outwards(body: Mesh, centre: tuple[float, ...]) -> np.ndarray:  # type: ignore[type-arg]
    """How far each face looks away from a centre."""
    away = body.points[body.faces].mean(axis=1) - centre
    return (body.normals() * away).sum(axis=1)  # type: ignore[no-any-return]


@pytest.mark.parametrize(("segments", "rings"), [(3, 2), (5, 3), (24, 12)])
def test_spheres_are_closed_and_look_outwards(segments: int, rings: int) -> None:
    ball = sphere((1, 2, 3), 2, "#010203", segments, rings)
    assert is_closed(ball.faces) and (outwards(ball, (1, 2, 3)) > 0).all()
    assert len(ball.faces) == 2 * segments * (rings - 1)
    assert np.allclose(np.linalg.norm(ball.points - (1, 2, 3), axis=1), 2)
    assert (ball.colours == (1, 2, 3, 255)).all()


def test_grid() -> None:
    floor = grid(3, 2, 0.5)
    assert floor.points.min(axis=0).tolist() == [-0.75, 0, -0.5]
    assert floor.points.max(axis=0).tolist() == [0.75, 0, 0.5]
    assert len(floor.faces) == 12 and (floor.normals() == (0, 1, 0)).all()
    corners = floor.points[floor.faces]
    areas = np.linalg.norm(
        np.cross(corners[:, 1] - corners[:, 0], corners[:, 2] - corners[:, 0]), axis=1
    )
    assert np.allclose(areas, 0.25)
    # from the nearest row, from left to right
    centres = corners.mean(axis=1)[::2, [0, 2]]
    assert (np.lexsort((centres[:, 0].round(3), centres[:, 1].round(3))) == np.arange(6)).all()


def test_checker() -> None:
    floor = checker(3, 2, ("#000000", "#ffffff"))
    assert floor.colours[::2, 0].tolist() == [0, 255, 0, 255, 0, 255]
    assert (floor.colours[::2] == floor.colours[1::2]).all()
    for colours in ("#000000", ["#000000"]):
        with pytest.raises(ArgumentError, match="^colours: two colours are wanted"):
            checker(2, 2, colours)


@pytest.mark.parametrize(
    ("call", "argument"),
    [
        (lambda: box((0, 0), 1), "centre"),
        (lambda: sphere("abc", 1), "centre"),  # type: ignore[arg-type]
        (lambda: box((0, 0, 0), 1).moved((0, float("nan"), 0)), "by"),
        (lambda: box((0, 0, 0), 1).shadow_volume((0, 1), 2), "light"),
    ],
)
def test_no_vectors(call: Callable[[], object], argument: str) -> None:
    with pytest.raises(ArgumentError, match=f"^{argument}: x, y and z are wanted, and not "):
        call()


@pytest.mark.parametrize(
    "make",
    [
        lambda: grid(0, 1),
        lambda: grid(1, 1.5),  # type: ignore[arg-type]
        lambda: sphere((0, 0, 0), 1, segments=2),
        lambda: sphere((0, 0, 0), 1, rings=1),
    ],
)
def test_no_shapes(make) -> None:  # type: ignore[no-untyped-def]
    with pytest.raises(ArgumentError, match="is no whole number of at least"):
        make()


def is_closed(faces) -> bool:  # type: ignore[no-untyped-def]
    """Whether each edge has a face on either side, which go along it in opposite directions."""
    edges = Counter((int(face[k]), int(face[(k + 1) % 3])) for face in faces for k in range(3))
    return all(edges[b, a] == count for (a, b), count in edges.items())


def test_a_face_that_looks_at_the_viewer_goes_clockwise_on_the_target() -> None:
    """Space has y upwards and the target downwards: a near face of a box, brought there, is in front."""
    body = box((0, 0, 0), 1)
    near = body.faces[body.normals()[:, 2] < -0.5]
    on_target = body.points * (1, -1, 1)
    assert all(area(*on_target[face]) > 0 for face in near) and len(near) == 2


def test_normals_of_a_face_without_area() -> None:
    assert Mesh([(0, 0, 0), (1, 0, 0)], [(0, 1, 1)]).normals().tolist() == [[0, 0, 0]]


def test_shades() -> None:
    body = box((0, 0, 0), 1, "#c8640a80")
    found = body.shaded((0, -2, 0), ambient=0.5, direct=0.25).colours
    above = body.normals()[:, 1] > 0.5
    assert set(map(tuple, found[above].tolist())) == {(150, 75, 8, 128)}
    assert set(map(tuple, found[~above].tolist())) == {(100, 50, 5, 128)}
    with pytest.raises(ArgumentError, match="^light: "):
        body.shaded((0, 0, 0))


@pytest.mark.parametrize("light", [(0, -1, 0), (0.5, -1, 0.3), (-1, -1, 1)])
def test_shadow_volumes_are_closed(light: tuple[float, ...]) -> None:
    around = box((0, 1, 0), 0.5).shadow_volume(light, 10)
    assert around.points.shape == (16, 3) and is_closed(around.faces)
    corners = around.points[around.faces]
    volume = np.einsum("ij,ij->i", corners[:, 0], np.cross(corners[:, 1], corners[:, 2])).sum() / 6
    seen = sum(
        abs(it) for it in light
    )  # the area of a unit cube's shadow, times the light's length
    assert abs(volume) == pytest.approx(10 * seen)


def test_meshes_are_moved_and_turned() -> None:
    body = Mesh([(1, 2, 3)], np.empty((0, 3), int))
    assert body.moved((1, 0, -1)).points.tolist() == [[2, 2, 2]]
    assert body.scaled(2).points.tolist() == [[2, 4, 6]]
    assert body.scaled((1, 2, 3)).points.tolist() == [[1, 4, 9]]
    # clockwise along the axis: y goes to z, z to x, x to y
    for axis, wanted in (("x", (1, -3, 2)), ("y", (3, 2, -1)), ("z", (-2, 1, 3))):
        assert body.turned(90, axis).points[0] == pytest.approx(wanted)
    calls: list[Callable[[], object]] = [lambda: body.turned(90, "w"), lambda: body.mirrored("xy")]
    calls.append(lambda: body.scaled(0))
    for call in calls:
        with pytest.raises(ArgumentError):
            call()


def test_mirrored() -> None:
    body = box((0, 2, 0), 1).mirrored("y", at=0.5)
    assert (outwards(body, (0, -1, 0)) > 0).all() and is_closed(body.faces)
    assert body.points[:, 1].min() == -2


def test_two_meshes_as_one() -> None:
    both = box((0, 0, 0), 1, "#ff0000") + box((5, 0, 0), 1, "#00ff00")
    assert repr(both) == "<Mesh: 16 points, 24 faces>"
    assert both.points[both.faces[12:]][..., 0].min() == 4
    assert both.colours[0].tolist() == [255, 0, 0, 255] and both.colours[12].tolist() == [
        0,
        255,
        0,
        255,
    ]


def test_mesh() -> None:
    points = [(0, 0, 0.0), (4, 0, 0.5), (0, 4, 1.0), (4, 4, 0.25)]
    found = mesh(points, [(0, 1, 2), (1, 3, 2)], [(1, 2, 3), (4, 5, 6)])
    assert found[0] == (0, 0, 0, (1, 2, 3, 255)) and found[4] == (4, 4, 4_194_304, (4, 5, 6, 255))
    assert [it[3] for it in mesh(points, [(0, 1, 2)], "#ff000080")] == [(255, 0, 0, 128)] * 3
    scene = Scene(4, 4)
    draw_triangles(scene.immediate, found)
    assert scene.lines[0].arguments[9] == 8_388_608


def test_one_rule_for_depths() -> None:
    """A whole number is the stored depth, wherever it stands; an array's type is that of all its numbers."""
    points: list[Any] = [(0, 0, 1), (4, 0, 1.0), (0, 4, Fraction(1, 2)), (4, 4, 0)]
    given = [(*point, "#ffffff") for point in points]
    one, other = Scene(4, 4), Scene(4, 4)
    one.immediate.ia_set_vertices(given[:3])
    other.immediate.ia_set_vertices(mesh(points, [(0, 1, 2)], "#ffffff"))
    assert one.script() == other.script()
    assert [row[2] for row in one.lines[0].rows] == [1, 16_777_215, 8_388_608]
    for array, stored in ((np.array(points[:2]), 16_777_215), (np.array([(0, 0, 1)] * 2), 1)):
        assert mesh(array, [(0, 0, 0)], "#ffffff")[0][2] == stored


def test_vertices_are_a_sequence() -> None:
    found = mesh([(0.5, 0, 0.0), (4, 0, 0.5), (0, 4, 1.0)], [(0, 1, 2)], "#ff0000")
    assert isinstance(found, Vertices) and len(found) == 3 and repr(found) == "<Vertices: 3>"
    assert found[0] == (0.5, 0.0, 0, (255, 0, 0, 255)) and list(reversed(found))[0] == found[2]
    assert list(found[1:]) == [found[1], found[2]]
    more = rectangle(0, 0, 1, 1)
    assert len(found + more) == 9 and len(more + found) == 9 and (found + more)[3][:2] == (0, 0)
    with pytest.raises(ArgumentError, match="^numbers: rows of 7"):
        Vertices(np.zeros((2, 3), dtype=np.int64))


class Visual:
    kind = "face"
    face_colors = [[1, 2, 3, 4]]


class Loaded:
    vertices = [[0, 0, 1], [1, 0, 1], [0, 1, 1]]
    faces = [[0, 1, 2]]
    visual = Visual()


def test_meshes_from_files(monkeypatch: pytest.MonkeyPatch, tmp_path: Path) -> None:
    """By a stand-in with trimesh's calls; a face that looks at the viewer there does so here."""
    calls = []

    def load(path: str, force: str) -> Loaded:
        calls.append((path, force))
        return Loaded()

    stand_in = ModuleType("trimesh")
    stand_in.load = load  # type: ignore[attr-defined]
    monkeypatch.setitem(sys.modules, "trimesh", stand_in)
    path = tmp_path / "x.obj"
    with pytest.raises(FileNotFoundError):
        load_mesh(path)
    path.write_text("")
    found = load_mesh(path)
    assert calls == [(str(path), "mesh")] and found.colours.tolist() == [[1, 2, 3, 4]]
    # counter-clockwise with z towards the viewer, it looks at him, whom z leaves here
    assert found.normals().tolist() == [[0, 0, -1]]
    assert load_mesh(path, "#ff0000").colours.tolist() == [[255, 0, 0, 255]]
    stand_in.load = lambda path, force: object()  # type: ignore[attr-defined]
    with pytest.raises(ArgumentError, match="is no mesh that trimesh reads"):
        load_mesh(path)


def test_without_trimesh(monkeypatch: pytest.MonkeyPatch, tmp_path: Path) -> None:
    monkeypatch.setitem(sys.modules, "trimesh", None)  # type: ignore[misc]
    with pytest.raises(PackageMissing, match="pip install trimesh"):
        load_mesh(tmp_path / "x.obj")


def test_trimesh_itself(tmp_path: Path) -> None:
    pytest.importorskip("trimesh", reason="trimesh isn't installed")
    path = tmp_path / "x.obj"
    path.write_text("v 0 0 1\nv 1 0 1\nv 0 1 1\nf 1 2 3\n")
    found = load_mesh(path)
    assert found.normals().tolist() == [[0, 0, -1]] and found.colours.shape == (1, 4)


@pytest.mark.parametrize(
    ("points", "faces", "colours", "argument"),
    [
        ([(0, 0)], [(0, 0, 0)], "#000000", "points"),
        ([(0, 0, 0)], [(0, 0)], "#000000", "faces"),
        ([(0, 0, 0)], [(0, 0, 1)], "#000000", "faces"),
        ([(0, 0, 0)], [(0.0, 0.0, 0.0)], "#000000", "faces"),
        ([(0, 0, 0)], [(0, 0, 0)], [(1, 2, 3), (1, 2, 3)], "colours"),
        ([(0, 0, 0)], [(0, 0, 0)], "blue", "colour"),
    ],
)
def test_no_meshes(points, faces, colours, argument: str) -> None:  # type: ignore[no-untyped-def]
    with pytest.raises(ArgumentError) as raised:
        mesh(points, faces, colours)
    assert raised.value.argument == argument
