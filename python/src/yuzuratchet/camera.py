"""Perspective: from meshes in space to vertices on the target.

>>> from yuzuratchet.camera import look_at, perspective, project
>>> camera = perspective(50, 4 / 3) @ look_at((3, 2, -5), (0, 0, 0))
>>> # draw_triangles(context, project(box((0, 0, 0), 1), camera, scene))

A camera is a matrix of 4 by 4 that takes a column of x, y, z and 1 to Direct3D's clip space: what is
seen has ``-w <= x <= w``, ``-w <= y <= w`` and ``0 <= z <= w``. In space x goes to the right, y up and
z away from the viewer. A depth is ``z / w`` then, 0.0 at the near plane and 1.0 at the far one; it
goes linearly over the target, so the device interpolates it as it should be.
"""

from __future__ import annotations

from typing import Final, Protocol, Sequence, Union

import numpy as np
import numpy.typing as npt

from .errors import ArgumentError, WrongType
from .limits import DEEPEST, FARTHEST_PIXEL, SUBPIXELS
from .meshes import Floats, Mesh, triangle_vertices, unit, vector
from .vertices import Vertices

Matrix = npt.NDArray[np.float64]
"""Four rows of four numbers."""


class HasSides(Protocol):
    """What has a width and a height in pixels, as a :class:`~yuzuratchet.scene.Scene` has."""

    width: int
    height: int


Target = Union[HasSides, tuple[int, int]]
"""A scene, or width and height in pixels."""

WIDEST: Final = 179.0


def look_at(
    eye: Sequence[float], at: Sequence[float], up: Sequence[float] = (0.0, 1.0, 0.0)
) -> Matrix:
    """The matrix from space to what an eye sees that looks at a point: x to its right, y up, z away.

    ``up`` is the direction that is shown upwards.
    """
    here = vector(eye, "eye")
    away = unit(vector(at, "at") - here, "at", "the eye lies there itself")
    right = unit(np.cross(vector(up, "up"), away), "up", "it lies along the line of sight")
    above = np.cross(away, right)
    found = np.eye(4)
    found[:3, :3] = right, above, away
    found[:3, 3] = -found[:3, :3] @ here
    return found


def perspective(degrees: float, aspect: float, near: float = 0.1, far: float = 100.0) -> Matrix:
    """The matrix from what an eye sees to clip space, with an angle from below to above in degrees.

    ``aspect`` is the target's width by its height. What is nearer than ``near`` or farther than
    ``far`` isn't drawn; the depths of what is far away lie the closer, the nearer ``near`` is.
    """
    if not 0 < degrees <= WIDEST:
        raise ArgumentError("degrees", f"{degrees!r} is not above 0 and at most {WIDEST}")
    _check_aspect(aspect)
    if not 0 < near < far < np.inf:
        raise ArgumentError("near", f"{near!r} and {far!r} are not 0 < near < far")
    scale, depth = 1 / np.tan(np.radians(degrees) / 2), far / (far - near)
    found = np.zeros((4, 4))
    found[0, 0], found[1, 1] = scale / aspect, scale
    found[2, 2], found[2, 3], found[3, 2] = depth, -near * depth, 1
    return found


def orthographic(height: float, aspect: float, near: float = 0.0, far: float = 100.0) -> Matrix:
    """The same without perspective: ``height`` of space is seen from below to above."""
    _check_aspect(aspect)
    if not 0 < height < np.inf:
        raise ArgumentError("height", f"{height!r} is no number above 0")
    if not -np.inf < near < far < np.inf:
        raise ArgumentError("near", f"{near!r} and {far!r} are not near < far")
    return np.array(
        [
            (2 / (height * aspect), 0, 0, 0),
            (0, 2 / height, 0, 0),
            (0, 0, 1 / (far - near), -near / (far - near)),
            (0, 0, 0, 1),
        ]
    )


def project(mesh: Mesh, camera: npt.ArrayLike, target: Target) -> Vertices:
    """The vertices by which a mesh is drawn on a target as a camera sees it, three for each triangle.

    What lies before the near plane, behind the far one, or more than 4,096 pixels from the upper
    left corner, which the device refuses, is cut off: of a face are drawn as many triangles as are
    left of it, in its colour and at its turn. Faces that look away are not left out: that is the
    rasterizer state's.
    """
    if not isinstance(mesh, Mesh):
        raise WrongType("mesh", f"a Mesh is wanted, and not {mesh!r}")
    width, height = _sides(target)
    matrix = np.asarray(camera, dtype=float)
    if matrix.shape != (4, 4) or not np.isfinite(matrix).all():
        raise ArgumentError("camera", f"a matrix of 4 by 4 is wanted, and not {matrix.shape}")
    points = np.column_stack([mesh.points, np.ones(len(mesh.points))]) @ matrix.T
    triangles, faces = cut(points[mesh.faces], planes(width, height))
    w = triangles[..., 3]
    if not (w > 0).all():
        raise ArgumentError("camera", "it shows points at which it stands itself")
    corners = np.empty(triangles.shape[:2] + (3,), dtype=np.int64)
    x = (triangles[..., 0] / w + 1) * (width / 2)
    y = (1 - triangles[..., 1] / w) * (height / 2)
    for at, pixels in enumerate((x, y)):
        within = np.clip(pixels, -FARTHEST_PIXEL, FARTHEST_PIXEL)
        corners[..., at] = np.rint(within * SUBPIXELS)
    depth = np.clip(triangles[..., 2] / w, 0, 1)
    corners[..., 2] = np.floor(depth * DEEPEST + 0.5)
    return triangle_vertices(corners, mesh.colours[faces])


def planes(width: int, height: int) -> Floats:
    """The planes between which the device takes points of clip space: each a row of four factors,
    whose sum of products is at least 0 inside. The near plane stands first."""
    x, y, far = width / 2, height / 2, float(FARTHEST_PIXEL)
    return np.array(
        [
            (0, 0, 1, 0),
            (0, 0, -1, 1),
            (x, 0, 0, far + x),
            (-x, 0, 0, far - x),
            (0, -y, 0, far + y),
            (0, y, 0, far - y),
        ]
    )


def cut(triangles: Floats, sides: Floats) -> tuple[Floats, npt.NDArray[np.int64]]:
    """What lies inside of some planes of triangles, which are arrays of three points of four numbers.

    Gives triangles, and for each the place of the one that it is a part of, in the order of these.
    Neighbours are cut at the same points.
    """
    places = np.arange(len(triangles))
    outside = triangles @ sides.T < 0  # (of each triangle, each corner, each plane)
    is_crossed = outside.any(axis=(1, 2)) & ~outside.all(axis=1).any(axis=1)
    is_whole = ~outside.any(axis=(1, 2))
    parts, owners = triangles[is_crossed], places[is_crossed]
    for side in sides:
        parts, owners = _cut_by(parts, owners, side)
    every = np.concatenate([triangles[is_whole], parts])
    of = np.concatenate([places[is_whole], owners])
    order = np.argsort(of, kind="stable")
    return every[order], of[order]


def _cut_by(
    triangles: Floats, owners: npt.NDArray[np.int64], side: Floats
) -> tuple[Floats, npt.NDArray[np.int64]]:
    """What lies on one side of a plane: of each triangle itself, one, two, or nothing."""
    inside = triangles @ side >= 0
    count = inside.sum(axis=1)
    # the corner that lies alone on its side comes first
    alone = np.where(count == 1, inside.argmax(axis=1), (~inside).argmax(axis=1))
    turned = triangles[np.arange(len(triangles))[:, None], (alone[:, None] + np.arange(3)) % 3]
    a, b, c = (turned[:, at] for at in range(3))
    one, two = count == 1, count == 2
    tip = np.stack([a[one], _between(a[one], b[one], side), _between(a[one], c[one], side)], axis=1)
    first, last = _between(b[two], a[two], side), _between(c[two], a[two], side)
    rest = np.stack([first, b[two], c[two]], axis=1)
    more = np.stack([first, c[two], last], axis=1)
    parts = (triangles[count == 3], tip, rest, more)
    of = (owners[count == 3], owners[one], owners[two], owners[two])
    return np.concatenate(parts), np.concatenate(of)


def _between(inside: Floats, outside: Floats, side: Floats) -> Floats:
    """The points at which lines from inside to outside cross a plane."""
    here, there = inside @ side, outside @ side
    share: Floats = (here / (here - there))[:, None]
    found: Floats = inside + share * (outside - inside)
    return found


def _sides(target: Target) -> tuple[int, int]:
    if isinstance(target, tuple):
        width, height = target
        return width, height
    try:
        return target.width, target.height
    except AttributeError as error:
        raise WrongType(
            "target", f"a Scene or (width, height) is wanted, not {target!r}"
        ) from error


def _check_aspect(aspect: float) -> None:
    if not 0 < aspect < np.inf:
        raise ArgumentError("aspect", f"{aspect!r} is no number above 0")
