"""Shapes that everybody draws: rectangles on the target; boxes, spheres and floors in space.

What lies on the target is a list of vertices, what lies in space a
:class:`~yuzuratchet.meshes.Mesh`, which :func:`yuzuratchet.camera.project` brings to the target.
"""

from __future__ import annotations

from typing import TYPE_CHECKING, Any, Iterable, Sequence, TypeVar

from .errors import ArgumentError
from .limits import BUFFER_LENGTH
from .scene import Context
from .states import PrimitiveTopology
from .units import Colour, Number
from .vertices import Vertex, Vertices

if TYPE_CHECKING:  # (numpy is asked for by whoever makes a mesh)
    from .meshes import Mesh

Corner = TypeVar("Corner", bound=Sequence[Any])

WHOLE_TRIANGLES = BUFFER_LENGTH // 3 * 3
"""Vertices of the triangles that a buffer takes."""


# ---- on the target


def clockwise(a: Corner, b: Corner, c: Corner) -> list[Corner]:
    """The three corners, turned so that they go clockwise on the target, whose y goes down.

    So they face the front with the default state. A corner begins with x and y.
    """
    area = (b[0] - a[0]) * (c[1] - a[1]) - (c[0] - a[0]) * (b[1] - a[1])
    return [a, b, c] if area > 0 else [a, c, b]


def rectangle(
    left: Number,
    top: Number,
    right: Number,
    bottom: Number,
    *,
    depth: Number = 0.0,
    colour: Colour = "#ffffff",
) -> list[Vertex]:
    """The six vertices of a rectangle as a list of two triangles that go clockwise.

    Its sides are pixels from the upper left corner, and it covers the pixels whose centres lie
    between them: with whole numbers columns ``left`` to ``right - 1``. Depth is 0.0 to 1.0 or the
    stored integer.

    >>> len(rectangle(0, 0, 4, 4, colour="#ff8000"))
    6
    """
    corners = [
        (left, top),
        (right, top),
        (left, bottom),
        (right, top),
        (right, bottom),
        (left, bottom),
    ]
    return [(x, y, depth, colour) for x, y in corners]


def draw_triangles(context: Context, vertices: Iterable[Vertex]) -> None:
    """Sets the vertices and the topology of a list, and draws each three as a triangle.

    Each vertex is ``(x, y, depth, colour)``; :class:`~yuzuratchet.vertices.Vertices`, as meshes
    give them, are the fastest. More than 65,535 are drawn in several parts.
    """
    given: Sequence[Vertex] = vertices if isinstance(vertices, Vertices) else list(vertices)
    parts = [given]
    if len(given) > BUFFER_LENGTH:
        starts = range(0, len(given), WHOLE_TRIANGLES)
        parts = [given[first : first + WHOLE_TRIANGLES] for first in starts]
    for number, part in enumerate(parts):
        context.ia_set_vertices(part)
        if number == 0:
            context.ia_set_topology(PrimitiveTopology.TRIANGLELIST)
        context.draw(len(part))


# ---- in space


def box(centre: Sequence[float], half: float | Sequence[float], colour: Colour = "#ffffff") -> Mesh:
    """A box; ``half`` is half of its size, each way or in x, y and z."""
    import numpy as np

    from .meshes import Mesh, vector

    signs = np.array([(x, y, z) for x in (-1, 1) for y in (-1, 1) for z in (-1, 1)], dtype=float)
    # left, right, below, above, near, far: each round its four corners
    sides = [(1, 3, 2, 0), (4, 6, 7, 5), (0, 4, 5, 1), (3, 7, 6, 2), (0, 2, 6, 4), (5, 7, 3, 1)]
    faces = [face for a, b, c, d in sides for face in ((a, b, c), (a, c, d))]
    points = vector(centre, "centre") + signs * np.asarray(half, dtype=float)
    return Mesh(points, faces, colour)


def grid(columns: int, rows: int, size: float = 1.0, colour: Colour = "#ffffff") -> Mesh:
    """A floor of squares that looks up, round the origin: columns along x, rows along z.

    ``size`` is the side of a square. Its faces come row by row from the nearest, two for each square.
    """
    import numpy as np

    from .meshes import Mesh

    _check_count("columns", columns)
    _check_count("rows", rows)
    xs = size * (np.arange(columns + 1) - columns / 2)
    zs = size * (np.arange(rows + 1) - rows / 2)
    points = np.array([(x, 0.0, z) for z in zs for x in xs])
    across = columns + 1
    near = (np.arange(rows)[:, None] * across + np.arange(columns)).ravel()
    far = near + across
    faces = np.stack([near, far, far + 1, near, far + 1, near + 1], axis=1).reshape(-1, 3)
    return Mesh(points, faces, colour)


def checker(
    columns: int,
    rows: int,
    colours: Sequence[Colour] = ("#e8e8e8", "#404858"),
    size: float = 1.0,
) -> Mesh:
    """A floor as :func:`grid` makes it, whose squares have two colours by turns."""
    import numpy as np

    from .units import rgba

    if isinstance(colours, str) or len(colours) != 2:
        raise ArgumentError("colours", f"two colours are wanted, and not {colours!r}")
    both = np.array([rgba(it, "colours") for it in colours])
    floor = grid(columns, rows, size)
    turns = (np.arange(rows)[:, None] + np.arange(columns)).ravel() % 2
    return floor.coloured(both[np.repeat(turns, 2)])


def sphere(
    centre: Sequence[float],
    radius: float,
    colour: Colour = "#ffffff",
    segments: int = 24,
    rings: int = 12,
) -> Mesh:
    """A ball of flat faces: ``segments`` round its axis, which goes up, and ``rings`` from pole to pole."""
    import numpy as np

    from .meshes import Mesh, vector

    _check_count("segments", segments, 3)
    _check_count("rings", rings, 2)
    turn = 2 * np.pi * np.arange(segments) / segments
    tilt = np.pi * np.arange(1, rings) / rings
    ring = [
        (np.sin(t) * np.cos(turn), np.full(segments, np.cos(t)), np.sin(t) * np.sin(turn))
        for t in tilt
    ]
    between = np.concatenate([np.stack(it, axis=1) for it in ring])
    points = np.concatenate([[(0.0, 1.0, 0.0)], between, [(0.0, -1.0, 0.0)]])
    here = np.arange(segments)
    beside = (here + 1) % segments
    last = len(points) - 1
    faces = [np.stack([np.zeros_like(here), beside + 1, here + 1], axis=1)]
    for first in range(1, 1 + segments * (rings - 2), segments):
        a, b, c, d = (
            first + here,
            first + beside,
            first + segments + here,
            first + segments + beside,
        )
        faces += [np.stack([a, b, d], axis=1), np.stack([a, d, c], axis=1)]
    bottom = last - segments
    faces.append(np.stack([np.full_like(here, last), bottom + here, bottom + beside], axis=1))
    return Mesh(vector(centre, "centre") + radius * points, np.concatenate(faces), colour)


def _check_count(name: str, count: int, least: int = 1) -> None:
    if isinstance(count, bool) or not isinstance(count, int) or count < least:
        raise ArgumentError(name, f"{count!r} is no whole number of at least {least}")
