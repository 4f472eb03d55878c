"""Meshes from numpy arrays: points, and faces that are rows of three places in them.

In space x goes to the right, y up and z away from the viewer, and a face goes clockwise as it is
seen from outside. :mod:`yuzuratchet.camera` brings a :class:`Mesh` to the target; points that lie
there already are drawn by :func:`mesh`. :mod:`yuzuratchet.shapes` has boxes, spheres and floors.
"""

from __future__ import annotations

from importlib import import_module
from pathlib import Path
from typing import Any, Final, Sequence

import numpy as np
import numpy.typing as npt

from .errors import ArgumentError, PackageMissing
from .units import Colour, rgba, stored_depth, subpixels
from .vertices import Vertices, place_numbers

Floats = npt.NDArray[np.float64]
Faces = npt.NDArray[np.int64]
Channels = npt.NDArray[np.int64]

AXES: Final = "xyz"


class Mesh:
    """A mesh in space, whose arrays are not to be changed.

    ``points`` has a row of x, y and z for each point, ``faces`` a row of three places for each face,
    and ``colours`` a row of red, green, blue and alpha, 0 to 255, for each face. It is made of one
    colour too, or of a row of three or four numbers for each face.
    """

    def __init__(
        self,
        points: npt.ArrayLike,
        faces: npt.ArrayLike,
        colours: npt.ArrayLike | Colour = "#ffffff",
    ) -> None:
        self.points: Floats = _rows(points, 3, "points")
        self.faces: Faces = _faces(faces, len(self.points))
        self.colours: Channels = _colours(colours, len(self.faces))

    def __repr__(self) -> str:
        return f"<Mesh: {len(self.points)} points, {len(self.faces)} faces>"

    def __add__(self, other: Mesh) -> Mesh:
        """Both as one mesh: the faces of the other behind those of this one."""
        points = np.concatenate([self.points, other.points])
        faces = np.concatenate([self.faces, other.faces + len(self.points)])
        return Mesh(points, faces, np.concatenate([self.colours, other.colours]))

    def moved(self, by: Sequence[float]) -> Mesh:
        """The mesh, moved so far in x, y and z."""
        return Mesh(self.points + vector(by, "by"), self.faces, self.colours)

    def scaled(self, by: float | Sequence[float]) -> Mesh:
        """The mesh so many times as large round the origin, each way or in x, y and z.

        Factors are above 0; :meth:`mirrored` turns sides.
        """
        factors = np.asarray(by, dtype=float)
        if not (factors > 0).all():
            raise ArgumentError("by", f"{by!r} is not above 0")
        return Mesh(self.points * factors, self.faces, self.colours)

    def turned(self, degrees: float, axis: str = "y") -> Mesh:
        """The mesh, turned round an axis through the origin, clockwise as one looks along it."""
        first, second = {"x": (1, 2), "y": (2, 0), "z": (0, 1)}[_axis(axis)]
        angle = np.radians(degrees)
        matrix = np.eye(3)
        matrix[first, first] = matrix[second, second] = np.cos(angle)
        matrix[first, second], matrix[second, first] = -np.sin(angle), np.sin(angle)
        return Mesh(self.points @ matrix.T, self.faces, self.colours)

    def mirrored(self, axis: str = "y", at: float = 0.0) -> Mesh:
        """The mesh as a mirror shows it that lies across an axis, there: ``y`` is a mirror on the floor.

        Faces are turned too, so that they go clockwise as they are seen from outside.
        """
        points = self.points.copy()
        place = AXES.index(_axis(axis))
        points[:, place] = 2 * at - points[:, place]
        return Mesh(points, self.faces[:, ::-1], self.colours)

    def coloured(self, colours: npt.ArrayLike | Colour) -> Mesh:
        """The mesh in another colour, or in one for each face."""
        return Mesh(self.points, self.faces, colours)

    def normals(self) -> Floats:
        """For each face the direction in which it looks, of length 1; zero for one without area."""
        a, b, c = (self.points[self.faces[:, k]] for k in range(3))
        across: Floats = np.cross(b - a, c - a)
        length = np.linalg.norm(across, axis=1, keepdims=True)
        found: Floats = np.divide(across, length, out=np.zeros_like(across), where=length > 0)
        return found

    def shaded(self, light: Sequence[float], ambient: float = 0.4, direct: float = 0.6) -> Mesh:
        """The mesh in a light: the more a face looks against its direction, the brighter it is.

        A face that is turned away has its colour times ``ambient``, one that looks straight against
        the light its colour times ``ambient + direct``, at most 1.0. Alpha stays.
        """
        towards = -unit(vector(light, "light"), "light", "it has no direction")
        bright = ambient + direct * np.clip(self.normals() @ towards, 0, 1)
        colours = self.colours.astype(float)
        colours[:, :3] *= np.clip(bright, 0, 1)[:, None]
        return self.coloured(np.rint(colours).astype(np.int64))

    def shadow_volume(self, light: Sequence[float], reach: float) -> Mesh:
        """The space that a closed mesh shades, ``reach`` times ``light`` far.

        ``light`` is the direction in which the light goes. The volume is closed: the lit faces, the
        same moved away and turned, and walls between them.
        """
        along = vector(light, "light")
        lit = self.faces[self.normals() @ along < 0]
        edges = [(int(face[k]), int(face[(k + 1) % 3])) for face in lit for k in range(3)]
        rim = sorted(set(edges) - {(b, a) for a, b in edges})
        far = len(self.points)
        walls = [wall for a, b in rim for wall in ((b, a, a + far), (b, a + far, b + far))]
        moved = self.points + reach * along
        every = [lit, lit[:, ::-1] + far, np.array(walls, dtype=np.int64).reshape(-1, 3)]
        return Mesh(np.concatenate([self.points, moved]), np.concatenate(every))


def mesh(points: npt.ArrayLike, faces: npt.ArrayLike, colours: npt.ArrayLike | Colour) -> Vertices:
    """The vertices of a mesh that lies on the target, for ``TRIANGLELIST``: three for each face.

    ``points`` has a row for each point: x and y in pixels, and a depth. As everywhere the type
    decides what a depth is: a float from 0.0 to 1.0, or the stored integer; an array's type is that
    of all its numbers. ``faces`` has a row of three places for each face. ``colours`` is one colour,
    or a row of three or four numbers, 0 to 255, for each face.
    """
    places = _places(points)
    corners = _faces(faces, len(places))
    return triangle_vertices(places[corners], _colours(colours, len(corners)))


def triangle_vertices(corners: npt.NDArray[np.int64], colours: Channels) -> Vertices:
    """The vertices of triangles: of each three corners of x, y and depth, and its colour."""
    count = len(corners)
    numbers = np.empty((count, 3, 7), dtype=np.int64)
    numbers[..., :3] = corners
    numbers[..., 3:] = colours[:, None]
    return Vertices(numbers.reshape(3 * count, 7))


def load_mesh(path: str | Path, colours: npt.ArrayLike | Colour | None = None) -> Mesh:
    """The mesh of a file, OBJ, glTF or another kind that trimesh reads, where that is installed.

    Files have z towards the viewer and faces that go counter-clockwise; both are turned. Without
    ``colours`` the mesh has those of the file, one for each face.
    """
    try:
        trimesh = import_module("trimesh")
    except ImportError as error:
        wanted = "trimesh reads meshes from files, and isn't installed: 'pip install trimesh'"
        raise PackageMissing(wanted) from error
    if not Path(path).is_file():
        raise FileNotFoundError(2, "No such file or directory", str(path))
    try:
        loaded = trimesh.load(str(path), force="mesh")
        points, faces = np.array(loaded.vertices, dtype=float), np.array(loaded.faces)
    except (
        ValueError,
        KeyError,
        TypeError,
        IndexError,
        AttributeError,
        NotImplementedError,
    ) as error:
        raise ArgumentError("path", f"{path} is no mesh that trimesh reads: {error}") from error
    points[:, 2:] *= -1
    return Mesh(points, faces[:, ::-1], _face_colours(loaded) if colours is None else colours)


def _face_colours(loaded: Any) -> npt.ArrayLike | Colour:
    """The colours of the faces of a mesh that trimesh has read; white where it has none."""
    if loaded.visual.kind == "texture":
        loaded.visual = loaded.visual.to_color()
    return np.array(loaded.visual.face_colors) if loaded.visual.kind else "#ffffff"


def _places(points: npt.ArrayLike) -> npt.NDArray[np.int64]:
    """Points on the target as whole numbers: x and y in 1/65,536 of a pixel, and the stored depth."""
    rows = points.tolist() if isinstance(points, np.ndarray) else list(points)  # type: ignore[arg-type]
    if not rows or not all(hasattr(row, "__len__") and len(row) == 3 for row in rows):
        _rows(points, 3, "points")
    columns = [[row[at] for row in rows] for at in range(3)]
    found = place_numbers(*columns)
    if found is not None:
        return found
    each = []
    for number, (x, y, depth) in enumerate(rows):
        try:
            each.append((subpixels(x, "x"), subpixels(y, "y"), stored_depth(depth)))
        except ArgumentError as error:
            raise type(error)(error.argument, f"{error.message} (point {number})") from error
    return np.array(each, dtype=np.int64).reshape(-1, 3)


def _rows(values: npt.ArrayLike, width: int, name: str) -> Floats:
    found = np.asarray(values, dtype=float)
    if found.ndim != 2 or found.shape[1] != width:
        raise ArgumentError(
            name, f"an array of rows of {width} is wanted, and not of shape {found.shape}"
        )
    return found


def _faces(values: npt.ArrayLike, points: int) -> Faces:
    found = np.asarray(values)
    if found.ndim != 2 or found.shape[1] != 3 or found.dtype.kind not in "iu":
        raise ArgumentError(
            "faces", f"an array of rows of 3 whole numbers is wanted, not {found.shape}"
        )
    if found.size and not 0 <= found.min() <= found.max() < points:
        raise ArgumentError("faces", f"a face names a point that is none of the {points}")
    return found.astype(np.int64)


def _colours(colours: npt.ArrayLike | Colour, faces: int) -> Channels:
    """A row of four channels for each face."""
    given = _channels(colours)
    if len(given) not in (1, faces):
        raise ArgumentError("colours", f"{len(given)} are given for {faces} faces")
    return np.repeat(given, faces, axis=0) if len(given) == 1 != faces else given


def _channels(colours: npt.ArrayLike | Colour) -> Channels:
    """One colour, or rows of three or four numbers, as rows of four."""
    if isinstance(colours, str):
        return np.array([rgba(colours)], dtype=np.int64)
    rows = np.atleast_2d(np.asarray(colours))
    is_whole = rows.dtype.kind in "iu" and rows.ndim == 2 and rows.shape[1] in (3, 4)
    if not is_whole or rows.size and not 0 <= rows.min() <= rows.max() <= 255:
        each = [rgba(row, "colours") for row in rows.tolist()]  # (which tells what is wrong)
        return np.array(each, dtype=np.int64).reshape(-1, 4)
    if rows.shape[1] == 3:
        rows = np.column_stack([rows, np.full(len(rows), 255)])
    found: Channels = rows.astype(np.int64)
    return found


def vector(values: Sequence[float], name: str) -> Floats:
    """x, y and z as an array."""
    try:
        found = np.asarray(values, dtype=float)
    except (TypeError, ValueError):
        found = np.empty(0)
    if found.shape != (3,) or not np.isfinite(found).all():
        raise ArgumentError(name, f"x, y and z are wanted, and not {values!r}")
    return found


def unit(values: Floats, name: str, why: str) -> Floats:
    """The same direction with a length of 1; raises, and says why, where there is none."""
    length = float(np.linalg.norm(values))
    if length < 1e-12:
        raise ArgumentError(name, why)
    found: Floats = values / length
    return found


def _axis(name: str) -> str:
    if name not in tuple(AXES):
        raise ArgumentError("axis", f"{name!r} is none of x, y and z")
    return name
