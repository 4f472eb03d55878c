"""Which triangles of a scene cover a pixel, at which depth, and which way they face: exactly, by
whole numbers.

The rules are those of Direct3D as the device has them: corners go to the nearest multiple of 1/256
pixel, ties to even; a centre on an edge belongs to a top or a left one; a depth is rounded down.
"""

from __future__ import annotations

from dataclasses import dataclass
from typing import Final, Iterable, Iterator, NamedTuple, Sequence

import numpy as np
import numpy.typing as npt

from .assembly import strips
from .explanation import Covering
from .limits import DEEPEST, SUBPIXELS
from .line import Rows
from .recording import Item, Vertex
from .states import CullMode, PrimitiveTopology, RasterizerState

Numbers = npt.NDArray[np.int64]
Places = npt.NDArray[np.intp]
Point = tuple[int, int]

GRID: Final = 256
"""Parts of a pixel to which corners are snapped."""

PART: Final = SUBPIXELS // GRID
"""Units of a script in one of them."""


@dataclass(frozen=True)
class Covered:
    """A triangle that covers a pixel, and whether its front is seen there."""

    covering: Covering
    is_front: bool

    def is_culled(self, rasterizer: RasterizerState) -> bool:
        """Whether the cull mode drops it."""
        return is_culled(rasterizer, self.is_front)


def is_culled(rasterizer: RasterizerState, is_front: bool) -> bool:
    """Whether the cull mode drops a triangle whose front is seen, or whose back is."""
    return rasterizer.cull_mode is (CullMode.FRONT if is_front else CullMode.BACK)


def is_front(rasterizer: RasterizerState, turn: int) -> bool:
    """Whether the front of a triangle is seen that goes clockwise, or below 0 anticlockwise."""
    return (turn > 0) != rasterizer.front_counter_clockwise


def snapped(numbers: Sequence[int]) -> Numbers:
    """Coordinates of a script on the grid: the nearest, ties to even."""
    given = np.fromiter(numbers, np.int64, len(numbers))
    return (given + (PART // 2 - 1) + (given // PART & 1)) // PART


class Edges(NamedTuple):
    """The edges of triangles, each opposite to the corner of its row and turned so that the triangle
    goes clockwise: where it begins, and how far it goes.

    ``least`` is the least weight of a point that belongs to the triangle. ``turn`` is below 0 where
    the triangle goes anticlockwise, and 0 where it has no area, and covers nothing.
    """

    x: Numbers
    y: Numbers
    right: Numbers
    down: Numbers
    least: Numbers
    turn: Numbers

    @classmethod
    def of(cls, x: Numbers, y: Numbers) -> Edges:
        """The edges of triangles whose corners stand in three rows."""
        area = (x[1] - x[0]) * (y[2] - y[0]) - (y[1] - y[0]) * (x[2] - x[0])
        turn = np.sign(area)
        right, down = (turn * (it[[2, 0, 1]] - it[[1, 2, 0]]) for it in (x, y))
        # (a left edge goes up, and a top one to the right)
        keeps = (down < 0) | ((down == 0) & (right > 0))
        return cls(x[[1, 2, 0]], y[[1, 2, 0]], right, down, np.where(keeps, 0, 1), turn)

    def some(self, places: Places) -> Edges:
        """The edges of some of the triangles."""
        return Edges(*(it[..., places] for it in self))

    def weights_at(self, centre: Point) -> tuple[Numbers, Places]:
        """How much of each triangle's area lies opposite each corner, seen from a point on the grid,
        below 0 where it goes anticlockwise; and the places of those that cover the point."""
        weights = self.right * (centre[1] - self.y) - self.down * (centre[0] - self.x)
        return self.turn * weights, np.flatnonzero((weights >= self.least).all(axis=0))


def depth_at(weights: Sequence[int], depths: Iterable[int], bias: int) -> int:
    """The depth of a triangle at a point, with its bias, in the range of depths."""
    depth = sum(weight * depth for weight, depth in zip(weights, depths)) // sum(weights)
    return min(max(depth + bias, 0), DEEPEST)


def triangle_places(item: Item) -> Numbers:
    """The places of a draw's triangles in its vertices, in three rows, the leading corner's first."""
    rows = _of_strips if item.state.topology == PrimitiveTopology.TRIANGLESTRIP else _of_list
    found: Numbers = rows(item.places, item.line.word == "drawi") + item.base
    return found


def _of_list(places: Sequence[int], _: bool) -> Numbers:
    whole = _array(places)
    return whole[: len(whole) // 3 * 3].reshape(-1, 3).T


def _of_strips(places: Sequence[int], cuts: bool) -> Numbers:
    found = [_of_strip(_array(strip)) for strip in strips(places, cuts)]
    joined: Numbers = np.concatenate(found, axis=1)
    return joined


def _array(places: Sequence[int]) -> Numbers:
    if isinstance(places, range):
        return np.arange(places.start, places.stop, dtype=np.int64)
    return np.fromiter(places, np.int64, len(places))


def _of_strip(places: Numbers) -> Numbers:
    if len(places) < 3:
        return _NONE
    rows: Numbers = np.stack((places[:-2], places[1:-1], places[2:]))
    rows[1:, 1::2] = rows[:0:-1, 1::2].copy()
    return rows


_NONE: Final = np.zeros((3, 0), np.int64)

Columns = tuple[Numbers, Numbers]


class SnappedTriangles:
    """The triangles of some draws on the grid, each with its bounds, for questions about any pixel.

    ``items`` are the draws, in whose order the triangles stand.
    """

    def __init__(self, items: Sequence[Item]) -> None:
        self.items = items
        self._grids: dict[int, Columns] = {}
        parts = [self._part(it) for it in items]
        counts = [part[0].shape[1] for part in parts]
        self.draws = np.repeat(np.arange(len(items)), counts)
        """The place of each triangle's draw."""
        starts = np.cumsum([0, *counts])[:-1]
        self._numbers = np.arange(sum(counts)) - np.repeat(starts, counts)
        none = (_NONE, _NONE, _NONE)
        self._places, self._x, self._y = (
            np.concatenate(rows, axis=1) for rows in zip(none, *parts)
        )
        both = self._x, self._y
        self.least = [np.minimum(np.minimum(a, b), c) for a, b, c in both]
        self.most = [np.maximum(np.maximum(a, b), c) for a, b, c in both]
        """The bounds of each triangle, across and down."""

    def edges(self, places: Places | slice = slice(None)) -> Edges:
        """The edges of some triangles, or of all."""
        return Edges.of(self._x[:, places], self._y[:, places])

    def _part(self, item: Item) -> tuple[Numbers, Numbers, Numbers]:
        places = triangle_places(item)
        x, y = self._grid(item.state.vertices)
        return places, x[places], y[places]

    def _grid(self, vertices: Sequence[Vertex]) -> Columns:
        """The places of vertices on the grid."""
        known = self._grids.get(id(vertices))
        if known is None:
            known = snapped(column(vertices, 0)), snapped(column(vertices, 1))
            self._grids[id(vertices)] = known
        return known

    def on(self, x: int, y: int) -> Iterator[tuple[int, Covered]]:
        """The triangles that cover a pixel, each behind the place of its draw, in their order."""
        centre = GRID * x + GRID // 2, GRID * y + GRID // 2
        across, down = (
            (least <= at) & (most >= at) for least, most, at in zip(self.least, self.most, centre)
        )
        near = np.flatnonzero(across & down)
        weights, covering = self.edges(near).weights_at(centre)
        for at, place in zip(covering, near[covering]):
            draw, number = int(self.draws[place]), int(self._numbers[place])
            corners, parts = (it.tolist() for it in (self._places[:, place], weights[:, at]))
            yield draw, covered(self.items[draw], number, corners, parts)


def column(vertices: Sequence[Vertex], at: int) -> Sequence[int]:
    """One number of each vertex."""
    if isinstance(vertices, Rows):
        return vertices.numbers[at :: vertices.length]
    return [vertex[at] for vertex in vertices]


def covered(item: Item, number: int, places: Sequence[int], weights: Sequence[int]) -> Covered:
    """A triangle of a draw by the places of its corners, whose weights at a pixel are these."""
    rasterizer = item.state.rasterizer
    corners = tuple(item.state.vertices[place] for place in places)
    depth = depth_at(weights, (it[2] for it in corners), rasterizer.depth_bias)
    return Covered(Covering(number, corners, depth), is_front(rasterizer, sum(weights)))
