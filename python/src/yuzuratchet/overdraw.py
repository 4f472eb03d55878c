"""How often each pixel of a target was touched: how many events its history has.

What runs is known from the scene's lists, and where a predicate may leave some of it out, the scene
is drawn, which counts for that (:mod:`yuzuratchet.unrolling`). In each row that a triangle reaches
the centres that it covers lie between two columns, which follow from its edges by whole numbers
(:mod:`yuzuratchet.covering`). One is added at the first of them and taken away behind the last, and
the sums along the rows are the counts: it takes as long as there are such rows, and pixels.

>>> from yuzuratchet import read_script
>>> overdraw(read_script("target 3 2\\ni clearc 1 2 3 4\\ni cleards 5 6\\n"), left=1).tolist()
[[2, 2], [2, 2]]
"""

from __future__ import annotations

from collections import Counter
from pathlib import Path
from typing import Final, Iterator, NamedTuple, Sequence

import numpy as np
import numpy.typing as npt

from .covering import GRID, Edges, Numbers, Places, SnappedTriangles, is_culled, is_front
from .errors import ArgumentError
from .recording import Item, State
from .scene import Scene
from .states import RasterizerState
from .unrolling import Unrolled, unroll

Counts = npt.NDArray[np.uint32]

ROWS_AT_ONCE: Final = 2**18
"""Rows of triangles that are looked at together."""


class Area(NamedTuple):
    """A rectangle of pixels; right and bottom lie just outside."""

    left: int
    top: int
    right: int
    bottom: int


def overdraw(
    scene: Scene,
    left: int = 0,
    top: int = 0,
    right: int | None = None,
    bottom: int | None = None,
    *,
    at: int | None = None,
    library: str | Path | None = None,
    program: str | Path | None = None,
    workers: int | None = None,
) -> Counts:
    """How many clears and triangles touched each pixel, in an array of height and width.

    It is that of the whole target, or of a rectangle, whose right and bottom lie just outside, and
    of the lines up to ``at``, which is counted from 1, or of all.
    :func:`~yuzuratchet.planes.heat_picture` shows it. Raises
    :class:`~yuzuratchet.errors.ArgumentError` where the target has no such pixels or the script no
    such line, and what :func:`~yuzuratchet.results.run` raises.
    """
    played = scene if at is None else scene.up_to(at)
    right = played.width if right is None else right
    bottom = played.height if bottom is None else bottom
    if min(left, top) < 0 or right > played.width or bottom > played.height:
        size = f"{played.width} by {played.height}"
        raise ArgumentError("left", f"({left}, {top}) to ({right}, {bottom}) pass {size} pixels")
    area = Area(left, top, max(left, right), max(top, bottom))
    unrolled = unroll(played, library=library, program=program, workers=workers)
    clears, draws = performed(unrolled)
    return counted(area, draws) + np.uint32(clears)


def performed(unrolled: Unrolled) -> tuple[int, list[tuple[Item, int]]]:
    """How many clears ran, and the draws that did, each with how often."""
    ran = [
        item
        for performed in unrolled.performed
        for item in performed.commands.items
        if not performed.withholds(item)
    ]
    draws = {id(item): item for item in ran if item.line.word.startswith("draw")}
    times = Counter(id(item) for item in ran)
    drawn = [(item, times[key]) for key, item in draws.items()]
    return len(ran) - sum(count for _, count in drawn), drawn


def counted(area: Area, draws: Sequence[tuple[Item, int]]) -> Counts:
    """How many triangles of draws touch each pixel of an area; each draw runs so many times."""
    width, height = area.right - area.left, area.bottom - area.top
    times = np.array([it for _, it in draws], np.uint32)
    triangles = SnappedTriangles([item for item, _ in draws])
    edges, reach = triangles.edges(), reached(triangles, area)
    changes = np.zeros(height * (width + 1), np.uint32)
    for places, rows in bands(np.flatnonzero(drawn(triangles, edges, reach)), reach):
        first, behind = spans(edges.some(places), rows, reach.some(places))
        filled = np.flatnonzero(first < behind)
        starts = (rows[filled] - area.top) * (width + 1) - area.left
        more = times[triangles.draws[places[filled]]]
        # (of 32 bits, past which a sum that goes is right again at the end of a row)
        np.add.at(changes, starts + first[filled], more)
        np.subtract.at(changes, starts + behind[filled], more)
    found = changes.reshape(height, width + 1)
    return np.cumsum(found, axis=1, dtype=np.uint32, out=found)[:, :-1]


class Reach(NamedTuple):
    """The rectangle of each triangle outside of which it draws no pixel."""

    left: Numbers
    top: Numbers
    right: Numbers
    bottom: Numbers

    def some(self, places: Places) -> Reach:
        """The rectangles of some triangles."""
        return Reach(*(it[places] for it in self))


def reached(triangles: SnappedTriangles, area: Area) -> Reach:
    """What triangles reach of an area, by their bounds and the scissor rectangles of their draws."""
    cut = [cut_area(it.state, area) for it in triangles.items]
    left, top, right, bottom = np.array(cut, np.int64).reshape(-1, 4)[triangles.draws].T
    # (the first pixel whose centre lies not before the bounds, and the first whose centre lies behind)
    across, down = ((it + GRID // 2 - 1) // GRID for it in triangles.least)
    across_end, down_end = ((it + GRID // 2) // GRID for it in triangles.most)
    first = np.maximum(across, left), np.maximum(down, top)
    return Reach(*first, np.minimum(across_end, right), np.minimum(down_end, bottom))


def cut_area(state: State, area: Area) -> Area:
    """The part of an area that a scissor rectangle leaves."""
    if not state.rasterizer.scissor_enable:
        return area
    left, top, right, bottom = state.scissor
    first = max(left, area.left), max(top, area.top)
    return Area(*first, min(right, area.right), min(bottom, area.bottom))


def drawn(triangles: SnappedTriangles, edges: Edges, reach: Reach) -> npt.NDArray[np.bool_]:
    """Which triangles reach a pixel, and aren't culled."""
    culled = np.array([culled_turn(it.state.rasterizer) for it in triangles.items], np.int64)
    is_seen: npt.NDArray[np.bool_] = edges.turn != culled[triangles.draws]
    return is_seen & (reach.left < reach.right) & (reach.top < reach.bottom)


def culled_turn(rasterizer: RasterizerState) -> int:
    """Which way the triangles go that are culled: 1 is clockwise, -1 anticlockwise, and 0 none."""
    turns = (it for it in (1, -1) if is_culled(rasterizer, is_front(rasterizer, it)))
    return next(turns, 0)


def bands(places: Places, reach: Reach) -> Iterator[tuple[Places, Numbers]]:
    """The rows of some triangles, some at a time: the place of the triangle, and the row."""
    counts = (reach.bottom - reach.top)[places]
    ends = np.cumsum(counts)
    at = 0
    while at < len(places):
        begun = ends[at] - counts[at]
        until = max(at + 1, int(np.searchsorted(ends, begun + ROWS_AT_ONCE, side="right")))
        part, many = places[at:until], counts[at:until]
        inside = np.arange(ends[until - 1] - begun) - np.repeat(ends[at:until] - many - begun, many)
        yield np.repeat(part, many), np.repeat(reach.top[part], many) + inside
        at = until


def spans(edges: Edges, rows: Numbers, reach: Reach) -> tuple[Numbers, Numbers]:
    """The first column that a triangle covers in a row, and the first behind those that it covers."""
    slack = edges.right * (GRID * rows + GRID // 2 - edges.y) + edges.down * edges.x - edges.least
    # a centre lies within an edge where its place across, times `down`, is not above the slack
    steps = np.where(edges.down == 0, 1, np.abs(edges.down))
    columns = (slack // steps + GRID // 2) // GRID
    is_outside = (edges.down == 0) & (slack < 0)
    first = np.where(edges.down < 0, -columns, reach.left).max(axis=0)
    behind = np.where(edges.down > 0, columns, np.where(is_outside, reach.left, reach.right))
    return np.maximum(first, reach.left), np.minimum(behind.min(axis=0), reach.right)
