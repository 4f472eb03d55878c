"""Scripts of conformance/ on which pixels a triangle covers: places, snapping, faces, strips, the scissor rectangle."""

from __future__ import annotations

from collections.abc import Sequence

from conformance_scripts import BLUE, CENTRE, FAR, GREEN, GREY, GRID, LIST, RED, STRIP, WHOLE, Cases, Pen, Place, places
from yuzuratchet import Scene
from yuzuratchet.limits import FARTHEST, STRIP_CUT, SUBPIXELS

CULLS = {1: "none", 2: "front", 3: "back"}
OVER = (0, 1, 2, 0, 255, 255, *[1, 1, 1, 8] * 2, 0)
"""No test: what is drawn later is seen."""

SQUARE = (1.5, 1.5), (6.5, 1.5), (1.5, 6.5), (6.5, 6.5)
"""Corners on centres: upper left, upper right, lower left, lower right."""


def one(name: str, title: str, points: Sequence[Place], size: tuple[int, int] = (8, 8)) -> Cases:
    """A script of triangles alone."""
    pen = Pen(*size)
    pen.triangles(points)
    yield pen.case(name, title)


def right_triangles() -> Cases:
    """All edges on centres, in each direction and both windings."""
    names = ("upper-left", "upper-right", "lower-left", "lower-right")
    for left_out, missing in enumerate(names):
        corners = [SQUARE[at] for at in range(4) if at != left_out]
        for turned in (0, 1):
            points = places(*(corners[::-1] if turned else corners))
            title = f"centres on all three edges, the {missing} corner of the square missing, winding {turned}"
            yield from one(f"edges-on-centres-without-{missing}-{turned}", title, points)


def rectangles() -> Cases:
    """A rectangle one of whose sides goes through centres."""
    sides = {"left": (2.5, 2, 6, 6), "right": (2, 2, 5.5, 6), "top": (2, 2.5, 6, 6), "bottom": (2, 2, 6, 5.5)}
    for name, (left, top, right, bottom) in sides.items():
        points = places((left, top), (right, top), (left, bottom), (right, top), (right, bottom), (left, bottom))
        keeps = "belongs to it" if name in ("left", "top") else "doesn't"
        yield from one(f"{name}-side-on-centres", f"a centre on the {name} side {keeps}", points)


def shared_edges() -> Cases:
    """Two triangles side by side, the later in another colour: no pixel twice, none left out."""
    diagonals = {"falling": (0, 3, 1, 2), "rising": (1, 2, 0, 3)}
    for name, (a, b, c, d) in diagonals.items():
        for first, second in ((c, d), (d, c)):
            pen = Pen()
            pen.add("ds", *OVER)
            pen.triangles(places(SQUARE[a], SQUARE[b], SQUARE[first]))
            pen.triangles(places(SQUARE[a], SQUARE[b], SQUARE[second]), colours=(GREEN,))
            title = f"a {name} edge on centres that two triangles share, corner {first} first"
            yield pen.case(f"shared-{name}-edge-{first}-first", title)
    round_it = [(1, 2), (4, 0.5), (7, 2.25), (6.75, 6), (3, 7.5), (0.5, 5)]
    for name, middle in (("centre", (3.5, 3.5)), ("corner", (4.0, 4.0)), ("part", (3.3, 4.7))):
        pen = Pen()
        pen.add("ds", *OVER)
        for at, colour in enumerate((RED, GREEN, BLUE) * 2):
            pen.triangles(places(middle, round_it[at], round_it[(at + 1) % 6]), colours=(colour,))
        yield pen.case(f"fan-round-a-{name}", f"six triangles round a point on a pixel's {name}")


def small_ones() -> Cases:
    """Triangles of no more than a pixel, thin ones, and ones of no area."""
    low, high = 3.5 - 1 / 256, 3.5 + 1 / 256
    shapes = {
        "holds-the-centre": ((3.25, 3.25), (3.9, 3.3), (3.3, 3.9)),
        "misses-the-centre": ((3.6, 3.6), (3.9, 3.6), (3.6, 3.9)),
        "first-corner-on-the-centre": ((3.5, 3.5), (3.9, 3.5), (3.5, 3.9)),
        "right-corner-on-the-centre": ((3.1, 3.1), (3.5, 3.5), (3.1, 3.5)),
        "lower-corner-on-the-centre": ((3.3, 3.1), (3.7, 3.1), (3.5, 3.5)),
        "smallest-round-the-centre": ((low, low), (high, low), (3.5, high)),
        "flat-above-centres": ((1, 3.4), (7, 3.4), (7, 3.49)),
        "flat-on-centres": ((1, 3.4), (7, 3.5), (1, 3.6)),
        "narrow-on-centres": ((3.4, 1), (3.6, 1), (3.5, 7)),
        "narrow-between-centres": ((3.6, 1), (3.9, 1), (3.75, 7)),
        "thin-along-the-diagonal": ((1.5, 1.5), (7, 6.9), (7, 7)),
        "thin-against-the-diagonal": ((1, 6.9), (6.9, 1), (7, 1.1)),
        "in-a-line": ((1.5, 1.5), (3.5, 3.5), (6.5, 6.5)),
        "in-a-row": ((1.5, 3.5), (6.5, 3.5), (3.5, 3.5)),
        "two-corners-in-one": ((1.5, 1.5), (1.5, 1.5), (6.5, 6.5)),
        "all-corners-in-one": ((3.5, 3.5),) * 3,
    }
    for name, points in shapes.items():
        yield from one(f"small-{name}", f"a triangle that is small: {name.replace('-', ' ')}", places(*points))


def large_ones() -> Cases:
    """Triangles that go beyond the target, up to where corners may lie, and long and narrow targets."""
    far = FARTHEST // SUBPIXELS
    shapes: dict[str, tuple[tuple[float, float], ...]] = {
        "beyond-the-left": ((-5.5, 1.5), (5.5, 1.5), (-5.5, 6.5)),
        "beyond-the-top": ((1.5, -5.5), (6.5, -5.5), (1.5, 5.5)),
        "beyond-the-right": ((3.5, 1.5), (20.5, 1.5), (20.5, 7)),
        "beyond-the-bottom": ((1.5, 3.5), (6.5, 20.5), (1.5, 20.5)),
        "corners-as-far-as-may-be": ((-far, -far), (far, -far), (-far, far)),
        "far-to-the-right": ((2.5, 2.5), (far, 2.5), (far, 3.5)),
        "far-to-the-bottom": ((2.5, 2.5), (5.5, far), (2.5, far)),
        "far-diagonal": ((-far, -far), (far, far), (-far, far)),
        "far-needle": ((-far, 3.4), (far, 3.5), (-far, 3.6)),
        "far-off": ((100, 100), (200, 100), (100, 200)),
    }
    for name, points in shapes.items():
        yield from one(f"large-{name}", f"a triangle that is large: {name.replace('-', ' ')}", places(*points))
    for width, height in ((1, 1), (1, 40), (40, 1), (33, 33), (70, 3), (3, 70)):
        points = places((0.5, 0.5), (width - 0.5, 0.5), (0.25, height), (width, 0.75), (width, height), (0.5, height))
        yield from one(
            f"target-{width}-by-{height}", f"two triangles on {width} by {height} pixels", points, (width, height)
        )


def slopes() -> Cases:
    """Edges of many directions from one corner, each with centres close by."""
    for number, (x, y) in enumerate(
        ((7.5, 2.5), (7.5, 3.5), (7.5, 4.5), (6.5, 7.5), (4.5, 7.5), (2.5, 7.5), (3.5, 6.5))
    ):
        points = places((0.5, 0.5), (x, y), (0.5, 7.5))
        yield from one(f"slope-{number}", f"an edge from centre (0, 0) to ({x}, {y}), which meets centres", points)
        points = places((0.5, 0.5), (x + 1 / 256, y), (7.5, 0.5))
        yield from one(f"slope-{number}-past", f"an edge from centre (0, 0) to 1/256 beside ({x}, {y})", points)


def rasterization_rules() -> Cases:
    for part in (right_triangles, rectangles, shared_edges, small_ones, large_ones, slopes):
        yield from part()


def snapping() -> Cases:
    """Sides that lie a tie, or one part of 65,536 beside it, away from centres: on each side, either way."""
    at = 4 * SUBPIXELS + CENTRE
    near, far = SUBPIXELS, 7 * SUBPIXELS
    for offset in (-129, -128, -127, 127, 128, 129):
        moved = at + offset
        sides = {
            "left": ((moved, near), (far, near), (moved, far), (far, far)),
            "right": ((near, near), (moved, near), (near, far), (moved, far)),
            "top": ((near, moved), (far, moved), (near, far), (far, far)),
            "bottom": ((near, near), (far, near), (near, moved), (far, moved)),
        }
        for side, (a, b, c, d) in sides.items():
            way = f"{'plus' if offset > 0 else 'minus'}-{abs(offset)}"
            title = f"a {side} side {offset} parts of 65,536 from centres, where a tie is at 128"
            yield from one(f"{side}-{way}", title, (a, b, c, b, d, c))
    yield from odd_ties()


def odd_ties() -> Cases:
    """Ties beside odd parts of 256: an edge that meets a centre where its end goes to the even one."""
    low, at, high = (int(it * SUBPIXELS) for it in (1.5, 3.5, 5.5))
    for up in (-1, 1):
        for away in (1, 2, 3):
            end = at + up * (away * GRID + GRID // 2)
            other = at - up * (away + away % 2) * GRID
            name = f"{'plus' if up > 0 else 'minus'}-{away}"
            points = ((end, low), (other, high), (7 * SUBPIXELS, at))
            yield from one(
                f"tie-in-x-{name}", f"an end at {up * away} and a half parts of 256 from a centre's x", points
            )
            points = ((low, end), (high, other), (at, 7 * SUBPIXELS))
            yield from one(
                f"tie-in-y-{name}", f"an end at {up * away} and a half parts of 256 from a centre's y", points
            )


def facing() -> Cases:
    """Each cull mode with each front, for both windings, of a list and of a strip."""
    strip = ((-FAR, -FAR), (FAR, -FAR), (-FAR, FAR), (FAR, FAR))
    for counter in (0, 1):
        for cull, name in CULLS.items():
            for turned in (0, 1):
                winding = "counter-clockwise" if turned else "clockwise"
                front = "counter-clockwise" if counter else "clockwise"
                title = f"{winding} triangles where {front} ones face the front, culling {name}"
                for form, points in (("list", WHOLE), ("strip", strip)):
                    pen = Pen()
                    pen.add("topology", LIST if form == "list" else STRIP)
                    pen.add("raster", cull, counter, 0)
                    swapped = (
                        (points[1], points[0], *points[2:])
                        if form == "list"
                        else (points[0], points[2], points[1], points[3])
                    )
                    pen.triangles(swapped if turned else points)
                    yield pen.case(f"{form}-{winding}-front-{front}-cull-{name}", f"a {form}: {title}")
    for cull, name in CULLS.items():
        pen = Pen()
        pen.add("raster", cull, 0, 0)
        pen.whole(5)
        pen.whole(4, GREEN, back=True)
        yield pen.case(f"both-cull-{name}", f"a front and a back before it, culling {name}")


def bar(first: int, count: int) -> tuple[Place, ...]:
    """Corners of a strip of rectangles, two pixels wide each: places from one on."""
    top, bottom = SUBPIXELS, 5 * SUBPIXELS
    return tuple((2 * SUBPIXELS * (at // 2), top if at % 2 == 0 else bottom) for at in range(first, first + count))


MANY = (RED, GREEN, BLUE, GREY, (1, 2, 3, 4), (250, 240, 10, 255), (10, 240, 250, 255), (99, 1, 99, 255))


def strips() -> Cases:
    """How many triangles come of how many places, which vertex gives the colour, and cuts."""
    for topology, name in ((LIST, "list"), (STRIP, "strip")):
        for count in (0, 1, 2, 3, 4, 5, 6, 7, 8):
            pen = Pen(8, 6)
            pen.add("topology", topology)
            pen.corners(bar(0, 8), colours=MANY)
            pen.add("draw", count, 0)
            yield pen.case(f"{name}-of-{count}", f"{count} vertices as a {name}, each in a colour of its own")
        for start in (1, 2, 3):
            pen = Pen(8, 6)
            pen.add("topology", topology)
            pen.corners(bar(0, 8), colours=MANY)
            pen.add("draw", 4, start)
            yield pen.case(f"{name}-from-{start}", f"four vertices as a {name}, from place {start} on")
    yield from indexed()


CUTS: dict[str, tuple[int, ...]] = {
    "in-the-middle": (0, 1, 2, STRIP_CUT, 5, 6, 7),
    "first": (STRIP_CUT, 0, 1, 2, 3),
    "last": (0, 1, 2, 3, STRIP_CUT),
    "twice": (0, 1, 2, STRIP_CUT, STRIP_CUT, 4, 5, 6),
    "behind-one": (0, STRIP_CUT, 1, 2, 3, 4),
    "behind-two": (0, 1, STRIP_CUT, 2, 3, 4, 5),
    "behind-four": (0, 1, 2, 3, STRIP_CUT, 4, 5, 6, 7),
    "alone": (STRIP_CUT, STRIP_CUT, STRIP_CUT),
    "before-two": (0, 1, 2, STRIP_CUT, 3, 4),
}


def indexed() -> Cases:
    """Draws by indices: bases, starts, cuts, and the same number where it is no cut."""
    draws = {
        "base-2": (LIST, (0, 1, 2), 3, 0, 2), "base-minus-2": (LIST, (2, 3, 4), 3, 0, -2),
        "start-2": (LIST, (7, 7, 1, 2, 3), 3, 2, 0), "start-and-base": (LIST, (7, 0, 1, 2), 3, 1, 4),
        "backwards": (LIST, (2, 1, 0, 5, 4, 3), 6, 0, 0), "strip-with-base": (STRIP, (0, 1, 2, 3), 4, 0, 3),
        "strip-backwards": (STRIP, (7, 6, 5, 4), 4, 0, 0), "same-index-twice": (STRIP, (0, 1, 1, 2, 3), 5, 0, 0),
        "list-with-65535": (LIST, (STRIP_CUT, STRIP_CUT - 1, STRIP_CUT - 2), 3, 0, 2 - STRIP_CUT),
        "list-with-65535-in-the-middle": (LIST, (STRIP_CUT - 3, STRIP_CUT, STRIP_CUT - 1), 3, 0, 3 - STRIP_CUT),
        "list-with-65535-last": (LIST, (STRIP_CUT - 2, STRIP_CUT - 1, STRIP_CUT, 65531, 65532, 65533), 6, 0, -65530),
    }  # fmt: skip
    for name, (topology, indices, count, start, base) in draws.items():
        yield from by_indices(name, f"by indices: {name.replace('-', ' ')}", topology, indices, (count, start, base))
    for name, indices in CUTS.items():
        title = f"a strip by indices with a cut: {name.replace('-', ' ')}"
        yield from by_indices(f"cut-{name}", title, STRIP, indices, (len(indices), 0, 0))
        cut = f"{title}, culling the back"
        yield from by_indices(f"cut-{name}-culled", cut, STRIP, indices, (len(indices), 0, 0), cull=3)


def by_indices(
    name: str, title: str, topology: int, indices: Sequence[int], draw: tuple[int, int, int], cull: int = 1
) -> Cases:
    """A script of one draw by indices."""
    pen = Pen(8, 6)
    pen.add("raster", cull, 0, 0)
    pen.add("topology", topology)
    pen.corners(bar(0, 8), colours=MANY)
    pen.add("ib", *indices)
    pen.add("drawi", *draw)
    yield pen.case(name, title)


SCISSORS = {
    "whole": (0, 0, 8, 8), "inside": (2, 3, 6, 7), "default": (0, 0, 0, 0), "no-width": (3, 1, 3, 7),
    "no-height": (1, 3, 7, 3), "upper-left-pixel": (0, 0, 1, 1), "upper-right-pixel": (7, 0, 8, 1),
    "lower-left-pixel": (0, 7, 1, 8), "lower-right-pixel": (7, 7, 8, 8), "beyond-the-right": (5, 0, 4096, 8),
    "beyond-the-bottom": (0, 5, 8, 4096), "outside": (8, 8, 20, 20), "one-column": (3, 0, 4, 8),
    "one-row": (0, 5, 8, 6), "odd-sides": (1, 3, 6, 4),
}  # fmt: skip


def scissors() -> Cases:
    """Rectangles of all kinds, on and off, changed and left."""
    for name, inside in SCISSORS.items():
        for enabled in (1, 0):
            pen = Pen()
            pen.add("raster", 1, 0, enabled)
            pen.add("scissor", *inside)
            pen.whole()
            on = "on" if enabled else "off"
            yield pen.case(f"{name}-{on}", f"the rectangle {inside}, and the scissor test is {on}")
    pen = Pen()
    pen.add("raster", 1, 0, 1)
    for depth, (inside, colour) in enumerate((((0, 0, 5, 5), RED), ((3, 3, 8, 8), GREEN), ((4, 0, 6, 8), BLUE))):
        pen.add("scissor", *inside)
        pen.whole(10 - depth, colour)
    yield pen.case("changed-between-draws", "a rectangle acts on the draws behind it alone")
    scene = Scene(8, 8)
    pen = Pen(scene=scene)
    pen.add("scissor", 2, 2, 6, 6)
    pen.add("raster", 1, 0, 1)
    pen.add("raster", 1, 0, 0)
    pen.whole()
    yield pen.case("kept-while-off", "a rectangle that is set acts on nothing while the test is off")
