#!/usr/bin/env python3
"""Writes the example scripts that are too long to write by hand, into crates/gallery/data/.

Each function gives one scene. Places are in pixels, depths are stored whole numbers from 0 to 16,777,215. A face is
towards the viewer where its corners go clockwise on the target, whose y goes down.
"""

from __future__ import annotations

import argparse
import colorsys
import math
import pathlib
import random
import sys
from collections.abc import Callable, Iterator, Sequence
from functools import partial

import package_path
from yuzuratchet import (
    BlendState,
    CommandList,
    ComparisonFunc,
    CullMode,
    DeferredContext,
    DepthStencilState,
    LogicOp,
    PrimitiveTopology,
    RasterizerState,
    Scene,
    StencilFace,
    StencilOp,
)
from yuzuratchet.ending import ended
from yuzuratchet.limits import DEEPEST, TARGET_SIDE
from yuzuratchet.recipes import light_outside_shadows, mark_shadow_volumes
from yuzuratchet.scene import Context
from yuzuratchet.shapes import clockwise, draw_triangles, rectangle
from yuzuratchet.states import ColorWriteEnable

FOLDER = package_path.TOP / "crates" / "gallery" / "data"
LIST, STRIP = PrimitiveTopology.TRIANGLELIST, PrimitiveTopology.TRIANGLESTRIP
BOTH_FACES = RasterizerState(cull_mode=CullMode.NONE)
Colour = tuple[int, int, int, int]
Point = tuple[float, ...]
Triple = tuple[int, int, int]
Box = list[Point]
# a face of a cube: its normal, and the places of its corners
Face = tuple[Point, list[int]]
Corner = tuple[float, float, int, Colour]

BACKGROUND: Colour = (24, 24, 40, 255)


def colour(hue: float, saturation: float = 0.6, value: float = 0.95) -> Colour:
    red, green, blue = (round(255 * part) for part in colorsys.hsv_to_rgb(hue, saturation, value))
    return red, green, blue, 255


def shade(base: tuple[int, ...], light: float) -> Colour:
    red, green, blue = (round(part * max(0.0, min(1.0, light))) for part in base[:3])
    return red, green, blue, 255


def opened(width: int, height: int, background: Colour = BACKGROUND) -> Scene:
    """A scene whose target has a colour."""
    scene = Scene(width, height)
    scene.immediate.clear_color(background)
    return scene


def list_scene(width: int, height: int, vertices: list[Corner], *pixels: tuple[int, int]) -> Scene:
    """A scene of one list of triangles, which asks for some pixels."""
    scene = opened(width, height)
    draw_triangles(scene.immediate, vertices)
    for x, y in pixels:
        scene.immediate.pixel(x, y)
    return scene


def fan() -> Scene:
    """Twenty-four triangles that meet in one vertex: each centre of a pixel belongs to one of them."""
    middle, spokes, vertices = (96.25, 96.5), 24, []
    rim = [
        (96.25 + 88 * math.cos(math.tau * at / spokes), 96.5 + 88 * math.sin(math.tau * at / spokes))
        for at in range(spokes)
    ]
    for at in range(spokes):
        vertices += [(x, y, 0, colour(at / spokes)) for x, y in (middle, rim[at], rim[(at + 1) % spokes])]
    return list_scene(192, 192, vertices, (96, 96))


def shared_edges() -> Scene:
    """A sheet of squares whose corners are moved at random: no gap and no centre twice, at any slope."""
    chance, cells, size, place, vertices = random.Random(7), 12, 16, {}, []
    for row in range(cells + 1):
        for column in range(cells + 1):
            inner = 0 < row < cells and 0 < column < cells
            place[column, row] = (
                column * size + (chance.uniform(-6, 6) if inner else 0),
                row * size + (chance.uniform(-6, 6) if inner else 0),
            )
    for row in range(cells):
        for column in range(cells):
            a, b = place[column, row], place[column + 1, row]
            c, d = place[column, row + 1], place[column + 1, row + 1]
            for number, triangle in enumerate((clockwise(a, b, c), clockwise(b, d, c))):
                rgba = colour((column + row) / 24, 0.35 + 0.3 * number, 0.95 - 0.02 * row)
                vertices += [(x, y, 0, rgba) for x, y in triangle]
    return list_scene(192, 192, vertices, (100, 100))


def pile() -> Scene:
    """Sloped triangles through each other: the nearest is seen at each pixel, whatever the order."""
    chance, vertices = random.Random(3), []
    for at in range(28):
        x, y = chance.uniform(20, 172), chance.uniform(20, 172)
        turn, size = chance.uniform(0, math.tau), chance.uniform(30, 90)
        three = [
            (x + size * math.cos(turn + math.tau * k / 3), y + size * math.sin(turn + math.tau * k / 3))
            for k in range(3)
        ]
        vertices += [(px, py, chance.randrange(DEEPEST + 1), colour(at / 28)) for px, py in clockwise(*three)]
    return list_scene(192, 192, vertices, (96, 96), (60, 120))


def slivers() -> Scene:
    """Needles far thinner than a pixel, from one corner: they are broken lines of the centres that they cover."""
    vertices = []
    for at in range(60):
        angle = math.pi / 2 * (at + 0.5) / 60
        x, y = 270 * math.cos(angle), 270 * math.sin(angle)
        wide = 0.2 + at / 30
        three = clockwise((-0.5, -0.5), (x - wide * math.sin(angle), y + wide * math.cos(angle)), (x, y))
        vertices += [(px, py, 65_536 * at, colour(at / 60)) for px, py in three]
    return list_scene(192, 192, vertices, (100, 100))


def far() -> Scene:
    """Triangles with corners up to 4,096 pixels away, of which the target sees a part, or nothing."""
    vertices = []
    for at in range(16):
        angle = math.tau * at / 16
        x, y = 64 + 40 * math.cos(angle), 64 + 40 * math.sin(angle)
        ahead = (64 + 4000 * math.cos(angle - 0.05), 64 + 4000 * math.sin(angle - 0.05))
        behind = (64 + 4000 * math.cos(angle + 0.05), 64 + 4000 * math.sin(angle + 0.05))
        vertices += [(px, py, 0, colour(at / 16)) for px, py in clockwise((x, y), ahead, behind)]
    vertices += [(x, y, 0, (255, 255, 255, 255)) for x, y in ((4096, 4096), (2048, 4096), (4096, 2048))]
    vertices += [(x, y, DEEPEST - 1, colour(0.6, 0.5, 0.3)) for x, y in ((-4096, -4096), (4096, -3950), (-3950, 4096))]
    return list_scene(128, 128, vertices, (127, 64))


def large() -> Scene:
    """A target of 2,048 by 2,048, with a spiral of triangles."""
    vertices = []
    for at in range(220):
        angle, away = at * 0.31, 60 + at * 4
        x, y = 1024 + away * math.cos(angle), 1024 + away * math.sin(angle)
        size = 20 + at / 3
        three = [
            (x + size * math.cos(angle + math.tau * k / 3), y + size * math.sin(angle + math.tau * k / 3))
            for k in range(3)
        ]
        vertices += [(px, py, 10_000 * at, colour(at / 220)) for px, py in clockwise(*three)]
    return list_scene(2048, 2048, vertices, (1024, 964), (2047, 2047))


def floor_depth(x: float, y: float) -> int:
    """The depth of the tilted floor of the decals."""
    return round(1_500_000 + 21_013.7 * x + 55_021.3 * y)


def mark(x: float, y: float, size: float, rgba: Colour, parts: int) -> list[Corner]:
    """A star on the floor, in its plane: triangles round the middle. Its corners lie on quarters of pixels, so that
    none is moved."""
    rim, corners = [], []
    for k in range(parts):
        away, angle = size * (1 + k % 2) / 2, math.tau * k / parts + 0.2
        rim.append((x + round(4 * away * math.cos(angle)) / 4, y + round(4 * away * math.sin(angle)) / 4))
    for k in range(parts):
        corners += [(px, py, floor_depth(px, py), rgba) for px, py in clockwise((x, y), rim[k], rim[(k + 1) % parts])]
    return corners


def half_floor(left: float) -> list[Corner]:
    """The floor from a column on, 116 pixels wide, in squares of two shades."""
    corners: list[Corner] = []
    for row in range(8):
        for column in range(8):
            x, y = left + 14.5 * column, 8 + 16 * row
            square = [(x, y), (x + 14.5, y), (x, y + 16), (x + 14.5, y + 16)]
            rgba = shade((150, 160, 175), 0.55 + 0.25 * ((row + column) % 2))
            for three in (square[0], square[1], square[2]), (square[1], square[3], square[2]):
                corners += [(px, py, floor_depth(px, py), rgba) for px, py in three]
    return corners


def decals() -> Scene:
    """Marks on a tilted floor, in its plane: on the left as they are, on the right brought nearer by a depth bias of
    -2."""
    scene = opened(256, 144)
    context = scene.immediate
    draw_triangles(context, half_floor(8) + half_floor(132))
    marks = [(38, 42, 30, 0.02), (90, 62, 28, 0.13), (44, 102, 32, 0.55), (98, 116, 18, 0.8)]
    for query, (left, bias) in enumerate([(0, 0), (124, -2)]):
        context.rs_set_state(RasterizerState(depth_bias=bias))
        with context.counted(query):
            draw_triangles(
                context,
                [corner for x, y, size, hue in marks for corner in mark(left + x, y, size, colour(hue, 0.75), 14)],
            )
        context.get_data(query)
    for x, y in ((38, 42), (162, 42)):
        context.pixel(x, y)
    return scene


def largest_target() -> Scene:
    """The halves of the largest target, each counted and both together."""
    scene = Scene(TARGET_SIDE, TARGET_SIDE)
    context, far = scene.immediate, TARGET_SIDE
    context.ia_set_vertices(
        [(0, 0, 0, (1, 1, 1, 1)), (far, 0, 0, (2, 2, 2, 2)), (0, far, 0, (3, 3, 3, 3)), (far, far, 0, (4, 4, 4, 4))]
    )
    context.ia_set_indices([1, 3, 2])
    context.ia_set_topology(LIST)
    with context.counted(2):
        with context.counted(0):
            context.draw(3)
        with context.counted(1):
            context.draw_indexed(3)
    for query in range(3):
        context.get_data(query)
    for x, y in ((0, 0), (far - 1, 0), (far - 1, far - 1)):
        context.pixel(x, y)
    return scene


def ribbon() -> Scene:
    """A spiral as one strip: every other triangle is turned, and all face the viewer."""
    scene, vertices = opened(192, 192), []
    for at in range(120):
        angle, away = at * 0.17, 12 + at * 0.62
        for side in (away, away + 9):
            vertices.append((96 + side * math.cos(angle), 96 + side * math.sin(angle), 0, colour(at / 120)))
    context = scene.immediate
    context.rs_set_state(BOTH_FACES)
    context.ia_set_vertices(vertices)
    context.ia_set_topology(STRIP)
    context.draw(len(vertices))
    context.pixel(96, 84)
    return scene


def ball_mesh(rows: int, columns: int, top: float, bottom: float) -> tuple[list[Point], list[Triple]]:
    """Corners and index triples of a part of a ball of radius 1, seen from outside."""
    points: list[Point] = []
    triples: list[Triple] = []
    for row in range(rows + 1):
        down = top + (bottom - top) * row / rows
        for column in range(columns):
            around = math.tau * column / columns
            points.append((math.sin(down) * math.cos(around), -math.cos(down), math.sin(down) * math.sin(around)))
    for row in range(rows):
        for column in range(columns):
            a, b = row * columns + column, row * columns + (column + 1) % columns
            c, d = a + columns, b + columns
            triples += [(a, b, c), (b, d, c)]
    return points, triples


def tilted(point: Point, angle: float) -> Point:
    x, y, z = point
    return x, y * math.cos(angle) - z * math.sin(angle), y * math.sin(angle) + z * math.cos(angle)


def draw_mesh(context: Context, vertices: list[Corner], triples: list[Triple]) -> None:
    context.ia_set_vertices(vertices)
    context.ia_set_indices(sum(triples, ()))
    context.ia_set_topology(LIST)
    context.draw_indexed(3 * len(triples))


def mesh() -> Scene:
    """A ball of 480 triangles, drawn by indices: the half behind is culled."""
    points, triples = ball_mesh(12, 20, 0.0, math.pi)
    scene, vertices = opened(192, 192), []
    for point in points:
        x, y, z = tilted(point, 0.5)
        light = 0.25 + 0.75 * max(0.0, -0.4 * x - 0.6 * y - 0.7 * z)
        vertices.append((96 + 84 * x, 96 + 84 * y, round((z + 1) * 8_000_000), shade((255, 180, 90), light)))
    draw_mesh(scene.immediate, vertices, triples)
    scene.immediate.pixel(96, 96)
    return scene


def bowl() -> Scene:
    """Both faces of an open bowl: the list of its inside and the list of its outside, by the cull mode alone."""
    points, triples = ball_mesh(8, 24, math.pi / 2, math.pi - 0.05)
    scene, lists = opened(192, 192), []
    for context, cull, base in zip(scene.deferred, (CullMode.FRONT, CullMode.BACK), ((110, 170, 255), (255, 150, 110))):
        vertices = []
        for point in points:
            x, y, z = tilted(point, 0.6)
            light = 0.35 + 0.65 * abs(0.3 * x + 0.5 * y + 0.8 * z)
            vertices.append((96 + 84 * x, 60 + 84 * y, round((z + 1) * 8_000_000), shade(base, light)))
        context.rs_set_state(RasterizerState(cull_mode=cull))
        draw_mesh(context, vertices, triples)
        lists.append(context.finish_command_list())
    for command_list in lists:
        scene.immediate.execute(command_list)
    scene.immediate.pixel(96, 40)
    scene.immediate.pixel(96, 120)
    return scene


# ---- the output merger


def crossed(a: Point, b: Point) -> Point:
    return (a[1] * b[2] - a[2] * b[1], a[2] * b[0] - a[0] * b[2], a[0] * b[1] - a[1] * b[0])


def inner(a: Point, b: Point) -> float:
    return sum(p * q for p, q in zip(a, b))


def looked_at(point: Point) -> tuple[float, float, int]:
    """A point of the room as the target sees it: turned, tilted and moved, with its depth."""
    x, y, z = point
    x, z = x * math.cos(0.7) - z * math.sin(0.7), x * math.sin(0.7) + z * math.cos(0.7)
    y, z = y * math.cos(0.6) + z * math.sin(0.6), z * math.cos(0.6) - y * math.sin(0.6)
    return 96 + 22 * x, 116 - 22 * y, round((z + 12) / 24 * DEEPEST)


# the direction to the viewer
VIEW = (-math.cos(0.6) * math.sin(0.7), math.sin(0.6), -math.cos(0.6) * math.cos(0.7))

LIGHT = (0.45, -1.0, 0.25)

# corners of a cube by the signs of x, y, z, and its six faces with their normals
CUBE: list[Point] = [(x, y, z) for x in (-1, 1) for y in (-1, 1) for z in (-1, 1)]
FACES: list[Face] = [
    (tuple(sign if k == axis else 0 for k in range(3)), [at for at, it in enumerate(CUBE) if it[axis] == sign])
    for axis in range(3)
    for sign in (-1, 1)
]


def around(face: Face) -> list[int]:
    """The four corners of a face in their order round it."""
    _, (a, b, c, d) = face
    return [a, b, d, c]


def triangles_of(corners: Sequence[Point], is_front: bool) -> list[tuple[float, float, int]]:
    """The triangles of a flat polygon, turned so that they face the viewer or not, as asked."""
    seen = [looked_at(it) for it in corners]
    found = []
    for at in range(1, len(seen) - 1):
        three = clockwise(seen[0], seen[at], seen[at + 1])
        found += three if is_front else [three[0], three[2], three[1]]
    return found


def boxes() -> Iterator[Box]:
    """Three boxes of the room, each as its eight corners."""
    for middle, half in (((-1.6, 0.9, 0.6), 0.9), ((1.3, 0.6, -0.9), 0.6), ((1.0, 1.9, 1.6), 0.5)):
        yield [tuple(m + half * c for m, c in zip(middle, corner)) for corner in CUBE]


def room_faces() -> Iterator[tuple[Sequence[Point], Colour]]:
    """Each visible polygon of the room with its colour in the light."""
    floor: list[Point] = [(-4, 0, -4), (4, 0, -4), (4, 0, 4), (-4, 0, 4)]
    yield floor, (150, 170, 150, 255)
    for number, box in enumerate(boxes()):
        for face in FACES:
            if inner(face[0], VIEW) > 0:
                light = 0.45 + 0.55 * max(0.0, -inner(face[0], LIGHT) / math.sqrt(inner(LIGHT, LIGHT)))
                yield [box[at] for at in around(face)], shade(colour(number / 3, 0.5), light)


def volume_faces(box: Box) -> Iterator[tuple[list[Point], bool]]:
    """The faces of the shadow of a box, as (corners, whether the face is turned to the viewer)."""
    away = [tuple(p + 9 * l for p, l in zip(point, LIGHT)) for point in box]
    lit = [inner(face[0], LIGHT) < 0 for face in FACES]
    for face, is_lit in zip(FACES, lit):
        yield [(box if is_lit else away)[at] for at in around(face)], inner(face[0], VIEW) > 0
    for one, other in ((a, b) for a in range(6) for b in range(6) if lit[a] and not lit[b]):
        edge = [at for at in FACES[one][1] if at in FACES[other][1]]
        if len(edge) == 2:
            a, b = edge
            normal = crossed(tuple(q - p for p, q in zip(box[a], box[b])), LIGHT)
            middle = tuple(sum(point[k] for point in box) / 8 for k in range(3))
            outwards = inner(normal, tuple(p - m for p, m in zip(box[a], middle))) > 0
            yield [box[a], box[b], away[b], away[a]], (inner(normal, VIEW) > 0) == outwards


def shadow_volumes() -> Scene:
    """Boxes and their shadows by the stencil: behind a volume's back faces up, behind its front faces down, on both
    faces at once where the depth test fails; then the light where the stencil is 0."""
    scene, dark, bright, volume = opened(192, 192), [], [], []
    context = scene.immediate
    for corners, rgba in room_faces():
        dark += [(*it, shade(rgba, 0.4)) for it in triangles_of(corners, True)]
        bright += [(*it, shade(rgba, 1.0)) for it in triangles_of(corners, True)]
    for box in boxes():
        for corners, is_front in volume_faces(box):
            volume += [(*it, (0, 0, 0, 0)) for it in triangles_of(corners, is_front)]
    context.ia_set_topology(LIST)
    context.ia_set_vertices(dark)
    context.draw(len(dark))
    mark_shadow_volumes(context)
    context.ia_set_vertices(volume)
    context.draw(len(volume))
    light_outside_shadows(context)
    context.ia_set_vertices(bright)
    with context.counted(0):
        context.draw(len(bright))
    context.get_data(0)
    context.pixel(96, 120)
    context.pixel(60, 60)
    return scene


def disc(x: float, y: float, size: float, z: int, rgba: Colour, is_front: bool, parts: int = 24) -> list[Corner]:
    """A disc of triangles round its middle."""
    rim = [(x + size * math.cos(math.tau * k / parts), y + size * math.sin(math.tau * k / parts)) for k in range(parts)]
    vertices = []
    for k in range(parts):
        three = clockwise((x, y), rim[k], rim[(k + 1) % parts])
        vertices += [(px, py, z, rgba) for px, py in (three if is_front else [three[0], three[2], three[1]])]
    return vertices


def without_depth(front: StencilFace, back: StencilFace) -> DepthStencilState:
    """A state that looks at the stencil alone, by the two faces."""
    func = ComparisonFunc.ALWAYS
    return DepthStencilState(
        depth_enable=False, depth_write=False, depth_func=func, stencil_enable=True, front_face=front, back_face=back
    )


# the counts that two-faced-count can leave, and the colour of each
COUNT_COLOURS = [colour(level / 7, 0.7, 0.35 + 0.1 * level) for level in range(7)]


def two_faced_count() -> Scene:
    """Discs that face the viewer count up and discs that don't count down, under one state; then each count has a
    colour of its own, and a query tells how many pixels have it."""
    chance, counted = random.Random(11), []
    for at in range(14):
        counted += disc(
            chance.uniform(30, 162), chance.uniform(30, 162), chance.uniform(20, 55), 0, (0, 0, 0, 0), at % 3 != 2
        )
    scene = opened(192, 192)
    context = scene.immediate
    context.clear_depth_stencil(DEEPEST, 2)
    context.rs_set_state(BOTH_FACES)
    context.om_set_blend(BlendState(write_mask=ColorWriteEnable.NONE))
    up, down = StencilFace(stencil_pass_op=StencilOp.INCR_SAT), StencilFace(stencil_pass_op=StencilOp.DECR_SAT)
    context.om_set_depth_stencil(without_depth(up, down))
    draw_triangles(context, counted)
    context.ia_set_topology(STRIP)
    for level, rgba in enumerate(COUNT_COLOURS):
        context.om_set_blend(BlendState())
        equal = StencilFace(stencil_func=ComparisonFunc.EQUAL)
        context.om_set_depth_stencil(without_depth(equal, equal), level)
        context.ia_set_vertices([(x, y, 0, rgba) for x, y in ((0, 0), (192, 0), (0, 192), (192, 192))])
        with context.counted(level):
            context.draw(4)
    for level in range(7):
        context.get_data(level)
    context.pixel(96, 96)
    return scene


def ramp() -> list[Corner]:
    """Columns of four pixels, from one colour to another."""
    vertices: list[Corner] = []
    for column in range(48):
        rgba = (5 * column, 255 - 5 * column, 96 + 3 * column, 255)
        for three in (((0, 0), (4, 0), (0, 192)), ((4, 0), (4, 192), (0, 192))):
            vertices += [(4 * column + x, y, 0, rgba) for x, y in three]
    return vertices


def logic_operations() -> Scene:
    """The sixteen logic operations, each of a disc onto a ramp, with the green channel masked in the lower half of
    each."""
    scene = opened(192, 192, (0, 0, 0, 255))
    context = scene.immediate
    context.om_set_depth_stencil(
        DepthStencilState(depth_enable=False, depth_write=False, depth_func=ComparisonFunc.ALWAYS)
    )
    context.rs_set_state(RasterizerState(cull_mode=CullMode.NONE, scissor_enable=True))
    context.ia_set_topology(LIST)
    context.rs_set_scissor(0, 0, 192, 192)
    context.ia_set_vertices(ramp())
    context.draw(len(ramp()))
    for operation in LogicOp:
        left, top = 48 * (operation % 4), 48 * (operation // 4)
        vertices = disc(left + 24, top + 24, 20, 0, (90, 165, 60, 255), True)
        for mask, upper in ((15, top), (13, top + 24)):
            context.om_set_blend(
                BlendState(logic_op_enable=True, logic_op=operation, write_mask=ColorWriteEnable(mask))
            )
            context.rs_set_scissor(left, upper, left + 48, upper + 24)
            context.ia_set_vertices(vertices)
            with context.counted(operation):
                context.draw(len(vertices))
    for operation in (LogicOp.CLEAR, LogicOp.XOR, LogicOp.OR_INVERTED):
        context.get_data(operation)
    context.pixel(24, 24)
    context.pixel(120, 130)
    return scene


def petal_lists(context: DeferredContext, number: int) -> list[CommandList]:
    """The two lists of a context: under states of its own, and the second by the state that the first kept."""
    angle = math.tau * number / 8
    petal = disc(
        96 + 52 * math.cos(angle), 96 + 52 * math.sin(angle), 38, DEEPEST // 9 * (number + 1), colour(number / 8), True
    )
    heart = disc(96, 96, 40 - 4 * number, DEEPEST // 2, colour((number + 4) / 8, 0.4), True)
    operation = LogicOp.AND if number % 4 == 1 else LogicOp.XOR
    context.rs_set_state(RasterizerState(scissor_enable=True))
    context.rs_set_scissor(8 * number, 0, 192, 192 - 6 * number)
    context.ia_set_topology(LIST)
    context.om_set_blend(
        BlendState(
            logic_op_enable=number % 2 == 1,
            logic_op=operation,
            write_mask=ColorWriteEnable(15 if number < 6 else 11),
        )
    )
    lists = []
    for query, vertices, restore in ((number, petal, True), (8, heart, False)):
        context.ia_set_vertices(vertices)
        with context.counted(query):
            context.draw(len(vertices))
        lists.append(context.finish_command_list(restore))
    return lists


def eight_contexts() -> Scene:
    """Eight deferred contexts, each with two lists under states of its own; the second keeps the state of the first."""
    scene = opened(192, 192)
    context = scene.immediate
    petals, hearts = zip(*(petal_lists(it, number) for number, it in enumerate(scene.deferred)))
    for command_list in petals:
        context.execute(command_list)
    for number in (6, 3, 0):
        context.execute(hearts[number], restore=True)
    for query in range(9):
        context.get_data(query)
    context.pixel(96, 96)
    context.pixel(150, 96)
    return scene


def rays(x: float, y: float, size: float, rgba: Colour, parts: int = 12) -> list[Corner]:
    """A star of thin triangles round a middle."""
    vertices = []
    for k in range(parts):
        at, half = math.tau * k / parts, math.tau / (5 * parts)
        tip = (x + size * math.cos(at), y + size * math.sin(at))
        base = [(x + 7 * math.cos(at + turn), y + 7 * math.sin(at + turn)) for turn in (-half * 3, half * 3)]
        vertices += [(px, py, 0, rgba) for px, py in clockwise(tip, *base)]
    return vertices


def cross(x: float, y: float, rgba: Colour) -> list[Corner]:
    """Two thin bars through a middle."""
    vertices = []
    for turn in (-1, 1):
        a, b = (x - 6, y - 6 * turn), (x + 6, y + 6 * turn)
        for three in (((a[0] - 1, a[1]), (a[0] + 1, a[1]), b), (b, (b[0] - 2, b[1]), a)):
            vertices += [(px, py, 0, rgba) for px, py in clockwise(*three)]
    return vertices


def add_light(context: Context, query: int, x: float, y: float) -> None:
    """The light of a lamp, which is left out where its query counted nothing, and a dark cross that is left out
    elsewhere."""
    light = rays(x, y, 22, (255, 214, 96, 255)) + disc(x, y, 7, 0, (255, 240, 190, 255), True)
    for value, vertices in ((False, light), (True, cross(x, y, (24, 20, 30, 255)))):
        context.set_predication((query, value))
        context.ia_set_vertices(vertices)
        context.draw(len(vertices))


def lamps() -> Scene:
    """Eight lamps behind doors, three of which are shut. A query counts what is seen of each lamp. The light of a
    lamp is drawn under a predicate that leaves it out where nothing was counted, and a dark cross under the one that
    leaves it out elsewhere; both are recorded before anything is counted."""
    scene, doors, stand_ins = Scene(192, 96), [], []
    context, recorded = scene.immediate, scene.deferred[0]
    recorded.ia_set_topology(LIST)
    recorded.om_set_depth_stencil(
        DepthStencilState(depth_enable=False, depth_write=False, depth_func=ComparisonFunc.ALWAYS)
    )
    for at, opening in enumerate((0, 2, 8, 20, 28, 0, 14, 0)):
        left, top = 48 * (at % 4), 48 * (at // 4)
        x, y = left + 24, top + 24
        doors += rectangle(left + 2, top + 2, left + 46, top + 46, depth=2000, colour=(58, 52, 74, 255))
        doors += rectangle(left + 6, top + 6, x - opening / 2, top + 42, depth=500, colour=(122, 88, 58, 255))
        doors += rectangle(x + opening / 2, top + 6, left + 42, top + 42, depth=500, colour=(104, 74, 48, 255))
        stand_ins.append(rectangle(x - 7, y - 7, x + 7, y + 7, depth=1000, colour=(0, 0, 0, 0)))
        add_light(recorded, at, x, y)
    lights = recorded.finish_command_list()
    context.clear_color((30, 30, 46, 255))
    context.ia_set_topology(LIST)
    context.ia_set_vertices(doors)
    context.draw(len(doors))
    context.om_set_blend(BlendState(write_mask=ColorWriteEnable.NONE))
    context.om_set_depth_stencil(DepthStencilState(depth_write=False))
    for at, vertices in enumerate(stand_ins):
        context.ia_set_vertices(vertices)
        with context.counted(at):
            context.draw(6)
    context.execute(lights, restore=True)
    for at in range(8):
        context.get_data(at)
    context.pixel(24, 24)
    context.pixel(72, 24)
    return scene


def random_channels(chance: random.Random, most: int) -> tuple[int, int, int]:
    """Red, green and blue, each below a number."""
    return chance.randrange(most), chance.randrange(most), chance.randrange(most)


def wandering(chance: random.Random, count: int) -> list[Corner]:
    """Vertices each of which lies near the one before, on a target of 48 by 48."""
    vertices: list[Corner] = []
    x = y = 24.0
    for _ in range(count):
        x = min(max(x + chance.randrange(-4, 5) / 2, -2), 50)
        y = min(max(y + chance.randrange(-4, 5) / 2, -2), 50)
        vertices.append((x, y, chance.randrange(10), (*random_channels(chance, 10), 9)))
    return vertices


def counted_list(
    context: DeferredContext, topology: PrimitiveTopology, draw: Callable[[int], None], triangles: int
) -> CommandList:
    """A list of so many triangles, counted, in draws of at most 5,000; the next one keeps its state."""
    context.ia_set_topology(topology)
    with context.counted(0):
        for start in range(0, triangles, 5_000):
            now = min(5_000, triangles - start)
            draw(3 * now if topology == LIST else now + 2)
    return context.finish_command_list(restore=True)


def large_lists() -> Scene:
    """Lists of 100, of 5,000 and of 65,536 triangles of both topologies, without indices and by indices, and one of
    5,000 of which all are culled. Each triangle is drawn over the earlier ones, so that their order shows."""
    chance, scene, lists = random.Random(29), Scene(48, 48), []
    context, culled = scene.deferred[:2]
    context.ia_set_vertices(wandering(chance, 15_000))
    context.ia_set_indices(chance.randrange(max(0, at - 3), min(15_000, at + 4)) for at in range(15_000))
    context.rs_set_state(BOTH_FACES)
    context.om_set_depth_stencil(DepthStencilState(depth_func=ComparisonFunc.ALWAYS))
    for topology in (LIST, STRIP):
        draws: tuple[Callable[[int], None], ...] = (context.draw, context.draw_indexed)
        for draw in draws:
            lists += [counted_list(context, topology, draw, triangles) for triangles in (100, 5_000, 65_536)]
    culled.ia_set_vertices([(x, y, 0, (1, 2, 3, 4)) for x, y in ((8, 8), (8, 40), (40, 8))])
    culled.ia_set_indices([0, 1, 2] * 5_000)
    culled.ia_set_topology(LIST)
    with culled.counted(1):
        culled.draw_indexed(15_000)
    asked = [(command_list, 0, ((24, 24), (31, 32))) for command_list in lists]
    for command_list, query, pixels in [*asked, (culled.finish_command_list(), 1, ((12, 12),))]:
        scene.immediate.execute(command_list, restore=True)
        scene.immediate.get_data(query)
        for x, y in pixels:
            scene.immediate.pixel(x, y)
    return scene


# ---- widths and random scenes


def width(columns: int) -> Scene:
    """Both halves of a target of so many columns and 33 rows, each counted, with sloped depths."""
    corners = [
        (0, 0, 0, (10, 20, 30, 40)),
        (columns, 0, 4_000_000, (50, 60, 70, 80)),
        (0, 33, 8_000_000, (1, 2, 3, 4)),
        (columns, 33, DEEPEST, (5, 6, 7, 8)),
    ]
    scene = Scene(columns, 33)
    context = scene.immediate
    context.ia_set_topology(LIST)
    context.rs_set_state(BOTH_FACES)
    for query, half in enumerate([(0, 1, 2), (1, 3, 2)]):
        context.ia_set_vertices([corners[at] for at in half])
        with context.counted(2), context.counted(query):
            context.draw(3)
    context.get_data(0)
    context.get_data(1)
    for x, y in ((columns - 1, 0), (columns // 2, 16), (columns - 1, 32)):
        context.pixel(x, y)
    return scene


def random_face(chance: random.Random) -> list[int]:
    return [chance.randrange(1, 9) for _ in range(4)]


def add_random_states(chance: random.Random, scene: Scene, actor: str) -> None:
    """Lines that set all states, of each kind at random."""
    left, top = chance.randrange(scene.width), chance.randrange(scene.height)
    right, bottom = chance.randrange(left, scene.width + 9), chance.randrange(top, scene.height + 9)
    stencil = [
        chance.randrange(2),
        chance.randrange(256),
        chance.randrange(256),
        *random_face(chance),
        *random_face(chance),
    ]
    scene.add(actor, "raster", chance.choice([1, 1, 2, 3]), chance.randrange(2), chance.choice([0, 0, 1]))
    scene.add(actor, "scissor", left, top, right, bottom)
    scene.add(
        actor,
        "ds",
        chance.choice([0, 1, 1]),
        chance.randrange(2),
        chance.randrange(1, 9),
        *stencil,
        chance.randrange(256),
    )
    scene.add(actor, "blend", chance.randrange(2), chance.randrange(16), chance.choice([15, 15, chance.randrange(16)]))


def random_triangles(chance: random.Random, scene: Scene) -> list[Corner]:
    """Ten triangles, each anywhere on the target and of one of three sizes."""
    reach = chance.choice([4, 20, 90])
    vertices: list[Corner] = []
    for _ in range(10):
        x, y = chance.randrange(scene.width), chance.randrange(scene.height)
        for _ in range(3):
            across = chance.choice([0, 0.5, chance.uniform(-reach, reach)])
            place = x + across, y + chance.choice([0, 0.5, chance.uniform(-reach, reach)])
            depth = chance.randrange(DEEPEST + 1)
            vertices.append((*place, depth, (*random_channels(chance, 256), chance.randrange(256))))
    return vertices


def random_scene(seed: int) -> Scene:
    """200 triangles, ten to a list or to a part of what is pending, each part under states and a query of its own."""
    chance = random.Random(seed)
    scene = Scene(chance.randrange(20, 71), chance.randrange(20, 71))
    scene.immediate.clear_color((9, 8, 7, 6))
    scene.immediate.clear_depth_stencil(12_000_000, 100)
    for part in range(20):
        recorded = scene.deferred[0]
        context: Context = chance.choice([scene.immediate, recorded])
        vertices = random_triangles(chance, scene)
        add_random_states(chance, scene, context.actor)
        context.ia_set_topology(LIST)
        context.ia_set_vertices(vertices)
        with context.counted(part):
            context.draw(30)
        if context is not scene.immediate:
            command_list = recorded.finish_command_list(bool(chance.randrange(2)))
            scene.immediate.execute(command_list, bool(chance.randrange(2)))
    for part in range(20):
        scene.immediate.get_data(part)
    return scene


def asked_scene(seed: int) -> Scene:
    """A random scene, and behind it each pixel of the target."""
    scene = random_scene(seed)
    scene.immediate.pixels(0, 0, scene.width, scene.height)
    return scene


EXAMPLES: dict[str, Callable[[], Scene]] = {
    "fan": fan,
    "shared-edges": shared_edges,
    "pile": pile,
    "slivers": slivers,
    "far": far,
    "large": large,
    "ribbon": ribbon,
    "mesh": mesh,
    "bowl": bowl,
    "shadow-volumes": shadow_volumes,
    "two-faced-count": two_faced_count,
    "logic-operations": logic_operations,
    "eight-contexts": eight_contexts,
    "lamps": lamps,
    "large-lists": large_lists,
    "decals": decals,
    "largest-target": largest_target,
    **{f"width-{columns}": partial(width, columns) for columns in range(1, 34)},
    **{f"scene-{seed}": partial(random_scene, seed) for seed in range(10)},
    **{f"scene-{seed}": partial(asked_scene, seed) for seed in range(10, 13)},
}


def main() -> None:
    parser = argparse.ArgumentParser(description=__doc__, formatter_class=argparse.RawDescriptionHelpFormatter)
    named = ", ".join(it for it in EXAMPLES if not it[-1].isdigit())
    parser.add_argument(
        "names",
        metavar="NAME",
        nargs="*",
        help=f"of {named}, width-1 to width-33, scene-0 to scene-12; without one, all",
    )
    parser.add_argument("--folder", type=pathlib.Path, default=FOLDER, help="where the scripts are written")
    given = parser.parse_args()
    unknown = [it for it in given.names if it not in EXAMPLES]
    if unknown:
        parser.error(f"no example {' '.join(unknown)}")
    for name in given.names or EXAMPLES:
        try:
            EXAMPLES[name]().save(given.folder / f"{name}.txt")
        except OSError as error:
            parser.exit(1, f"make_examples.py: {error.filename}: {error.strerror}\n")
        print(given.folder / f"{name}.txt")


if __name__ == "__main__":
    sys.exit(ended(main))
