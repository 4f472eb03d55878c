#!/usr/bin/env python3
"""Prints a benchmark scene: a script of docs/SCRIPT.md.

    bench/scenes.py SCENE [FRAMES]

A scene has a part that is written once (it records the lists) and a frame, which is written FRAMES times (1 without a
number). The numbers are drawn with fixed seeds, so the scripts are the same each time.
"""

from __future__ import annotations

import argparse
import math
import pathlib
import random
import sys
from collections.abc import Callable, Sequence
from dataclasses import replace

sys.path.insert(0, str(pathlib.Path(__file__).resolve().parent.parent / "tools"))

import package_path  # noqa: F401
from yuzuratchet import (
    BlendState,
    CommandList,
    ComparisonFunc,
    CullMode,
    DepthStencilState,
    ImmediateContext,
    LogicOp,
    PrimitiveTopology,
    RasterizerState,
    Scene,
    StencilFace,
)
from yuzuratchet.arguments import whole_number
from yuzuratchet.ending import ended
from yuzuratchet.limits import DEEPEST, FARTHEST_PIXEL, STRIP_CUT, TARGET_SIDE
from yuzuratchet.recipes import mark_shadow_volumes
from yuzuratchet.scene import Context

Colour = tuple[int, ...]
Corner = tuple[float, float, int, Colour]
# adds a frame to a scene
Frame = Callable[[ImmediateContext], None]

SIDE = 2048
LIST, STRIP = PrimitiveTopology.TRIANGLELIST, PrimitiveTopology.TRIANGLESTRIP


def colour(chance: random.Random) -> Colour:
    return tuple(chance.randrange(256) for _ in range(4))


def triangle(chance: random.Random, side: float, smallest: float, largest: float) -> list[Corner]:
    """A triangle whose corners lie within a square of the given size."""
    size = chance.uniform(smallest, largest)
    left, top = chance.uniform(0, side - size), chance.uniform(0, side - size)
    rgba = colour(chance)
    places = [
        (left, top),
        (left + size, top + chance.uniform(0, size / 4)),
        (left + chance.uniform(0, size / 4), top + size),
    ]
    return [(x, y, chance.randrange(DEEPEST), rgba) for x, y in places]


def triangles(chance: random.Random, count: int, side: float, smallest: float, largest: float) -> list[Corner]:
    return [vertex for _ in range(count) for vertex in triangle(chance, side, smallest, largest)]


def draw(context: Context, vertices: Sequence[Corner]) -> None:
    context.ia_set_vertices(vertices)
    context.draw(len(vertices))


def draw_triangles(context: Context, chance: random.Random, count: int, smallest: float, largest: float) -> None:
    """Draws of so many triangles, each of at most 65,535 vertices."""
    context.ia_set_topology(LIST)
    while count:
        now = min(count, 21_845)
        draw(context, triangles(chance, now, SIDE, smallest, largest))
        count -= now


def frame_of(command_list: CommandList, restore: bool = True) -> Frame:
    """A frame that clears the depths and executes a list."""

    def add(context: ImmediateContext) -> None:
        context.clear_depth_stencil(DEEPEST, 0)
        context.execute(command_list, restore)

    return add


def large_triangles(scene: Scene) -> Frame:
    """300 triangles in one list: some 112 million covered pixels under LESS."""
    context = scene.deferred[0]
    draw_triangles(context, random.Random(1), 300, 700, 1100)
    return frame_of(context.finish_command_list())


def large_under(scene: Scene, blend: BlendState) -> Frame:
    """The same 300 triangles under a blend state, with the depth test off."""
    context = scene.deferred[0]
    context.om_set_depth_stencil(DepthStencilState(depth_enable=False))
    context.om_set_blend(blend)
    draw_triangles(context, random.Random(1), 300, 700, 1100)
    command_list = context.finish_command_list()
    return lambda immediate: immediate.execute(command_list, True)


def large_plain(scene: Scene) -> Frame:
    """The same 300 triangles, with the depth test off."""
    return large_under(scene, BlendState())


def large_xor(scene: Scene) -> Frame:
    """The same 300 triangles under XOR, with the depth test off."""
    return large_under(scene, BlendState(logic_op_enable=True, logic_op=LogicOp.XOR))


def small_triangles(scene: Scene) -> Frame:
    """60,000 triangles of 10 to 50 pixels in one list."""
    context = scene.deferred[0]
    draw_triangles(context, random.Random(2), 60_000, 4.5, 10)
    return frame_of(context.finish_command_list())


def short_lists(scene: Scene) -> list[CommandList]:
    """64 lists of 100 small triangles with states of their own."""
    chance, lists = random.Random(3), []
    for number in range(64):
        context = scene.deferred[number % 8]
        context.rs_set_state(RasterizerState(cull_mode=CullMode.NONE, front_counter_clockwise=number % 2 == 1))
        context.ia_set_vertices(triangles(chance, 100, SIDE, 4.5, 10))
        context.ia_set_topology(LIST)
        context.draw(300)
        lists.append(context.finish_command_list())
    return lists


def executed_lists(scene: Scene) -> Frame:
    """64 lists of 100 small triangles with states of their own, each executed 16 times."""
    lists = short_lists(scene)

    def add(immediate: ImmediateContext) -> None:
        for command_list in lists * 16:
            immediate.execute(command_list, True)

    return add


def executed_rounds(scene: Scene) -> Frame:
    """The same lists, executed in 16 rounds, each behind a clear of depth and stencil."""
    lists = short_lists(scene)

    def add(immediate: ImmediateContext) -> None:
        for _ in range(16):
            immediate.clear_depth_stencil(DEEPEST, 0)
            for command_list in lists:
                immediate.execute(command_list, True)

    return add


def clears(scene: Scene) -> Frame:
    """100 times both clears and 20 small triangles, in one list."""
    chance, context = random.Random(6), scene.deferred[0]
    context.ia_set_topology(LIST)
    for _ in range(100):
        context.clear_color((1, 2, 3, 4))
        context.clear_depth_stencil(DEEPEST, 0)
        draw(context, triangles(chance, 20, SIDE, 4.5, 10))
    command_list = context.finish_command_list()
    return lambda immediate: immediate.execute(command_list, True)


def volume(chance: random.Random) -> list[Corner]:
    """Two parallel squares, one near and one far, that face away from each other."""
    x, y, size = chance.uniform(200, 1800), chance.uniform(200, 1800), chance.uniform(150, 450)
    turn = chance.uniform(0, 2 * math.pi)
    near, far = chance.randrange(DEEPEST // 2), chance.randrange(DEEPEST // 2, DEEPEST)
    ring = [
        (x + size * math.cos(turn + k * math.pi / 2), y + size * math.sin(turn + k * math.pi / 2)) for k in range(4)
    ]
    kept = [(min(max(u, 0), SIDE), min(max(v, 0), SIDE)) for u, v in ring]
    top, low = ([(*place, depth, (0, 0, 0, 0)) for place in kept] for depth in (near, far))
    return [top[0], top[1], top[2], top[0], top[2], top[3], low[0], low[2], low[1], low[0], low[3], low[2]]


def shadow_volumes(scene: Scene) -> Frame:
    """4,000 small and 180 large triangles, then 120 large volumes by depth-fail operations on both faces, then a full
    quad where the stencil isn't 0: some 63 million covered pixels."""
    chance, context = random.Random(7), scene.deferred[0]
    draw_triangles(context, chance, 4_000, 4.5, 40)
    draw_triangles(context, chance, 180, 150, 500)
    mark_shadow_volumes(context)
    for _ in range(120):
        draw(context, volume(chance))
    marked = StencilFace(stencil_func=ComparisonFunc.NOT_EQUAL)
    tests = DepthStencilState(depth_enable=False, depth_write=False, depth_func=ComparisonFunc.ALWAYS)
    context.om_set_blend(BlendState())
    context.om_set_depth_stencil(replace(tests, stencil_enable=True, front_face=marked, back_face=marked))
    context.ia_set_vertices([(x, y, 0, (20, 20, 40, 255)) for x, y in ((0, 0), (SIDE, 0), (0, SIDE), (SIDE, SIDE))])
    context.ia_set_topology(STRIP)
    context.draw(4)
    command_list = context.finish_command_list()

    def add(immediate: ImmediateContext) -> None:
        immediate.clear_color((200, 200, 200, 255))
        frame_of(command_list)(immediate)

    return add


def idle_pixels(scene: Scene) -> Frame:
    """65,536 questions for a pixel on an idle target."""

    def add(immediate: ImmediateContext) -> None:
        for _ in range(65_536):
            immediate.pixel(2047, 2047)

    return add


def indexed_strip(scene: Scene) -> Frame:
    """An indexed strip of 65,536 indices, in a zigzag over the target."""
    chance, vertices, numbers, context = random.Random(4), [], [], scene.deferred[0]
    for column in range(256):
        for row in range(256):
            vertices.append((8 * column, 8 * row, chance.randrange(DEEPEST), (column, row, 128, 255)))
    for column in range(128):
        for row in range(256):
            numbers += [512 * column + row, 512 * column + 256 + row]
    context.rs_set_state(RasterizerState(cull_mode=CullMode.NONE))
    context.ia_set_vertices(vertices)
    context.ia_set_indices(STRIP_CUT if at == 65_535 else it for at, it in enumerate(numbers[:65_536]))
    context.ia_set_topology(STRIP)
    context.draw_indexed(65_536)
    return frame_of(context.finish_command_list())


def strip(scene: Scene) -> Frame:
    """A strip of 60,000 triangles in a zigzag over the target."""
    chance, corners, context = random.Random(7), [], scene.deferred[0]
    for place in range(60_002):
        column, row = place // 470, place % 470 // 2
        left = 16 * (column + place % 2)
        corners.append((left, 8.5 * row, chance.randrange(DEEPEST), (place % 256, row, 128, 255)))
    context.rs_set_state(RasterizerState(cull_mode=CullMode.NONE))
    context.ia_set_vertices(corners)
    context.ia_set_topology(STRIP)
    context.draw(60_002)
    return frame_of(context.finish_command_list())


def clear(scene: Scene) -> Frame:
    """A clear of the target."""

    def add(immediate: ImmediateContext) -> None:
        immediate.clear_color((1, 2, 3, 4))
        immediate.flush()

    return add


def smallest(scene: Scene) -> Frame:
    """A clear of a target of 64 by 64: what starting and ending takes."""
    return clear(scene)


def executed(command_list: CommandList, times: int) -> Frame:
    """What adds so many executions of a list."""

    def add(immediate: ImmediateContext) -> None:
        for _ in range(times):
            immediate.execute(command_list, True)

    return add


def ten_tiles(scene: Scene) -> Frame:
    """An execution that touches ten of 4,096 tiles, a thousand times."""
    context = scene.deferred[0]
    context.ia_set_vertices(triangles(random.Random(8), 2, 320, 30, 100))
    context.ia_set_topology(LIST)
    context.draw(6)
    return executed(context.finish_command_list(), 1000)


def one_triangle(scene: Scene) -> Frame:
    """One triangle over each pixel of the target. Its corners are as far apart as corners may be."""
    context, far = scene.deferred[0], FARTHEST_PIXEL
    context.ia_set_vertices([(x, y, 0, (1, 2, 3, 4)) for x, y in ((far, -far), (far, far), (-far, far))])
    context.ia_set_topology(LIST)
    context.draw(3)
    return frame_of(context.finish_command_list())


def largest_target(scene: Scene) -> Frame:
    """One triangle over each pixel of the largest target, 4,096 by 4,096."""
    return one_triangle(scene)


def largest_clear(scene: Scene) -> Frame:
    """A clear of the largest target."""
    return clear(scene)


def long_script(scene: Scene) -> Frame:
    """60 MB of vertices: the time to read and check a script."""

    def add(immediate: ImmediateContext) -> None:
        immediate.ia_set_vertices(triangles(random.Random(5), 21_845, SIDE, 4.5, 10))
        line = scene.lines[-1]
        for _ in range(60_000_000 // len(str(line))):
            scene.add_line(line)

    return add


def many_executions(scene: Scene) -> Frame:
    """20,000 executions of one triangle over three tiles of a target of 64 by 64: what starting a run costs."""
    context = scene.deferred[0]
    context.ia_set_vertices([(x, y, 0, (1, 2, 3, 4)) for x, y in ((0, 0), (64, 0), (0, 64))])
    context.ia_set_topology(LIST)
    context.draw(3)
    return executed(context.finish_command_list(), 20_000)


def asked(legs: int, times: int) -> Frame:
    """What draws a triangle with two legs so long, and asks for a pixel behind it, so often: each time is a run of
    its own."""

    def add(immediate: ImmediateContext) -> None:
        immediate.ia_set_vertices([(x, y, 100, (1, 2, 3, 255)) for x, y in ((1, 1), (1 + legs, 1), (1, 1 + legs))])
        immediate.ia_set_topology(LIST)
        for _ in range(times):
            immediate.draw(3)
            immediate.pixel(3, 3)

    return add


def asked_small(scene: Scene) -> Frame:
    """20,000 triangles with legs of 60 pixels on a target of 256 by 256, and a question behind each: runs of some 4
    microseconds."""
    return asked(60, 20_000)


def asked_large(scene: Scene) -> Frame:
    """5,000 triangles with legs of 230 pixels, and a question behind each: runs of some 30 microseconds."""
    return asked(230, 5_000)


def many_finishes(scene: Scene) -> Frame:
    """20,000 empty lists of one context."""

    def add(immediate: ImmediateContext) -> None:
        for _ in range(20_000):
            scene.deferred[0].finish_command_list()

    return add


def many_flushes(scene: Scene) -> Frame:
    """100,000 lines that do nothing."""

    def add(immediate: ImmediateContext) -> None:
        for _ in range(100_000):
            immediate.flush()

    return add


SCENES = {
    "large-triangles": large_triangles,
    "small-triangles": small_triangles,
    "executed-lists": executed_lists,
    "executed-rounds": executed_rounds,
    "clears": clears,
    "large-plain": large_plain,
    "large-xor": large_xor,
    "shadow-volumes": shadow_volumes,
    "ten-tiles": ten_tiles,
    "clear": clear,
    "one-triangle": one_triangle,
    "indexed-strip": indexed_strip,
    "strip": strip,
    "idle-pixels": idle_pixels,
    "long-script": long_script,
    "largest-target": largest_target,
    "largest-clear": largest_clear,
    "many-executions": many_executions,
    "many-finishes": many_finishes,
    "many-flushes": many_flushes,
    "smallest": smallest,
    "asked-small": asked_small,
    "asked-large": asked_large,
}


# the sides of the targets that aren't 2,048 by 2,048
SIDES = {
    "long-script": 1,
    "largest-target": TARGET_SIDE,
    "largest-clear": TARGET_SIDE,
    "many-executions": 64,
    "many-finishes": 64,
    "many-flushes": 64,
    "smallest": 64,
    "asked-small": 256,
    "asked-large": 256,
}


def script(name: str, frames: int) -> str:
    """The script of a scene with so many frames, each of which ends with a flush: else one that hides those before it
    would be the only one to be drawn."""
    side = SIDES.get(name, SIDE)
    scene = Scene(side, side)
    add_frame = SCENES[name](scene)
    for _ in range(frames):
        add_frame(scene.immediate)
        scene.immediate.flush()
    return scene.script()


def main() -> None:
    about = "Scenes:\n" + "\n".join(
        f"  {name}: {' '.join((make.__doc__ or '').split())}" for name, make in SCENES.items()
    )
    parser = argparse.ArgumentParser(
        description=__doc__, epilog=about, formatter_class=argparse.RawDescriptionHelpFormatter
    )
    parser.add_argument("scene", metavar="SCENE", choices=SCENES)
    parser.add_argument("frames", metavar="FRAMES", nargs="?", type=whole_number(1), default=1)
    given = parser.parse_args()
    sys.stdout.write(script(given.scene, given.frames))


if __name__ == "__main__":
    sys.exit(ended(main))
