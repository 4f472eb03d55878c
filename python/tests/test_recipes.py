"""Recipes draw what they say; counts and colours are worked out by hand."""

from __future__ import annotations

from pathlib import Path
from typing import Callable

import pytest
from conftest import TOP

from yuzuratchet import ComparisonFunc, Scene, depth_and_stencil, run
from yuzuratchet.recipes import (
    count_overlaps,
    count_seen,
    default_states,
    draw_by_xor,
    draw_where_stencil,
    draw_without_depth,
    lay_decals,
    light_outside_shadows,
    mark_stencil,
    mark_shadow_volumes,
    skip_where_hidden,
)
from yuzuratchet.scene import Context
from yuzuratchet.shapes import draw_triangles, rectangle

RED, BLUE = (255, 0, 0, 255), (0, 0, 255, 255)


def test_overlaps(program: Path) -> None:
    scene = Scene(8, 4)
    context = scene.immediate
    count_overlaps(context)
    draw_triangles(context, rectangle(0, 0, 5, 4))
    draw_triangles(context, reversed(rectangle(3, 0, 8, 4)))  # the other face counts too
    draw_where_stencil(context, 2, ComparisonFunc.LESS_EQUAL)
    draw_triangles(context, rectangle(0, 0, 8, 4, colour=RED))
    result = run(scene, program=program)
    assert [tuple(it) for it in result.image[1].tolist()] == [(0, 0, 0, 0)] * 3 + [RED] * 2 + [
        (0, 0, 0, 0)
    ] * 3
    depth, stencil = depth_and_stencil(scene, program=program)
    assert stencil.tolist() == [[1, 1, 1, 2, 2, 1, 1, 1]] * 4
    assert (depth == 16_777_215).all() and depth.shape == (4, 8)


def test_where_the_stencil_is_equal(program: Path) -> None:
    scene = Scene(4, 1)
    context = scene.immediate
    count_overlaps(context)
    draw_triangles(context, rectangle(1, 0, 3, 1))
    draw_where_stencil(context, 0)
    draw_triangles(context, rectangle(0, 0, 4, 1, colour=BLUE))
    assert run(scene, program=program).image[0, :, 2].tolist() == [255, 0, 0, 255]


def test_marks_by_both_faces(program: Path) -> None:
    """What lies behind the wall isn't marked, unless depth isn't looked at; nothing else is written."""
    for depth, marked in ((True, [0, 7, 7, 7]), (False, [7, 7, 7, 7])):
        scene = Scene(4, 1)
        context = scene.immediate
        draw_triangles(context, rectangle(0, 0, 1, 1, depth=0.2, colour=BLUE))
        mark_stencil(context, 7, depth=depth)
        draw_triangles(context, rectangle(0, 0, 2, 1, depth=0.5))
        draw_triangles(context, reversed(rectangle(2, 0, 4, 1, depth=0.5)))
        depths, stencil = depth_and_stencil(scene, program=program)
        assert stencil[0].tolist() == marked
        assert depths[0].tolist() == [3_355_443, *[16_777_215] * 3]
        image = run(scene, program=program).image
        assert image[0, :, 2].tolist() == [255, 0, 0, 0]


def test_where_the_stencil_is_equal_and_nearer(program: Path) -> None:
    scene = Scene(4, 1)
    context = scene.immediate
    mark_stencil(context, 1)
    draw_triangles(context, rectangle(1, 0, 4, 1))
    draw_where_stencil(context, 1, depth=True)
    draw_triangles(context, rectangle(0, 0, 3, 1, depth=0.5, colour=BLUE))
    draw_triangles(context, rectangle(0, 0, 4, 1, depth=0.6, colour=RED))
    assert [tuple(it) for it in run(scene, program=program).image[0].tolist()] == [
        (0, 0, 0, 0),
        BLUE,
        BLUE,
        RED,
    ]


def test_without_depth_the_last_is_seen(program: Path) -> None:
    scene = Scene(2, 1)
    context = scene.immediate
    draw_triangles(context, rectangle(0, 0, 2, 1, depth=0.1, colour=BLUE))
    draw_without_depth(context)
    draw_triangles(context, rectangle(0, 0, 1, 1, depth=0.9, colour=RED))
    assert [tuple(it) for it in run(scene, program=program).image[0].tolist()] == [RED, BLUE]
    assert depth_and_stencil(scene, program=program)[0].tolist() == [[1_677_722] * 2]


def test_decals_lie_on_their_surface(program: Path) -> None:
    """In the plane of a tilted floor, one over the other; without the bias nothing of them is nearer."""
    scene = Scene(8, 8)
    context = scene.immediate

    def tilted(left: int, right: int, colour: object) -> None:
        corners = [(left, 0), (right, 0), (left, 8), (right, 0), (right, 8), (left, 8)]
        at = [(x, y, 1000 + 3 * x + 5 * y, colour) for x, y in corners]
        draw_triangles(context, at)

    tilted(0, 8, "#202020")
    tilted(0, 2, RED)
    lay_decals(context)
    tilted(2, 6, RED)
    tilted(4, 6, BLUE)
    row = run(scene, program=program).image[3].tolist()
    grey = (0x20, 0x20, 0x20, 255)
    assert [tuple(it) for it in row] == [grey, grey, RED, RED, BLUE, BLUE, grey, grey]


def test_xor_twice_is_nothing(program: Path) -> None:
    scene = Scene(2, 1)
    context = scene.immediate
    context.clear_color("#0f0f0fff")
    draw_by_xor(context)
    draw_triangles(context, rectangle(0, 0, 2, 1, colour="#ff00ff00"))
    draw_triangles(context, rectangle(1, 0, 2, 1, colour="#ff00ff00"))
    image = run(scene, program=program).image[0].tolist()
    assert image == [[0xF0, 0x0F, 0xF0, 255], [0x0F, 0x0F, 0x0F, 255]]


def test_shadow_volume(program: Path) -> None:
    """A volume whose front lies before the floor and whose back behind it shades where it stands."""
    scene = Scene(6, 1)
    context = scene.immediate
    floor = rectangle(0, 0, 6, 1, depth=0.5, colour="#202020")
    draw_triangles(context, floor)
    mark_shadow_volumes(context)
    front = rectangle(1, 0, 3, 1, depth=0.25)
    back = list(reversed(rectangle(1, 0, 3, 1, depth=0.75)))
    before = rectangle(4, 0, 5, 1, depth=0.25) + list(reversed(rectangle(4, 0, 5, 1, depth=0.3)))
    draw_triangles(context, front + back + before)
    light_outside_shadows(context)
    with context.counted(0):
        draw_triangles(context, rectangle(0, 0, 6, 1, depth=0.5, colour="#ffffff"))
    count = context.get_data(0)
    result = run(scene, program=program)
    assert result.image[0, :, 0].tolist() == [255, 32, 32, 255, 255, 255]
    assert result.answers[count].count == 4  # type: ignore[union-attr]


def test_hidden_objects_are_left_out(program: Path) -> None:
    scene = Scene(4, 1)
    context = scene.immediate
    draw_triangles(context, rectangle(0, 0, 2, 1, depth=0.2, colour=BLUE))
    for query, left in enumerate((0, 2)):
        skip_where_hidden(context, query, rectangle(left, 0, left + 2, 1, depth=0.4))
        # what is drawn lies nearer than its stand-in, so that only the predicate can leave it out
        draw_triangles(context, rectangle(left, 0, left + 2, 1, depth=0.1, colour=RED))
        context.set_predication(None)
    counts = [context.get_data(0), context.get_data(1)]
    result = run(scene, program=program)
    assert [result.answers[it].count for it in counts] == [0, 2]  # type: ignore[union-attr]
    assert [tuple(it) for it in result.image[0].tolist()] == [BLUE, BLUE, RED, RED]


def test_default_states() -> None:
    scene = Scene(1, 1)
    default_states(scene.immediate)
    assert [str(line) for line in scene.lines] == [
        "i raster 3 0 0",
        "i blend 0 4 15",
        "i ds 1 1 2 0 255 255 1 1 1 8 1 1 1 8 0",
    ]


@pytest.mark.parametrize(
    "recipe",
    [
        count_overlaps,
        lambda context: draw_where_stencil(context, 3),
        lambda context: draw_where_stencil(context, 3, depth=True),
        lambda context: mark_stencil(context, 3),
        lambda context: mark_stencil(context, 3, depth=False),
        draw_without_depth,
        lay_decals,
        draw_by_xor,
        count_seen,
        mark_shadow_volumes,
        light_outside_shadows,
        default_states,
    ],
)
def test_the_page_of_scripts_has_the_recipes(recipe: Callable[[Context], None]) -> None:
    page = (
        (TOP / "docs" / "SCRIPT.md")
        .read_text(encoding="utf-8")
        .split("## Recipes")[1]
        .split("\n## ")[0]
    )
    scene = Scene(1, 1)
    recipe(scene.immediate)
    for line in map(str, scene.lines):
        assert f"`{line}`" in page or f"`{line[2:]}`" in page
