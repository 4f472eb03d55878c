"""`explain`: what touched a pixel, step by step; on random scenes as the plain evaluation draws them."""

from __future__ import annotations

import json
import random
import re
import time
from dataclasses import replace
from pathlib import Path
from typing import Any

import compare_explained
import pytest
import random_scenes
from conftest import DATA, STAND_IN

import yuzuratchet.explain
from yuzuratchet import ArgumentError, Scene, ScriptRefused, load_script, read_script
from yuzuratchet.cli import main
from yuzuratchet.errors import YuzuratchetError
from yuzuratchet.explain import Explainer, explain
from yuzuratchet.explanation import (
    Content,
    Outcome,
    Step,
    as_json,
    changing,
    heading,
    table,
    written_text,
)
from yuzuratchet.history import history
from yuzuratchet.labels import Labels
from yuzuratchet.shapes import draw_triangles, rectangle
from yuzuratchet.states import (
    BlendState,
    ColorWriteEnable,
    ComparisonFunc,
    CullMode,
    DepthStencilState,
    LogicOp,
    PrimitiveTopology,
    RasterizerState,
    StencilFace,
)


How = dict[str, Any]
"""What draws."""


@pytest.fixture(params=["by the library's history", "by the program"])
def how(request: pytest.FixtureRequest) -> How:
    if "program" in request.param:
        return {"program": request.getfixturevalue("program")}
    request.getfixturevalue("history_library")
    return {}


@pytest.fixture
def fast(how: How) -> How:
    """The same, without what stands in for the program."""
    if how.get("program") == STAND_IN:
        pytest.skip("the program isn't built")
    return how


def outcomes(scene: Scene, x: int, y: int, how: How) -> list[Outcome]:
    return [step.outcome for step in explain(scene, x, y, **how).steps]


def triangle_of(step: Step) -> int | None:
    return step.covering.triangle if step.covering else None


def test_random_scenes(how: How) -> None:
    """A sample; tools/compare_explained.py looks at as many pixels as one likes."""
    chance, pixels, number = random.Random(3), 0, 0
    wanted = 10 if how.get("program") == STAND_IN else 100
    while pixels < wanted:
        scene = random_scenes.random_scene(chance, number, asked=0)
        found = compare_explained.compare_scene(chance, scene, how.get("program"))
        number += 1
        pixels += found[0] if found else 0


def test_a_list_that_is_executed_round_a_change(how: How) -> None:
    """Executed three times, and left out once; by the worked row of that name."""
    scene = load_script(DATA / "rows" / "list-executed-round-a-change.txt")
    found = explain(scene, 0, 0, **how)
    assert [(it.item.number, it.executed_by, it.outcome) for it in found.steps] == [
        (3, 5, Outcome.CLEARED),
        (10, None, Outcome.DRAWN),
        (12, None, Outcome.CLEARED),
        (3, 13, Outcome.LEFT_OUT),
        (15, None, Outcome.CLEARED),
        (17, None, Outcome.DEPTH_FAILED),
        (3, 19, Outcome.CLEARED),
    ]
    assert found.opening == Content((0, 0, 0, 0), 16_777_215, 0)
    assert found.content == Content((7, 7, 7, 7), 0, 0)


def test_what_refuses(how: How) -> None:
    scene = Scene(4, 4)
    context = scene.immediate
    draw_triangles(context, reversed(rectangle(0, 0, 4, 4)))
    context.rs_set_state(RasterizerState(scissor_enable=True))
    context.rs_set_scissor(1, 0, 4, 4)
    draw_triangles(context, rectangle(0, 0, 4, 4, depth=0.5))
    assert outcomes(scene, 0, 3, how) == [Outcome.CULLED, Outcome.OUTSIDE_SCISSOR]
    assert outcomes(scene, 1, 3, how) == [Outcome.CULLED, Outcome.DRAWN]
    context.rs_set_state(RasterizerState(cull_mode=CullMode.NONE))
    draw_triangles(context, rectangle(0, 0, 4, 4, depth=0.6))
    assert outcomes(scene, 1, 3, how)[-1] is Outcome.DEPTH_FAILED
    assert outcomes(scene, 0, 3, how)[-1] is Outcome.DRAWN


def test_strips_and_cuts(how: How) -> None:
    text = (DATA / "rows" / "cut-strip.txt").read_bytes()
    found = explain(read_script(text), 3, 0, **how)
    assert [(triangle_of(it), it.outcome) for it in found.steps] == [(1, Outcome.DRAWN)]


def marked_scene() -> Scene:
    """A clear, a triangle that the stencil test refuses, and a list that turns bits of two channels."""
    scene = read_script("target 1 1\ni clearc 1 2 3 4\ni ds 0 1 2 1 15 255 1 1 1 3 1 1 1 3 1\n")
    draw_triangles(scene.immediate, rectangle(0, 0, 1, 1, depth=0.5, colour=(9, 8, 7, 6)))
    context = scene.deferred[0]
    scene.label("the list")
    context.om_set_blend(
        BlendState(True, LogicOp.XOR, ColorWriteEnable.RED | ColorWriteEnable.BLUE)
    )
    draw_triangles(context, rectangle(0, 0, 1, 1, depth=1, colour=(255, 255, 255, 255)))
    scene.immediate.execute(context.finish_command_list())
    return scene


def test_the_table(how: How) -> None:
    scene = marked_scene()
    found = explain(scene, 0, 0, **how)
    assert heading(found) == "pixel (0, 0) holds colour 254 2 252 4, depth 1 (0.0000), stencil 0"
    lines = table(found, scene.labels).splitlines()
    assert [re.split(" {2,}", line.strip()) for line in lines] == [
        ["line", "what", "outcome", "what changed"],
        ["a new target", "colour 0 0 0 0"],
        ["depth 16777215 (1)"],
        ["stencil 0"],
        ["2", "clearc", "cleared", "colour 0 0 0 0 -> 1 2 3 4"],
        ["6", "draw, triangle 1 of 2:", "the stencil test fails: 1 EQUAL 0 in bits 15"],
        ["9 8 7 6 at 8388608 (0.5000)"],
        [
            "10 by 12",
            "the list: draw, triangle 1 of 2:",
            "drawn by XOR into RED and BLUE alone",
            "colour 1 2 3 4 -> 254 2 252 4",
        ],
        ["255 255 255 255 at 1 (0.0000)", "depth 16777215 -> 1 (0.0000)"],
    ]


def test_only_what_changed_it(how: How) -> None:
    found = changing(explain(marked_scene(), 0, 0, **how))
    assert [it.item.number for it in found.steps] == [2, 10]


def test_json(how: How) -> None:
    scene = marked_scene()
    told = as_json(explain(scene, 0, 0, **how), scene.labels)
    assert json.loads(json.dumps(told)) == json.loads(json.dumps(told))
    assert told["opening"] == {"colour": (0, 0, 0, 0), "depth": 16_777_215, "stencil": 0}
    clear, refused, drawn = told["steps"]
    assert (clear["line"], clear["word"], clear["outcome"]) == (2, "clearc", "cleared")
    assert "triangle" not in clear and "label" not in clear and "executed_by" not in clear
    assert refused["outcome"] == "stencil-failed" and refused["before"] == refused["after"]
    assert refused["triangle"] == {"number": 1, "of": 2, "colour": (9, 8, 7, 6), "depth": 8_388_608}
    assert (drawn["line"], drawn["executed_by"], drawn["label"]) == (10, 12, "the list")
    assert drawn["text"] == "drawn by XOR into RED and BLUE alone"
    assert drawn["after"] == told["content"]


@pytest.mark.parametrize(
    ("blend", "text"),
    [
        (BlendState(), ""),
        (BlendState(True, LogicOp.NOR), " by NOR"),
        (BlendState(False, LogicOp.NOR, ColorWriteEnable.NONE), ", writing no colour"),
        (BlendState(write_mask=ColorWriteEnable.ALPHA), " into ALPHA alone"),
    ],
)
def test_what_is_written_is_named(blend: BlendState, text: str) -> None:
    assert written_text(blend) == text


def test_a_table_has_120_columns(how: How) -> None:
    """Whatever numbers stand in it: a line of six digits, executed by one of six, and a long label."""
    found = explain(marked_scene(), 0, 0, **how)
    step = found.steps[-1]
    wide = replace(
        step,
        item=replace(step.item, number=123_456),
        executed_by=654_321,
        before=Content((200, 200, 200, 200), 16_777_214, 255),
        after=Content((255, 255, 255, 255), 16_777_213, 254),
    )
    labels = Labels([(123_000, "a name of a good many letters, as long as one may be, or so")])
    lines = table(replace(found, steps=(*found.steps, wide)), labels).splitlines()
    assert max(map(len, lines)) <= 120 and any(it.endswith("stencil 255 -> 254") for it in lines)


def test_what_is_asked_is_told(how: How) -> None:
    told: list[str] = []
    explain(marked_scene(), 0, 0, **how, told=told.append)
    wanted = "draws 3 steps" if how else "asks for the history of 3 steps"
    assert told == [wanted]


def test_up_to_a_line(how: How) -> None:
    text = "target 2 2\ni clearc 1 2 3 4\ni begin 0\ni cleards 5 6\ni end 0\ni clearc 7 7 7 7\n"
    scene = read_script(text)
    found = {at: explain(scene, 1, 0, at=at, **how) for at in (1, 2, 4, 6)}
    assert {at: [step.item.number for step in it.steps] for at, it in found.items()} == {
        1: [],
        2: [2],
        4: [2, 4],
        6: [2, 4, 6],
    }
    assert found[4].content == Content((1, 2, 3, 4), 5, 6)
    with pytest.raises(ArgumentError):
        explain(scene, 0, 0, at=7, **how)


def test_an_older_library_draws_step_by_step(
    history_library: Path, monkeypatch: pytest.MonkeyPatch
) -> None:
    wanted = explain(marked_scene(), 0, 0)
    monkeypatch.setattr(yuzuratchet.explain, "tells_histories", lambda **_: False)
    told: list[str] = []
    found = explain(marked_scene(), 0, 0, told=told.append)
    assert as_json(found) == as_json(wanted) and told == ["draws 3 steps"]


@pytest.mark.parametrize("left", [0, 2])
def test_a_history_that_has_other_steps_is_told(
    left: int, history_library: Path, monkeypatch: pytest.MonkeyPatch
) -> None:
    monkeypatch.setattr(
        yuzuratchet.explain, "history", lambda *given, **how: history(*given, **how)[:left]
    )
    with pytest.raises(YuzuratchetError, match="has other steps"):
        explain(marked_scene(), 0, 0)


def test_many_pixels_of_a_scene(how: How) -> None:
    explainer = Explainer(marked_scene(), **how)
    assert explainer.explain(0, 0) == explainer.explain(0, 0)
    with pytest.raises(ArgumentError):
        explainer.explain(1, 0)


def test_the_command_tells_it_for_machines_too(
    program: Path, tmp_path: Path, capsys: pytest.CaptureFixture[str]
) -> None:
    path = tmp_path / "scene.txt"
    marked_scene().save(path)
    words = ["explain", str(path), "0", "0", "--changes", "--program", str(program)]
    assert main([*words, "--json"]) == 0
    told = json.loads(capsys.readouterr().out)
    assert [it["line"] for it in told["steps"]] == [2, 10] and told["steps"][1][
        "label"
    ] == "the list"
    assert main(words) == 0
    out = capsys.readouterr().out
    assert "the list: draw, triangle 1 of 2:" in out and "stencil test" not in out


def test_scissors_that_hold_the_pixel_and_that_do_not(how: How) -> None:
    """Rectangles of three by two pixels, at each place."""
    scene = Scene(8, 8)
    context = scene.immediate
    rectangles = [(left, top, left + 3, top + 2) for left in range(5) for top in range(6)]
    context.rs_set_state(RasterizerState(scissor_enable=True))
    for rectangle_of in rectangles:
        context.rs_set_scissor(*rectangle_of)
        draw_triangles(context, rectangle(0, 0, 8, 8))
    found = explain(scene, 4, 3, **how)
    held = [it.outcome is not Outcome.OUTSIDE_SCISSOR for it in found.steps]
    inside = [left <= 4 < right and top <= 3 < bottom for left, top, right, bottom in rectangles]
    assert held == inside and any(held)


def test_stencils_at_both_ends(how: How) -> None:
    """What a test did is told by 1 more or 1 less, which goes round behind 0 and 255."""
    for stencil in (0, 1, 127, 128, 254, 255):
        scene = Scene(1, 1)
        context = scene.immediate
        context.clear_depth_stencil(100, stencil)
        face = StencilFace(stencil_func=ComparisonFunc.EQUAL)
        for reference, depth in ((stencil ^ 1, 50), (stencil, 150), (stencil, 50)):
            state = DepthStencilState(stencil_enable=True, front_face=face, back_face=face)
            context.om_set_depth_stencil(state, reference)
            draw_triangles(context, rectangle(0, 0, 1, 1, depth=depth))
        wanted = [Outcome.STENCIL_FAILED, Outcome.DEPTH_FAILED, Outcome.DRAWN]
        assert outcomes(scene, 0, 0, how)[1:] == wanted


def test_a_long_list_takes_seconds_at_most(fast: How) -> None:
    """65,536 triangles on the pixel, each of which changes it or is refused."""
    scene = Scene(4, 4)
    corners = [corner for n in range(65_535 // 3) for corner in rectangle(0, 0, 4, 4, depth=n)[:3]]
    for context in scene.deferred[:3]:
        draw_triangles(context, corners)
        scene.immediate.execute(context.finish_command_list())
    begun = time.process_time()
    found = explain(scene, 0, 0, **fast)
    assert len(found.steps) == 65_535 and time.process_time() - begun < 30


def test_a_pixel_that_nothing_touched(how: How) -> None:
    found = explain(Scene(2, 2), 1, 1, **how)
    assert found.steps == () and found.content == found.opening


@pytest.mark.parametrize(("x", "y", "argument"), [(2, 0, "x"), (0, 2, "y"), (-1, 0, "x")])
def test_pixels_outside(x: int, y: int, argument: str, how: How) -> None:
    with pytest.raises(ArgumentError) as raised:
        explain(Scene(2, 2), x, y, **how)
    assert raised.value.argument == argument


def test_a_refused_scene(how: How) -> None:
    with pytest.raises(ScriptRefused) as raised:
        explain(read_script("target 2 2\ni draw 3 0\n"), 0, 0, **how)
    assert (raised.value.line, raised.value.number) == (2, 7)


def test_more_triangles_than_a_buffer_takes(fast: How) -> None:
    """Two draws of a strip of 65,000 triangles, of which two cover the pixel."""
    scene = Scene(8, 8)
    for context in scene.deferred[:2]:
        far = [(100, 100, 0, "#000000")] * 30_000
        context.ia_set_vertices([*far, *rectangle(0, 0, 8, 8, colour="#ff0000"), *far])
        context.ia_set_topology(PrimitiveTopology.TRIANGLELIST)
        context.rs_set_state(RasterizerState(cull_mode=CullMode.NONE))
        context.draw(60_006)
        scene.immediate.execute(context.finish_command_list())
    found = explain(scene, 1, 6, **fast)
    assert [(triangle_of(it), it.executed_by, it.outcome) for it in found.steps] == [
        (10_001, 7, Outcome.DRAWN),
        (10_001, 13, Outcome.DEPTH_FAILED),
    ]
