"""Scenes: calls by Direct3D's names write the one spelling, and limits are told by the argument's name."""

from __future__ import annotations

from pathlib import Path
from typing import Any, Callable

import pytest

from yuzuratchet import (
    ArgumentError,
    BlendState,
    CallRefused,
    ColorWriteEnable,
    CommandList,
    CullMode,
    DepthStencilState,
    Line,
    LogicOp,
    PrimitiveTopology,
    RasterizerState,
    Scene,
    StencilFace,
    StencilOp,
    load_script,
)
from yuzuratchet.limits import BUFFER_LENGTH, DEEPEST, FARTHEST_PIXEL, LIST_COMMANDS, TARGET_SIDE

TRIANGLE = [(0, 0, 0, (10, 20, 30, 40)), (4, 0, 0, (10, 20, 30, 40)), (0, 4, 0, (10, 20, 30, 40))]
LIST = PrimitiveTopology.TRIANGLELIST
Call = Callable[[], object]


def lines_of(scene: Scene) -> list[str]:
    return scene.script().splitlines()


def test_two_triangles() -> None:
    scene = Scene(4, 4)
    context = scene.immediate
    context.ia_set_vertices(TRIANGLE)
    context.ia_set_topology(LIST)
    with context.counted(0):
        context.draw(3)
    assert context.get_data(0) == 0
    assert context.pixel(3, 3) == 1
    assert scene.script() == (
        "target 4 4\n"
        "i vb 0 0 0 10 20 30 40 262144 0 0 10 20 30 40 0 262144 0 10 20 30 40\n"
        "i topology 4\n"
        "i begin 0\n"
        "i draw 3 0\n"
        "i end 0\n"
        "i query 0\n"
        "i pixel 3 3\n"
    )


def test_each_call_has_its_line() -> None:
    scene = Scene(8, 8)
    context = scene.deferred[3]
    context.ia_set_vertices(TRIANGLE[:1])
    context.ia_set_indices([0, 0, 0])
    context.ia_set_topology(PrimitiveTopology.TRIANGLESTRIP)
    context.rs_set_state(RasterizerState(CullMode.NONE, True, False))
    context.rs_set_scissor(1, 2, 3, 4)
    face = StencilFace(stencil_pass_op=StencilOp.INCR)
    context.om_set_depth_stencil(DepthStencilState(stencil_enable=True, front_face=face), 7)
    context.om_set_blend(BlendState(True, LogicOp.XOR, ColorWriteEnable(5)))
    context.set_predication((9, True))
    context.set_predication(None)
    context.draw_indexed(3, base=0)
    context.clear_color("#01020304")
    context.clear_depth_stencil(0.5, 9)
    context.begin(63)
    context.end(63)
    first = context.finish_command_list(restore=True)
    second = context.finish_command_list()
    scene.immediate.execute(second)
    scene.immediate.execute(first, restore=True)
    scene.immediate.flush()
    scene.immediate.pixels(0, 0, 2, 1)
    assert lines_of(scene)[1:] == [
        "d3 vb 0 0 0 10 20 30 40",
        "d3 ib 0 0 0",
        "d3 topology 5",
        "d3 raster 1 1 0",
        "d3 scissor 1 2 3 4",
        "d3 ds 1 1 2 1 255 255 1 1 7 8 1 1 1 8 7",
        "d3 blend 1 10 5",
        "d3 predicate 9 1",
        "d3 predicate",
        "d3 drawi 3 0 0",
        "d3 clearc 1 2 3 4",
        "d3 cleards 8388608 9",
        "d3 begin 63",
        "d3 end 63",
        "d3 finish 1",
        "d3 finish 0",
        "i exec d3 1 0",
        "i exec d3 0 1",
        "i flush",
        "i pixel 0 0",
        "i pixel 1 0",
    ]


def test_empty_buffers_have_no_space_behind_the_word() -> None:
    scene = Scene(1, 1)
    scene.immediate.ia_set_vertices([])
    scene.immediate.ia_set_indices([])
    assert lines_of(scene)[1:] == ["i vb", "i ib"]


def test_default_states_are_spelled_as_the_defaults() -> None:
    scene = Scene(1, 1)
    scene.immediate.rs_set_state(RasterizerState())
    scene.immediate.om_set_depth_stencil(DepthStencilState())
    scene.immediate.om_set_blend(BlendState())
    defaults = ["i raster 3 0 0", "i ds 1 1 2 0 255 255 1 1 1 8 1 1 1 8 0", "i blend 0 4 15"]
    assert lines_of(scene)[1:] == defaults


def drawable() -> Scene:
    scene = Scene(4, 4)
    scene.immediate.ia_set_vertices(TRIANGLE)
    scene.immediate.ia_set_indices([0, 1, 2])
    scene.immediate.ia_set_topology(LIST)
    return scene


def vertices(count: int) -> list[tuple[int, int, int, str]]:
    return [(0, 0, 0, "#000000")] * count


REFUSED: list[tuple[Callable[[Scene], object], int, str]] = [
    (
        lambda it: it.immediate.ia_set_vertices([(FARTHEST_PIXEL + 1, 0, 0, "#000000")]),
        3,
        "vertices",
    ),
    (
        lambda it: it.immediate.ia_set_vertices([(0, -FARTHEST_PIXEL - 0.5, 0, "#000000")]),
        3,
        "vertices",
    ),
    (lambda it: it.immediate.ia_set_vertices([(0, 0, DEEPEST + 1, "#000000")]), 3, "vertices"),
    (lambda it: it.immediate.ia_set_vertices(vertices(BUFFER_LENGTH + 1)), 4, "vertices"),
    (lambda it: it.immediate.ia_set_indices([0] * (BUFFER_LENGTH + 1)), 4, "indices"),
    (lambda it: it.immediate.clear_depth_stencil(DEEPEST + 1), 3, "depth"),
    (lambda it: it.immediate.rs_set_scissor(2, 0, 1, 4), 8, "left"),
    (lambda it: it.immediate.rs_set_scissor(0, 3, 1, 2), 8, "top"),
    (lambda it: it.immediate.rs_set_scissor(0, 0, TARGET_SIDE + 1, 2), 8, "right"),
    (lambda it: it.immediate.rs_set_scissor(0, 0, 1, TARGET_SIDE + 1), 8, "bottom"),
    (lambda it: it.immediate.draw(4), 5, "count"),
    (lambda it: it.immediate.draw(0, 4), 5, "count"),
    (lambda it: it.immediate.draw_indexed(3, 1), 5, "count"),
    (lambda it: it.immediate.draw_indexed(3, base=1), 6, "base"),
    (lambda it: it.immediate.draw_indexed(3, base=-1), 6, "base"),
    (lambda it: it.deferred[0].draw(0), 7, "draw"),
    (lambda it: it.immediate.begin(64), 11, "query"),
    (lambda it: it.immediate.end(64), 11, "query"),
    (lambda it: it.immediate.end(0), 10, "query"),
    (lambda it: it.immediate.get_data(0), 17, "query"),
    (lambda it: it.immediate.set_predication((64, True)), 11, "query"),
    (lambda it: it.immediate.pixel(4, 0), 15, "x"),
    (lambda it: it.immediate.pixel(0, 4), 15, "y"),
]


@pytest.mark.parametrize(("call", "number", "argument"), REFUSED)
def test_limits_are_told_by_the_argument(
    call: Callable[[Scene], object], number: int, argument: str
) -> None:
    scene = drawable()
    before = scene.script()
    with pytest.raises(CallRefused) as raised:
        call(scene)
    assert (raised.value.number, raised.value.argument) == (number, argument)
    assert str(raised.value).startswith(f"{argument}: ") and f"(refusal {number})" in str(
        raised.value
    )
    assert scene.script() == before


@pytest.mark.parametrize(
    ("width", "height", "argument"), [(0, 1, "width"), (1, TARGET_SIDE + 1, "height")]
)
def test_sizes(width: int, height: int, argument: str) -> None:
    with pytest.raises(CallRefused) as raised:
        Scene(width, height)
    assert (raised.value.number, raised.value.argument) == (2, argument)
    assert Scene(width, height, strict=False).script() == f"target {width} {height}\n"


def test_limits_themselves_are_taken() -> None:
    scene = Scene(TARGET_SIDE, TARGET_SIDE)
    context = scene.immediate
    far = FARTHEST_PIXEL
    context.ia_set_vertices([(-far, far, DEEPEST, "#000000"), (far, -far, 0, "#000000")])
    context.rs_set_scissor(0, 0, TARGET_SIDE, TARGET_SIDE)
    context.clear_depth_stencil(DEEPEST, 255)
    context.ia_set_topology(LIST)
    context.draw(0, 2)
    context.pixel(TARGET_SIDE - 1, TARGET_SIDE - 1)


def test_open_queries() -> None:
    scene = drawable()
    context = scene.immediate
    context.begin(5)
    with pytest.raises(CallRefused, match="5 is open since line 5") as raised:
        context.begin(5)
    assert raised.value.number == 9
    calls: list[Call] = [context.flush, lambda: context.pixel(0, 0), lambda: context.get_data(5)]
    for call in calls:
        with pytest.raises(CallRefused) as raised:
            call()
        assert raised.value.number == 9
    context.end(5)
    context.get_data(5)


def test_finish_with_an_open_query() -> None:
    context = Scene(4, 4).deferred[2]
    context.begin(5)
    with pytest.raises(CallRefused) as raised:
        context.finish_command_list()
    assert raised.value.number == 12


def test_a_list_can_not_begin_a_query_and_depend_on_it() -> None:
    context = drawable().immediate
    with context.counted(1):
        context.draw(3)
    with pytest.raises(CallRefused) as raised:
        context.set_predication((1, False))
    assert raised.value.number == 20
    context.flush()
    context.set_predication((1, False))
    with pytest.raises(CallRefused) as raised:
        context.begin(1)
    assert raised.value.number == 20
    context.flush()  # the predicate is kept, so this doesn't help
    with pytest.raises(CallRefused):
        context.begin(1)
    context.set_predication(None)
    context.flush()
    context.begin(1)


def test_lists_inherit_nothing_and_finish_keeps_what_it_is_told() -> None:
    scene = drawable()
    context = scene.deferred[0]
    with pytest.raises(CallRefused):
        context.draw(3)
    context.ia_set_vertices(TRIANGLE)
    context.ia_set_topology(LIST)
    context.draw(3)
    context.finish_command_list(restore=True)
    context.draw(3)
    last = context.finish_command_list(restore=False)
    with pytest.raises(CallRefused) as raised:
        context.draw(0)
    assert raised.value.number == 7
    scene.immediate.execute(last, restore=True)
    scene.immediate.draw(3)
    scene.immediate.execute(last)
    with pytest.raises(CallRefused) as raised:
        scene.immediate.draw(3)
    assert raised.value.number == 7


def test_full_lists() -> None:
    scene = Scene(1, 1)
    context = scene.immediate
    for _ in range(LIST_COMMANDS):
        context.clear_color((1, 2, 3, 4))
    with pytest.raises(CallRefused) as raised:
        context.clear_color((1, 2, 3, 4))
    assert raised.value.number == 13
    context.flush()  # the kept state is one command
    for _ in range(LIST_COMMANDS - 1):
        context.clear_color((1, 2, 3, 4))
    with pytest.raises(CallRefused):
        context.clear_color((1, 2, 3, 4))


def test_sixty_four_issues_of_a_list() -> None:
    context = Scene(1, 1).immediate
    for _ in range(64):
        with context.counted(0):
            pass
    with pytest.raises(CallRefused) as raised:
        context.begin(0)
    assert raised.value.number == 14


def test_triangles_of_a_list() -> None:
    context = Scene(1, 1).immediate
    context.ia_set_topology(PrimitiveTopology.TRIANGLESTRIP)
    context.ia_set_vertices(vertices(BUFFER_LENGTH))
    context.draw(BUFFER_LENGTH)  # 65,534 triangles
    context.draw(4)
    context.draw(2)  # no triangle
    with pytest.raises(CallRefused) as raised:
        context.draw(3)
    assert raised.value.number == 13


def test_cut_strips_count_their_triangles() -> None:
    context = Scene(4, 4).immediate
    context.ia_set_vertices([*TRIANGLE, TRIANGLE[0]])
    context.ia_set_indices([0, 1, 2, 65_535, 1, 3, 2])
    context.ia_set_topology(LIST)
    with pytest.raises(CallRefused, match="index 65535 at place 3") as raised:
        context.draw_indexed(7)
    assert raised.value.number == 6
    context.ia_set_topology(PrimitiveTopology.TRIANGLESTRIP)
    context.draw_indexed(7)


def test_a_scene_that_is_not_strict_takes_what_is_refused() -> None:
    scene = Scene(4, 4, strict=False)
    scene.immediate.draw(3)
    scene.immediate.end(64)
    assert lines_of(scene)[1:] == ["i draw 3 0", "i end 64"]


@pytest.mark.parametrize("strict", [True, False])
def test_a_list_that_is_not_finished(strict: bool) -> None:
    scene = Scene(4, 4, strict=strict)
    with pytest.raises(ArgumentError, match="^list: d2 has finished 0"):
        scene.immediate.execute(CommandList(2, 0))


@pytest.mark.parametrize(
    ("call", "argument"),
    [
        (lambda it: it.draw(-1), "count"),
        (lambda it: it.draw(1.5), "draw"),
        (lambda it: it.ia_set_vertices([7]), "vertices"),
        (lambda it: it.draw_indexed(3, base=2**31), "base"),
        (lambda it: it.ia_set_topology(3), "topology"),
        (lambda it: it.ia_set_vertices([(1, 2, 3)]), "vertices"),
        (lambda it: it.ia_set_vertices([("1", 2, 0, "#000000")]), "x"),
        (lambda it: it.ia_set_vertices([(1, 2, 1.5, "#000000")]), "depth"),
        (lambda it: it.ia_set_vertices([(1, 2, 0, "blue")]), "colour"),
        (lambda it: it.ia_set_indices([70_000]), "index"),
        (lambda it: it.om_set_depth_stencil(DepthStencilState(), 256), "stencil_ref"),
        (lambda it: it.clear_depth_stencil(0, 256), "stencil"),
    ],
)
def test_what_no_script_can_spell(call, argument: str) -> None:  # type: ignore[no-untyped-def]
    scene = drawable()
    with pytest.raises(ArgumentError) as raised:
        call(scene.immediate)
    assert raised.value.argument == argument
    assert len(scene.lines) == 3


def test_the_vertex_is_told() -> None:
    with pytest.raises(ArgumentError, match=r"^y: nan is no finite number \(vertex 1\)$"):
        drawable().immediate.ia_set_vertices(
            [(0, 0, 0, "#000000"), (0, float("nan"), 0, "#000000")]
        )


def test_a_query_is_not_ended_behind_an_error() -> None:
    scene = drawable()
    with pytest.raises(CallRefused), scene.immediate.counted(0):
        scene.immediate.draw(99)
    assert str(scene.lines[-1]) == "i begin 0"


def test_scenes_of_lines() -> None:
    scene = drawable()
    lines = list(scene.lines)
    lines[0] = Line("i", "vb", lines[0].arguments * 2)
    changed = Scene.from_lines(5, 6, lines)
    changed.immediate.draw(6)
    assert lines_of(changed)[0] == "target 5 6"
    with pytest.raises(CallRefused):
        Scene.from_lines(5, 6, [*changed.lines, Line("i", "draw", (7, 0))])


def test_lines() -> None:
    line = Line("i", "scissor", (1, 2, 3, 4))
    assert line.named() == {"left": 1, "top": 2, "right": 3, "bottom": 4}
    rows = Line("d0", "vb", (*range(1, 8), *range(11, 18))).rows
    assert list(rows) == [(1, 2, 3, 4, 5, 6, 7), (11, 12, 13, 14, 15, 16, 17)] and len(rows) == 2
    assert rows[-1] == rows[1] and rows[1:] == [rows[1]]
    assert str(Line("i", "exec", (7, 12, 1))) == "i exec d7 12 1"
    for actor, word in (("d8", "draw"), ("i", "finish"), ("d0", "pixel"), ("i", "Draw")):
        with pytest.raises(ArgumentError):
            Line(actor, word, (0, 0))


def test_saved_scripts_end_lines_with_a_line_feed_alone(tmp_path) -> None:  # type: ignore[no-untyped-def]
    scene = drawable()
    scene.save(tmp_path / "scene.txt")
    assert (tmp_path / "scene.txt").read_bytes() == scene.script().encode("ascii")


@pytest.mark.parametrize("sides", [(16.0, 16), (16, "16"), (True, 16), (16, None)])
def test_sides_are_whole_numbers(sides: tuple[object, object]) -> None:
    for strict in (True, False):
        with pytest.raises(TypeError, match="^(width|height): takes whole numbers"):
            Scene(*sides, strict=strict)  # type: ignore[arg-type]


def test_flags_are_no_numbers() -> None:
    context = drawable().immediate
    calls: list[Call] = [lambda: context.draw(True), lambda: context.pixel(0, False)]
    for call in calls:
        with pytest.raises(TypeError, match="takes whole numbers, and not (True|False)"):
            call()
    context.set_predication((3, 1))  # type: ignore[arg-type]
    assert str(context.scene.lines[-1]) == "i predicate 3 1"


def test_a_list_of_another_scene() -> None:
    one, other = drawable(), drawable()
    lists = [scene.deferred[0].finish_command_list() for scene in (one, other)]
    with pytest.raises(ArgumentError, match="^command_list: it is a list of another scene"):
        one.immediate.execute(lists[1])
    one.immediate.execute(lists[0])
    assert lists[0] == CommandList(0, 0)
    for other_kind in (None, 0, "d0"):
        with pytest.raises(TypeError, match="^command_list: a CommandList is wanted"):
            one.immediate.execute(other_kind)  # type: ignore[arg-type]


def test_they_say_what_they_are() -> None:
    scene = drawable()
    scene.immediate.pixel(0, 0)
    assert repr(scene) == "<Scene: 4 by 4 pixels, 4 lines, 1 question>"
    assert repr(scene.immediate) == f"<ImmediateContext i of {scene!r}: 4 lines>"
    context = scene.deferred[3]
    context.clear_color("#000000")
    assert repr(context).startswith("<DeferredContext d3 of <Scene: ") and repr(context).endswith(
        ": 1 line>"
    )
    found = context.finish_command_list()
    assert repr(found) == "<CommandList 0 of d3: 2 lines>" and repr(context).endswith(": 0 lines>")


def test_labels() -> None:
    scene = Scene(4, 4)
    scene.immediate.flush()
    scene.label("floor")
    scene.immediate.flush()
    with scene.label("cube"):
        scene.immediate.flush()
        scene.immediate.flush()
    scene.immediate.flush()
    scene.label(None)
    scene.immediate.flush()
    names = [scene.labels.of(line) for line in range(1, 8)]
    assert names == [None, None, "floor", "cube", "cube", "floor", None]
    assert "floor" not in scene.script()
    for name, kind in (
        (7, TypeError),
        ("", ValueError),
        ("a\nb", ValueError),
        ("x" * 81, ValueError),
    ):
        with pytest.raises(kind, match="^name: "):
            scene.label(name)  # type: ignore[arg-type]


def test_labels_lie_beside_the_script(tmp_path: Path) -> None:
    scene = drawable()
    path = tmp_path / "scene.txt"
    scene.save(path)
    assert [it.name for it in tmp_path.iterdir()] == ["scene.txt"]
    scene.label("the triangle")
    scene.immediate.draw(3)
    scene.save(path)
    read = load_script(path)
    assert list(read.labels) == [(5, "the triangle")] and read.script() == scene.script()
    path.write_text(scene.script() + "i flush\n")  # (of another script they say nothing)
    assert not load_script(path).labels
    for text in ("", "{", "[]", '{"script": 1}'):
        (tmp_path / "scene.labels.json").write_text(text)
        assert not load_script(path).labels


def test_many_vertices_are_set_fast() -> None:
    """21,000 triangles of tuples: a tenth of a second on a quiet machine."""
    import time

    given = [(n % 64 + 0.5, n % 48, n % 100 / 100, "#ff8000") for n in range(63_000)]
    times = []
    for _ in range(5):
        scene, begun = Scene(64, 48), time.process_time()
        scene.immediate.ia_set_vertices(given)
        times.append(time.process_time() - begun)
    assert min(times) < 0.3, times


def test_states_of_another_kind() -> None:
    context = drawable().immediate
    calls: list[Callable[[Any], None]] = [context.rs_set_state, context.om_set_depth_stencil]
    calls.append(context.om_set_blend)
    for call in calls:
        for state in (None, 3, CullMode.NONE, StencilFace()):
            with pytest.raises(TypeError, match="^state: a [A-Za-z]+State is wanted, and not "):
                call(state)


def test_no_predicates() -> None:
    for predicate in (3, (1, True, 2), "ab", [0, True]):
        with pytest.raises(TypeError, match=r"^predicate: \(query, value\) is wanted, and not "):
            drawable().immediate.set_predication(predicate)  # type: ignore[arg-type]


def test_the_text_of_a_line_is_made_once(monkeypatch: pytest.MonkeyPatch) -> None:
    """However often the script is asked for, the work grows with its lines alone."""
    made: list[str] = []
    text = Line._text.func  # type: ignore[attr-defined]

    def counted(line: Line) -> str:
        made.append(line.word)
        return str(text(line))

    monkeypatch.setattr(Line._text, "func", counted)
    scene = drawable()
    for _ in range(50):
        scene.immediate.draw(3)
        scene.script()
    assert len(made) == len(scene.lines) == 53


def test_a_scene_up_to_a_line() -> None:
    """Queries that are open there are ended, and names of its lines stay."""
    scene = Scene(2, 2)
    with scene.label("ground"), scene.immediate.counted(3):
        scene.immediate.clear_color("#010203")
    scene.label("more")
    scene.immediate.clear_depth_stencil()
    assert scene.up_to(3).script() == "target 2 2\ni begin 3\ni clearc 1 2 3 255\ni end 3\n"
    assert scene.up_to(5).script() == scene.script() and not scene.up_to(1).lines
    assert [*scene.up_to(3).labels] == [(2, "ground")]
    for line in (0, 6):
        with pytest.raises(ArgumentError, match="is not in 1 to 5"):
            scene.up_to(line)
