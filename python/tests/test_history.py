"""The history of a pixel, worked by hand: as the library tells it, and as tools/plain_device.py does.

Both are held against each other on random scenes; tools/compare_histories.py looks at as many pixels as one likes.
"""

from __future__ import annotations

import random
from pathlib import Path
from types import SimpleNamespace
from typing import Callable

import compare_histories
import plain_device
import pytest
import random_scenes

import yuzuratchet.library
from yuzuratchet import ArgumentError, LibraryMissing, Scene, ScriptRefused, read_script
from yuzuratchet.errors import CallRefused, ProgramFailed
from yuzuratchet.history import EVENT, history
from yuzuratchet.library import EVENT_SIZE

NEW = (0, 0, 0, 0), 16_777_215, 0
# the stencil test never passes, and counts that; the depth test always passes
COUNTING = "i ds 1 1 8 1 255 255 4 1 1 1 4 1 1 1 7\n"


def vertices(*triangles: tuple[int, int, int, int]) -> str:
    """The line of triangles of 8 by 8 pixels, each with its left side and three depths."""
    rows = []
    for grey, (left, *depths) in enumerate(triangles):
        for (x, y), z in zip(((left, 0), (left + 8, 0), (left, 8)), depths):
            rows.append(f"{x * 65536} {y * 65536} {z} {grey} {grey} {grey} {grey}")
    return "i vb " + " ".join(rows) + "\n"


Tell = Callable[[str, int, int], list[plain_device.Event]]
"""Tells the history of a pixel of a script."""


@pytest.fixture(params=["plain", "library"])
def tell(request: pytest.FixtureRequest) -> Tell:
    if request.param == "plain":
        return plain_device.history
    library = request.getfixturevalue("history_library")

    def by_library(text: str, x: int, y: int) -> list[plain_device.Event]:
        return [compare_histories.plain(it) for it in history(text.encode(), x, y, library=library)]

    return by_library


Row = tuple[int, int, int, bool, bool]


def rows(events: list[plain_device.Event]) -> list[Row]:
    return [(it.item, it.line, it.triangle, it.stencil_passed, it.depth_passed) for it in events]


def test_a_pixel_that_nothing_touches_has_no_history(tell: Tell) -> None:
    assert tell("target 4 4\n", 0, 0) == []


def test_a_clear_is_an_event(tell: Tell) -> None:
    (event,) = tell("target 4 4\ni clearc 1 2 3 4\n", 3, 3)
    assert (event.item, event.line, event.command, event.triangle) == (0, 2, 0, 0)
    assert (event.before, event.after) == (NEW, ((1, 2, 3, 4), 16_777_215, 0))


def test_failed_tests_are_told_apart_and_what_is_beside_the_pixel_has_a_number(tell: Tell) -> None:
    text = "target 8 8\ni clearc 9 9 9 9\ni topology 4\n"
    text += vertices((0, 100, 100, 100), (0, 200, 200, 200), (100, 50, 50, 50), (0, 50, 60, 70))
    text += f"i draw 12 0\n{COUNTING}i draw 3 0\ni cleards 5 6\n"
    assert rows(tell(text, 1, 1)) == [
        (0, 2, 0, True, True),
        (1, 5, 0, True, True),
        (2, 5, 1, True, False),
        (4, 5, 3, True, True),
        (5, 7, 0, False, True),
        (6, 8, 0, True, True),
    ]
    held = [it.after for it in tell(text, 1, 1)]
    assert [it[1:] for it in held] == [
        (16_777_215, 0),
        (100, 0),
        (100, 0),
        (55, 0),
        (55, 1),
        (5, 6),
    ]
    assert held[-1][0] == (3, 3, 3, 3)


def test_a_list_is_executed_twice_and_a_withheld_clear_has_no_number(tell: Tell) -> None:
    text = "target 2 2\nd0 clearc 1 1 1 1\nd0 predicate 3 0\nd0 cleards 5 6\nd0 finish 0\n"
    text += "i exec d0 0 1\ni exec d0 0 1\ni clearc 2 2 2 2\n"
    events = tell(text, 0, 0)
    assert [(it.item, it.line, it.command) for it in events] == [(0, 6, 0), (1, 7, 0), (2, 8, 0)]


def test_commands_of_a_list_are_counted_and_a_kept_state_is_the_first(tell: Tell) -> None:
    text = "target 2 2\nd1 blend 0 0 1\nd1 clearc 1 1 1 1\nd1 finish 1\n"
    text += "d1 cleards 9 9\nd1 scissor 0 0 1 1\nd1 cleards 8 8\nd1 finish 0\nd1 clearc 2 2 2 2\nd1 finish 0\n"
    text += "i clearc 3 3 3 3\ni exec d1 1 1\ni exec d1 0 0\ni exec d1 2 0\ni exec d1 1 0\n"
    events = tell(text, 0, 0)
    assert [(it.item, it.line, it.command) for it in events] == [
        (0, 11, 0),
        (1, 12, 1),
        (2, 12, 3),
        (3, 13, 1),
        (4, 14, 0),
        (5, 15, 1),
        (6, 15, 3),
    ]


def test_triangles_of_a_strip_with_cuts_are_counted_as_they_are_assembled(tell: Tell) -> None:
    corners = "0 0 5 1 1 1 1 524288 0 5 1 1 1 1 0 524288 5 1 1 1 1 524288 524288 5 1 1 1 1"
    text = f"target 8 8\ni raster 1 0 0\ni topology 5\ni vb {corners}\n"
    text += "i ib 0 1 65535 0 1 2 3 65535 3 2 1\ni ds 0 0 8 0 255 255 1 1 1 8 1 1 1 8 0\ni drawi 11 0 0\n"
    assert rows(tell(text, 1, 1)) == [(0, 7, 0, True, True)]
    assert rows(tell(text, 7, 6)) == [(1, 7, 1, True, True), (2, 7, 2, True, True)]


def test_several_pixels_at_once() -> None:
    text = f"target 8 8\ni topology 4\n{vertices((0, 5, 5, 5), (4, 5, 5, 5))}i draw 6 0\ni clearc 7 7 7 7\n"
    places = [(1, 1), (5, 0), (7, 7)]
    together = plain_device.histories(text, places)
    assert together == {place: plain_device.history(text, *place) for place in places}
    assert [[it.item for it in together[place]] for place in places] == [[0, 2], [0, 1, 2], [2]]


def test_histories_are_chains_that_end_with_the_pixel() -> None:
    chance, found = random.Random(64), 0
    for number in range(12):
        scene = random_scenes.random_scene(chance, number, asked=0)
        x, y = chance.randrange(scene.width), chance.randrange(scene.height)
        try:
            events = plain_device.history(scene.script(), x, y)
        except CallRefused:
            continue
        found += len(events)
        assert [it.before for it in events] == [NEW, *(it.after for it in events)][:-1]
        assert all(a.item < b.item for a, b in zip(events, events[1:]))
        color, depth, stencil = events[-1].after if events else NEW
        answers, _ = plain_device.evaluate(scene.script() + f"i pixel {x} {y}\n")
        assert answers.splitlines()[-1] == " ".join(
            map(str, ("pixel", x, y, *color, depth, stencil))
        )
    assert found > 20


# ---- the library's


def test_random_scenes(history_library: str) -> None:
    """A sample of the scenes on which the library is held against the plain evaluation."""
    chance, pixels, events, number = random.Random(64), 0, 0, 0
    while pixels < 100:
        scene = random_scenes.random_scene(chance, number, asked=0, kinds=compare_histories.KINDS)
        found = compare_histories.compare_scene(chance, scene, str(history_library), each=10)
        number, pixels, events = number + 1, pixels + found[0], events + found[1]
    assert events > 5 * pixels


def test_a_method_of_a_scene(history_library: str) -> None:
    scene = Scene(2, 2)
    scene.immediate.clear_color("#01020304")
    scene.immediate.clear_depth_stencil(5, 6)
    first, second = scene.history(1, 1, library=history_library)
    assert first.after == second.before and second.after.depth == 5 and second.passed
    assert (first.after.colour, second.after.stencil) == ((1, 2, 3, 4), 6)


def test_room_for_fewer_events_than_there_are(history_library: str) -> None:
    text = ("target 2 2\n" + "i clearc 1 2 3 4\n" * 100).encode()
    events = history(text, 0, 0, library=history_library)
    assert [it.line for it in events] == [*range(2, 102)]
    for room in (0, 1, 99, 100, 200):
        assert history(text, 0, 0, library=history_library, room=room) == events


def test_the_history_up_to_a_line(history_library: str) -> None:
    """It is the beginning of the history over all lines: a line of the immediate context is no part of
    it before, and all of it behind."""
    chance, compared, number = random.Random(7), 0, 0
    while compared < 60:
        scene = random_scenes.random_scene(chance, number, asked=0, kinds=compare_histories.KINDS)
        number, (x, y) = number + 1, (chance.randrange(scene.width), chance.randrange(scene.height))
        try:
            whole = scene.history(x, y, library=history_library)
        except ScriptRefused:
            continue
        last = len(scene.lines) + 1
        for at in {1, last, *(chance.randrange(1, last + 1) for _ in range(6))}:
            found = scene.history(x, y, at=at, library=history_library)
            assert found == [it for it in whole if it.line <= at]
            compared += len(found)


def test_lines_that_there_are_not_and_a_query_that_is_open(history_library: str) -> None:
    text = b"target 2 2\ni begin 0\ni clearc 1 2 3 4\ni end 0\ni draw 3 0\n"
    (event,) = history(text, 0, 0, at=3, library=history_library)
    assert (event.line, history(text, 0, 0, at=2, library=history_library)) == (3, [])
    for line in (0, 6):
        with pytest.raises(ArgumentError, match="is not in 1 to 5"):
            history(text, 0, 0, at=line, library=history_library)
    with pytest.raises(ScriptRefused):
        history(text, 0, 0, at=5, library=history_library)


@pytest.mark.parametrize(("x", "y"), [(2, 0), (0, 2), (-1, 0), (2**32, 0)])
def test_pixels_outside(x: int, y: int, history_library: str) -> None:
    with pytest.raises(ArgumentError):
        read_script("target 2 2\n").history(x, y, library=history_library)


@pytest.mark.parametrize(
    ("text", "line", "number"),
    [("target 2 2\ni draw 3 0\n", 2, 7), ("target 2 2\ni begin 0\n", 3, 9), ("", 1, 102)],
)
def test_refused_scripts(text: str, line: int, number: int, history_library: str) -> None:
    with pytest.raises(ScriptRefused) as raised:
        history(text.encode(), 0, 0, library=history_library)
    assert (raised.value.line, raised.value.number) == (line, number)


def test_an_event_is_as_large_as_the_header_says() -> None:
    assert EVENT.size == EVENT_SIZE


def test_an_older_library(monkeypatch: pytest.MonkeyPatch) -> None:
    monkeypatch.setattr(yuzuratchet.library, "find_library", lambda _: Path("x.so"))
    monkeypatch.setattr(yuzuratchet.library, "load_library", lambda _: SimpleNamespace())
    with pytest.raises(LibraryMissing, match="x.so is an older one"):
        history(b"target 1 1\n", 0, 0)


def test_a_status_that_tells_nothing(monkeypatch: pytest.MonkeyPatch) -> None:
    fake = SimpleNamespace(yuzuratchet_history=lambda *_: 8)
    monkeypatch.setattr(yuzuratchet.library, "find_library", lambda _: "x")
    monkeypatch.setattr(yuzuratchet.library, "load_library", lambda _: fake)
    with pytest.raises(ProgramFailed, match="overlap"):
        history(b"target 1 1\n", 0, 0)
