"""Which pixels a line changed: by hand, and on random scenes against what each item changes where it runs."""

from __future__ import annotations

import random
from functools import partial
from typing import Any

import numpy as np
import numpy.typing as npt
import plain_device
import pytest
import random_scenes

from yuzuratchet import ArgumentError, CallRefused, Scene, ScriptRefused, read_script
from yuzuratchet.backends import draw
from yuzuratchet.changes import Changes, changes
from yuzuratchet.recording import CommandItems, Item

TRIANGLE = "0 0 9 1 2 3 4 262144 0 9 1 2 3 4 0 262144 9 1 2 3 4"
# a draw into the stencil alone, a clear under an open query, a list that is executed, and what runs all of it
TEXT = f"""target 4 4
i vb {TRIANGLE}
i topology 4
i blend 0 0 0
i ds 0 0 8 1 255 255 1 1 3 8 1 1 3 8 7
i draw 3 0
d0 clearc 5 5 5 5
d0 cleards 3 7
d0 finish 0
i begin 0
i clearc 5 5 5 5
i end 0
i flush
i exec d0 0 1
i pixel 0 0
i exec d0 0 1
"""


@pytest.fixture(params=["plain", "library"])
def how(request: pytest.FixtureRequest) -> dict[str, Any]:
    if request.param == "library":
        return {"library": request.getfixturevalue("library")}
    return {"program": request.getfixturevalue("program")}


def counts(found: Changes) -> list[int]:
    return [int(it.sum()) for it in (found.colour, found.depth, found.stencil, found.any)]


def test_each_line(how: dict[str, Any]) -> None:
    scene = read_script(TEXT)
    # the clear of line 11 changes all, though the query is open there and `flush` runs it
    wanted = {6: [0, 0, 6, 6], 11: [16, 0, 0, 16], 14: [0, 16, 10, 16]}
    for line in range(2, len(scene.lines) + 2):
        assert counts(scene.changes(line, **how)) == wanted.get(line, [0] * 4), line


def test_a_picture() -> None:
    planes = (np.array([[it]], bool) for it in (True, False, True))
    assert Changes(*planes).picture().tolist() == [[[255, 0, 255, 255]]]


@pytest.mark.parametrize("line", [0, 1, 17])
def test_lines_that_there_are_not(line: int, how: dict[str, Any]) -> None:
    with pytest.raises(ArgumentError):
        read_script(TEXT).changes(line, **how)


def test_a_line_behind_which_one_is_refused(how: dict[str, Any]) -> None:
    scene = read_script("target 2 2\ni clearc 1 2 3 4\ni clearc 1 2 3 4\ni draw 3 0\n")
    assert counts(scene.changes(2, **how)) == [4, 0, 0, 4]
    assert counts(scene.changes(3, **how)) == [0, 0, 0, 0]
    with pytest.raises(ScriptRefused):
        scene.changes(4, **how)


Masks = list[npt.NDArray[np.bool_]]


class Noting(plain_device.PlainSession):
    """A plain session of the whole script that notes what each item changes where it runs, for the line of the
    immediate context that recorded it or executed its list."""

    def __init__(self, scene: Scene) -> None:
        super().__init__(scene.width, scene.height)
        self.changed: dict[int, Masks] = {}
        self.is_list = False
        self.take_all(scene.lines)

    def contents(self) -> list[npt.NDArray[Any]]:
        target = self.target
        return [np.array(it) for it in (target.color, target.depth, target.stencil)]

    def note(self, number: int, before: list[npt.NDArray[Any]]) -> None:
        color, *others = (a != b for a, b in zip(before, self.contents()))
        self.changed[number] = [color.any(axis=1), *others]

    def perform(self, number: int, commands: CommandItems, is_list: bool) -> None:
        self.is_list, before = is_list, self.contents()
        super().perform(number, commands, is_list)
        if is_list:
            self.note(number, before)

    def perform_item(self, item: Item) -> int:
        before = self.contents()
        passed = super().perform_item(item)
        if not self.is_list:
            self.note(item.number, before)
        return passed


def test_random_scenes(how: dict[str, Any]) -> None:
    chance, changing, number = random.Random(8), 0, 0
    drawing, most = partial(draw, **how), 60 if "library" in how else 8
    while changing < most:
        scene = random_scenes.random_scene(chance, number, asked=0, kinds=["states"])
        number += 1
        try:
            noted = Noting(scene).changed if scene.width * scene.height < 300 else {}
        except CallRefused:
            continue
        script, none = scene.script().encode("ascii"), [np.zeros(scene.width * scene.height, bool)]
        lines = range(2, len(scene.lines) + 2) if noted else []
        for line in chance.sample(lines, min(len(lines), 12)):
            found, wanted = changes(script, line, drawing), noted.get(line, none * 3)
            pairs = zip((found.colour, found.depth, found.stencil), wanted)
            assert all((one.ravel() == other).all() for one, other in pairs), line
            changing += bool(found.any.any())
