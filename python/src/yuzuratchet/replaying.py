"""What the device does at one pixel, asked step by step: where there is no history of the pixel.

The triangles that touch the pixel are drawn once more, under their own states and at that pixel
alone, with a question behind each. Over what the pixel held before each triangle it is drawn under
its tests, with other operations on the stencil, by which the device tells which test refused it.
"""

from __future__ import annotations

from dataclasses import replace
from functools import lru_cache
from typing import Callable, Final, Iterable, Iterator, NamedTuple

from .errors import ScriptRefused, YuzuratchetError
from .explanation import Content, Corners, Outcome
from .limits import BUFFER_LENGTH
from .messages import message_of
from .program import Ran
from .recording import Item
from .scene import Scene
from .states import (
    BlendState,
    ColorWriteEnable,
    ComparisonFunc,
    DepthStencilState,
    RasterizerState,
    StencilFace,
    StencilOp,
)

NO_COLOUR: Final = BlendState(write_mask=ColorWriteEnable.NONE)
AT_ONCE: Final = BUFFER_LENGTH // 3
"""Triangles that are drawn out of one buffer."""

REFUSALS: Final = {0: Outcome.STENCIL_FAILED, 1: Outcome.DEPTH_FAILED, 255: Outcome.DRAWN}
"""What a step's stencil says of its tests: kept, one more, or one less."""

Draw = Callable[[bytes], Ran]


class Touching(NamedTuple):
    """A clear, or a triangle by its corners, that touches the pixel."""

    item: Item
    corners: Corners | None


class Touched(NamedTuple):
    """What became of the pixel at it."""

    outcome: Outcome
    before: Content
    after: Content


class Questions:
    """A script in the making about one pixel: it sets a state only where it changes, and asks."""

    def __init__(self, scene: Scene, x: int, y: int) -> None:
        self.lines = [f"target {scene.width} {scene.height}", "i topology 4"]
        self.alone, self.question = (x, y, x + 1, y + 1), f"i pixel {x} {y}"
        self.count = 0
        self._set: dict[str, object] = {}

    def set(self, word: str, key: object, numbers: Iterable[int]) -> None:
        """Sets a state, which is known by a key."""
        if self._set.get(word) != key:
            self._set[word] = key
            self.lines.append(" ".join(("i", word, *map(str, numbers))))

    def states(self, rasterizer: RasterizerState, tests: DepthStencilState, reference: int) -> None:
        """Sets how triangles are drawn at the pixel alone, and tested."""
        if self._set.get("raster") is not rasterizer:
            alone = replace(rasterizer, scissor_enable=True)
            self.set("raster", rasterizer, alone.numbers())
        self.set("scissor", self.alone, self.alone)
        self.set("ds", (tests, reference), (*tests.numbers(), reference))

    def blend(self, state: BlendState) -> None:
        """Sets what is written of colours."""
        self.set("blend", state, state.numbers())

    def draw(self, place: int) -> None:
        """Draws the triangle at a place of those that are set."""
        self.lines.append(f"i draw 3 {3 * place}")

    def ask(self) -> None:
        """Asks for the pixel."""
        self.lines.append(self.question)
        self.count += 1

    def placed(self, steps: list[Touching]) -> Iterator[tuple[Touching, int]]:
        """The steps with the places of their triangles among the vertices, which are set on the way."""
        for first in range(0, len(steps), AT_ONCE):
            part = steps[first : first + AT_ONCE]
            drawn = [it.corners for it in part if it.corners]
            if drawn:
                numbers = (it for corners in drawn for vertex in corners for it in vertex)
                self.set("vb", object(), numbers)
            place = 0
            for step in part:
                yield step, place
                place += step.corners is not None

    def answers(self, draw: Draw) -> list[Content]:
        """What the pixel held at each question, which are all that was asked."""
        ran = draw(("\n".join(self.lines) + "\n").encode("ascii"))
        if ran.refused:
            raise ScriptRefused(*ran_out(ran.refused[1]))
        numbers = list(map(int, ran.answers.replace("pixel ", "").split()))
        rows = [numbers[at : at + 8] for at in range(0, 8 * self.count, 8)]
        return [Content((r, g, b, a), depth, stencil) for _, _, r, g, b, a, depth, stencil in rows]


class Replay:
    """A pixel of a scene's target, which is drawn anew."""

    def __init__(self, scene: Scene, x: int, y: int, draw: Draw) -> None:
        self.scene, self.x, self.y, self.draw = scene, x, y, draw

    def touched(self, steps: list[Touching]) -> list[Touched]:
        """What became of the pixel at each step."""
        befores, afters = self.contents(steps)
        triangles = [pair for pair in zip(steps, befores) if pair[0].corners]
        outcomes = iter(self.outcomes(triangles))
        return [
            Touched(next(outcomes) if it.corners else Outcome.CLEARED, *held)
            for it, *held in zip(steps, befores, afters)
        ]

    def contents(self, steps: list[Touching]) -> tuple[list[Content], list[Content]]:
        """What the pixel held before each step, and behind it."""
        questions = Questions(self.scene, self.x, self.y)
        questions.ask()
        for (item, corners), place in questions.placed(steps):
            state = item.state
            if corners:
                questions.states(state.rasterizer, state.depth_stencil, state.stencil_ref)
                questions.blend(state.blend)
                questions.draw(place)
            else:
                questions.lines.append(f"i {str(item.line).split(' ', 1)[1]}")
            questions.ask()
        found = questions.answers(self.draw)
        return found[:-1], found[1:]

    def outcomes(self, triangles: list[tuple[Touching, Content]]) -> Iterator[Outcome]:
        """Which test refuses each triangle, over what the pixel held before."""
        questions = Questions(self.scene, self.x, self.y)
        questions.blend(NO_COLOUR)
        placed = questions.placed([it for it, _ in triangles])
        for ((item, _), place), (_, held) in zip(placed, triangles):
            state = item.state
            questions.states(state.rasterizer, probing(state.depth_stencil), state.stencil_ref)
            questions.lines.append(f"i cleards {held.depth} {held.stencil}")
            questions.draw(place)
            questions.ask()
        for (_, held), after in zip(triangles, questions.answers(self.draw)):
            outcome = REFUSALS.get((after.stencil - held.stencil) % 256)
            if outcome is None:
                raise YuzuratchetError("the device tells of a test what no test can give")
            yield outcome


@lru_cache(maxsize=256)
def probing(tests: DepthStencilState) -> DepthStencilState:
    """The same tests with other operations: the stencil is kept where its test fails, has one more
    where the depth test fails, and one less where both pass."""
    faces = []
    for face in (tests.front_face, tests.back_face):
        func = face.stencil_func if tests.stencil_enable else ComparisonFunc.ALWAYS
        faces.append(StencilFace(StencilOp.KEEP, StencilOp.INCR, StencilOp.DECR, func))
    return replace(
        tests,
        depth_write=False,
        stencil_enable=True,
        stencil_write_mask=255,
        front_face=faces[0],
        back_face=faces[1],
    )


def ran_out(number: int) -> tuple[int, int, str]:
    """Line, number and meaning of a refusal of what was written here."""
    return 0, number, message_of(number).when
