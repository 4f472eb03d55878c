"""``yuzuratchet explain``: why a pixel is what it is.

What the device does at a pixel the device tells. Which triangles are on it, and why some of them
don't touch it, follows from the scene's own numbers:

1. the scene's lists, unrolled, have its clears and triangles in the order of execution
   (:mod:`yuzuratchet.unrolling`);
2. where a predicate may leave some of them out, the scene is drawn, and asked for the counts of the
   queries behind it;
3. each triangle that covers the pixel is told, with its depth there, by whole numbers
   (:mod:`yuzuratchet.covering`), and whether the cull mode or the scissor rectangle drops it;
4. what became of the pixel at the others is the device's history of it
   (:mod:`yuzuratchet.history`), which must have them, one by one, and no more.

The history is the library's. Where the program draws, the others are drawn once more, step by step
(:mod:`yuzuratchet.replaying`), and the pixel must end as that of the scene does.
"""

from __future__ import annotations

from dataclasses import dataclass
from functools import cached_property, partial
from pathlib import Path
from typing import Any, Final, Iterator

from .backends import draw, tells_histories
from .covering import Covered, SnappedTriangles
from .errors import ArgumentError, YuzuratchetError
from .explanation import Content, Covering, Explanation, Outcome, Step
from .history import Event, history
from .limits import DEEPEST
from .line import Line
from .recording import Item
from .replaying import Replay, Touched, Touching
from .results import PixelAnswer, script_bytes
from .scene import Scene
from .unrolling import Performed, Told, Unrolled, drawn, unroll
from .words import IMMEDIATE

OPENING: Final = Content((0, 0, 0, 0), DEEPEST, 0)
"""What a pixel of a new target holds."""


@dataclass(frozen=True)
class Stage:
    """A clear, or a triangle that covers the pixel, on the way to being a :class:`Step`.

    ``refusal`` says why it doesn't touch the pixel, and is None where it does.
    """

    performed: Performed
    item: Item
    covering: Covering | None
    refusal: Outcome | None

    @property
    def place(self) -> tuple[int, int, int]:
        """Line, command and triangle, as an event names them."""
        is_list, triangle = self.performed.is_list, self.covering.triangle if self.covering else 0
        if is_list:
            return self.performed.number, self.item.command, triangle
        return self.item.number, 0, triangle

    def touched(self, event: Event) -> Touched:
        """What became of the pixel, by its event."""
        outcome = Outcome.DRAWN if self.covering else Outcome.CLEARED
        if not event.passed:
            is_stencil = not event.stencil_passed
            outcome = Outcome.STENCIL_FAILED if is_stencil else Outcome.DEPTH_FAILED
        return Touched(outcome, event.before, event.after)

    def step(self, touched: Touched) -> Step:
        """The step, by what became of the pixel."""
        number = self.performed.number if self.performed.is_list else None
        return Step(self.item, number, self.covering, *touched)


class Explainer:
    """A scene, whose pixels are asked about, and how the device is run."""

    def __init__(self, scene: Scene, told: Told = lambda _: None, **how: Any) -> None:
        self.scene, self.told, self.how = scene, told, how
        self.has_history = tells_histories(**how)

    def explain(self, x: int, y: int) -> Explanation:
        """Why the pixel (x, y) is what it is at the end.

        Raises :class:`~yuzuratchet.errors.ArgumentError` where the target has no such pixel, and
        what :func:`~yuzuratchet.results.run` raises.
        """
        for name, at, side in (("x", x, self.scene.width), ("y", y, self.scene.height)):
            if not 0 <= at < side:
                raise ArgumentError(name, f"{at} is not in 0 to {side - 1}")
        stages = list(self.stages(x, y))
        touching = [it for it in stages if it.refusal is None]
        by = self.by_history if self.has_history else self.by_replay
        touched = iter(by(x, y, touching))
        held, steps = OPENING, []
        for stage in stages:
            found = Touched(stage.refusal, held, held) if stage.refusal else next(touched)
            steps.append(stage.step(found))
            held = found.after
        return Explanation(x, y, OPENING, tuple(steps), held)

    # ---- what runs

    @cached_property
    def unrolled(self) -> Unrolled:
        """The scene's lists, unrolled, with what was counted for its predicates.

        Raises as the device does where a line is refused.
        """
        return unroll(self.scene, self.told, **self.how)

    # ---- what covers the pixel

    @cached_property
    def triangles(self) -> SnappedTriangles:
        """The triangles of all draws; one of a list that is executed twice stands there once."""
        items = [item for performed in self.unrolled.performed for item in performed.commands.items]
        draws = {id(item): item for item in items if item.line.word.startswith("draw")}
        return SnappedTriangles([*draws.values()])

    def covered(self, x: int, y: int) -> dict[int, list[Covered]]:
        """The triangles that cover the pixel, by the identities of their draws."""
        found: dict[int, list[Covered]] = {}
        for place, it in self.triangles.on(x, y):
            found.setdefault(id(self.triangles.items[place]), []).append(it)
        return found

    def stages(self, x: int, y: int) -> Iterator[Stage]:
        """The clears, and the triangles that cover the pixel, in the order of execution."""
        covered = self.covered(x, y)
        for performed in self.unrolled.performed:
            for item in performed.commands.items:
                if item.line.word.startswith("clear"):
                    left_out = Outcome.LEFT_OUT if performed.withholds(item) else None
                    yield Stage(performed, item, None, left_out)
                for it in covered.get(id(item), ()):
                    yield Stage(performed, item, it.covering, refusal(performed, item, it, (x, y)))

    # ---- what becomes of it

    @cached_property
    def script(self) -> bytes:
        """The scene's script."""
        return script_bytes(self.scene)

    def by_history(self, x: int, y: int, stages: list[Stage]) -> list[Touched]:
        """What became of the pixel at each of those that touch it, by the device's history of it."""
        self.told(f"asks for the history of {len(stages)} steps")
        events = history(self.script, x, y, room=len(stages))
        if [(it.line, it.command, it.triangle) for it in events] != [it.place for it in stages]:
            raise YuzuratchetError("the device's history of the pixel has other steps")
        return [stage.touched(event) for stage, event in zip(stages, events)]

    def by_replay(self, x: int, y: int, stages: list[Stage]) -> list[Touched]:
        """The same, by drawing them once more."""
        self.told(f"draws {len(stages)} steps")
        steps = [Touching(it.item, it.covering.corners if it.covering else None) for it in stages]
        found = Replay(self.scene, x, y, partial(draw, **self.how)).touched(steps)
        asking = [*self.scene.lines, Line(IMMEDIATE, "pixel", (x, y))]
        answer = drawn(self.scene, asking, **self.how).answers[-1]
        assert isinstance(answer, PixelAnswer)
        end = Content(answer.colour, answer.depth, answer.stencil)
        if end != (found[-1].after if found else OPENING):
            raise YuzuratchetError("drawn step by step, the scene ends in another pixel")
        return found


def refusal(
    performed: Performed, item: Item, covered: Covered, pixel: tuple[int, int]
) -> Outcome | None:
    """Why a triangle that covers the pixel doesn't touch it, or None where it does."""
    (x, y), rasterizer = pixel, item.state.rasterizer
    left, top, right, bottom = item.state.scissor
    if performed.withholds(item):
        return Outcome.LEFT_OUT
    if covered.is_culled(rasterizer):
        return Outcome.CULLED
    if rasterizer.scissor_enable and not (left <= x < right and top <= y < bottom):
        return Outcome.OUTSIDE_SCISSOR
    return None


def explain(
    scene: Scene,
    x: int,
    y: int,
    *,
    at: int | None = None,
    program: str | Path | None = None,
    workers: int | None = None,
    told: Told = lambda _: None,
) -> Explanation:
    """Why the scene's pixel (x, y) is what it is at the end, or behind the line ``at``, from 1.

    ``told`` is called with what is asked now. Raises as :meth:`Explainer.explain` does, whose class
    answers for many pixels of a scene.
    """
    played = scene if at is None else scene.up_to(at)
    return Explainer(played, told, program=program, workers=workers).explain(x, y)
