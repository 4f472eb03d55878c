"""What the scripts of conformance/ are made of: rules, and a pen that writes lines for one context.

A script shows one rule, and leans on as few others as can be: but where a rule is about places or faces, triangles
cover the whole target, face either way, have one depth, and nothing is culled. So a device that places triangles half
a pixel off fails where that is asked for, and not everywhere.
"""

from __future__ import annotations

from collections.abc import Iterable, Iterator, Sequence
from dataclasses import dataclass

import package_path  # noqa: F401
from yuzuratchet import Scene
from yuzuratchet.limits import SUBPIXELS

GRID = SUBPIXELS // 256
"""One of the 256 parts of a pixel, to which corners are moved."""

CENTRE = SUBPIXELS // 2

LIST, STRIP = 4, 5
FACE = (1, 1, 1, 8)
"""Of a face: keep the stencil, whatever the tests say; its test passes."""

RED, GREEN, BLUE, GREY = (200, 40, 30, 255), (30, 180, 60, 255), (40, 60, 220, 255), (90, 90, 90, 128)

Place = tuple[int, int]
Colour = Sequence[int]

# (beyond any target here, on each side)
FAR = 64 * SUBPIXELS
WHOLE: tuple[Place, ...] = ((-FAR, -FAR), (3 * FAR, -FAR), (-FAR, 3 * FAR))
"""The corners of a triangle that covers the whole target, clockwise."""


@dataclass(frozen=True)
class Case:
    """A script, its name below its rule's folder, and what it shows."""

    name: str
    title: str
    scene: Scene


@dataclass(frozen=True)
class Rule:
    """What a folder of scripts is about, and the chapter of the Direct3D 11.3 specification, or the page, of it."""

    folder: str
    title: str
    chapter: str


Cases = Iterator[Case]


def pixels(*numbers: float) -> tuple[int, ...]:
    """Places in pixels, as scripts spell them."""
    return tuple(round(number * SUBPIXELS) for number in numbers)


def places(*points: tuple[float, float]) -> tuple[Place, ...]:
    """Points in pixels, as places."""
    return tuple((round(x * SUBPIXELS), round(y * SUBPIXELS)) for x, y in points)


ON, UNTESTED, UNWRITTEN = (1, 1), (0, 1), (1, 0)
"""Whether depths are tested, and written."""


def tests(
    on: Sequence[int] = ON,
    func: int = 2,
    ref: int = 0,
    front: Sequence[int] | None = None,
    back: Sequence[int] | None = None,
    masks: Sequence[int] = (255, 255),
) -> list[int]:
    """The numbers of a `ds` line: a front turns the stencil on, and is the back's too where none is given."""
    face = front or FACE
    return [*on, func, int(front is not None), *masks, *face, *(back or face), ref]


class Pen:
    """Adds lines of one context to a scene, which begins with no culling and a list of triangles."""

    def __init__(self, width: int = 8, height: int = 8, scene: Scene | None = None, actor: str = "i") -> None:
        self.scene = scene or Scene(width, height)
        self.actor = actor
        self.add("raster", 1, 0, 0)
        self.add("topology", LIST)

    def add(self, word: str, *numbers: int) -> None:
        """Adds a line."""
        self.scene.add(self.actor, word, *numbers)

    def of(self, actor: str) -> Pen:
        """A pen for another context of the scene."""
        return Pen(scene=self.scene, actor=actor)

    def corners(self, points: Iterable[Place], depths: Sequence[int] = (0,), colours: Sequence[Colour] = (RED,)) -> int:
        """Sets vertices, whose depths and colours are those that are given, over and over; gives how many."""
        numbers = []
        for at, (x, y) in enumerate(points):
            numbers += [x, y, depths[at % len(depths)], *colours[at % len(colours)]]
        self.add("vb", *numbers)
        return len(numbers) // 7

    def triangles(
        self, points: Iterable[Place], depths: Sequence[int] = (0,), colours: Sequence[Colour] = (RED,)
    ) -> None:
        """Sets vertices, and draws all of them."""
        self.add("draw", self.corners(points, depths, colours), 0)

    def whole(self, depth: int = 0, colour: Colour = RED, back: bool = False) -> None:
        """Draws a triangle that covers the whole target, and faces the front or the back."""
        self.triangles(WHOLE[::-1] if back else WHOLE, (depth,), (colour,))

    def prepare(self, depth: int, stencil: int = 0, colour: Colour = GREY) -> None:
        """Gives each pixel a colour, a depth and a stencil by a draw, and then sets the default tests."""
        self.add("ds", *(tests(func=8, ref=stencil, front=(1, 1, 3, 8)) if stencil else tests(func=8)))
        self.whole(depth, colour)
        self.add("ds", *tests())

    def count(self, query: int = 0) -> None:
        """Ends a query and asks for its count."""
        self.add("end", query)
        self.scene.add("i", "query", query)

    def case(self, name: str, title: str) -> Case:
        """The script so far."""
        return Case(name, title, self.scene)
