#!/usr/bin/env python3
"""Asks `yuzuratchet explain` about random pixels of random scenes, and tools/plain_device.py too, and tells the first
difference.

    tools/compare_explained.py [PIXELS [SEED]] [--program FILE]

What is compared is each step: the line, the line that executed it, the triangle, what became of the pixel and by
which test, its depth there, and colour, depth and stencil behind it. tools/random_scenes.py says what the scenes are;
those that are refused are left out. A scene that differs is left in differs.txt.
"""

from __future__ import annotations

import argparse
import pathlib
import random
import sys
from collections.abc import Iterable
from typing import Optional

import package_path  # noqa: F401
import plain_device
import random_scenes
from plain_device import Triangle
from yuzuratchet import Scene, YuzuratchetError
from yuzuratchet.ending import ended
from yuzuratchet.errors import CallRefused
from yuzuratchet.explanation import Explanation, Outcome
from yuzuratchet.recording import CommandItems, Item, State

try:
    from yuzuratchet.explain import Explainer
except ModuleNotFoundError as missing:
    sys.exit(f"compare_explained.py: {missing.name} is missing (Debian: python3-numpy)")

PIXELS_OF_A_SCENE = 5

Place = tuple[int, int]
Held = tuple[tuple[int, ...], int, int]
# line, the line that executed it, triangle, depth, outcome, and what the pixel holds behind it
Noted = tuple[int, Optional[int], Optional[int], Optional[int], Outcome, Held]


class Traced(plain_device.PlainSession):
    """A plain session that notes each step of some pixels, while it draws the whole target."""

    def __init__(self, scene: Scene, pixels: Iterable[Place]) -> None:
        super().__init__(scene.width, scene.height)
        self.steps: dict[Place, list[Noted]] = {pixel: [] for pixel in pixels}
        self.take_all(scene.lines)

    def perform(self, number: int, commands: CommandItems, is_list: bool) -> None:
        self.executed_by = number if is_list else None
        super().perform(number, commands, is_list)

    def is_withheld(self, item: Item, counts: dict[int, int]) -> bool:
        withheld = super().is_withheld(item, counts)
        if withheld:
            for pixel in self.steps:
                self.note_withheld(item, pixel)
        return withheld

    def note_withheld(self, item: Item, pixel: Place) -> None:
        if item.line.word.startswith("clear"):
            self.note(item, pixel, None, None, Outcome.LEFT_OUT)
            return
        for number, triangle in enumerate(plain_device.triangles_of(item)):
            weights = self.weights(triangle, pixel)
            if weights:
                self.note(item, pixel, number, triangle.depth(weights), Outcome.LEFT_OUT)

    def weights(self, triangle: Triangle, pixel: Place) -> list[int] | None:
        return triangle.weights(*pixel) if triangle.area else None

    def perform_item(self, item: Item) -> int:
        if item.line.word.startswith("clear"):
            super().perform_item(item)
            for pixel in self.steps:
                self.note(item, pixel, None, None, Outcome.CLEARED)
            return 0
        passed = 0
        for number, triangle in enumerate(plain_device.triangles_of(item)):
            covering = [(pixel, weights) for pixel in self.steps if (weights := self.weights(triangle, pixel))]
            outcomes = [self.outcome(item.state, triangle, pixel, weights) for pixel, weights in covering]
            passed += self.target.draw(triangle, item.state)
            for (pixel, weights), outcome in zip(covering, outcomes):
                self.note(item, pixel, number, triangle.depth(weights), outcome)
        return passed

    def outcome(self, state: State, triangle: Triangle, pixel: Place, weights: list[int]) -> Outcome:
        """What becomes of a covered pixel: the first test that refuses it."""
        if triangle.is_culled(state.rasterizer):
            return Outcome.CULLED
        if plain_device.is_cut(state, *pixel):
            return Outcome.OUTSIDE_SCISSOR
        _, depth, stencil = self.target.pixel(*pixel)
        front = triangle.is_front(state.rasterizer)
        stencil_passes, depth_passes = plain_device.tested(state, front, triangle.depth(weights), depth, stencil)
        if not stencil_passes:
            return Outcome.STENCIL_FAILED
        return Outcome.DRAWN if depth_passes else Outcome.DEPTH_FAILED

    def note(self, item: Item, pixel: Place, triangle: int | None, depth: int | None, outcome: Outcome) -> None:
        self.steps[pixel].append((item.number, self.executed_by, triangle, depth, outcome, self.target.pixel(*pixel)))


def told(explanation: Explanation) -> list[Noted]:
    """The steps of an explanation, in the form in which a plain session notes them."""
    steps: list[Noted] = []
    for it in explanation.steps:
        after = (it.after.colour, it.after.depth, it.after.stencil)
        triangle, depth = (it.covering.triangle, it.covering.depth) if it.covering else (None, None)
        steps.append((it.item.number, it.executed_by, triangle, depth, it.outcome, after))
    return steps


def compare_scene(chance: random.Random, scene: Scene, program: str | pathlib.Path | None) -> tuple[int, int] | None:
    """Compares some pixels of a scene; gives how many, or None where the scene is refused."""
    pixels = {(chance.randrange(scene.width), chance.randrange(scene.height)) for _ in range(PIXELS_OF_A_SCENE)}
    try:
        traced = Traced(scene, pixels)
    except CallRefused:
        return None
    steps, explainer = 0, Explainer(scene, program=program)
    for pixel in pixels:
        found = told(explainer.explain(*pixel))
        steps += len(found)
        if found != traced.steps[pixel]:
            pathlib.Path("differs.txt").write_text(scene.script(), encoding="ascii")
            first = next((pair for pair in zip(found, traced.steps[pixel]) if pair[0] != pair[1]), "one has more steps")
            sys.exit(f"pixel {pixel} of the scene in differs.txt differs: {first}")
    return len(pixels), steps


def compare(given: argparse.Namespace) -> None:
    chance, number, pixels, steps = random.Random(given.seed), 0, 0, 0
    while pixels < given.pixels:
        found = compare_scene(chance, random_scenes.random_scene(chance, number, asked=0), given.program)
        number += 1
        if found:
            pixels, steps = pixels + found[0], steps + found[1]
    print(f"{pixels} pixels of {number} scenes are explained as the plain evaluation draws them, in {steps} steps")


def main() -> None:
    parser = random_scenes.parser_of_pixels(__doc__)
    parser.add_argument("--program", metavar="FILE", help="a built program, in place of the library's histories")
    given = parser.parse_args()
    try:
        compare(given)
    except YuzuratchetError as error:
        sys.exit(f"compare_explained.py: {error}")


if __name__ == "__main__":
    sys.exit(ended(main))
