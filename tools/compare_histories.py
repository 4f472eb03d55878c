#!/usr/bin/env python3
"""Asks the library for the histories of random pixels of random scenes, and tools/plain_device.py too, and tells the
first difference.

    tools/compare_histories.py [PIXELS [SEED]] [--library FILE] [--each N]

What is compared is each event: its number, line, command and triangle, both tests, and colour, depth and stencil before
and behind it. tools/random_scenes.py says what the scenes are; of those that are refused line and number are compared.
A scene that differs is left in differs.txt.
"""

from __future__ import annotations

import argparse
import pathlib
import random
import sys
import time

import package_path  # noqa: F401
import plain_device
import random_scenes
from yuzuratchet import Scene, ScriptRefused, YuzuratchetError
from yuzuratchet.arguments import whole_number
from yuzuratchet.ending import ended
from yuzuratchet.errors import CallRefused
from yuzuratchet.explanation import Content
from yuzuratchet.history import Event

PIXELS_OF_A_SCENE = 20
# every second scene has lists, some executed twice, predicates, states that are kept, and refused lines
KINDS = ("states", "triangles", "states", "large", "states", "logic")


def plain(event: Event) -> plain_device.Event:
    """An event of the library, as the plain evaluation has it."""

    def held(content: Content) -> plain_device.Held:
        return content.colour, content.depth, content.stencil

    numbers = event.item, event.line, event.command, event.triangle
    tests = event.stencil_passed, event.depth_passed
    return plain_device.Event(*numbers, *tests, held(event.before), held(event.after))


def differ(scene: Scene, message: str) -> None:
    """Keeps a scene that differs, and ends."""
    pathlib.Path("differs.txt").write_text(scene.script(), encoding="ascii")
    sys.exit(f"the scene in differs.txt differs: {message}")


def refusal_of(scene: Scene, library: str | None) -> tuple[int, int] | None:
    """The line that the library refuses, and the number, as it tells them for a history."""
    try:
        scene.history(0, 0, library=library)
    except ScriptRefused as refused:
        return refused.line, refused.number
    return None


def compare_scene(chance: random.Random, scene: Scene, library: str | None, each: int) -> tuple[int, int]:
    """Compares some pixels of a scene; gives how many, none of a refused one, and how many events they have."""
    places = {(chance.randrange(scene.width), chance.randrange(scene.height)) for _ in range(each)}
    try:
        wanted = plain_device.histories(scene.script(), places)
    except CallRefused as refused:
        told = refusal_of(scene, library)
        if told != (refused.line, refused.number):
            differ(scene, f"{told} is refused, and not {(refused.line, refused.number)}")
        return 0, 0
    for place in places:
        found = [plain(it) for it in scene.history(*place, library=library)]
        if found != wanted[place]:
            pairs = zip(found, wanted[place])
            first = next((pair for pair in pairs if pair[0] != pair[1]), "one has more events")
            differ(scene, f"pixel {place}: {first}")
    return len(places), sum(map(len, wanted.values()))


def compare(given: argparse.Namespace) -> None:
    chance, begun = random.Random(given.seed), time.monotonic()
    scenes = refused = pixels = events = 0
    while pixels < given.pixels:
        scene = random_scenes.random_scene(chance, scenes, asked=0, kinds=KINDS)
        found = compare_scene(chance, scene, given.library, given.each)
        scenes, refused = scenes + 1, refused + (not found[0])
        pixels, events = pixels + found[0], events + found[1]
    print(
        f"{pixels} pixels of {scenes} scenes, of which {refused} are refused, have the histories of the plain "
        f"evaluation: {events} events, in {time.monotonic() - begun:.0f} s"
    )


def main() -> None:
    parser = random_scenes.parser_of_pixels(__doc__)
    parser.add_argument("--library", metavar="FILE", help="the built library (that which the package finds)")
    most = f"pixels of a scene at most ({PIXELS_OF_A_SCENE})"
    parser.add_argument("--each", metavar="N", type=whole_number(1), default=PIXELS_OF_A_SCENE, help=most)
    given = parser.parse_args()
    try:
        compare(given)
    except YuzuratchetError as error:
        sys.exit(f"compare_histories.py: {error}")


if __name__ == "__main__":
    sys.exit(ended(main))
