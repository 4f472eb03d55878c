#!/usr/bin/env python3
"""Draws random scenes with the built program and with tools/plain_device.py, and tells the first that differ.

    tools/compare.py [SCENES [SEED]] [--workers N ..] [--kinds KIND ..] [--program FILE ..] [--without WORD ..]

tools/random_scenes.py says what the scenes are. With several numbers of workers, or several programs, each scene is
drawn once with each. A scene that differs is left in differs.txt. Most of the time is the plain device's; PyPy
(Debian's pypy3) takes a third of it:

    pypy3 tools/compare.py 10000 --program A B
"""

import argparse
import itertools
import pathlib
import random
import sys

import package_path  # noqa: F401
import plain_device
import random_scenes
from yuzuratchet import Scene, YuzuratchetError, run
from yuzuratchet.arguments import whole_number
from yuzuratchet.ending import ended
from yuzuratchet.limits import WORKERS
from yuzuratchet.words import WORDS


def parsed() -> argparse.Namespace:
    parser = argparse.ArgumentParser(description=__doc__, formatter_class=argparse.RawDescriptionHelpFormatter)
    parser.add_argument("scenes", metavar="SCENES", nargs="?", type=whole_number(1), default=100, help="how many (100)")
    parser.add_argument("seed", metavar="SEED", nargs="?", type=int, default=1, help="of the random numbers (1)")
    parser.add_argument(
        "--workers",
        metavar="N",
        nargs="+",
        type=whole_number(0, WORKERS),
        default=[0],
        help=f"how many workers draw beside the caller, 0 to {WORKERS} (0)",
    )
    parser.add_argument(
        "--kinds",
        metavar="KIND",
        nargs="+",
        default=random_scenes.KINDS,
        choices=random_scenes.KINDS,
        help="of the scenes, in turn (all)",
    )
    parser.add_argument(
        "--program",
        metavar="FILE",
        nargs="+",
        default=[None],
        help="the built program, if it isn't this clone's, or several builds of it",
    )
    parser.add_argument(
        "--without", metavar="WORD", nargs="*", default=[], choices=list(WORDS), help="words of scripts to leave out"
    )
    return parser.parse_args()


def without(scene: Scene, words: list[str]) -> Scene:
    """The scene without the lines of some words."""
    kept = [line for line in scene.lines if line.word not in words]
    return Scene.from_lines(scene.width, scene.height, kept, strict=False)


def compare(given: argparse.Namespace) -> None:
    chance, refused = random.Random(given.seed), 0
    for number in range(given.scenes):
        scene = without(random_scenes.random_scene(chance, number, kinds=given.kinds), given.without)
        text = scene.script()
        answers, image = plain_device.evaluate(text)
        for program, workers in itertools.product(given.program, given.workers):
            result = run(scene, workers=workers, program=program, check=False)
            if result.text != answers or result.tga != image:
                pathlib.Path("differs.txt").write_text(text, encoding="ascii")
                by = f" by {program}" if program else ""
                sys.exit(f"scene {number} differs{by} with {workers} workers: it is in differs.txt")
        refused += "refused" in answers
    print(f"{given.scenes} scenes agree, of which {refused} end in a refusal")


def main() -> None:
    try:
        compare(parsed())
    except YuzuratchetError as error:
        sys.exit(f"compare.py: {error}")


if __name__ == "__main__":
    sys.exit(ended(main))
