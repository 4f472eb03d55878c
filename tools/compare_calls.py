#!/usr/bin/env python3
"""Draws random scenes by calls, on a device that goes on behind each refused call, and holds them against the program.

    tools/compare_calls.py [SCENES [SEED]] [--groups N] [--kinds KIND ..] [--jobs N] [--program FILE] [--library FILE]

tools/random_scenes.py says what the scenes are, and tools/refused_lines.py what is put between their lines so that the
device refuses it. Each line is a call on a device of the library, and a refused one is no end. Then

- the program, given the calls that were accepted, tells the same answers and draws the same image: what was refused
  left nothing behind;
- another device that takes the accepted calls alone has the same colours, depths and stencils in all its pixels;
- each refused call, as a line behind those that were accepted before it, is refused by the program with its number.

The lines of a scene that differs are left in differs.txt. The last line tells how many calls were refused, by numbers.
"""

from __future__ import annotations

import argparse
import collections
import pathlib
import random
import sys
from collections.abc import Iterator
from concurrent.futures import ThreadPoolExecutor

import package_path  # noqa: F401
import random_scenes
import refused_lines
from results import told
from yuzuratchet import ArgumentError, CallRefused, Line, QueryAnswer, Scene, YuzuratchetError, run
from yuzuratchet.arguments import whole_number
from yuzuratchet.ending import ended
from yuzuratchet.program import find_program, run_program
from yuzuratchet.words import IMMEDIATE

try:
    import numpy as np
    from yuzuratchet.calls import Device, Replay
except ModuleNotFoundError as error:
    sys.exit(f"compare_calls.py: {error.name} is missing (Debian: python3-numpy python3-pil)")

GROUPS, JOBS = 8, 2
Refused = tuple[int, Line, int]
"""How many lines were accepted before, the line that wasn't, and the number."""


class Differs(Exception):
    """Why a scene by calls isn't what the program makes of it."""


class Played:
    """The calls of some lines on a device that stays, of which those that are refused change nothing."""

    def __init__(self, scene: Scene, lines: list[Line], library: str | None) -> None:
        self.device = Device(scene.width, scene.height, library=library)
        self.accepted = self.device.record()
        self.replay = Replay(self.device)
        self.refused: list[Refused] = []
        self.open: set[int] = set()
        for line in lines:
            self.take(line)
        for query in sorted(self.open):
            self.take(Line(IMMEDIATE, "end", (query,)))
        self.device.immediate.flush()

    def take(self, line: Line) -> None:
        """Makes the call of a line."""
        try:
            self.replay.take(line)
        except CallRefused as refused:
            self.refused.append((len(self.accepted.lines), line, refused.number))
            return
        except ArgumentError:
            if line.word != "exec":
                raise
            return  # (there is no such list, since what would have finished it was refused)
        if line.actor == IMMEDIATE and line.word == "begin":
            self.open.add(line.arguments[0])
        elif line.actor == IMMEDIATE and line.word == "end":
            self.open.remove(line.arguments[0])


def check_accepted(played: Played, program: pathlib.Path) -> None:
    """Holds answers and image against what the program makes of the accepted calls."""
    result = run(played.accepted, program=program, check=False)
    if result.refused:
        raise Differs(f"the program refuses line {result.refused.line} ({result.refused.number}), and no call was")
    if [it.count if isinstance(it, QueryAnswer) else it for it in result.answers] != played.replay.answers:
        raise Differs("the answers are others")
    if not np.array_equal(result.image, played.device.image):
        raise Differs("the image is another")


def check_undisturbed(played: Played, library: str | None) -> None:
    """Holds all planes against those of a device that takes the accepted calls alone."""
    with Device(played.device.width, played.device.height, library=library) as other:
        if other.replay(played.accepted) != played.replay.answers:
            raise Differs("without the refused calls the answers are others")
        one, another = played.device.planes, other.planes
        same = [np.array_equal(played.device.image, other.image), np.array_equal(one.depth, another.depth)]
        if not all([*same, np.array_equal(one.stencil, another.stencil)]):
            raise Differs("without the refused calls the pixels are others")


def check_refusals(played: Played, program: pathlib.Path, pool: ThreadPoolExecutor) -> None:
    """Asks the program for the number of each refused call."""
    target, *accepted = played.accepted.script().splitlines(keepends=True)

    def asked(refused: Refused) -> tuple[int, int] | None:
        before, line, _ = refused
        return run_program(f"{target}{''.join(accepted[:before])}{line}\n".encode(), program=program).refused

    for (before, line, number), found in zip(played.refused, pool.map(asked, played.refused)):
        if found != (before + 2, number):
            raise Differs(f"{str(line)[:100]!r} is refused with {number}, and by the program {found}")


def scenes(given: argparse.Namespace) -> Iterator[tuple[Scene, list[Line]]]:
    """The scenes, and their lines with what is refused between them."""
    for number in range(given.scenes):
        chance = random.Random(f"{given.seed} {number}")
        scene = random_scenes.random_scene(chance, number, kinds=given.kinds)
        yield scene, refused_lines.disturbed(chance, scene, given.groups)


def compare(given: argparse.Namespace, pool: ThreadPoolExecutor) -> collections.Counter[int]:
    """Plays the scenes; gives how many calls were refused with each number."""
    program, numbers = find_program(given.program), collections.Counter[int]()
    for number, (scene, lines) in enumerate(told(scenes(given), given.scenes, "scenes")):
        played = Played(scene, lines, given.library)
        try:
            check_accepted(played, program)
            check_undisturbed(played, given.library)
            check_refusals(played, program, pool)
        except Differs as differs:
            tried = Scene.from_lines(scene.width, scene.height, lines, strict=False)
            pathlib.Path("differs.txt").write_text(tried.script(), encoding="ascii")
            sys.exit(f"compare_calls.py: scene {number}: {differs}; its lines are in differs.txt")
        numbers.update(refused for _, _, refused in played.refused)
        played.device.close()
    return numbers


def parsed() -> argparse.Namespace:
    parser = argparse.ArgumentParser(description=__doc__, formatter_class=argparse.RawDescriptionHelpFormatter)
    parser.add_argument("scenes", metavar="SCENES", nargs="?", type=whole_number(1), default=100, help="how many (100)")
    parser.add_argument("seed", metavar="SEED", nargs="?", type=int, default=1, help="of the random numbers (1)")
    many = f"how many groups of refused calls are put into a scene ({GROUPS})"
    parser.add_argument("--groups", metavar="N", type=whole_number(0), default=GROUPS, help=many)
    kinds = random_scenes.KINDS
    parser.add_argument(
        "--kinds", metavar="KIND", nargs="+", default=kinds, choices=kinds, help="of the scenes, in turn (all)"
    )
    side = f"how many runs of the program go on side by side ({JOBS})"
    parser.add_argument("--jobs", metavar="N", type=whole_number(1), default=JOBS, help=side)
    parser.add_argument("--program", metavar="FILE", help="the built program, if it isn't this clone's")
    parser.add_argument("--library", metavar="FILE", help="the library, if it isn't the one that the package finds")
    return parser.parse_args()


def main() -> None:
    given = parsed()
    try:
        with ThreadPoolExecutor(given.jobs) as pool:
            numbers = compare(given, pool)
    except YuzuratchetError as error:
        sys.exit(f"compare_calls.py: {error}")
    by_number = ", ".join(f"{count} with {number}" for number, count in sorted(numbers.items())) or "none"
    print(f"{given.scenes} scenes by calls agree; refused calls: {by_number}")


if __name__ == "__main__":
    sys.exit(ended(main))
