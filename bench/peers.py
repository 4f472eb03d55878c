#!/usr/bin/env python3
"""Times the built program beside another device, in the same turns, and prints a table.

    bench/peers.py ADAPTER [SCENE ..] [--threads N ..] [--runs N] [--program FILE]

ADAPTER plays scripts on the other device: out/devices/vulkan, say, as docs/DEVICES.md has it built. A frame is one more
execution of what was recorded: both draw a scene with one frame and with several, and the difference is divided. With N
threads the program has N - 1 workers beside the caller, and Mesa's devices on processors have N threads of their own
(LP_NUM_THREADS). "Part" is the program's frame as a part of the other's, the median of the turns and what they lie
between: below 1.00 the program is faster. PEERS.md says what the two don't do alike.
"""

from __future__ import annotations

import argparse
import pathlib
import statistics
import subprocess
import sys
import tempfile
import typing
from collections.abc import Iterator

import scenes
from run import MORE, machine, run, table_row, written
from yuzuratchet import ProgramMissing
from yuzuratchet.arguments import whole_number
from yuzuratchet.ending import ended
from yuzuratchet.limits import WORKERS
from yuzuratchet.program import find_program

SCENES = (
    "large-triangles",
    "large-plain",
    "large-xor",
    "shadow-volumes",
    "small-triangles",
    "clears",
    "executed-rounds",
)
HEADINGS = ["Scene", "Threads", "Frame", "Other's frame", "Part"]


class Turn(typing.NamedTuple):
    """What a frame of both took, in milliseconds."""

    ours: float
    theirs: float


def turn(given: argparse.Namespace, files: dict[int, pathlib.Path], threads: int) -> Turn:
    """Times a frame of both, by whole runs in turns."""
    image = files[1].with_suffix(".tga")
    words, told = ["--workers", str(threads - 1)], {"LP_NUM_THREADS": str(threads)}
    ours, theirs = [], []
    for frames in sorted(files, reverse=True):
        ours.append(run(given.program, files[frames], image, words).seconds)
        # (adapters name their device on standard error)
        theirs.append(run(given.adapter, files[frames], image, [], told, subprocess.DEVNULL).seconds)
    more = max(files) - 1
    return Turn(1000 * (ours[0] - ours[1]) / more, 1000 * (theirs[0] - theirs[1]) / more)


def part(turns: list[Turn]) -> str:
    """The parts of all turns in which both took time."""
    parts = sorted(it.ours / it.theirs for it in turns if it.ours > 0 and it.theirs > 0)
    if not parts:
        return "not to be told"
    return f"{statistics.median(parts):.2f} ({parts[0]:.2f} to {parts[-1]:.2f})"


def rows(given: argparse.Namespace, room: str, name: str) -> Iterator[list[object]]:
    """The table's rows of a scene, one for each number of threads."""
    files = written(room, name, False)
    for threads in given.threads:
        turns = [turn(given, files, threads) for _ in range(given.runs)]
        ours, theirs = (statistics.median(it) for it in zip(*turns))
        yield [name, threads, f"{ours:.1f} ms", f"{theirs:.1f} ms", part(turns)]
    for file in files.values():
        file.unlink()


def parsed() -> argparse.Namespace:
    parser = argparse.ArgumentParser(description=__doc__, formatter_class=argparse.RawDescriptionHelpFormatter)
    parser.add_argument("adapter", metavar="ADAPTER", type=pathlib.Path, help="what plays scripts on the other device")
    parser.add_argument("scenes", metavar="SCENE", nargs="*", help=f"of {', '.join(MORE)}; without one, {len(SCENES)}")
    threads = f"how many threads draw, 1 to {WORKERS + 1}; with several, a row for each (1 4)"
    number = whole_number(1, WORKERS + 1)
    parser.add_argument("--threads", metavar="N", nargs="+", type=number, default=[1, 4], help=threads)
    parser.add_argument(
        "--runs", metavar="N", type=whole_number(1), default=5, help="how many turns a median is of (5)"
    )
    parser.add_argument("--program", metavar="FILE", help="the built program, if it isn't this clone's")
    given = parser.parse_args()
    unknown = [it for it in given.scenes if it not in scenes.SCENES]
    if unknown:
        parser.error(f"no scene {' '.join(unknown)}")
    try:
        subprocess.run([given.adapter], capture_output=True, check=False)
        given.program = find_program(given.program)
    except OSError as error:
        parser.error(f"{given.adapter} doesn't start: {error.strerror}")
    except ProgramMissing as error:
        parser.error(str(error))
    return given


def main() -> None:
    given = parsed()
    print(f"On {machine()}, medians of {given.runs} turns:\n")
    print(table_row(HEADINGS) + "\n" + "|---" * len(HEADINGS) + "|")
    with tempfile.TemporaryDirectory() as room:
        for name in given.scenes or SCENES:
            for cells in rows(given, room, name):
                print(table_row(cells), flush=True)


if __name__ == "__main__":
    sys.exit(ended(main))
