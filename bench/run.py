#!/usr/bin/env python3
"""Times the built program over the benchmark scenes, and prints a table.

    bench/run.py [--workers N ..] [--runs N] [--whole] [--program FILE] [--against FILE] [SCENE ..]

A frame is one more execution: a scene is drawn with one frame and with 1 + m frames, in turns, and the difference of
the medians is divided by m; the processor time of a frame is had in the same way, that of all threads together. The
table also has the time of the whole run with one frame, reading and writing included, and its peak memory, the
largest resident set of the program. With --workers the program is told to draw with N workers beside the caller, 0 to
15, and the table has a row for each number, timed in the same turns; the image's digest is the same for every N.
Where 0 is among them, the column "Times alone" has the frame of each number divided by that of 0: above 1.00 the
workers cost time.

With --whole a scene is drawn with one frame alone, and the columns that compare do so with whole runs: what starting
and ending takes, where a script is short.

With --against another program is timed in the same turns, run for run. The last column then has its frame divided by
the program's, the median of the runs and what they lie between: above 1.00 the program is faster. Two programs whose
images differ end the run.
"""

from __future__ import annotations

import argparse
import hashlib
import os
import pathlib
import platform
import statistics
import subprocess
import sys
import tempfile
import time
import typing
from collections.abc import Iterator, Mapping, Sequence

import scenes
from yuzuratchet import ProgramMissing
from yuzuratchet.arguments import whole_number
from yuzuratchet.ending import ended
from yuzuratchet.limits import WORKERS
from yuzuratchet.program import find_program

HERE = pathlib.Path(__file__).resolve().parent

# how many frames more, so that the difference is some tenths of a second on a fast machine
MORE = {
    "large-triangles": 8,
    "small-triangles": 16,
    "executed-lists": 8,
    "executed-rounds": 6,
    "clears": 10,
    "large-plain": 8,
    "large-xor": 8,
    "shadow-volumes": 8,
    "ten-tiles": 20,
    "clear": 100,
    "one-triangle": 40,
    "indexed-strip": 8,
    "strip": 8,
    "idle-pixels": 6,
    "long-script": 1,
    "largest-target": 10,
    "largest-clear": 25,
    "many-executions": 1,
    "many-finishes": 15,
    "many-flushes": 15,
    "smallest": 1_000,
    "asked-small": 5,
    "asked-large": 5,
}


def machine() -> str:
    """The processor's name and how many of them there are."""
    for line in pathlib.Path("/proc/cpuinfo").read_text(encoding="ascii", errors="replace").split("\n"):
        if line.startswith("model name"):
            return f"{line.split(':')[1].strip()}, {os.cpu_count()} processors"
    return platform.machine()


class Run(typing.NamedTuple):
    """How long a run took, in seconds, and of the processors', its peak memory in MB, its answers and the digest of
    its image."""

    seconds: float
    processor: float
    memory: float
    answers: str
    digest: str


def digest_of(image: pathlib.Path) -> str:
    """The beginning of the SHA-256 of an image, which is read in pieces: a child's peak memory begins with that of
    its parent."""
    digest = hashlib.sha256()
    with open(image, "rb") as file:
        while piece := file.read(1 << 20):
            digest.update(piece)
    return digest.hexdigest()[:16]


def run(
    program: pathlib.Path,
    script: pathlib.Path,
    image: pathlib.Path,
    words: list[str],
    environment: Mapping[str, str] | None = None,
    stderr: int | None = None,
) -> Run:
    """Runs the program once, with more in its environment, and what it says on standard error there or elsewhere."""
    more = {**os.environ, **(environment or {})}
    before = time.monotonic()
    child = subprocess.Popen(
        [program, script, image, *words], stdout=subprocess.PIPE, stderr=stderr, text=True, env=more
    )
    assert child.stdout is not None
    answers = child.stdout.read()
    _, status, usage = os.wait4(child.pid, 0)
    seconds = time.monotonic() - before
    if status:
        sys.exit(f"{program} ended with status {status >> 8} on {script}: {answers[-200:]}")
    return Run(seconds, usage.ru_utime + usage.ru_stime, usage.ru_maxrss / 1024, answers, digest_of(image))


def written(room: str, name: str, whole: bool) -> dict[int, pathlib.Path]:
    """The scene with one frame, and with more unless whole runs are compared, as files by their frames."""
    files = {frames: pathlib.Path(room, f"{name}-{frames}.txt") for frames in (1, *[1 + MORE[name]] * (not whole))}
    for frames, file in files.items():
        # (written by a process of its own: a child's peak memory begins with that of its parent)
        with open(file, "wb") as out:
            subprocess.run([sys.executable, HERE / "scenes.py", name, str(frames)], stdout=out, check=True)
    return files


class Timed:
    """The runs of one program over a scene with so many workers, with one frame and, unless whole runs are compared,
    with more."""

    def __init__(self, program: pathlib.Path, workers: int, name: str, whole: bool) -> None:
        self.program, self.workers, self.more, self.whole = program, workers, MORE[name], whole
        self.runs: dict[int, list[Run]] = {1: [], 1 + self.more: []}

    def take(self, frames: int, file: pathlib.Path, image: pathlib.Path) -> None:
        self.runs[frames].append(run(self.program, file, image, ["--workers", str(self.workers)]))

    @property
    def last(self) -> Run:
        return self.runs[1][-1]

    def median(self, what: str, frames: int = 1) -> float:
        return float(statistics.median(getattr(it, what) for it in self.runs[frames]))

    def frame(self, what: str) -> str:
        """Milliseconds of a frame, of the time or of the processors' time."""
        if self.whole:
            return "-"
        return f"{1000 * (self.median(what, 1 + self.more) - self.median(what)) / self.more:.2f} ms"

    def compared(self) -> list[float]:
        """The seconds of the frames of each run, or of the whole run."""
        one, all_frames = self.runs.values()
        if self.whole:
            return [it.seconds for it in one]
        return [long.seconds - short.seconds for short, long in zip(one, all_frames)]

    def run(self) -> str:
        """How long a run with one frame takes."""
        seconds = self.median("seconds")
        return f"{seconds:.2f} s" if seconds >= 0.1 else f"{1000 * seconds:.2f} ms"


def ratio(timed: Timed, other: Timed) -> str:
    """What the other takes divided by what the first takes: the median of the runs, and what they lie between."""
    ratios = sorted(b / a for a, b in zip(timed.compared(), other.compared()) if a > 0 and b > 0)
    if not ratios:
        return "not to be told"
    return f"{statistics.median(ratios):.2f} ({ratios[0]:.2f} to {ratios[-1]:.2f})"


def timed_in_turns(
    given: argparse.Namespace,
    programs: list[pathlib.Path],
    files: dict[int, pathlib.Path],
    image: pathlib.Path,
    name: str,
) -> dict[int, list[Timed]]:
    """The runs over a scene: for each number of workers those of each program."""
    all_timed = {
        workers: [Timed(program, workers, name, given.whole) for program in programs] for workers in given.workers
    }
    each = [timed for group in all_timed.values() for timed in group]
    for _ in range(given.runs):
        for frames in reversed(files):
            for timed in each:
                timed.take(frames, files[frames], image)
    if len({(it.last.answers, it.last.digest) for it in each}) > 1:
        sys.exit(f"run.py: the programs' answers or images differ on {name}")
    return all_timed


def rows(given: argparse.Namespace, programs: list[pathlib.Path], room: str, name: str) -> Iterator[list[object]]:
    """The table's rows of a scene, one for each number of workers."""
    files, image = written(room, name, given.whole), pathlib.Path(room, "out.tga")
    size = files[1].stat().st_size / 1e6
    all_timed = timed_in_turns(given, programs, files, image, name)
    for workers, (timed, *others) in all_timed.items():
        cells = [name, workers, f"{size:.1f} MB", timed.frame("seconds"), timed.frame("processor")]
        cells += [timed.run(), f"{timed.last.memory:.0f} MB", timed.last.answers.count("\n"), timed.last.digest]
        if has_alone(given):
            cells.append(ratio(all_timed[0][0], timed))
        yield [*cells, *(ratio(timed, other) for other in others)]
    for file in files.values():
        file.unlink()


def has_alone(given: argparse.Namespace) -> bool:
    """Whether rows are compared with that of no workers."""
    return 0 in given.workers and len(given.workers) > 1


def table_row(cells: Sequence[object]) -> str:
    return f"| {' | '.join(map(str, cells))} |"


def parsed() -> argparse.Namespace:
    parser = argparse.ArgumentParser(description=__doc__, formatter_class=argparse.RawDescriptionHelpFormatter)
    parser.add_argument("scenes", metavar="SCENE", nargs="*", help=f"of {', '.join(scenes.SCENES)}; without one, all")
    workers = f"how many workers draw beside the caller, 0 to {WORKERS}; with several, a row for each (0)"
    parser.add_argument("--workers", metavar="N", nargs="+", type=whole_number(0, WORKERS), default=[0], help=workers)
    parser.add_argument("--runs", metavar="N", type=whole_number(1), default=5, help="how many runs a median is of (5)")
    parser.add_argument("--whole", action="store_true", help="whole runs are compared, and not frames")
    parser.add_argument("--program", metavar="FILE", help="the built program, if it isn't this clone's")
    parser.add_argument("--against", metavar="FILE", help="another built program, timed in the same turns")
    given = parser.parse_args()
    unknown = [it for it in given.scenes if it not in scenes.SCENES]
    if unknown:
        parser.error(f"no scene {' '.join(unknown)}")
    return given


HEADINGS = [
    "Scene",
    "Workers",
    "Script",
    "Frame",
    "Processor time",
    "Whole run",
    "Peak memory",
    "Answers",
    "Image (SHA-256 begins)",
]


def main() -> None:
    given = parsed()
    try:
        programs = [find_program(it) for it in (given.program, given.against)[: 1 + bool(given.against)]]
    except ProgramMissing as error:
        sys.exit(f"run.py: {error}")
    headings = (
        HEADINGS + ["Times alone"] * has_alone(given) + ["Against the other: times as fast"] * bool(given.against)
    )
    print(f"On {machine()}, medians of {given.runs} runs:\n")
    print(table_row(headings) + "\n" + "|---" * len(headings) + "|")
    with tempfile.TemporaryDirectory() as room:
        for name in given.scenes or scenes.SCENES:
            for cells in rows(given, programs, room, name):
                print(table_row(cells), flush=True)


if __name__ == "__main__":
    sys.exit(ended(main))
