#!/usr/bin/env python3
"""Times what one call costs: a target of 64 by 64 with a clear, by the library from C and from Python, and by the
program.

    bench/calls.py [--times N] [--runs N] [--library FILE] [--program FILE]

Each row is the median of some runs, in microseconds of processor time a call, that of processes that are started
included. A row whose library, compiler or program isn't there says so.
"""

from __future__ import annotations

import argparse
import os
import pathlib
import shutil
import statistics
import subprocess
import sys
import tempfile
from collections.abc import Callable

import scenes  # noqa: F401 (it puts the package on the path)
from yuzuratchet import YuzuratchetError
from yuzuratchet.arguments import whole_number
from yuzuratchet.ending import ended
from yuzuratchet.library import find_library, run_library
from yuzuratchet.program import find_program, run_program

LIBRARY = pathlib.Path(__file__).resolve().parent.parent / "library"
SONAME = "libyuzuratchet.so.0"
# (library/tests/calls.c has its own number)
C_CALLS = 10_000
SCRIPT = b"target 64 64\ni clearc 24 24 40 255\n"
# starting a process takes so much longer
PROGRAM_SHARE = 50

# seconds of so many calls
Timer = Callable[[int], float]
Prepare = Callable[[argparse.Namespace, pathlib.Path], "tuple[Timer, int]"]


def by_c(given: argparse.Namespace, room: pathlib.Path) -> tuple[Timer, int]:
    """Seconds of so many calls from C, as a function."""
    compiler = shutil.which("cc")
    if compiler is None:
        raise YuzuratchetError("there is no C compiler (cc)")
    library, built = pathlib.Path(find_library(given.library)).absolute(), room / "calls"
    (room / SONAME).write_bytes(library.read_bytes())
    words: list[str | pathlib.Path] = [
        compiler,
        "-O2",
        f"-I{LIBRARY}",
        LIBRARY / "tests" / "calls.c",
        room / SONAME,
        f"-Wl,-rpath,{room}",
        "-o",
        built,
    ]
    made = subprocess.run(words, capture_output=True, encoding="utf-8", check=False)
    if made.returncode:
        raise YuzuratchetError(made.stderr.strip().splitlines()[0])

    def run(times: int) -> float:
        ran = subprocess.run([built], capture_output=True, encoding="utf-8", check=True)
        return float(ran.stdout) * 1e-6 * times

    return run, C_CALLS


def by_python(given: argparse.Namespace, _: pathlib.Path) -> tuple[Timer, int]:
    """The same from Python: with areas made anew for each call, and the answers and the image as values."""
    library = find_library(given.library)
    return timed(lambda: run_library(SCRIPT, library=library)), given.times


def by_program(given: argparse.Namespace, _: pathlib.Path) -> tuple[Timer, int]:
    """The same by processes, with files for the script and the image."""
    program = find_program(given.program)
    return timed(lambda: run_program(SCRIPT, program=program)), max(1, given.times // PROGRAM_SHARE)


def timed(call: Callable[[], object]) -> Timer:
    """Seconds of so many calls, as a function."""

    def run(times: int) -> float:
        begun = used()
        for _ in range(times):
            call()
        return used() - begun

    return run


def used() -> float:
    """Seconds of processor time until now, those of ended processes included."""
    return sum(os.times()[:4])


def row(given: argparse.Namespace, room: pathlib.Path, prepare: Prepare) -> str:
    """A row's times: how many calls a run has, and what one takes."""
    try:
        run, times = prepare(given, room)
        run(max(1, times // 10))
        taken = [run(times) / times * 1e6 for _ in range(given.runs)]
    except (YuzuratchetError, OSError, subprocess.SubprocessError) as error:
        return f"| | not measured: {str(error).splitlines()[0]} |"
    return f"| {times:,} | {statistics.median(taken):,.1f} us ({min(taken):,.1f} to {max(taken):,.1f}) |"


def main() -> None:
    parser = argparse.ArgumentParser(description=__doc__, formatter_class=argparse.RawDescriptionHelpFormatter)
    parser.add_argument("--times", metavar="N", type=whole_number(1), default=10_000, help="calls of a run (10,000)")
    parser.add_argument(
        "--runs", metavar="N", type=whole_number(1), default=5, help="runs, of which the median is told (5)"
    )
    parser.add_argument("--library", metavar="FILE", help="the built library (as the package finds it)")
    parser.add_argument("--program", metavar="FILE", help="the built program (as the package finds it)")
    given = parser.parse_args()
    print("| Called | Calls | One call |\n|---|---|---|")
    with tempfile.TemporaryDirectory(prefix="calls-") as room:
        rows = [("library, from C", by_c), ("library, from Python", by_python), ("program, a process each", by_program)]
        for name, prepare in rows:
            print(f"| {name} {row(given, pathlib.Path(room), prepare)}", flush=True)


if __name__ == "__main__":
    sys.exit(ended(main))
