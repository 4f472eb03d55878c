#!/usr/bin/env python3
"""Times how many small scripts one core draws in a second, by each of the ways of docs/CI.md.

    bench/suites.py [--scripts N] [--runs N] [--program FILE]

The scripts are targets of 64 by 64 with a clear, each of another colour, and what they draw is stored before. A row is
the median of some runs, and what they lie between: scripts a second of processor time, that of processes that are
started included. A way whose library, program or packages aren't there says so.
"""

from __future__ import annotations

import argparse
import importlib
import os
import pathlib
import resource
import shutil
import statistics
import subprocess
import sys
import tempfile
import time
from collections.abc import Callable

import scenes  # noqa: F401 (it puts the package on the path)
from yuzuratchet import YuzuratchetError
from yuzuratchet.arguments import whole_number
from yuzuratchet.ending import ended
from yuzuratchet.library import find_library, run_library
from yuzuratchet.program import find_program

try:
    from yuzuratchet.suite_run import Drawing, run_suite
except ModuleNotFoundError as missing:
    sys.exit(f"suites.py: {missing.name} is missing (Debian: python3-numpy)")

TOP = pathlib.Path(__file__).resolve().parent.parent
SOURCES = str(TOP / "python" / "src")
CTEST = TOP / "docs" / "ci" / "CMakeLists.txt"

# draws all scripts of a folder by a program, and gives the seconds of processor time that it took
Way = Callable[[pathlib.Path, pathlib.Path], float]


def used() -> float:
    """Seconds of processor time until now, those of ended processes included."""
    ended_ones = resource.getrusage(resource.RUSAGE_CHILDREN)
    return time.process_time() + ended_ones.ru_utime + ended_ones.ru_stime


def run(words: list[object], **environment: str) -> None:
    """Runs a command."""
    how = {**os.environ, "PYTHONPATH": SOURCES, **environment}
    ran = subprocess.run(list(map(str, words)), env=how, capture_output=True, encoding="utf-8", check=False)
    if ran.returncode:
        raise YuzuratchetError((ran.stderr or ran.stdout).strip() or f"{words[0]} ended with {ran.returncode}")


def suite(program: pathlib.Path, *words: object) -> None:
    """Runs `yuzuratchet suite`, one script after the other."""
    run([sys.executable, "-B", "-m", "yuzuratchet", "suite", *words, "--jobs", 1, "--program", program])


def by_library(scripts: pathlib.Path, _: pathlib.Path) -> float:
    """By the library in this process, from the bytes of a script to values; nothing is compared."""
    library, texts = find_library(), [it.read_bytes() for it in scripts.glob("*.txt")]
    begun = used()
    for text in texts:
        run_library(text, library=library)
    return used() - begun


def by_suite(scripts: pathlib.Path, program: pathlib.Path) -> float:
    """By one `suite`."""
    begun = used()
    suite(program, scripts)
    return used() - begun


def by_parts(scripts: pathlib.Path, program: pathlib.Path) -> float:
    """By four parts, one after the other, and their files joined."""
    begun, files = used(), [scripts.parent / f"{part}.xml" for part in (1, 2, 3, 4)]
    for part, file in enumerate(files, 1):
        suite(program, scripts, "--shard", f"{part}/4", "--junit", file)
    suite(program, "--merge", *files, "--junit", scripts.parent / "joined.xml")
    return used() - begun


def by_farm(scripts: pathlib.Path, program: pathlib.Path) -> float:
    """By Dask's executor with a worker on this machine, whose start isn't counted."""
    try:
        dask = importlib.import_module("distributed")
    except ImportError:
        raise YuzuratchetError("Dask isn't installed (Debian: python3-distributed)") from None
    os.environ["PYTHONPATH"] = SOURCES
    quiet = {"dashboard_address": None, "silence_logs": "ERROR", "local_directory": str(scripts.parent)}
    with dask.LocalCluster(n_workers=1, threads_per_worker=1, **quiet) as cluster, dask.Client(cluster) as client:

        def of_all() -> float:
            return used() + float(sum(client.run(used).values()))

        begun = of_all()
        run_suite(scripts, executor=client.get_executor(), drawing=Drawing(program))
        return of_all() - begun


def by_ctest(scripts: pathlib.Path, program: pathlib.Path) -> float:
    """By CTest, a test for each script, by the program alone; nothing is compared."""
    if not (shutil.which("cmake") and shutil.which("ctest")):
        raise YuzuratchetError("CMake isn't installed")
    build = scripts.parent / "build"
    shutil.copy(CTEST, scripts.parent)
    run(["cmake", "-S", scripts.parent, "-B", build, f"-DTILEDRAW={program}"])
    begun = used()
    run(["ctest", "--test-dir", build, "--exclude-regex", "^suite$"])
    return used() - begun


WAYS: dict[str, Way] = {
    "the library, from Python": by_library,
    "`yuzuratchet suite`": by_suite,
    "four parts, and `--merge`": by_parts,
    "an executor, Dask's": by_farm,
    "CTest, by the program alone": by_ctest,
}


def write_scripts(folder: pathlib.Path, count: int, program: pathlib.Path) -> None:
    """Writes the scripts, and stores what they draw."""
    folder.mkdir()
    for number in range(count):
        colour = f"{number % 256} {number // 256 % 256} 40 255"
        (folder / f"{number:05}.txt").write_text(f"target 64 64\ni clearc {colour}\n", encoding="ascii")
    suite(program, folder, "--write")


def row(way: Way, runs: int, scripts: pathlib.Path, program: pathlib.Path) -> str:
    """How many scripts a second a way draws."""
    count = len([*scripts.glob("*.txt")])
    try:
        rates = [count / way(scripts, program) for _ in range(runs)]
    except (YuzuratchetError, OSError) as error:
        return f"not measured: {str(error).splitlines()[0]}"
    return f"{statistics.median(rates):,.0f} ({min(rates):,.0f} to {max(rates):,.0f})"


def main() -> None:
    parser = argparse.ArgumentParser(description=__doc__, formatter_class=argparse.RawDescriptionHelpFormatter)
    parser.add_argument("--scripts", metavar="N", type=whole_number(4), default=400, help="how many (400)")
    parser.add_argument(
        "--runs", metavar="N", type=whole_number(1), default=5, help="runs, of which the median is told (5)"
    )
    parser.add_argument("--program", metavar="FILE", help="the built program (as the package finds it)")
    given = parser.parse_args()
    with tempfile.TemporaryDirectory(prefix="suites-") as room:
        try:
            program, folder = find_program(given.program).absolute(), pathlib.Path(room, "scenes")
            write_scripts(folder, given.scripts, program)
        except (YuzuratchetError, OSError) as error:
            sys.exit(f"suites.py: {error}")
        print("| By | Scripts a second of a core |\n|---|---|")
        for name, way in WAYS.items():
            print(f"| {name} | {row(way, given.runs, folder, program)} |", flush=True)


if __name__ == "__main__":
    sys.exit(ended(main))
