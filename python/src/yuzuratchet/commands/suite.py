"""``yuzuratchet suite``."""

from __future__ import annotations

import argparse
import os
import re
import sys
from functools import partial
from pathlib import Path
from typing import TYPE_CHECKING, Any, Callable

from .. import interrupts
from ..arguments import whole_number
from ..errors import YuzuratchetError
from ..messages import message_of
from .common import DIFFERENT, TROUBLE, WELL, add_command, check_writable

if TYPE_CHECKING:
    from ..suite import Outcome, Suite
    from ..suite_run import Farm, Progress, Stored, SuiteRun

WHOLE_TEXT = "1/1"
"""The part that is all of a suite."""


def add(commands: Any) -> None:
    """Adds ``suite``."""
    about = "Draws each script of a folder, and compares answers and images with what is stored."
    found = add_command(commands, "suite", about)
    found.add_argument("folder", metavar="FOLDER", type=Path, nargs="?")
    only = "draws the scripts alone whose names match, as 'fog/*'"
    found.add_argument("--only", metavar="GLOB", help=only)
    part = "draws part K of N, into which scripts fall by their names: for N machines, a part each"
    found.add_argument("--shard", metavar="K/N", type=shard, default=WHOLE_TEXT, help=part)
    joins = "joins what --junit and --page wrote of the parts, in place of drawing a FOLDER"
    found.add_argument("--merge", metavar="FILE", type=Path, nargs="+", help=joins)
    found.add_argument(
        "--junit", metavar="FILE", type=Path, help="writes JUnit's XML for a build server"
    )
    page = "writes a page of what differs, with images"
    found.add_argument("--page", metavar="FILE", type=Path, help=page)
    channel = "lets images pass whose channels lie at most so far from the stored picture (0)"
    found.add_argument(
        "--tolerance", metavar="N", type=whole_number(0, 255), default=0, help=channel
    )
    add_storing(found)
    most, jobs = os.cpu_count() or 1, "how many scripts are drawn side by side (one a processor)"
    found.add_argument("--jobs", metavar="N", type=whole_number(1), default=most, help=jobs)
    seconds = "ends a script's run that takes longer (60)"
    found.add_argument("--seconds", metavar="N", type=whole_number(1), default=60, help=seconds)
    found.set_defaults(run=suite)


def shard(text: str) -> tuple[int, int]:
    """The two numbers of a part: a kind of argument."""
    found = re.fullmatch(r"([0-9]{1,6})/([0-9]{1,6})", text)
    if not found or not 1 <= int(found[1]) <= int(found[2]):
        raise argparse.ArgumentTypeError(f"{text!r} is no K/N, as 1/4 to 4/4")
    return int(found[1]), int(found[2])


def add_storing(found: argparse.ArgumentParser) -> None:
    """Adds what has to do with storing."""
    write = "stores what is drawn, in place of comparing"
    found.add_argument("--write", action="store_true", help=write)
    planes = (
        "with --write: stores digests of depth and stencil too, which are compared from then on"
    )
    found.add_argument("--planes", action="store_true", help=planes)
    faults = "with --write: stores scripts that have a fault too"
    found.add_argument("--allow-faults", action="store_true", help=faults)


def check_words(given: argparse.Namespace) -> None:
    """Raises where the words don't go together."""
    if bool(given.folder) == bool(given.merge):
        raise YuzuratchetError(
            "a FOLDER is drawn, or files are joined by --merge: name one of both"
        )
    if given.merge and (given.write or not (given.junit or given.page)):
        raise YuzuratchetError("--merge is for --junit FILE or --page FILE, which it writes")
    for name in ("junit", "page", "tolerance"):
        if given.write and getattr(given, name):
            why = f"--{name} is for comparing, and --write stores and compares nothing"
            raise YuzuratchetError(f"{why}: leave one of them out")
    for name in ("planes", "allow_faults"):
        if getattr(given, name) and not given.write:
            word = name.replace("_", "-")
            raise YuzuratchetError(
                f"--{word} says what --write stores, and nothing is stored without it"
            )


def suite(given: argparse.Namespace) -> int:
    """Runs a suite."""
    from ..program import find_program
    from ..suite import Shard, Suite
    from ..suite_run import Drawing, Farm, Progress

    check_words(given)
    if given.merge:
        return merge(given)
    found = Suite.of_folder(given.folder, given.only, Shard(*given.shard))
    names = found.names()
    if not names and given.shard[1] == 1:
        which = (
            f"no script whose name matches {given.only!r}" if given.only else "no scripts (*.txt)"
        )
        raise YuzuratchetError(f"{given.folder} has {which}")
    program = find_program(given.program)
    for path in [it for it in (given.junit, given.page) if it]:
        check_writable(path)
    farm = Farm(Drawing(program, given.workers, given.seconds, given.jobs, given.planes))
    progress = Progress(len(names))
    return (write if given.write else compare)(given, found, farm, progress)


def merge(given: argparse.Namespace) -> int:
    """Joins what was written of the parts of a suite."""
    from ..merging import Merged

    merged = Merged.of_files(given.merge)
    failed = []
    for path, text in ((given.junit, merged.junit), (given.page, merged.page)):
        if path:
            failed.append(not is_written(path, partial(path.write_text, text, encoding="utf-8")))
    print(merged.summary, flush=True)
    if any(failed) or merged.missing:
        return TROUBLE
    return WELL if merged.is_well else DIFFERENT


# ---- comparing


def compare(given: argparse.Namespace, found: Suite, farm: Farm, progress: Progress) -> int:
    """Draws a suite, and tells how it stands to what is stored."""
    from ..difference import Tolerance
    from ..suite_run import compare_all

    run = compare_all(found, farm, progress, Tolerance(given.tolerance))
    progress.end()
    return tell(given, found, run)


def tell(given: argparse.Namespace, found: Suite, run: SuiteRun) -> int:
    """Tells what came of a suite, in lines and in the files that are asked for."""
    from ..report import Report, write_junit, write_page
    from ..suite import Verdict

    report = Report(found, run, given.folder.resolve().name)
    for outcome in report.differing:
        print(f"{outcome.name}: {outcome.text}")
        for line in report.details(outcome).splitlines():
            print(f"    {line}")
    if any(it.verdict is Verdict.NOT_STORED for it in report.differing):
        print(f"what is drawn now is stored by: yuzuratchet suite {given.folder} --write")
    wanted = ((given.junit, write_junit), (given.page, write_page))
    failed = [not is_written(path, lambda: write(report, path)) for path, write in wanted if path]
    print(report.summary, flush=True)
    if run.cut:
        return interrupts.status_of(run.cut)
    if any(failed):
        return TROUBLE
    return DIFFERENT if report.differing else WELL


def is_written(path: Path, write: Callable[[], object]) -> bool:
    """Writes a file; where that fails it is told, and what else there is to tell goes on."""
    try:
        write()
    except OSError as error:
        print(f"yuzuratchet: {path}: {error.strerror or error}", file=sys.stderr)
        return False
    print(f"written: {path}")
    return True


# ---- storing


def write(given: argparse.Namespace, found: Suite, farm: Farm, progress: Progress) -> int:
    """Draws a suite, and stores what came."""
    from ..suite_run import store

    if found.pictures is not None:
        check_writable(found.expected)
    stored = store(found, farm, progress, given.allow_faults)
    progress.end()
    tell_refused(stored)
    for path in stored.removed:
        print(f"removed: {path}")
    for outcome in stored.failed:
        print(f"{outcome.name}: {outcome.verdict.value}: {outcome.message}")
    if stored.run.cut:
        print(f"cut short by {interrupts.name_of(stored.run.cut)}: nothing is stored")
        return interrupts.status_of(stored.run.cut)
    if stored.failed:
        print("nothing is stored")
        return DIFFERENT
    count = f"{len(stored.stored)} script{'' if len(stored.stored) == 1 else 's'}"
    print(f"{count} drawn, and stored in {found.expected}")
    if stored.faulty:
        print("what has a fault isn't stored: mend it, or store it as it is by --allow-faults")
        return DIFFERENT
    return WELL


def tell_refused(stored: Stored) -> None:
    """Lists the scripts that are refused, and those that have a fault."""
    for outcome in stored.run.outcomes:
        told = refusal_text(outcome)
        if told:
            print(f"{told}{', not stored' if outcome in stored.faulty else ''}")


def refusal_text(outcome: Outcome) -> str:
    """Where a script is refused or has a fault, and why; nothing where it is drawn."""
    if outcome.drawn is None or outcome.drawn.refused is None:
        return ""
    line, number = outcome.drawn.refused
    kind = "fault" if outcome.drawn.is_fault else "refused with"
    return f"{outcome.name}:{line}: {kind} {number}, {message_of(number).when}"
