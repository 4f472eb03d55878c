"""``yuzuratchet judge``."""

from __future__ import annotations

import argparse
import json
import os
import time
from concurrent.futures import ThreadPoolExecutor
from functools import partial
from pathlib import Path
from typing import TYPE_CHECKING, Any, Iterator

from ..arguments import whole_number
from .common import DIFFERENT, TROUBLE, WELL, add_command, check_writable
from .suite import is_written

if TYPE_CHECKING:
    from ..conformance import Conformance, RuleScript
    from ..judge_report import Judged, Verdicts
    from ..judging import Judge

ROUNDING = 1
"""How many units a depth may lie off: Direct3D converts floats to 24 bits with an error of up to one."""


def add(commands: Any) -> None:
    """Adds ``judge``."""
    about = "Plays a suite of scripts on another device, and tells what it does otherwise."
    found = add_command(commands, "judge", about)
    found.epilog = (
        "An adapter is a program that takes SCRIPT OUT.tga --planes FILE, as devices/ has some: "
        "docs/DEVICES.md. It ends with status 77 where its device can't do what a script asks."
    )
    adapter = "the adapter's command, as 'build/vulkan' or 'wine build/direct3d11.exe'"
    found.add_argument("adapter", metavar="ADAPTER", help=adapter)
    folder = "the suite: conformance/ of this clone, where none is named"
    found.add_argument("folder", metavar="FOLDER", nargs="?", type=Path, help=folder)
    only = "plays the scripts alone whose names match, as 'depth-*/*'"
    found.add_argument("--only", metavar="GLOB", help=only)
    add_tolerance(found)
    add_files(found)
    most, jobs = os.cpu_count() or 1, "how many scripts are played side by side (one a processor)"
    found.add_argument("--jobs", metavar="N", type=whole_number(1), default=most, help=jobs)
    seconds = "ends the adapter where it takes longer for a script (20)"
    found.add_argument("--seconds", metavar="N", type=whole_number(1), default=20, help=seconds)
    listed = "how many failing scripts of each rule are told (2)"
    found.add_argument("--list", metavar="N", type=whole_number(0), default=2, help=listed)
    add_random(found)
    found.set_defaults(run=judge)


def add_tolerance(found: argparse.ArgumentParser) -> None:
    """Adds how far depths may lie apart."""
    depth = found.add_mutually_exclusive_group()
    units = f"lets depths pass that lie at most so many of 16,777,215 apart ({ROUNDING})"
    depth.add_argument(
        "--depth-units", metavar="N", type=whole_number(0), default=ROUNDING, help=units
    )
    depth.add_argument("--exact", action="store_true", help="lets no depth pass that differs")


def add_files(found: argparse.ArgumentParser) -> None:
    """Adds the files that are written, and the list of failures that are known."""
    for name, what in (
        ("junit", "writes JUnit's XML for a build server"),
        ("page", "writes a page of what differs, with pictures"),
        ("json", "writes everything as JSON"),
    ):
        found.add_argument(f"--{name}", metavar="FILE", type=Path, help=what)
    known = (
        "a list of scripts that fail: the status is 1 where another fails, or one of them doesn't; "
        "'sometimes NAME' is one that may do either"
    )
    found.add_argument("--known", metavar="FILE", type=Path, help=known)


def add_random(found: argparse.ArgumentParser) -> None:
    """Adds the random mode."""
    from ..features import Feature

    how = "plays so many random scripts in place of a suite, and stores a smallest one of what differs"
    found.add_argument("--random", metavar="N", type=whole_number(1), help=how)
    seed = "with --random: of the random numbers (1)"
    found.add_argument("--seed", metavar="S", type=whole_number(0), default=1, help=seed)
    without = "with --random: leaves a feature out; may be said more than once"
    names = sorted(it.name.lower() for it in Feature)
    found.add_argument("--without", choices=names, action="append", default=[], help=without)
    out = "with --random: where scripts are stored (this folder)"
    found.add_argument("--out", metavar="FOLDER", type=Path, default=Path(), help=out)


def judge(given: argparse.Namespace) -> int:
    """Judges a device."""
    from ..adapters import Adapter
    from ..difference import Tolerance
    from ..judging import Judge

    for path in [it for it in (given.junit, given.page, given.json) if it]:
        check_writable(path)
    adapter = Adapter.of(given.adapter, given.seconds)
    how = {"program": given.program, "workers": given.workers}
    judging = Judge(adapter, Tolerance(depth=0 if given.exact else given.depth_units), how)
    if given.random:
        from .judge_random import judge_random

        return judge_random(given, judging)
    return judge_suite(given, judging)


def judge_suite(given: argparse.Namespace, judging: Judge) -> int:
    """Plays the suite, and tells what was found."""
    from ..conformance import Conformance
    from ..judge_report import Known, Verdicts

    known = Known.read(given.known) if given.known else None
    suite = Conformance.of_folder(given.folder, given.only)
    judged = tuple(each(suite, judging, given.jobs))
    adapter = judging.adapter
    verdicts = Verdicts(suite, adapter.device, adapter.notes, judged, known)
    return tell(given, verdicts, judging.tolerance.depth)


def each(suite: Conformance, judging: Judge, jobs: int) -> Iterator[Judged]:
    """Judges the scripts side by side, and gives them in their order."""
    from ..judging import Verdict
    from ..progress import ProgressLine

    line, failed = ProgressLine(), 0
    pool = ThreadPoolExecutor(max_workers=jobs)
    try:
        for number, it in enumerate(pool.map(partial(one, suite, judging), suite.scripts), 1):
            failed += it.found.verdict is Verdict.FAILED
            line.tell(f"{number} of {len(suite.scripts)} scripts, {failed} failed")
            yield it
    finally:
        pool.shutdown(cancel_futures=True)
        line.end()


def one(suite: Conformance, judging: Judge, script: RuleScript) -> Judged:
    """Judges a script."""
    from ..judge_report import Judged

    begun = time.monotonic()
    found = judging.judge(suite.read(script))
    return Judged(script, found, time.monotonic() - begun)


def tell(given: argparse.Namespace, verdicts: Verdicts, depth_units: int) -> int:
    """Tells what was found, in lines and in the files that are asked for."""
    from ..judge_report import as_json, write_junit, write_page

    tell_failures(given, verdicts)
    for note in verdicts.notes:
        print(f"the adapter notes: {note}")
    print(verdicts.table)
    first = verdicts.first_rule
    if first:
        print(f"rules lean on those above them: look at {first.folder} first ({first.chapter})")
    if given.known:
        for name in verdicts.failed_sometimes:
            print(f"{name}: fails, as it is known to do sometimes")
        print("\n".join(verdicts.news) or "each failure is known")
    text = json.dumps(as_json(verdicts, depth_units), indent=1)
    wanted = (
        (given.junit, lambda: write_junit(verdicts, given.junit)),
        (given.page, lambda: write_page(verdicts, given.page)),
        (given.json, lambda: given.json.write_text(text, encoding="utf-8")),
    )
    written = [is_written(path, write) for path, write in wanted if path]
    print(verdicts.summary, flush=True)
    if not all(written):
        return TROUBLE
    return DIFFERENT if verdicts.news else WELL


def tell_failures(given: argparse.Namespace, verdicts: Verdicts) -> None:
    """Tells the first failing scripts of each rule, with what differs and why."""
    from ..judging import Verdict

    failed = verdicts.of(Verdict.FAILED)
    for rule in verdicts.suite.rules:
        its = [it for it in failed if it.script.rule == rule]
        for it in its[: given.list]:
            print(f"{it.script.name}: {it.text}")
            print("\n".join(f"    {line}" for line in it.details.splitlines()))
        if its[given.list :] and given.list:
            print(f"{rule.folder}: and {len(its) - given.list} more scripts fail")
