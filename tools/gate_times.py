#!/usr/bin/env python3
"""Runs the gate, looks every half second at its processes, and prints what each crate and each edit took of the
processors:

    tools/gate_times.py [COMMAND ..]

Without a command it runs `rt ci`; another one, such as `rt all check --jobs 4`, is looked at in the same way. The
first table has for each crate the processor seconds of its proof, of its tests, of the seed of its edits (the proof
that they begin with, and a look at it behind them) and of its edits; what compiling and linking took is in no row.
Behind it stand the edits that took longest. What the command itself prints goes to standard error.
"""
from __future__ import annotations

import argparse
import collections
import os
import subprocess
import sys
import time
from typing import Any

import package_path  # noqa: F401
from yuzuratchet.ending import ended

TICKS = os.sysconf("SC_CLK_TCK")
# by a process and when it started: the crate that it checks, the kind of the check, the edit's number, and the
# seconds
Checks = dict[tuple[str, Any], list[Any]]

CRATES = os.path.join(os.path.dirname(os.path.dirname(os.path.abspath(__file__))), "crates")


def read(path: str) -> bytes:
    """Returns the bytes of a file of /proc, or none where its process has ended."""
    try:
        with open(path, "rb") as file:
            return file.read()
    except OSError:
        return b""


def seen(process: str) -> tuple[bytes | None, float]:
    """Returns when a process started, and its processor seconds."""
    fields = read(f"/proc/{process}/stat").rpartition(b")")[2].split()
    return (fields[19], (int(fields[11]) + int(fields[12])) / TICKS) if fields else (None, 0)


def check_of(process: str) -> tuple[str, str, int | None] | None:
    """Returns the crate that a process checks, the kind of its check, and for an edit its number; or None."""
    words = read(f"/proc/{process}/cmdline").decode(errors="replace").split("\0")
    if os.path.basename(words[0]) != "rattle" or "--crate-name" not in words:
        return None
    try:
        is_edit = "/rt-edit-" in os.readlink(f"/proc/{process}/cwd")
    except OSError:
        return None
    # a crate's only edit is tried from nothing, others over what their seed kept
    over = os.path.basename(words[words.index("--incremental") + 1]) if "--incremental" in words else "0"
    kind = "seed" if is_edit and over == "seed" else "edits" if is_edit else "tests" if "--test" in words else "proof"
    # (`rt must-fail` tries a crate's edits in turn over one folder, whose name has no number)
    return words[words.index("--crate-name") + 1], kind, int(over) if kind == "edits" and over.isdigit() else None


def sample(checks: Checks) -> None:
    """Adds the processes that are there to those that were seen."""
    for process in filter(str.isdigit, os.listdir("/proc")):
        started, seconds = seen(process)
        if started and (process, started) not in checks:
            found = check_of(process)
            if found:
                checks[process, started] = [*found, 0.0]
        if (process, started) in checks:
            checks[process, started][3] = seconds


def edits_of(crate: str, checks: Checks) -> list[tuple[float, str]]:
    """Returns the seconds and names of a crate's edits; the gate numbers them in the order of their names."""
    spent: collections.Counter[int | None] = collections.Counter()
    for name, kind, number, seconds in checks.values():
        if (name, kind) == (crate, "edits"):
            spent[number] += seconds
    names = [it for it in sorted(os.listdir(f"{CRATES}/{crate}/must-fail")) if it.endswith(".edit")]
    return [
        (seconds, f"{crate}/{'its edits in turn' if number is None else names[number]}")
        for number, seconds in spent.items()
    ]


def print_tables(checks: Checks) -> None:
    """Prints what each crate took, and the edits that took longest."""
    spent: dict[str, collections.Counter[str]] = collections.defaultdict(collections.Counter)
    for name, kind, _, seconds in checks.values():
        spent[name][kind] += seconds
    kinds = ("proof", "tests", "seed", "edits")
    for name in sorted(spent, key=lambda it: -sum(spent[it].values())):
        print("|", name, "|", " | ".join(str(round(spent[name][it])) for it in kinds), "|")
    print(
        "| all, in minutes |",
        " | ".join(str(round(sum(it[kind] for it in spent.values()) / 60)) for kind in kinds),
        "|",
    )
    for seconds, edit in sorted(
        (it for name in spent if spent[name]["edits"] for it in edits_of(name, checks)), reverse=True
    )[:40]:
        print(f"{seconds:6.1f} {edit}")


def main() -> int:
    parser = argparse.ArgumentParser(description=__doc__, formatter_class=argparse.RawDescriptionHelpFormatter)
    parser.add_argument(
        "command", metavar="COMMAND", nargs=argparse.REMAINDER, help="the command and its words (rt ci)"
    )
    command = parser.parse_args().command or ["rt", "ci"]
    checks: Checks = {}
    started = time.time()
    try:
        running = subprocess.Popen(command, stdout=sys.stderr)
    except OSError as error:
        parser.exit(2, f"gate_times.py: {command[0]} doesn't start: {error.strerror}\n")
    while running.poll() is None:
        sample(checks)
        time.sleep(0.5)
    print_tables(checks)
    times = os.times()
    processor = times.children_user + times.children_system
    print(f"{(time.time() - started) / 60:.0f} minutes, {processor / 60:.0f} processor minutes")
    return running.returncode


if __name__ == "__main__":
    sys.exit(ended(main))
