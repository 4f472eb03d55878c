#!/usr/bin/env python3
"""Changes scripts of the gallery at random, and holds what `yuzuratchet check` tells of them against the program.

    tools/compare_checked.py [SCRIPTS [SEED]] [--jobs N] [--program FILE]

Line and number are the program's, so what is looked at is the rest: that the package's tables find a word for that
line and number, each time; that it is the word that was changed, where the change can be only one fault; and that the
text is that of an editor's message, with the mark below that word. The first script that fails is left in
differs.txt.
"""

from __future__ import annotations

import argparse
import random
import re
import sys
from concurrent.futures import ThreadPoolExecutor
from pathlib import Path

import mutated_scripts
import package_path  # noqa: F401
from mutated_scripts import Fault
from yuzuratchet import YuzuratchetError
from yuzuratchet.arguments import whole_number
from yuzuratchet.check import Finding, check_script, report
from yuzuratchet.ending import ended
from yuzuratchet.program import find_program

HEAD = re.compile(r"name:\d+:\d+: (fault|refusal) \d+: .+")


def complaint(text: bytes, wanted: Fault | None, finding: Finding | None) -> str | None:
    """Why what is told of a script can't be right, or None."""
    if finding is None:
        return f"no fault is told, and {wanted} is wanted" if wanted else None
    if not finding.is_located:
        return f"no word is found for line {finding.line}, number {finding.number}"
    if wanted and (finding.line, finding.number, finding.start) != wanted:
        return f"{(finding.line, finding.number, finding.start)} is told, and {wanted} is wanted"
    lines = text.split(b"\n")
    line = lines[finding.line - 1] if finding.line <= len(lines) else b""
    if not 0 <= finding.start <= finding.end <= len(line):
        return f"bytes {finding.start} to {finding.end} lie outside of the line"
    told = report(finding, "name", text)
    if not HEAD.match(told):
        return f"{told!r} is no message of an editor"
    return misplaced_mark(told, line[finding.start : finding.end])


def misplaced_mark(told: str, word: bytes) -> str | None:
    """Why the mark doesn't stand below the word, or None."""
    lines = told.split("\n")
    if len(lines) < 3 or "^" not in lines[2]:
        return None
    first, last = lines[2].index("^"), lines[2].rindex("^") + 1
    shown, letters = lines[1][first:last], word.decode("utf-8", "replace")
    plain = "".join(it if it.isprintable() and it.isascii() else "?" for it in letters)
    cut = shown.removesuffix("...") if len(plain) > len(shown) else shown
    return None if plain.startswith(cut) else f"the mark stands below {shown!r}, and not below {plain!r}"


def compare_one(seed: int, texts: list[bytes], program: Path) -> tuple[bytes, str | None, Finding | None]:
    """A changed script with what is wrong about the message, or None, and whether it has a fault or is refused."""
    text, wanted = mutated_scripts.mutated(random.Random(seed), texts)
    finding = check_script(text, program=program)
    return text, complaint(text, wanted, finding), finding


def compare(given: argparse.Namespace) -> None:
    program, texts = find_program(given.program), mutated_scripts.sources()
    seeds = range(given.scripts * given.seed, given.scripts * (given.seed + 1))
    counts = {"fault": 0, "refusal": 0}
    with ThreadPoolExecutor(max_workers=given.jobs) as pool:
        for number, (text, wrong, finding) in enumerate(pool.map(lambda it: compare_one(it, texts, program), seeds), 1):
            if wrong:
                Path("differs.txt").write_bytes(text)
                sys.exit(f"script {number}: {wrong}; it is in differs.txt")
            if finding:
                counts[finding.kind] += 1
            if number % 1000 == 0:
                print(f"\r{number} scripts", end="", file=sys.stderr, flush=True)
    print(f"\r{given.scripts} changed scripts are told right: {counts['fault']} faults, {counts['refusal']} refusals")


def parsed() -> argparse.Namespace:
    parser = argparse.ArgumentParser(description=__doc__, formatter_class=argparse.RawDescriptionHelpFormatter)
    parser.add_argument(
        "scripts", metavar="SCRIPTS", nargs="?", type=whole_number(1), default=1000, help="how many (1000)"
    )
    parser.add_argument(
        "seed", metavar="SEED", nargs="?", type=whole_number(0), default=1, help="of the random numbers (1)"
    )
    parser.add_argument(
        "--jobs", metavar="N", type=whole_number(1), default=2, help="how many are drawn side by side (2)"
    )
    parser.add_argument("--program", metavar="FILE", help="the built program, if it isn't this clone's")
    return parser.parse_args()


def main() -> None:
    try:
        compare(parsed())
    except YuzuratchetError as error:
        sys.exit(f"compare_checked.py: {error}")


if __name__ == "__main__":
    sys.exit(ended(main))
