#!/usr/bin/env python3
"""Writes the table of docs/WRONG_BODIES.md from the edits, and looks whether each edit can be applied.

    tools/wrong_bodies.py [--write | --check | --crates]

An edit is a file of crates/NAME/must-fail, which the gate tries, or of crates/NAME/edits, which tools/try_edits.py
tries. It has lines `file:`, `old:` and `new:`, and may have one `what:`, which says what the wrong body is: those are
the rows of the table.

Without words the table is printed, and how many edits there are. --write puts that into the page; --check fails where
the page has another; --crates prints how many edits each crate has. In each case the status is 1 where an edit has
another form, or its old text doesn't stand in its file just once.
"""

from __future__ import annotations

import argparse
import re
import sys
from collections.abc import Iterator, Sequence
from functools import cache
from pathlib import Path

import package_path
from try_edits import Edit, sources
from yuzuratchet.ending import ended

TOP = package_path.TOP
CRATES = TOP / "crates"
PAGE = TOP / "docs" / "WRONG_BODIES.md"
BEGIN, END = "<!-- tools/wrong_bodies.py writes from here -->", "<!-- to here -->"
FORM = re.compile(r"(?:(?:what|file|old): .*|new:.*|)")


def edits(crate: str, folder: str) -> list[Path]:
    """The edits of a crate that lie in a folder, in the order of their names."""
    return sorted((CRATES / crate / folder).glob("*.edit"))


@cache
def texts(crate: str) -> dict[str, str]:
    """The sources of a crate by their names."""
    found: dict[str, str] = sources(str(CRATES / crate))
    return found


def crates() -> list[str]:
    return sorted(path.name for path in CRATES.iterdir() if (path / "src").is_dir())


def all_edits() -> Iterator[tuple[str, str, Path]]:
    """Each edit with its crate and its folder."""
    for crate in crates():
        for folder in ("must-fail", "edits"):
            for path in edits(crate, folder):
                yield crate, folder, path


def what(path: Path) -> str | None:
    """What an edit says that the wrong body is."""
    found = re.search(r"^what: (.+)$", path.read_text(encoding="utf-8"), re.M)
    return found[1] if found else None


def fault(crate: str, path: Path) -> str | None:
    """Why an edit can't be applied, or None."""
    for number, line in enumerate(path.read_text(encoding="utf-8").split("\n"), 1):
        if not FORM.fullmatch(line):
            return f"line {number} is none of `what:`, `file:`, `old:` and `new:`"
    edit = Edit(str(path))
    if not edit.pairs:
        return "it changes nothing"
    changed = edit.applied(texts(crate))
    if changed is None:
        return "an old text doesn't stand in its file just once"
    if all(texts(crate)[file] == text for file, text in changed.items()):
        return "the new text is the old one"
    return None


# ---- the tables


def table(head: Sequence[str], rows: Sequence[Sequence[str]]) -> str:
    lines = ["| " + " | ".join(cells) + " |" for cells in (head, *rows)]
    return "\n".join([lines[0], "|---" * len(head) + "|", *lines[1:]])


def count(crate: str) -> tuple[int, int]:
    """How many edits of a crate the gate tries, and how many stand beside it."""
    return len(edits(crate, "must-fail")), len(edits(crate, "edits"))


def counts() -> str:
    """How many edits there are in all."""
    gate, beside = map(sum, zip(*map(count, crates())))
    return f"The gate tries {gate} edits, and {beside} stand beside it."


def named() -> str:
    """The wrong bodies that say what they are."""
    found: dict[str, list[str]] = {}
    for crate, folder, path in all_edits():
        if text := what(path):
            where = "" if folder == "must-fail" else ", beside the gate"
            found.setdefault(text, []).append(f"{crate} `{path.stem}`{where}")
    rows = [(text, "; ".join(places)) for text, places in sorted(found.items(), key=lambda it: it[1])]
    return table(("Wrong body", "Edit"), rows)


def tables() -> str:
    return f"{BEGIN}\n\n{counts()}\n\n{named()}\n\n{END}"


def parts(text: str) -> tuple[str, str, str]:
    """The page before, between and behind its two marks, which stand between."""
    before, begin, rest = text.partition(BEGIN)
    inner, end, behind = rest.partition(END)
    if not end:
        sys.exit(f"wrong_bodies.py: {PAGE.relative_to(TOP)} has no place for the tables: {BEGIN} .. {END}")
    return before, begin + inner + end, behind


def main() -> int:
    parser = argparse.ArgumentParser(description=__doc__, formatter_class=argparse.RawDescriptionHelpFormatter)
    do = parser.add_mutually_exclusive_group()
    do.add_argument("--write", action="store_true", help="put the tables into the page")
    do.add_argument("--check", action="store_true", help="fail where the page has other tables")
    do.add_argument("--crates", action="store_true", help="print how many edits each crate has")
    given = parser.parse_args()
    found = 0
    for crate, _, path in all_edits():
        if text := fault(crate, path):
            print(f"{path.relative_to(TOP)}: {text}", file=sys.stderr)
            found += 1
    before, inner, behind = parts(PAGE.read_text(encoding="utf-8"))
    if given.write:
        PAGE.write_text(before + tables() + behind, encoding="utf-8")
    elif given.crates:
        rows = [(name, *map(str, count(name))) for name in crates()]
        print(table(("Crate", "Tried by the gate", "Beside it"), rows))
    elif not given.check:
        print(tables())
    elif inner != tables():
        print(
            f"{PAGE.relative_to(TOP)} has other tables than the edits: tools/wrong_bodies.py --write", file=sys.stderr
        )
        found += 1
    return 1 if found else 0


if __name__ == "__main__":
    sys.exit(ended(main))
