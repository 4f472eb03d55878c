#!/usr/bin/env python3
"""Looks over the pages: how long they and their lines are, and whether what they link to and name is there.

    tools/pages.py [PAGE ..]

Without words all pages of the repository are looked at, and their words are counted too. A line is printed for each
thing that isn't so, as FILE:LINE: what. The status is 0 where there is none.
"""

from __future__ import annotations

import argparse
import re
import sys
from collections.abc import Iterator
from fnmatch import fnmatch
from pathlib import Path

import package_path
from yuzuratchet.ending import ended

TOP = package_path.TOP
PATTERNS = (
    "*.md",
    "docs/**/*.md",
    "bench/*.md",
    "python/*.md",
    "library/*.md",
    "tools/*/*.md",
    "web/*.md",
    ".github/**/*.md",
)

LONGEST_LINE = 120
# lines of a page, and letters of a line of it, tables included
MOST_LINES = {"README.md": 120, "docs/ARCHITECTURE.md": 150, **{"docs/design/*.md": 149}}
LONGEST = {"docs/ARCHITECTURE.md": 140}
LONGEST_CELL = {"README.md": 100}
# of these all words together, as `wc -w` counts them
COUNTED = ("README.md", "docs/**/*.md", "bench/*.md", "python/README.md")
MOST_WORDS = 28_600

LINK = re.compile(r"!?\[[^\]]*\]\(([^()\s]+)\)|(?:src|href)=\"([^\"]+)\"")
# what a page names by a path: a file of one of the folders, in backticks or not
FOLDERS = "tools|docs|bench|python|library|web|crates|[a-z]+/(?:specs|src)"
NAMED = re.compile(rf"(?<![\w/.~-])(?:(?:{FOLDERS})/[\w./-]*\w|[A-Z]{{4,}}\.md)")
# parts of paths that stand for others, and what is built
OTHERS = re.compile(r"NAME|\bout/|/SCENE|/build/|expected$")

Problem = tuple[int, str]


def pages() -> list[Path]:
    """All pages of the repository."""
    return sorted({path for pattern in PATTERNS for path in TOP.glob(pattern) if "out" not in path.parts})


def limit(table: dict[str, int], page: Path) -> int | None:
    """What a table says of a page, or None."""
    return next((most for pattern, most in table.items() if fnmatch(str(page.relative_to(TOP)), pattern)), None)


def anchors(page: Path) -> set[str]:
    """The anchors of a page's headings, as hosts of such pages make them."""
    heads = re.findall(r"^#+ (.+)$", page.read_text(encoding="utf-8"), re.M)
    return {re.sub(r"[^\w\- ]", "", head.lower()).replace(" ", "-") for head in heads}


def long_lines(page: Path, lines: list[str]) -> Iterator[Problem]:
    """Lines, cells and pages that are longer than they may be."""
    most, longest, cell = (limit(it, page) for it in (MOST_LINES, LONGEST, LONGEST_CELL))
    if most and len(lines) > most:
        yield len(lines), f"the page has {len(lines)} lines, and may have {most}"
    for number, line in enumerate(lines, 1):
        is_table = line.startswith("|")
        if len(line) > LONGEST_LINE and not is_table:
            yield number, f"the line has {len(line)} letters, and may have {LONGEST_LINE}"
        if longest and len(line) > longest:
            yield number, f"the line has {len(line)} letters, and may have {longest} in this page"
        if cell and is_table:
            for text in line.strip("|").split("|"):
                if len(text.strip()) > cell:
                    yield number, f"a cell has {len(text.strip())} letters, and may have {cell}"


def broken_links(page: Path, lines: list[str]) -> Iterator[Problem]:
    """Links to what isn't there."""
    for number, line in enumerate(lines, 1):
        for found in LINK.findall(line):
            link = found[0] or found[1]
            if re.match(r"[a-z]+:", link):
                continue
            path, _, anchor = link.partition("#")
            target = (page.parent / path).resolve() if path else page
            if not target.exists():
                yield number, f"{link} isn't there"
            elif anchor and anchor not in anchors(target):
                yield number, f"{target.name} has no heading {anchor}"


def missing_files(page: Path, lines: list[str]) -> Iterator[Problem]:
    """Files that a page names, and that aren't there."""
    for number, line in enumerate(lines, 1):
        for name in NAMED.findall(LINK.sub("", line)):
            places = (TOP / name, page.parent / name, TOP / "docs" / name, TOP / "crates" / name)
            if not OTHERS.search(name) and not any(it.exists() for it in places):
                yield number, f"{name} isn't there"


def problems(page: Path) -> Iterator[Problem]:
    """What isn't so in a page."""
    lines = page.read_text(encoding="utf-8").split("\n")[:-1]
    yield from long_lines(page, lines)
    yield from broken_links(page, lines)
    yield from missing_files(page, lines)


def word_count() -> int:
    """The words of the pages that are counted."""
    counted = {path for pattern in COUNTED for path in TOP.glob(pattern)}
    return sum(len(path.read_text(encoding="utf-8").split()) for path in counted)


def main() -> int:
    parser = argparse.ArgumentParser(description=__doc__, formatter_class=argparse.RawDescriptionHelpFormatter)
    parser.add_argument("pages", metavar="PAGE", nargs="*", type=Path, help="a page of the repository (all)")
    given = parser.parse_args()
    found = 0
    for page in [path.resolve() for path in given.pages] or pages():
        try:
            for number, text in sorted(set(problems(page))):
                print(f"{page.relative_to(TOP)}:{number}: {text}")
                found += 1
        except (OSError, ValueError) as error:
            sys.exit(f"pages.py: {error}")
    words = word_count()
    if not given.pages and words > MOST_WORDS:
        print(f"{', '.join(COUNTED)}: {words} words together, and they may have {MOST_WORDS}")
        found += 1
    return 1 if found else 0


if __name__ == "__main__":
    sys.exit(ended(main))
