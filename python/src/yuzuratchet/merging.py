"""Joins what was written of the parts of a suite: JUnit's XML, and pages."""

from __future__ import annotations

import html
import re
from dataclasses import dataclass, field
from pathlib import Path
from typing import Final, Iterator, TypeVar
from xml.etree import ElementTree

from .errors import YuzuratchetError
from .report import SHARD, page

COUNTS: Final = ("tests", "failures", "errors", "skipped")
SUMMARY: Final = re.compile(r'<p class="(same|differs)">(.*?)</p>\n(.*)\n</body>', re.S)
META: Final = re.compile(rf'<meta name="{SHARD}" content="([0-9]+)/([0-9]+)">')
TITLE: Final = re.compile(r"<title>(.*?)</title>", re.S)

Kept = TypeVar("Kept")
Part = tuple[int, int]
"""Which part of a suite it is, counted from 1, and of how many."""


@dataclass(frozen=True)
class PagePart:
    """A page of a part."""

    part: Part
    title: str
    is_well: bool
    summary: str
    sections: str


@dataclass(frozen=True)
class Merged:
    """The suites of several files of XML, and several pages, in the order of their parts."""

    suites: dict[Part, ElementTree.Element] = field(default_factory=dict)
    pages: dict[Part, PagePart] = field(default_factory=dict)

    @classmethod
    def of_files(cls, paths: list[Path]) -> Merged:
        """What stands in the files; raises :class:`~yuzuratchet.errors.YuzuratchetError`."""
        suites: dict[Part, ElementTree.Element] = {}
        pages: dict[Part, PagePart] = {}
        for path in paths:
            text = path.read_text(encoding="utf-8", errors="replace")
            one = _page_of(text)
            if one:
                _put(pages, one.part, one, path)
            else:
                element = _suite_of(path, text)
                _put(suites, _part_of(path, element), element, path)
        return cls(suites, pages)

    @property
    def parts(self) -> set[Part]:
        """The parts that there are."""
        return {*self.suites, *self.pages}

    @property
    def missing(self) -> list[str]:
        """The parts that there aren't, of those that there are to be."""
        kinds = [it for it in ({*self.suites}, {*self.pages}) if it]
        of = {of for _, of in self.parts}
        wanted = [(number + 1, count) for count in sorted(of) for number in range(count)]
        return [f"{it[0]}/{it[1]}" for it in wanted if any(it not in kind for kind in kinds)]

    @property
    def counts(self) -> dict[str, int]:
        """How many cases there are in all, and how they came out."""
        return {it: sum(int(suite.get(it) or 0) for suite in self.suites.values()) for it in COUNTS}

    @property
    def is_well(self) -> bool:
        """Whether all agreed."""
        counts = self.counts
        is_well = not (counts["failures"] or counts["errors"] or counts["skipped"])
        return is_well and all(it.is_well for it in self.pages.values())

    @property
    def summary(self) -> str:
        """What came of the whole suite, in a line."""
        return "; ".join(self._summaries())

    def _summaries(self) -> Iterator[str]:
        if self.suites:
            counts = self.counts
            agree = counts["tests"] - sum(counts[it] for it in COUNTS[1:])
            yield f"{agree} of {counts['tests']} scripts agree"
        else:
            yield from (html.unescape(it.summary) for _, it in sorted(self.pages.items()))
        if self.missing:
            yield f"missing: {', '.join(self.missing)}"

    @property
    def junit(self) -> str:
        """The XML of the whole suite."""
        suites = [it for _, it in sorted(self.suites.items())]
        attributes = {"name": suites[0].get("name") or "" if suites else ""}
        root = ElementTree.Element(
            "testsuites", {**attributes, **{key: str(it) for key, it in self.counts.items()}}
        )
        root.extend(suites)
        ElementTree.indent(root)
        text = ElementTree.tostring(root, encoding="unicode")
        return f"<?xml version='1.0' encoding='utf-8'?>\n{text}"

    @property
    def page(self) -> str:
        """The page of the whole suite."""
        pages = [it for _, it in sorted(self.pages.items())]
        title = html.unescape(pages[0].title) if pages else "Suite"
        sections = [it.sections for it in pages if it.sections]
        return page(title, self.summary, self.is_well and not self.missing, sections)


def _put(kept: dict[Part, Kept], part: Part, it: Kept, path: Path) -> None:
    """Keeps what a file has of a part."""
    if part in kept:
        raise YuzuratchetError(f"{path}: part {part[0]}/{part[1]} is there twice")
    kept[part] = it


def _page_of(text: str) -> PagePart | None:
    """The page that a text is, or None."""
    meta, body, title = META.search(text), SUMMARY.search(text), TITLE.search(text)
    if not (meta and body and title):
        return None
    part = int(meta[1]), int(meta[2])
    return PagePart(part, title[1], body[1] == "same", body[2], body[3].strip())


def _suite_of(path: Path, text: str) -> ElementTree.Element:
    """The suite of a file of XML."""
    try:
        suite = ElementTree.fromstring(text).find("testsuite")
    except ElementTree.ParseError:
        suite = None
    if suite is None:
        raise YuzuratchetError(f"{path} is neither XML nor a page that `suite` wrote")
    return suite


def _part_of(path: Path, suite: ElementTree.Element) -> Part:
    """Which part of a suite it is."""
    properties = suite.iter("property")
    value = next((it.get("value") for it in properties if it.get("name") == SHARD), None)
    found = re.fullmatch(r"([0-9]+)/([0-9]+)", value or "")
    if not found:
        raise YuzuratchetError(f"{path} doesn't say which part of a suite it is")
    return int(found[1]), int(found[2])
