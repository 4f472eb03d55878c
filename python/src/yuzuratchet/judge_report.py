"""What is told of a device that was judged: a table by rule, JUnit's XML, a page with pictures, and JSON."""

from __future__ import annotations

from collections import Counter
from dataclasses import dataclass, field
from pathlib import Path
from typing import Any
from xml.etree import ElementTree

import numpy as np

from .adapters import Picture
from .conformance import Conformance, Rule, RuleScript
from .difference import compare, marked
from .images import Pixels
from .judging import Judgement, Kind, Verdict
from .report import Pictures, case_element, page, section_of

SOMETIMES = "sometimes "

HEADS = ("rule", "passed", "failed", "not supported", "what differs")


@dataclass(frozen=True)
class Judged:
    """A script of the suite, and what was found of it."""

    script: RuleScript
    found: Judgement
    seconds: float = 0.0

    @property
    def text(self) -> str:
        """What differs, in a few words."""
        return ", ".join(it.name for it in self.found.findings) or self.found.message

    @property
    def details(self) -> str:
        """What the script shows, each finding, and the rows of the first pixel."""
        rule = self.script.rule
        from_where = f" ({rule.chapter})" if rule.chapter else ""
        lines = [f"{self.script.title}: {rule.title}{from_where}"]
        lines += [f"{it.name}: {it.text}" for it in self.found.findings]
        return "\n".join([*lines, *([self.found.rows] if self.found.rows else [])])


@dataclass(frozen=True)
class Known:
    """Names of scripts that are known to fail: one that fails beside them, or passes, is news.

    Those of ``sometimes`` may do either.
    """

    names: frozenset[str]
    path: Path
    sometimes: frozenset[str] = frozenset()

    @classmethod
    def read(cls, path: Path) -> Known:
        """The list of a file: a name in each line, or `sometimes` and a name, and `#` before remarks."""
        lines = path.read_text(encoding="utf-8").splitlines()
        names = {name for name in (line.partition("#")[0].strip() for line in lines) if name}
        marked = {name for name in names if name.startswith(SOMETIMES)}
        sometimes = frozenset(name[len(SOMETIMES) :].strip() for name in marked)
        return cls(frozenset(names - marked), path, sometimes)


@dataclass(frozen=True)
class Verdicts:
    """All that was judged of a device."""

    suite: Conformance
    device: str
    notes: tuple[str, ...]
    judged: tuple[Judged, ...]
    known: Known | None = None
    _by_rule: dict[str, Counter[Verdict]] = field(default_factory=dict, init=False)

    def __post_init__(self) -> None:
        for it in self.judged:
            counts = self._by_rule.setdefault(it.script.rule.folder, Counter())
            counts[it.found.verdict] += 1

    def of(self, verdict: Verdict) -> list[Judged]:
        """The scripts of a verdict."""
        return [it for it in self.judged if it.found.verdict is verdict]

    def count(self, rule: Rule, verdict: Verdict) -> int:
        """How many scripts of a rule ended so."""
        return self._by_rule.get(rule.folder, Counter())[verdict]

    def kinds(self, rule: Rule) -> str:
        """What differs in the scripts of a rule: the first finding of each, counted."""
        firsts = Counter(
            it.found.findings[0].kind
            for it in self.of(Verdict.FAILED)
            if it.script.rule == rule and it.found.findings
        )
        most = max(
            (
                f.units
                for it in self.judged
                if it.script.rule == rule
                for f in it.found.findings
                if f.kind is Kind.DEPTH
            ),
            default=0,
        )
        parts = []
        for kind, count in firsts.most_common():
            by = f" by up to {most}" if kind is Kind.DEPTH else ""
            parts.append(f"{kind.value}{by} ({count})")
        return ", ".join(parts)

    @property
    def rows(self) -> list[tuple[str, ...]]:
        """The table by rule, and its sums."""
        rows: list[tuple[str, ...]] = []
        for rule in self.suite.rules:
            counts = (str(self.count(rule, verdict)) for verdict in Verdict)
            rows.append((rule.folder, *counts, self.kinds(rule)))
        sums = (str(len(self.of(verdict))) for verdict in Verdict)
        return [*rows, ("all", *sums, "")]

    @property
    def table(self) -> str:
        """The table as text."""
        rows = [HEADS, *self.rows]
        widths = [max(len(row[at]) for row in rows) for at in range(len(HEADS))]
        lines = []
        for row in rows:
            numbers = "  ".join(cell.rjust(width) for cell, width in zip(row[1:4], widths[1:4]))
            lines.append(f"{row[0].ljust(widths[0])}  {numbers}  {row[4]}".rstrip())
        return "\n".join(lines)

    @property
    def first_rule(self) -> Rule | None:
        """The first rule that fails: others lean on those before them."""
        return next((it for it in self.suite.rules if self.count(it, Verdict.FAILED)), None)

    @property
    def news(self) -> list[str]:
        """What isn't as the list of known failures says; without one each failure."""
        failed = {it.script.name for it in self.of(Verdict.FAILED)}
        if self.known is None:
            return sorted(failed)
        passed = {it.script.name for it in self.judged} - failed
        listed = self.known.names | self.known.sometimes
        new = [f"{name}: fails, and isn't known to" for name in sorted(failed - listed)]
        gone = sorted(passed & self.known.names)
        return new + [f"{name}: doesn't fail, and is to leave {self.known.path}" for name in gone]

    @property
    def failed_sometimes(self) -> list[str]:
        """What failed of the scripts that are known to fail sometimes."""
        sometimes = self.known.sometimes if self.known else frozenset()
        return sorted(sometimes.intersection(it.script.name for it in self.of(Verdict.FAILED)))

    @property
    def summary(self) -> str:
        """How many scripts passed, failed and aren't supported, in a line."""
        parts = [f"{len(self.of(verdict))} {verdict.value}" for verdict in Verdict]
        return f"{self.device or 'the adapter'}: {', '.join(parts)}"


# ---- files


def as_json(verdicts: Verdicts, depth_units: int) -> dict[str, Any]:
    """Everything in plain values."""
    return {
        "version": 1,
        "device": verdicts.device,
        "notes": list(verdicts.notes),
        "depth_units": depth_units,
        "rules": [
            dict(zip(("rule", "passed", "failed", "not_supported"), (row[0], *map(int, row[1:4]))))
            for row in verdicts.rows[:-1]
        ],
        "scripts": [_script_json(it) for it in verdicts.judged],
    }


def _script_json(judged: Judged) -> dict[str, Any]:
    found: dict[str, Any] = {
        "script": judged.script.name,
        "title": judged.script.title,
        "verdict": judged.found.verdict.value,
        "seconds": round(judged.seconds, 3),
    }
    if judged.found.message:
        found["message"] = judged.found.message
    if judged.found.findings:
        found["findings"] = [
            {"kind": it.kind.value, "text": it.text, "units": it.units, "pixel": it.pixel}
            for it in judged.found.findings
        ]
    return found


def write_junit(verdicts: Verdicts, path: Path) -> None:
    """Writes the XML that build servers read from JUnit."""
    counts = {
        "tests": len(verdicts.judged),
        "failures": len(verdicts.of(Verdict.FAILED)),
        "skipped": len(verdicts.of(Verdict.NOT_SUPPORTED)),
    }
    attributes = {"name": verdicts.device, **{name: str(count) for name, count in counts.items()}}
    root = ElementTree.Element("testsuites", attributes)
    suite = ElementTree.SubElement(root, "testsuite", attributes)
    for it in verdicts.judged:
        case = case_element(suite, it.script.rule.folder, it.script.name, it.seconds)
        if it.found.verdict is Verdict.FAILED:
            ElementTree.SubElement(case, "failure", {"message": it.text}).text = it.details
        elif it.found.verdict is Verdict.NOT_SUPPORTED:
            ElementTree.SubElement(case, "skipped", {"message": it.found.message})
    ElementTree.indent(root)
    ElementTree.ElementTree(root).write(path, encoding="utf-8", xml_declaration=True)


def write_page(verdicts: Verdicts, path: Path) -> None:
    """Writes a page with the table and, of each script that failed, what both drew."""
    failed = verdicts.of(Verdict.FAILED)
    sections = [section_of("by rule", "\n".join([*verdicts.notes, verdicts.table]), [])]
    sections += [
        section_of(f"{it.script.name}: {it.text}", it.details, pictures(it.found)) for it in failed
    ]
    text = page(f"Judged: {verdicts.device}", verdicts.summary, not failed, sections)
    path.write_text(text, encoding="utf-8")


def pictures(found: Judgement) -> Pictures:
    """What the device drew, what the other one drew, and where they differ; depths where they do."""
    if found.ours is None or found.theirs is None:
        return []
    names = "right", "as the adapter drew it"
    shown = [(name, it.colour) for name, it in zip(names, (found.ours, found.theirs))]
    difference = compare(found.ours.colour, found.theirs.colour)
    if difference:
        shown.append(("where they differ", marked(found.theirs.colour, difference)))
    for plane in ("depth", "stencil"):
        both = [getattr(it.planes, plane) for it in (found.ours, found.theirs)]
        apart = compare(*both)
        if apart:
            shown += [
                (f"{plane}: {name}", _plane(it, plane))
                for name, it in zip(names, (found.ours, found.theirs))
            ]
            shown.append(
                (f"{plane}: where they differ", marked(_plane(found.theirs, plane), apart))
            )
    return shown


def _plane(picture: Picture, name: str) -> Pixels:
    return np.asarray(picture.planes.picture(name))
