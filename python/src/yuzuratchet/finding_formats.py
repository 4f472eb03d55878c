"""Findings for machines: JSON of its own form, and SARIF 2.1.0, which code hosts and editors show.

Lines and columns count from 1 in both, and a column is a letter; an end lies just behind the last one.
"""

from __future__ import annotations

from dataclasses import dataclass, field
from pathlib import Path
from typing import Any, Final
from urllib.parse import quote

from . import __version__
from .findings import Finding, Place, Text
from .labels import Labels
from .lint import RULES

SARIF_VERSION: Final = "2.1.0"
SARIF_SCHEMA: Final = "https://json.schemastore.org/sarif-2.1.0.json"

Json = dict[str, Any]


@dataclass(frozen=True)
class Checked:
    """A script that was checked: its name, its text, what was found, and the names of its lines."""

    name: str
    text: Text
    findings: list[Finding]
    labels: Labels = field(default_factory=Labels)


def as_json(checked: list[Checked]) -> Json:
    """``{"version", "files": [{"file", "verdict", "findings": [..]}]}``.

    A verdict is ``fault``, ``refusal`` or ``well``; warnings don't change it. The first finding is
    the device's (``told`` is true), the others are what it would tell once that is mended.
    """
    return {"version": 1, "files": [_file(it) for it in checked]}


def _file(checked: Checked) -> Json:
    told = [it for it in checked.findings if not it.rule]
    findings = [_finding(checked, it, it in told[:1]) for it in checked.findings]
    return {
        "file": checked.name,
        "verdict": told[0].kind if told else "well",
        "findings": findings,
    }


def _finding(checked: Checked, finding: Finding, is_told: bool) -> Json:
    found: Json = {"kind": finding.kind, "code": finding.code, "told": is_told}
    if not finding.rule:
        found["number"] = finding.number
    found |= {**_span(checked.text, finding), "message": finding.message}
    if finding.explained:
        found |= {"meaning": finding.explained.when, "advice": finding.explained.advice}
    if label := checked.labels.of(finding.line):
        found["label"] = label
    if finding.also:
        found["also"] = _span(checked.text, finding.also)
    return found


def _span(text: Text, place: Finding | Place) -> Json:
    line = text.line(place.line)
    end = Place(place.line, min(place.end, len(line)), place.end)
    return {"line": place.line, "column": text.column(place), "end_column": text.column(end)}


# ---- SARIF


def as_sarif(checked: list[Checked]) -> Json:
    """A log of one run, with a rule for each kind of finding that there is."""
    findings = [it for one in checked for it in one.findings]
    rules = {it.code: _rule(it) for it in findings}
    places = {code: place for place, code in enumerate(rules)}
    results = [_result(one, it, places) for one in checked for it in one.findings]
    driver = {"name": "yuzuratchet", "version": __version__, "rules": [*rules.values()]}
    run = {"tool": {"driver": driver}, "columnKind": "unicodeCodePoints", "results": results}
    return {"$schema": SARIF_SCHEMA, "version": SARIF_VERSION, "runs": [run]}


def _level(finding: Finding) -> str:
    return "warning" if finding.rule else "error"


def _rule(finding: Finding) -> Json:
    message = finding.explained
    short = RULES[finding.rule] if message is None else message.when
    rule: Json = {"id": finding.code, "shortDescription": {"text": short}}
    rule["defaultConfiguration"] = {"level": _level(finding)}
    if message:
        rule["help"] = {"text": message.advice}
    return rule


def _result(checked: Checked, finding: Finding, places: dict[str, int]) -> Json:
    result: Json = {
        "ruleId": finding.code,
        "ruleIndex": places[finding.code],
        "level": _level(finding),
        "message": {"text": finding.message},
        "locations": [_location(checked, finding)],
    }
    if finding.also:
        result["relatedLocations"] = [_location(checked, finding.also)]
    return result


def _location(checked: Checked, place: Finding | Place) -> Json:
    physical: Json = {"artifactLocation": {"uri": _uri(checked.name)}}
    if place.line:  # (where memory was refused before any line, there is none)
        span = _span(checked.text, place)
        physical["region"] = {
            "startLine": span["line"],
            "startColumn": span["column"],
            "endColumn": span["end_column"],
        }
    return {"physicalLocation": physical}


def _uri(name: str) -> str:
    path = Path(name)
    return path.as_uri() if path.is_absolute() else quote(name)
