"""``yuzuratchet check``."""

from __future__ import annotations

import argparse
import json
from pathlib import Path
from typing import TYPE_CHECKING, Any

from .common import DIFFERENT, STANDARD, WELL, add_command, how, read_bytes, shown_name

if TYPE_CHECKING:
    from ..finding_formats import Checked

MOST = 50
"""How many findings of a script are told as text."""


def add(commands: Any) -> None:
    """Adds ``check``."""
    about = "Tells where scripts have a fault or are refused: FILE:LINE:COLUMN, and what to do."
    found = add_command(commands, "check", about)
    found.epilog = (
        "The first is what the device tells; those behind it would come once that is mended. "
        "Warnings leave the status as it is."
    )
    scripts = "a script; - is standard input"
    found.add_argument("scripts", metavar="SCRIPT", nargs="+", type=Path, help=scripts)
    lint = "warns of what the device takes and is hardly meant, as a list that is never executed"
    found.add_argument("--lint", action="store_true", help=lint)
    form = found.add_mutually_exclusive_group()
    form.add_argument("--json", action="store_true", help="tells it as JSON")
    form.add_argument("--sarif", action="store_true", help="tells it as SARIF 2.1.0")
    found.set_defaults(run=check)


def check(given: argparse.Namespace) -> int:
    """Checks scripts."""
    from ..finding_formats import as_json, as_sarif

    checked = [one(path, given) for path in given.scripts]
    if given.json or given.sarif:
        print(json.dumps((as_json if given.json else as_sarif)(checked), indent=2))
    else:
        for it in checked:
            tell(it)
    is_well = all(finding.rule for it in checked for finding in it.findings)
    return WELL if is_well else DIFFERENT


def one(path: Path, given: argparse.Namespace) -> Checked:
    """A script, checked."""
    from ..check import check_all
    from ..finding_formats import Checked
    from ..findings import Text
    from ..labels import Labels
    from ..lint import warnings_of
    from ..reader import parse

    data = read_bytes(path)
    text, findings = Text(data), check_all(data, **how(given))
    if given.lint and not findings:
        findings = warnings_of(text, *parse(data))
    labels = Labels() if path == STANDARD else Labels.read(path, data)
    return Checked(shown_name(path), text, findings, labels)


def tell(checked: Checked) -> None:
    """Tells what was found in a script."""
    from ..check import report_all

    findings = checked.findings
    if findings:
        print(report_all(findings[:MOST], checked.name, checked.text.bytes, checked.labels))
    if len(findings) > MOST:
        print(f"{checked.name}: and {len(findings) - MOST} more")
    if all(it.rule for it in findings):
        count = f", {len(findings)} warning{'' if len(findings) == 1 else 's'}" if findings else ""
        print(f"{checked.name}: no fault, and nothing is refused{count}")
