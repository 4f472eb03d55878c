"""``yuzuratchet check``: where a script has a fault or is refused, as editors want it.

The program alone decides which line is to blame, and by which number. Which word of the line it is
comes from the table of words (:mod:`yuzuratchet.faults`), or from the rules of what is refused
(:mod:`yuzuratchet.session`). Where these don't tell the same number, the whole line is shown. What
follows behind the first is found by :mod:`yuzuratchet.survey`, warnings by :mod:`yuzuratchet.lint`.
"""

from __future__ import annotations

import textwrap
from pathlib import Path

from .backends import draw
from .findings import Finding as Finding
from .findings import Place, Text, letters, of_number
from .labels import Labels
from .survey import all_findings

EXCERPT = 92
WIDTH = 100


def check_script(
    text: bytes, *, program: str | Path | None = None, workers: int | None = None
) -> Finding | None:
    """What the device finds first in a script, or None where it draws it.

    Raises :class:`~yuzuratchet.errors.ProgramMissing` and
    :class:`~yuzuratchet.errors.ProgramFailed`.
    """
    return next(iter(check_all(text, program=program, workers=workers)), None)


def check_all(
    text: bytes, *, program: str | Path | None = None, workers: int | None = None
) -> list[Finding]:
    """What the device finds first in a script, and what it would find behind that once it is mended.

    All of them are faults, or all are refusals.
    """
    refused = draw(text, program=program, workers=workers).refused
    return all_located(text, *refused) if refused else []


def located(text: bytes, line: int, number: int) -> Finding:
    """The place that goes with a line and a number that the program told."""
    return all_located(text, line, number)[0]


def all_located(text: bytes, line: int, number: int) -> list[Finding]:
    """The same, with what is found behind it."""
    parts = Text(text)
    found = all_findings(parts)
    if found and (found[0].line, found[0].number) == (line, number):
        return found
    return [of_number(parts, line, number)]


def report(finding: Finding, name: str, text: bytes, label: str | None = None) -> str:
    """``FILE:LINE:COLUMN: message``, the word underlined, what the number means and what to do.

    ``label`` is the name of the line, if it has one.
    """
    parts = [*reported(finding, name, Text(text), label)]
    message = finding.explained
    if message:
        parts.append(_wrapped(f"{finding.number}: ", message.when))
        parts.append(_wrapped("what to do (docs/SCRIPT.md): ", message.advice))
    return "\n".join(parts)


def reported(finding: Finding, name: str, text: Text, label: str | None = None) -> list[str]:
    """The same without what the number means."""
    kind = f"{finding.kind} {finding.rule or finding.number}"
    of = f" (in {label})" if label else ""
    where = f"{name}:{finding.line}:{text.column(finding)}"
    lines = [f"{where}: {kind}: {finding.message}{of}", *_underlined(text, finding)]
    if finding.also:
        also = finding.also
        lines.append(f"  {name}:{also.line}:{text.column(also)}: it stands here")
        lines += _underlined(text, also)
    return lines


def report_all(findings: list[Finding], name: str, text: bytes, labels: Labels = Labels()) -> str:
    """The reports of all findings; what a number means is told where it stands first."""
    parts, told = Text(text), set()
    found = []
    for it in findings:
        if it.rule or it.number in told:
            found.append("\n".join(reported(it, name, parts, labels.of(it.line))))
        else:
            found.append(report(it, name, text, labels.of(it.line)))
        told.add(it.number)
    return "\n".join(found)


def _underlined(text: Text, place: Place | Finding) -> list[str]:
    """The line, and a mark below what is to blame."""
    line = text.line(place.line)
    pieces = line[: place.start], line[place.start : place.end], line[place.end :]
    return _excerpt(*map(letters, pieces))


def _excerpt(before: str, word: str, after: str) -> list[str]:
    """The line, cut where it is long, and a mark below the word."""
    if not (before or word or after):
        return []
    room = EXCERPT - min(len(word), EXCERPT // 2)
    left = before if len(before) <= room // 2 else "..." + before[len(before) - room // 2 + 3 :]
    middle = word if len(word) <= EXCERPT // 2 else word[: EXCERPT // 2 - 3] + "..."
    right = after if len(after) <= room // 2 else after[: room // 2 - 3] + "..."
    # letters that have no width of one column are shown as a question mark, so that the mark fits
    line = "".join(it if it.isprintable() and it.isascii() else "?" for it in left + middle + right)
    return [f"    {line}", f"    {' ' * len(left)}{'^' * max(1, len(middle))}"]


def _wrapped(label: str, text: str) -> str:
    return textwrap.fill(text, WIDTH, initial_indent=f"  {label}", subsequent_indent="    ")
