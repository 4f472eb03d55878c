"""All faults and refusals of a script at once, but those that follow from an earlier one.

The device tells the first. What it would tell once that is mended is found here: a faulty line is
left out, and a call that is refused is taken as mended, or what depends on it is not told.
"""

from __future__ import annotations

from collections import Counter
from typing import Iterable

from .errors import CallRefused, ScriptFault
from .faults import EMPTY, FIRST_LINE, LineReader, parsed_line, parsed_target
from .findings import Finding, Text, of_fault, of_refusal
from .limits import TARGET_SIDE
from .line import Line
from .session import Session
from .words import DEFERRED, IMMEDIATE

UNKNOWN = 2**32
"""How many lists a context may have finished where a ``finish`` line has a fault."""


def all_findings(text: Text) -> list[Finding]:
    """The faults of a script, or its refusals where it has no fault, in the order of lines."""
    if not text.lines:
        return [of_fault(ScriptFault(1, FIRST_LINE, 0, 0, EMPTY))]
    faults, lines, sides = read_all(text.lines)
    if faults or sides is None:
        return [of_fault(it) for it in faults]
    survey = Survey(*sides)
    survey.survey(lines)
    return [of_refusal(text, it) for it in survey.refusals]


def read_all(
    lines: list[LineReader],
) -> tuple[list[ScriptFault], list[Line], tuple[int, int] | None]:
    """The faults of all lines, the lines that have none, and width and height if the first has none."""
    faults: list[ScriptFault] = []
    found: list[Line] = []
    finished: Counter[str] = Counter()
    sides = None
    try:
        sides = parsed_target(lines[0])
    except ScriptFault as fault:
        faults.append(fault)
    for line in lines[1:]:
        try:
            found.append(parsed_line(line, finished))
        except ScriptFault as fault:
            faults.append(fault)
            if b"finish" in line.text.lower():  # (whose list it would finish isn't known)
                finished.update(dict.fromkeys(DEFERRED, UNKNOWN))
        else:
            finished[line.words[0].decode("ascii")] += found[-1].word == "finish"
    return faults, found, sides


class Survey(Session):
    """A session that goes on behind a refused line, as if it were mended."""

    def __init__(self, width: int, height: int) -> None:
        self.refusals: list[CallRefused] = []
        self.unsure: set[tuple[str, object]] = set()
        """What a refused line would have changed, with its actor; nothing is told that hangs on it."""
        sides = []
        for side in (width, height):
            sides.append(side if 0 < side <= TARGET_SIDE else TARGET_SIDE)
        try:
            super().__init__(width, height)
        except CallRefused as refusal:
            refusal.line = 1
            self.refusals.append(refusal)
            super().__init__(*sides)

    def survey(self, lines: Iterable[Line]) -> None:
        """Takes the lines behind the first, and what is refused at the end."""
        number = 1
        for line in lines:
            number += 1
            self.take_one(number, line)
        try:
            self.run(number + 1, "the end")
        except CallRefused as refusal:
            refusal.line = number + 1
            self.refusals.append(refusal)

    def take_one(self, number: int, line: Line) -> None:
        """Takes a line; where it is refused, that is noted, and what hangs on it."""
        try:
            self.take(number, line)
        except CallRefused as refusal:
            if not self.is_known(line, refusal):
                refusal.line = number
                self.refusals.append(refusal)
            self.mend(number, line, refusal)
        else:
            self.settle(line)

    def is_known(self, line: Line, refusal: CallRefused) -> bool:
        """Whether a refusal may come of an earlier one."""
        causes: dict[int, list[object]] = {
            5: ["ib" if line.word == "drawi" else "vb"],
            6: ["ib", "vb"],
            7: ["topology"],
            13: ["full"],
            14: ["issues"],
        }
        hangs_on = causes.get(refusal.number, [])
        if line.word in ("begin", "end", "query", "predicate") and line.arguments:
            hangs_on = [line.arguments[0]]
        return any((line.actor, cause) in self.unsure for cause in hangs_on)

    def mend(self, number: int, line: Line, refusal: CallRefused) -> None:
        """Lets the session go on as if the line were mended."""
        if refusal.number in (13, 14):
            self.unsure.add((line.actor, "full" if refusal.number == 13 else "issues"))
        if line.word in ("vb", "ib", "topology"):
            self.unsure.add((line.actor, line.word))
        elif line.word == "begin":
            # (a question for its count is the immediate context's, whoever begins it)
            self.unsure |= {(actor, line.arguments[0]) for actor in (line.actor, IMMEDIATE)}
        elif refusal.number in (9, 12):
            context = self.contexts[line.actor]
            self.unsure |= {(line.actor, query) for query in context.opened}
            context.opened.clear()
            self.take_one(number, line)

    def settle(self, line: Line) -> None:
        """Behind a line that is taken: what it sets is sure again."""
        if line.word in ("vb", "ib", "topology"):
            self.unsure.discard((line.actor, line.word))
        elif line.word in ("begin", "end"):
            self.unsure.discard((line.actor, line.arguments[0]))
        elif line.word in ("finish", "flush", "exec", "query", "pixel"):
            self.unsure -= {(line.actor, "full"), (line.actor, "issues")}
            is_anew = line.word in ("finish", "exec") and not line.arguments[-1]
            if is_anew:
                self.unsure -= {(line.actor, it) for it in ("vb", "ib", "topology")}
