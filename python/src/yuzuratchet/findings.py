"""What is found in a script: faults, refusals and warnings, each with the bytes that are to blame."""

from __future__ import annotations

from dataclasses import dataclass

from .errors import CallRefused, ScriptFault
from .faults import LineReader
from .messages import Message, message_of
from .reader import lines_of

FIRST_FAULT = 101


@dataclass(frozen=True)
class Place:
    """Some bytes of a line, which counts from 1; bytes count from 0.

    ``start`` and ``end`` are equal where something is missing there.
    """

    line: int
    start: int
    end: int


@dataclass(frozen=True)
class Finding:
    """A fault, a refusal or a warning, and the bytes of its line that are to blame.

    ``line`` counts from 1, and is 0 where memory was refused before any line, and one more than the
    last line where the end is refused. ``start`` and ``end`` count bytes from 0; they are equal
    where something is missing. ``is_located`` says that the place is that of a word. ``number`` is
    that of the fault or the refusal, and 0 of a warning, which has a ``rule``. ``also`` is another
    place that has to do with it.
    """

    line: int
    number: int
    start: int
    end: int
    message: str
    is_located: bool = True
    rule: str = ""
    also: Place | None = None

    @property
    def kind(self) -> str:
        """What it is: ``fault``, ``refusal`` or ``warning``."""
        if self.rule:
            return "warning"
        return "fault" if self.number >= FIRST_FAULT else "refusal"

    @property
    def code(self) -> str:
        """Its name for machines: ``fault-104``, ``refusal-5``, or the rule of a warning."""
        return self.rule or f"{self.kind}-{self.number}"

    @property
    def explained(self) -> Message | None:
        """What the number means, and what to do; a warning says so itself."""
        return None if self.rule else message_of(self.number)


class Text:
    """The bytes of a script, line by line."""

    def __init__(self, text: bytes) -> None:
        self.bytes = text
        self.lines: list[LineReader] = lines_of(text)

    def line(self, number: int) -> bytes:
        """The bytes of a line, which counts from 1; none where there is no such line."""
        return self.lines[number - 1].text if 0 < number <= len(self.lines) else b""

    def word(self, number: int, place: int) -> Place:
        """The place of a word of a line; the line's end where it has fewer."""
        words = self.lines[number - 1].words if number <= len(self.lines) else []
        start = sum(len(word) + 1 for word in words[:place])
        if place >= len(words):
            start = len(self.line(number))
            return Place(number, start, start)
        return Place(number, start, start + len(words[place]))

    def column(self, place: Place | Finding) -> int:
        """The column of a place as editors count: letters from 1."""
        return len(letters(self.line(place.line)[: place.start])) + 1


def letters(text: bytes) -> str:
    """Bytes as an editor counts them: one column a letter."""
    return text.decode("utf-8", "replace")


def of_fault(fault: ScriptFault) -> Finding:
    """The finding of a fault."""
    return Finding(fault.line, fault.number, fault.start, fault.end, fault.message)


def of_refusal(text: Text, refusal: CallRefused) -> Finding:
    """The finding of a refusal: its word; in the first line no actor stands before it."""
    number = refusal.line or 1
    message = f"{refusal.argument}: {refusal.message}"
    if number > len(text.lines):
        return Finding(number, refusal.number, 0, 0, message)
    place = 1 if refusal.place is None else refusal.place + (1 if number == 1 else 2)
    word = text.word(number, place)
    also = text.word(refusal.of[0], refusal.of[1] + 2) if refusal.of else None
    return Finding(number, refusal.number, word.start, word.end, message, also=also)


def of_number(text: Text, line: int, number: int) -> Finding:
    """The finding of a line and a number alone: all of the line is shown."""
    when = message_of(number).when
    return Finding(line, number, 0, len(text.line(line)), when, is_located=False)
