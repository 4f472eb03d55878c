"""The table of the words of a script, from device.json: who uses each, which numbers it takes.

A number outside the range that stands here is a fault of the script. What a call takes is often
less (:mod:`yuzuratchet.limits`): a number beyond that is a refusal of the line.
"""

from __future__ import annotations

from dataclasses import dataclass, field
from typing import Any, Final

from .device import DEVICE
from .errors import ArgumentError

IMMEDIATE: Final[str] = DEVICE["actors"]["immediate"]
"""The actor that is the immediate context."""

DEFERRED: Final[tuple[str, ...]] = tuple(DEVICE["actors"]["deferred"])
"""The actors that are deferred contexts, in the order of their numbers."""

ACTORS: Final = (IMMEDIATE, *DEFERRED)


@dataclass(frozen=True)
class Argument:
    """A number of a line: its name and its range, both ends included.

    A context (``is_context``) is a number too, and is spelled as the actor that it names. Where
    ``but_zero`` is True the range leaves 0 out. ``names`` are Direct3D's names of some numbers.
    ``unit`` has the limit that makes one of what it counts, and what that is: of a coordinate
    ``("subpixels", "pixels")``.
    """

    name: str
    least: int
    most: int
    is_context: bool = False
    but_zero: bool = False
    names: dict[str, int] = field(default_factory=dict, hash=False)
    unit: tuple[str, str] | None = None

    def takes(self, value: int) -> bool:
        """Whether a script can have this value here."""
        return self.least <= value <= self.most and not (self.but_zero and value == 0)

    @property
    def range(self) -> str:
        """The range in words."""
        if self.is_context:
            return f"{DEFERRED[0]} to {DEFERRED[-1]}"
        text = f"{self.least} {'or' if self.most - self.least == 1 else 'to'} {self.most}"
        return f"{text} without 0" if self.but_zero else text


@dataclass(frozen=True)
class Word:
    """A word of a script, with the numbers that stand behind it.

    Where ``counts`` is None the arguments stand any number of times, one row behind the other;
    else it has the numbers of arguments that a line may have.
    """

    name: str
    arguments: tuple[Argument, ...] = ()
    immediate: bool = True
    deferred: bool = True
    counts: tuple[int, ...] | None = None

    def serves(self, actor: str) -> bool:
        """Whether the actor may use the word."""
        return self.immediate if actor == IMMEDIATE else self.deferred and actor in DEFERRED

    def takes_count(self, count: int) -> bool:
        """Whether a line may have so many arguments."""
        if self.counts is None:
            return count % len(self.arguments) == 0
        return count in self.counts

    @property
    def count_text(self) -> str:
        """How many arguments a line has, in words."""
        if self.counts is None:
            each = len(self.arguments)
            return "any number of arguments" if each == 1 else f"a multiple of {each} arguments"
        text = " or ".join(str(count or "no") for count in self.counts)
        return f"{text} argument{'' if self.counts == (1,) else 's'}"

    def argument(self, place: int) -> Argument:
        """The argument at a place of the line, counted from 0."""
        return self.arguments[place % len(self.arguments)]

    def misfit(self, values: tuple[int, ...]) -> int | None:
        """The first place whose value is out of its range, or None."""
        step = len(self.arguments)
        places = []
        for at, argument in enumerate(self.arguments):
            row = values[at::step]
            if row and not (argument.takes(min(row)) and argument.takes(max(row))):
                wrong = next(n for n, value in enumerate(row) if not argument.takes(value))
                places.append(at + step * wrong)
        return min(places, default=None)

    def check(self, values: tuple[int, ...]) -> None:
        """Raises :class:`ArgumentError` where a script can't have these values behind the word."""
        if not self.takes_count(len(values)):
            raise ArgumentError(self.name, f"takes {self.count_text}, and {len(values)} are given")
        place = self.misfit(values)
        if place is not None:
            argument = self.argument(place)
            raise ArgumentError(argument.name, f"{values[place]} is not in {argument.range}")


def _argument(name: str, kind: str) -> Argument:
    found: dict[str, Any] = dict(DEVICE["kinds"][kind])
    if "unit" in found:
        found["unit"] = tuple(found["unit"])
    return Argument(name, **found)


def _word(name: str, row: dict[str, Any]) -> Word:
    arguments = tuple(_argument(it, kind) for it, kind in row["arguments"].items())
    counts = None if row.get("repeats") else tuple(row.get("counts", [len(arguments)]))
    of = row["of"] or ["immediate", "deferred"]
    return Word(name, arguments, "immediate" in of, "deferred" in of, counts)


TARGET: Final = _word("target", DEVICE["words"]["target"])
"""The word of the first line, which has no actor."""

WORDS: Final = {
    name: _word(name, row) for name, row in DEVICE["words"].items() if name != TARGET.name
}
"""The words of all later lines by their names, in the order of docs/SCRIPT.md."""
