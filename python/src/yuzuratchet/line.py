"""A line of a script behind the first one: an actor, a word and numbers."""

from __future__ import annotations

from dataclasses import dataclass
from functools import cached_property
from operator import index
from typing import Iterable, Sequence, overload

from .errors import ArgumentError, WrongType
from .words import ACTORS, DEFERRED, WORDS

Row = tuple[int, ...]


class Rows(Sequence[Row]):
    """Numbers in rows of one length, as a sequence of tuples that are made when they are taken."""

    def __init__(self, numbers: tuple[int, ...], length: int) -> None:
        self.numbers, self.length = numbers, length

    def __len__(self) -> int:
        return len(self.numbers) // self.length

    @overload
    def __getitem__(self, place: int) -> Row:
        ...

    @overload
    def __getitem__(self, place: slice) -> list[Row]:
        ...

    def __getitem__(self, place: int | slice) -> Row | list[Row]:
        if isinstance(place, slice):
            return [self[at] for at in range(*place.indices(len(self)))]
        first = self.length * range(len(self))[place]
        return self.numbers[first : first + self.length]


@dataclass(frozen=True)
class Line:
    """What an actor (``i``, ``d0`` to ``d7``) is told to do.

    ``arguments`` are the numbers of the line in their order; the context of an ``exec`` line is
    the number of its deferred context. ``str`` gives the line's one spelling. A line that no
    script can spell raises :class:`~yuzuratchet.errors.ArgumentError` when it is made.

    >>> str(Line("i", "exec", (3, 0, 1)))
    'i exec d3 0 1'
    """

    actor: str
    word: str
    arguments: tuple[int, ...] = ()

    def __post_init__(self) -> None:
        object.__setattr__(self, "arguments", whole_numbers(self.word, self.arguments))
        self._check()

    @classmethod
    def of_ints(
        cls, actor: str, word: str, numbers: Iterable[int], is_checked: bool = False
    ) -> Line:
        """The line of numbers that are Python's own integers, and whose ranges may be known to hold."""
        line: Line = object.__new__(cls)
        for name, value in (("actor", actor), ("word", word), ("arguments", tuple(numbers))):
            object.__setattr__(line, name, value)
        if not is_checked:
            line._check()
        return line

    def _check(self) -> None:
        """Raises where a script can't spell the line."""
        if self.actor not in ACTORS:
            raise ArgumentError("actor", f"{self.actor!r} is none of {' '.join(ACTORS)}")
        if self.word not in WORDS or not WORDS[self.word].serves(self.actor):
            raise ArgumentError("word", f"{self.word!r} is no word of {self.actor}")
        WORDS[self.word].check(self.arguments)

    def __str__(self) -> str:
        return self._text

    @cached_property
    def _text(self) -> str:
        arguments = list(map(str, self.arguments))
        if self.word == "exec":
            arguments[0] = DEFERRED[self.arguments[0]]
        return " ".join((self.actor, self.word, *arguments))

    def spelled(self, text: str) -> Line:
        """The same line, of which it is known how it is spelled."""
        self.__dict__["_text"] = text
        return self

    def named(self) -> dict[str, int]:
        """The arguments by their names, for a word whose arguments don't repeat."""
        named = zip(WORDS[self.word].arguments, self.arguments)
        return {argument.name: value for argument, value in named}

    @property
    def rows(self) -> Rows:
        """The arguments of ``vb`` or ``ib`` in rows: seven numbers a vertex, one an index."""
        return Rows(self.arguments, len(WORDS[self.word].arguments))


def whole_numbers(name: str, values: Iterable[int]) -> tuple[int, ...]:
    """The values as a tuple of Python's own integers; numpy's are taken, floats and bools are not."""
    given = tuple(values)
    if bool in set(map(type, given)):
        flag = next(it for it in given if isinstance(it, bool))
        raise WrongType(name, f"takes whole numbers, and not {flag}")
    try:
        return tuple(map(index, given))
    except TypeError as error:
        raise WrongType(name, f"takes whole numbers: {error}") from error
