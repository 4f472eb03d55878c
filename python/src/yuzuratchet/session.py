"""A whole script as the device takes it: lists, executions, questions, and what is refused.

A :class:`Session` takes lines in their order. It draws nothing: what runs is handed to
:meth:`Session.perform`, and each question to :meth:`Session.answer`, which a class above it may
fill. So one statement of these rules serves :class:`~yuzuratchet.scene.Scene`, ``check``,
``explain`` and tools/plain_device.py.
"""

from __future__ import annotations

from typing import Iterable

from .errors import CallRefused
from .limits import TARGET_SIDE
from .line import Line
from .recording import CommandItems, Recorder, refuse_if, refuse_query
from .words import ACTORS, DEFERRED, IMMEDIATE


class Session:
    """The contexts of a script, the lists that they finished, and the queries that were issued."""

    def __init__(self, width: int, height: int) -> None:
        for place, (name, side) in enumerate((("width", width), ("height", height))):
            message = f"{side} is not in 1 to {TARGET_SIDE}"
            refuse_if(not 0 < side <= TARGET_SIDE, 2, name, message, place)
        self.width, self.height = width, height
        self.contexts = {actor: Recorder() for actor in ACTORS}
        self.lists: dict[str, list[CommandItems]] = {actor: [] for actor in DEFERRED}
        self.issued: set[int] = set()
        self.immediate = self.contexts[IMMEDIATE]

    def perform(self, number: int, commands: CommandItems, is_list: bool) -> None:
        """What runs: a list that line ``number`` executes, or what was pending before it."""

    def answer(self, number: int, line: Line) -> None:
        """An accepted ``query`` or ``pixel`` line; all before it has run."""

    def take(self, number: int, line: Line) -> None:
        """Takes a line, whose number is counted from 1.

        Raises :class:`~yuzuratchet.errors.CallRefused` where the device refuses it, and changes
        nothing then.
        """
        taking = getattr(self, f"_take_{line.word}", None)
        if taking is not None:
            taking(number, line)
        else:
            self.contexts[line.actor].take(number, line)

    def take_all(self, lines: Iterable[Line]) -> None:
        """Takes the lines of a script behind the first, and runs what is pending at the end.

        The number of the line that is refused is added to the refusal's ``line``.
        """
        number = 1
        try:
            for line in lines:
                number += 1
                self.take(number, line)
            number += 1
            self.run(number, "the end")
        except CallRefused as refusal:
            refusal.line = number
            raise

    def run(self, number: int, word: str, restore: bool = True) -> None:
        """Runs what is pending, at a line of the word."""
        self.immediate.refuse_open(9, word)
        self._perform(number, self.immediate.finish(restore), False)

    def _perform(self, number: int, commands: CommandItems, is_list: bool) -> None:
        self.issued.update(commands.issues)
        self.perform(number, commands, is_list)

    def _take_finish(self, _: int, line: Line) -> None:
        context = self.contexts[line.actor]
        context.refuse_open(12, line.word)
        self.lists[line.actor].append(context.finish(bool(line.arguments[0])))

    def _take_flush(self, number: int, line: Line) -> None:
        self.run(number, line.word)

    def _take_exec(self, number: int, line: Line) -> None:
        self.run(number, line.word, bool(line.arguments[2]))
        self._perform(number, self.list_of(line), True)

    def list_of(self, line: Line) -> CommandItems:
        """The list that an ``exec`` line names."""
        context, list_number, _ = line.arguments
        return self.lists[DEFERRED[context]][list_number]

    def _take_query(self, number: int, line: Line) -> None:
        query = line.arguments[0]
        refuse_query(query)
        self.immediate.refuse_open(9, line.word)
        known = query in self.issued or query in self.immediate.list.issues
        message = f"no begin and end of query {query} were executed"
        refuse_if(not known, 17, "query", message, 0)
        self.run(number, line.word)
        self.answer(number, line)

    def _take_pixel(self, number: int, line: Line) -> None:
        for place, (name, at, side) in enumerate(
            zip("xy", line.arguments, (self.width, self.height))
        ):
            message = f"{at} is not below the target's {('width', 'height')[place]}, {side}"
            refuse_if(at >= side, 15, name, message, place)
        self.run(number, line.word)
        self.answer(number, line)
