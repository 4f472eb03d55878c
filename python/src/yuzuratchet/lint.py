"""Warnings: what the device takes, and is hardly meant.

A script with a fault, or that is refused, has none: it is to be mended first.
"""

from __future__ import annotations

from typing import Iterable

from .assembly import triangles
from .findings import Finding, Text
from .line import Line
from .recording import Item
from .session import Session
from .states import CullMode
from .words import DEFERRED

RULES = {
    "list-never-finished": "A deferred context records lines and never finishes a list of them.",
    "list-never-executed": "A list is finished and never executed.",
    "draw-of-no-triangle": "A draw makes no triangle.",
    "draw-all-culled": "Each triangle of a draw is culled, or has no area.",
    "query-never-asked": "A query is begun, and neither asked nor a predicate.",
    "state-set-twice": "A state is set twice with no draw between.",
}
"""What each rule warns of."""

STATES = frozenset(("vb", "ib", "topology", "raster", "scissor", "ds", "blend", "predicate"))
DRAWS = ("draw", "drawi")


def warnings_of(text: Text, width: int, height: int, lines: Iterable[Line]) -> list[Finding]:
    """The warnings of a script that the device takes, in the order of lines."""
    lint = Lint(text, width, height)
    lint.take_all(lines)
    lint.end()
    return sorted(lint.findings, key=lambda it: (it.line, it.start))


class Lint(Session):
    """A session that notes what is hardly meant."""

    def __init__(self, text: Text, width: int, height: int) -> None:
        super().__init__(width, height)
        self.text = text
        self.findings: list[Finding] = []
        self.begun: dict[int, int] = {}
        """Queries with the first line that begins each, and those that are used."""
        self.used: set[int] = set()
        self.recorded: dict[str, int] = {}
        """The first line of each list that is being recorded."""
        self.finished: dict[tuple[str, int], int] = {}
        self.set: dict[tuple[str, str], int] = {}
        """The lines that set a state since the last draw, by actor and word."""

    def warn(self, rule: str, line: int, message: str, word: int = 1) -> None:
        """Notes a warning at a word of a line."""
        place = self.text.word(line, word)
        self.findings.append(Finding(line, 0, place.start, place.end, message, rule=rule))

    def take(self, number: int, line: Line) -> None:
        super().take(number, line)
        if line.word in DRAWS:
            self.check_draw(self.contexts[line.actor].list.items[-1])
        self.note_state(number, line)
        self.note_list(number, line)
        self.note_query(number, line)

    def check_draw(self, item: Item) -> None:
        """Warns of a draw of which nothing is to be seen."""
        assert item.state.topology is not None  # (a draw without one is refused)
        found = triangles(item.places, item.state.topology, item.line.word == "drawi")
        if not found:
            message = (
                f"{item.line.arguments[0]} places make no triangle of a {item.state.topology.name}"
            )
            self.warn("draw-of-no-triangle", item.number, message, 2)
            return
        mode, base = item.state.rasterizer.cull_mode, item.base
        corners = ([item.state.vertices[it + base] for it in triple] for triple in found)
        if all(_is_dropped(item, *it) for it in corners):
            why = (
                "has no area"
                if mode is CullMode.NONE
                else f"is culled by {mode.name}, or has no area"
            )
            count = "its triangle" if len(found) == 1 else f"each of its {len(found)} triangles"
            self.warn("draw-all-culled", item.number, f"{count} {why}", 2)

    def note_state(self, number: int, line: Line) -> None:
        """Warns where a state is set again with no draw between."""
        if line.word in DRAWS:
            self.forget(line.actor)
        elif line.word.startswith("clear"):
            self.set.pop((line.actor, "predicate"), None)
        elif line.word in ("finish", "exec") and not line.arguments[-1]:
            self.forget(line.actor)
        elif line.word in STATES:
            before = self.set.get((line.actor, line.word))
            if before is not None:
                again = f"{line.word} is set here and again in line {number}, with no draw between"
                self.warn("state-set-twice", before, again)
            self.set[line.actor, line.word] = number

    def forget(self, actor: str) -> None:
        """Behind a draw, or where the state is the default again, each state may be set anew."""
        self.set = {key: line for key, line in self.set.items() if key[0] != actor}

    def note_list(self, number: int, line: Line) -> None:
        """Keeps which lists there are, and which are executed."""
        if line.word == "finish":
            self.recorded.pop(line.actor, None)
            self.finished[line.actor, len(self.lists[line.actor]) - 1] = number
        elif line.word == "exec":
            self.finished.pop((DEFERRED[line.arguments[0]], line.arguments[1]), None)
        elif line.actor in DEFERRED:
            self.recorded.setdefault(line.actor, number)

    def note_query(self, number: int, line: Line) -> None:
        """Keeps which queries are begun, and which are used."""
        if line.word == "begin":
            self.begun.setdefault(line.arguments[0], number)
        elif line.word in ("query", "predicate"):
            self.used.update(line.arguments[:1])

    def end(self) -> None:
        """Behind the last line: warns of lists and queries that nothing came of."""
        for actor, first in self.recorded.items():
            message = f"{actor} records from here on, and never finishes the list: it draws nothing"
            self.warn("list-never-finished", first, message, 0)
        # (where a list was executed before, it isn't among them any more)
        for (actor, number), line in self.finished.items():
            message = f"list {number} of {actor} is never executed: it draws nothing"
            self.warn("list-never-executed", line, message)
        for query, line in self.begun.items():
            if query not in self.used:
                message = f"query {query} is neither asked, nor is it a predicate"
                self.warn("query-never-asked", line, message, 2)


def _is_dropped(item: Item, a: tuple[int, ...], b: tuple[int, ...], c: tuple[int, ...]) -> bool:
    """Whether a triangle has no area on the grid of 1/256 pixel, or is culled."""
    (ax, ay), (bx, by), (cx, cy) = ((_snapped(it[0]), _snapped(it[1])) for it in (a, b, c))
    area = (bx - ax) * (cy - ay) - (by - ay) * (cx - ax)
    rasterizer = item.state.rasterizer
    is_front = (area > 0) != rasterizer.front_counter_clockwise
    dropped = {CullMode.FRONT: is_front, CullMode.BACK: not is_front}
    return area == 0 or dropped.get(rasterizer.cull_mode, False)


def _snapped(place: int) -> int:
    """The nearest 1/256 of a pixel, the even one of two."""
    below, rest = divmod(place, 256)
    return below + (rest > 128 or (rest == 128 and below % 2 == 1))
