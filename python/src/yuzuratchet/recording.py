"""What a context records: its state, its list, and which calls the device refuses.

A :class:`Recorder` takes the lines of one context. A line that the device refuses raises
:class:`~yuzuratchet.errors.CallRefused` and changes nothing; where several refusals apply, the
first in the device's order is told. Want of memory, refusal 1, is not looked at.
"""

from __future__ import annotations

from dataclasses import dataclass, field, replace
from typing import Any, Sequence

from .assembly import triangle_count
from .errors import CallRefused
from .limits import (
    BUFFER_LENGTH,
    DEEPEST,
    FARTHEST,
    LIST_COMMANDS,
    LIST_ISSUES,
    LIST_TRIANGLES,
    QUERIES,
    STRIP_CUT,
    TARGET_SIDE,
)
from .line import Line
from .states import BlendState, DepthStencilState, PrimitiveTopology, RasterizerState

Vertex = tuple[int, ...]


@dataclass(frozen=True)
class State:
    """The eight kinds of state, at first the defaults. Vertices are rows of the ``vb`` line.

    ``indices_line`` is the number of the ``ib`` line.
    """

    vertices: Sequence[Vertex] = ()
    indices: Sequence[int] = ()
    indices_line: int = field(default=0, compare=False)
    topology: PrimitiveTopology | None = None
    rasterizer: RasterizerState = RasterizerState()
    scissor: tuple[int, ...] = (0, 0, 0, 0)
    depth_stencil: DepthStencilState = DepthStencilState()
    stencil_ref: int = 0
    blend: BlendState = BlendState()
    predicate: tuple[int, bool] | None = None


@dataclass(frozen=True)
class Item:
    """A draw or a clear of a list, with the state that it is under.

    ``number`` is that of its line, and ``command`` counts the commands of the list from 0; a state
    that was kept is one of them. ``issues`` are the places, in the list's issues, of the queries
    that are open.
    """

    number: int
    line: Line
    state: State
    issues: tuple[int, ...]
    command: int

    @property
    def places(self) -> Sequence[int]:
        """The places of a draw, indices where it goes by them, before the base is added."""
        count, start = self.line.arguments[:2]
        if self.line.word == "drawi":
            return self.state.indices[start : start + count]
        return range(start, start + count)

    @property
    def base(self) -> int:
        """What is added to each place of a draw."""
        return self.line.arguments[2] if self.line.word == "drawi" else 0


@dataclass
class CommandItems:
    """A list that is finished, or what was pending: its items, and the query of each issue."""

    items: list[Item] = field(default_factory=list)
    issues: list[int] = field(default_factory=list)


def refuse_if(
    refused: bool, number: int, argument: str, message: str, place: int | None = None
) -> None:
    """Raises a refusal where its condition holds."""
    if refused:
        raise CallRefused(number, argument, message, place)


def refuse_query(query: int, place: int = 0) -> None:
    """Raises the refusal of a query's number that is too great."""
    message = f"{query} is above {QUERIES - 1}, the last of the {QUERIES} queries"
    refuse_if(query >= QUERIES, 11, "query", message, place)


def refuse_vertices(numbers: Sequence[int]) -> None:
    """Raises the refusals of a ``vb`` line: too many vertices, or one out of range."""
    count = len(numbers) // 7
    message = f"{count} are given, and a buffer takes {BUFFER_LENGTH}"
    refuse_if(count > BUFFER_LENGTH, 4, "vertices", message, 7 * BUFFER_LENGTH)
    ranges = (("x", -FARTHEST, FARTHEST), ("y", -FARTHEST, FARTHEST), ("z", 0, DEEPEST))
    for at, (name, least, most) in enumerate(ranges):
        row = numbers[at::7]
        if row and (min(row) < least or max(row) > most):
            number = next(n for n, value in enumerate(row) if not least <= value <= most)
            message = f"{name} of vertex {number} is {row[number]}, and not in {least} to {most}"
            raise CallRefused(3, "vertices", message, 7 * number + at)


class Recorder:
    """The state of one context, and the list that it records."""

    def __init__(self) -> None:
        self._begin(State(), 0)

    def _begin(self, state: State, commands: int) -> None:
        self.state = state
        self.commands = commands
        self.triangles = 0
        self.list = CommandItems()
        self.opened: dict[int, tuple[int, int]] = {}
        self.named: dict[int, int] = {state.predicate[0]: 0} if state.predicate else {}

    def finish(self, restore: bool) -> CommandItems:
        """Ends the list; the next begins with the kept state, which is one command, or anew."""
        done = self.list
        self._begin(self.state if restore else State(), 1 if restore else 0)
        return done

    def take(self, number: int, line: Line) -> None:
        """Takes a line of any word but those that finish, run or ask; ``number`` is the line's."""
        getattr(self, f"_take_{line.word}")(number, line)

    def _add(self, word: str, triangles: int = 0) -> None:
        message = f"the list has {LIST_COMMANDS} commands, and takes no more"
        refuse_if(self.commands >= LIST_COMMANDS, 13, word, message)
        total = self.triangles + triangles
        message = f"the list would have {total} triangles, and takes {LIST_TRIANGLES}"
        refuse_if(total > LIST_TRIANGLES, 13, "count", message, 0)
        self.commands, self.triangles = self.commands + 1, total

    def _set(self, line: Line, **kinds: Any) -> None:
        self._add(line.word)
        self.state = replace(self.state, **kinds)

    def _put(self, number: int, line: Line, triangles: int = 0) -> None:
        command = self.commands
        self._add(line.word, triangles)
        issues = tuple(issue for issue, _ in self.opened.values())
        self.list.items.append(Item(number, line, self.state, issues, command))

    def _take_vb(self, _: int, line: Line) -> None:
        refuse_vertices(line.arguments)
        self._set(line, vertices=line.rows)

    def _take_ib(self, number: int, line: Line) -> None:
        given = len(line.arguments)
        message = f"{given} are given, and a buffer takes {BUFFER_LENGTH}"
        refuse_if(given > BUFFER_LENGTH, 4, "indices", message, BUFFER_LENGTH)
        self._set(line, indices=line.arguments, indices_line=number)

    def _take_topology(self, _: int, line: Line) -> None:
        self._set(line, topology=PrimitiveTopology(line.arguments[0]))

    def _take_raster(self, _: int, line: Line) -> None:
        self._set(line, rasterizer=RasterizerState.from_numbers(line.arguments))

    def _take_scissor(self, _: int, line: Line) -> None:
        left, top, right, bottom = line.arguments
        refuse_if(left > right, 8, "left", f"{left} is above right, {right}", 0)
        refuse_if(top > bottom, 8, "top", f"{top} is above bottom, {bottom}", 1)
        refuse_if(right > TARGET_SIDE, 8, "right", f"{right} is above {TARGET_SIDE}", 2)
        refuse_if(bottom > TARGET_SIDE, 8, "bottom", f"{bottom} is above {TARGET_SIDE}", 3)
        self._set(line, scissor=line.arguments)

    def _take_ds(self, _: int, line: Line) -> None:
        state, reference = line.arguments[:-1], line.arguments[-1]
        self._set(line, depth_stencil=DepthStencilState.from_numbers(state), stencil_ref=reference)

    def _take_blend(self, _: int, line: Line) -> None:
        self._set(line, blend=BlendState.from_numbers(line.arguments))

    def _take_predicate(self, number: int, line: Line) -> None:
        if not line.arguments:
            self._set(line, predicate=None)
            return
        query, value = line.arguments
        refuse_query(query)
        begun = query in self.list.issues
        refuse_if(begun, 20, "query", f"the list has begun query {query} itself", 0)
        self._set(line, predicate=(query, bool(value)))
        self.named.setdefault(query, number)

    def _take_clearc(self, number: int, line: Line) -> None:
        self._put(number, line)

    def _take_cleards(self, number: int, line: Line) -> None:
        depth = line.arguments[0]
        refuse_if(depth > DEEPEST, 3, "depth", f"{depth} is above {DEEPEST}", 0)
        self._put(number, line)

    def _take_draw(self, number: int, line: Line) -> None:
        count, start = line.arguments
        self._refuse_range(line, "vertices", len(self.state.vertices))
        self._put(number, line, self._triangles(range(start, start + count), False))

    def _take_drawi(self, number: int, line: Line) -> None:
        count, start, base = line.arguments
        self._refuse_range(line, "indices", len(self.state.indices))
        places = self.state.indices[start : start + count]
        self._refuse_indices(places, start, base)
        self._put(number, line, self._triangles(places, True))

    def _triangles(self, places: Sequence[int], cuts: bool) -> int:
        assert self.state.topology is not None  # (refused before)
        return triangle_count(places, self.state.topology, cuts)

    def _refuse_range(self, line: Line, what: str, length: int) -> None:
        count, start = line.arguments[:2]
        refuse_if(self.state.topology is None, 7, line.word, "no topology is set")
        message = f"{count} from place {start} on pass the end of the {length} {what} that are set"
        refuse_if(start + count > length, 5, "count", message, 0)

    def _refuse_indices(self, places: Sequence[int], start: int, base: int) -> None:
        is_strip = self.state.topology == PrimitiveTopology.TRIANGLESTRIP
        used = [it for it in places if it != STRIP_CUT] if is_strip else places
        length = len(self.state.vertices)
        if used and not (min(used) + base >= 0 and max(used) + base < length):
            index = next(it for it in used if not 0 <= it + base < length)
            place = start + places.index(index)
            message = f"index {index} at place {place} with {base} added is no vertex"
            of = (self.state.indices_line, place)
            raise CallRefused(6, "base", f"{message}: {length} are set", 2, of)

    def _take_begin(self, number: int, line: Line) -> None:
        query = line.arguments[0]
        refuse_query(query)
        since = self.opened.get(query, (0, 0))[1]
        refuse_if(query in self.opened, 9, "query", f"{query} is open since line {since}", 0)
        message = f"the list has a predicate by query {query}"
        if self.named.get(query):
            message += f", set in line {self.named[query]}"
        refuse_if(query in self.named, 20, "query", message, 0)
        issues = self.list.issues
        message = f"the list has begun {LIST_ISSUES} queries, and takes no more"
        refuse_if(len(issues) >= LIST_ISSUES, 14, line.word, message)
        self._add(line.word)
        self.opened[query] = (len(issues), number)
        issues.append(query)

    def _take_end(self, _: int, line: Line) -> None:
        query = line.arguments[0]
        refuse_query(query)
        refuse_if(query not in self.opened, 10, "query", f"{query} is not open", 0)
        self._add(line.word)
        del self.opened[query]

    def refuse_open(self, number: int, word: str) -> None:
        """Raises a refusal where a query is open."""
        for query, (_, since) in self.opened.items():
            raise CallRefused(number, word, f"query {query} is open since line {since}")
