"""A scene: what is told to eight deferred contexts and the immediate one, call by call.

The calls have Direct3D 11's names in Python's spelling, and its order of arguments. Each call adds
a line to the scene's script:

>>> scene = Scene(4, 4)
>>> context = scene.immediate
>>> colour = "#0a141e28"
>>> context.ia_set_vertices([(0, 0, 0.0, colour), (4, 0, 0.0, colour), (0, 4, 0.0, colour)])
>>> context.ia_set_topology(PrimitiveTopology.TRIANGLELIST)
>>> context.draw(3)
>>> print(scene.script(), end="")
target 4 4
i vb 0 0 0 10 20 30 40 262144 0 0 10 20 30 40 0 262144 0 10 20 30 40
i topology 4
i draw 3 0

Units of coordinates, depths and colours stand in :mod:`yuzuratchet.units`.
"""

from __future__ import annotations

from contextlib import contextmanager
from dataclasses import dataclass, field
from functools import partial
from pathlib import Path
from types import TracebackType
from typing import TYPE_CHECKING, Iterable, Iterator, TypeVar

from .errors import ArgumentError, CallRefused, WrongType
from .labels import Labels
from .line import Line, whole_numbers
from .session import Session
from .states import BlendState, DepthStencilState, PrimitiveTopology, RasterizerState
from .units import Colour, Number, rgba, stored_depth
from .vertices import Vertex, vertex_line, where_outside
from .words import DEFERRED, IMMEDIATE, TARGET

if TYPE_CHECKING:
    from .changes import Changes
    from .history import Event


@dataclass(frozen=True, repr=False)
class CommandList:
    """A list that a deferred context finished: the context's number, and its own, both from 0.

    ``scene`` is the one that it is a list of, and ``lines`` how many lines it has, the one that
    finished it included.
    """

    context: int
    number: int
    scene: Scene | None = field(default=None, compare=False)
    lines: int = field(default=0, compare=False)

    def __repr__(self) -> str:
        return (
            f"<CommandList {self.number} of {DEFERRED[self.context]}: {_count(self.lines, 'line')}>"
        )


def _count(number: int, thing: str) -> str:
    return f"{number} {thing}{'' if number == 1 else 's'}"


StateKind = TypeVar("StateKind", RasterizerState, DepthStencilState, BlendState)


def _of_kind(kind: type[StateKind], state: StateKind) -> StateKind:
    """The state, if it is one of the kind that a call takes."""
    if not isinstance(state, kind):
        raise WrongType("state", f"a {kind.__name__} is wanted, and not {state!r}")
    return state


class Context:
    """The calls that both kinds of context have. Make none: a :class:`Scene` has its contexts.

    Each call raises :class:`~yuzuratchet.errors.ArgumentError` where no script can spell it, and
    :class:`~yuzuratchet.errors.CallRefused` where the device would refuse it; both name the
    argument, and the scene stays as it was.
    """

    def __init__(self, scene: Scene, actor: str) -> None:
        self.scene = scene
        self.actor = actor

    def __repr__(self) -> str:
        lines = _count(self.scene.recorded[self.actor], "line")
        return f"<{type(self).__name__} {self.actor} of {self.scene!r}: {lines}>"

    def _add(self, word: str, *arguments: int) -> None:
        self.scene.add(self.actor, word, *arguments)

    def ia_set_vertices(self, vertices: Iterable[Vertex]) -> None:
        """Sets the vertices, at most 65,536, each ``(x, y, depth, colour)``.

        x and y are pixels (int, float or Fraction) from -4,096 to 4,096, depth 0.0 to 1.0 or the
        stored integer. A triangle has the colour of its first vertex.
        """
        line = vertex_line(self.actor, vertices)
        try:
            self.scene.add_line(line)
        except CallRefused as refused:
            if refused.number != 3 or refused.place is None:
                raise
            where = where_outside(refused.place, line.arguments)
            raise CallRefused(3, refused.argument, where, refused.place) from refused

    def ia_set_indices(self, indices: Iterable[int]) -> None:
        """Sets the indices, at most 65,536, each 0 to 65,535; numpy arrays are taken."""
        given = indices.tolist() if hasattr(indices, "tolist") else indices
        self._add("ib", *given)

    def ia_set_topology(self, topology: PrimitiveTopology) -> None:
        """Says how vertices make triangles; nothing can be drawn before."""
        self._add("topology", topology)

    def rs_set_state(self, state: RasterizerState) -> None:
        """Says which triangles are drawn, and whether the scissor rectangle acts."""
        self._add("raster", *_of_kind(RasterizerState, state).numbers())

    def rs_set_scissor(self, left: int, top: int, right: int, bottom: int) -> None:
        """Sets the scissor rectangle, in pixels; right and bottom are the first ones outside."""
        self._add("scissor", left, top, right, bottom)

    def om_set_depth_stencil(self, state: DepthStencilState, stencil_ref: int = 0) -> None:
        """Says how depth and stencil are tested and changed; the reference is 0 to 255."""
        self._add("ds", *_of_kind(DepthStencilState, state).numbers(), stencil_ref)

    def om_set_blend(self, state: BlendState) -> None:
        """Says what is written of a triangle's colour."""
        self._add("blend", *_of_kind(BlendState, state).numbers())

    def set_predication(self, predicate: tuple[int, bool] | None) -> None:
        """Leaves out draws and clears where the query's result is the value; None ends that.

        ``predicate`` is ``(query, value)``; the query's result is True where its last pair of begin
        and end counted a pixel. The list itself may not begin the query.
        """
        if predicate is None:
            self._add("predicate")
        else:
            if not isinstance(predicate, tuple) or len(predicate) != 2:
                raise WrongType("predicate", f"(query, value) is wanted, and not {predicate!r}")
            query, value = predicate
            self._add("predicate", query, int(bool(value)))

    def draw(self, count: int, start: int = 0) -> None:
        """Draws ``count`` vertices from place ``start`` on."""
        self._add("draw", count, start)

    def draw_indexed(self, count: int, start: int = 0, base: int = 0) -> None:
        """Draws by ``count`` indices from place ``start`` on, ``base`` added to each."""
        self._add("drawi", count, start, base)

    def clear_color(self, colour: Colour) -> None:
        """Gives every pixel this colour."""
        self._add("clearc", *rgba(colour))

    def clear_depth_stencil(self, depth: Number = 1.0, stencil: int = 0) -> None:
        """Gives every pixel a depth, 0.0 to 1.0 or the stored integer, and a stencil, 0 to 255."""
        self._add("cleards", stored_depth(depth), stencil)

    def begin(self, query: int) -> None:
        """Begins to count, under query 0 to 63, the pixels that pass both tests."""
        self._add("begin", query)

    def end(self, query: int) -> None:
        """Ends to count under a query."""
        self._add("end", query)

    @contextmanager
    def counted(self, query: int) -> Iterator[None]:
        """Begins the query, and ends it behind the block: ``with context.counted(0): ...``."""
        self.begin(query)
        yield
        self.end(query)


class DeferredContext(Context):
    """A context that records lists, which the immediate context executes."""

    def finish_command_list(self, restore: bool = False) -> CommandList:
        """Ends the list and gives it; with ``restore`` the next one begins with the state kept."""
        lines = self.scene.recorded[self.actor] + 1
        self._add("finish", int(bool(restore)))
        number = DEFERRED.index(self.actor)
        return CommandList(number, self.scene.finished[self.actor] - 1, self.scene, lines)


class ImmediateContext(Context):
    """The context that draws, executes lists and asks.

    A question gives the place of its answer in the ``answers`` of a
    :class:`~yuzuratchet.results.Result`.
    """

    def flush(self) -> None:
        """Runs what is pending; it makes room for more commands, and changes nothing else."""
        self._add("flush")

    def execute(self, command_list: CommandList, restore: bool = False) -> None:
        """Executes a list; with ``restore`` the context's state stays, else the default is set."""
        if not isinstance(command_list, CommandList):
            raise WrongType("command_list", f"a CommandList is wanted, and not {command_list!r}")
        if command_list.scene not in (None, self.scene):
            raise ArgumentError("command_list", "it is a list of another scene")
        self._add("exec", command_list.context, command_list.number, int(bool(restore)))

    def get_data(self, query: int) -> int:
        """Asks how many pixels the last begin and end of a query counted."""
        self._add("query", query)
        return self.scene.questions - 1

    def pixel(self, x: int, y: int) -> int:
        """Asks what a pixel holds."""
        self._add("pixel", x, y)
        return self.scene.questions - 1

    def pixels(self, left: int, top: int, right: int, bottom: int) -> range:
        """Asks for each pixel of a rectangle, row by row; right and bottom lie just outside."""
        first = self.scene.questions
        for y in range(top, bottom):
            for x in range(left, right):
                self.pixel(x, y)
        return range(first, self.scene.questions)


class Scene:
    """A script in the making, for a target of ``width`` by ``height`` pixels, 1 to 4,096 each.

    A scene that is ``strict`` raises :class:`~yuzuratchet.errors.CallRefused` at each call that the
    device refuses. With ``strict=False`` it takes such calls, as conformance tests want them.
    """

    def __init__(self, width: int, height: int, *, strict: bool = True) -> None:
        (self.width,), (self.height,) = (
            whole_numbers(name, (side,)) for name, side in (("width", width), ("height", height))
        )
        TARGET.check((self.width, self.height))
        self.strict = strict
        self.questions = 0
        self.finished = dict.fromkeys(DEFERRED, 0)
        self.recorded = dict.fromkeys((IMMEDIATE, *DEFERRED), 0)
        """How many lines each context has, of a deferred one in the list that it records."""
        self.labels = Labels()
        self._lines: list[Line] = []
        self.immediate = ImmediateContext(self, IMMEDIATE)
        self.deferred = tuple(DeferredContext(self, actor) for actor in DEFERRED)
        self._rules = Session(self.width, self.height) if strict else None

    def __repr__(self) -> str:
        lines, questions = _count(len(self._lines), "line"), _count(self.questions, "question")
        return f"<Scene: {self.width} by {self.height} pixels, {lines}, {questions}>"

    @classmethod
    def from_lines(
        cls, width: int, height: int, lines: Iterable[Line], *, strict: bool = True
    ) -> Scene:
        """The scene that has these lines behind its first one."""
        scene = cls(width, height, strict=strict)
        for line in lines:
            scene.add_line(line)
        return scene

    @property
    def lines(self) -> tuple[Line, ...]:
        """The lines behind the first one. To change some, make a scene :meth:`from_lines`."""
        return tuple(self._lines)

    def add(self, actor: str, word: str, *arguments: int) -> None:
        """Adds a line by its word and numbers: ``scene.add("i", "draw", 3, 0)``."""
        self.add_line(Line(actor, word, arguments))

    def add_line(self, line: Line) -> None:
        """Adds a line."""
        if line.word == "exec":
            self._check_list(line)
        if self._rules is not None:
            self._rules.take(self._next_line, line)
        self._lines.append(line)
        self.questions += line.word in ("query", "pixel")
        self.recorded[line.actor] += 1
        if line.word == "finish":
            self.finished[line.actor] += 1
            self.recorded[line.actor] = 0

    def label(self, name: str | None) -> LabelledBlock:
        """Names the calls that follow, up to the next label, as ``scene.label("floor")``.

        ``explain``, ``check`` and the page show the names, which are no part of the script: they
        are saved beside it. With ``with scene.label("floor"):`` the name ends with the block.
        """
        before = self.labels.of(self._next_line)
        self.labels.add(self._next_line, name)
        return LabelledBlock(self, before)

    @property
    def _next_line(self) -> int:
        """The number of the next line; the target's is 1."""
        return len(self._lines) + 2

    def _check_list(self, line: Line) -> None:
        context, number, _ = line.arguments
        made = self.finished[DEFERRED[context]]
        if number >= made:
            raise ArgumentError("list", f"{DEFERRED[context]} has finished {made}, counted from 0")

    def script(self) -> str:
        """The script, in its one spelling."""
        lines = [f"{TARGET.name} {self.width} {self.height}", *map(str, self._lines)]
        return "".join(f"{line}\n" for line in lines)

    def up_to(self, line: int) -> Scene:
        """The scene of the first lines, up to one, which is counted from 1, the target's.

        Queries that the immediate context has open there are ended, since the device runs nothing
        while one is. Raises :class:`~yuzuratchet.errors.ArgumentError` where there is no such line.
        """
        from .excerpt import up_to  # (here, since that and the reader know scenes)
        from .reader import read_script

        scene = read_script(up_to(self.script().encode("ascii"), line))
        scene.labels = Labels(it for it in self.labels if it[0] <= line)
        return scene

    def history(
        self, x: int, y: int, *, at: int | None = None, library: str | Path | None = None
    ) -> list[Event]:
        """What touched the pixel (x, y), in order, and what each found and left there: over all
        lines, or those up to ``at``.

        The library tells it; ``explain`` tells of what covers the pixel and doesn't touch it too.
        Raises as :func:`yuzuratchet.history.history` does.
        """
        from .history import history  # (here, since only this wants the library)

        return history(self.script().encode("ascii"), x, y, at=at, library=library)

    def changes(
        self,
        line: int,
        *,
        library: str | Path | None = None,
        program: str | Path | None = None,
        workers: int | None = None,
    ) -> Changes:
        """The pixels whose colour, depth or stencil a line changed, which is counted from 1.

        Raises as :func:`yuzuratchet.changes.changes` does, which says what a line changes.
        """
        from .backends import draw
        from .changes import changes  # (here, since this wants numpy)

        how = partial(draw, library=library, program=program, workers=workers)
        return changes(self.script().encode("ascii"), line, how)

    def save(self, path: str | Path) -> None:
        """Writes the script to a file, and the names of its lines beside it, where it has some."""
        script = self.script().encode("ascii")
        Path(path).write_bytes(script)
        if self.labels:
            self.labels.write(Path(path), script)


class LabelledBlock:
    """A label that holds in a ``with`` block; behind it the one before holds again."""

    def __init__(self, scene: Scene, before: str | None) -> None:
        self.scene, self.before = scene, before

    def __enter__(self) -> Scene:
        return self.scene

    def __exit__(
        self,
        kind: type[BaseException] | None,
        error: BaseException | None,
        at: TracebackType | None,
    ) -> None:
        self.scene.label(self.before)
