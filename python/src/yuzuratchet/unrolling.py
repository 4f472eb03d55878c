"""What a scene performs, in the order of execution, and which of it its predicates leave out."""

from __future__ import annotations

from dataclasses import dataclass, field
from typing import Any, Callable, Iterable

from .errors import CallRefused, ScriptRefused, YuzuratchetError
from .line import Line
from .recording import CommandItems, Item
from .replaying import ran_out
from .results import QueryAnswer, Result, run
from .scene import Scene
from .session import Session
from .words import IMMEDIATE

RUNNING = ("flush", "exec", "query", "pixel")

Told = Callable[[str], None]


@dataclass
class Performed:
    """What ran at line ``number``: the items of a list, or those that were pending.

    ``counts`` has the counts of the queries on which they depend, as they were then.
    """

    number: int
    commands: CommandItems
    is_list: bool
    counts: dict[int, int] = field(default_factory=dict)

    def withholds(self, item: Item) -> bool:
        """Whether the item's predicate left it out."""
        if item.state.predicate is None:
            return False
        query, value = item.state.predicate
        return (self.counts.get(query, 0) > 0) == value


@dataclass(frozen=True)
class AskedCount:
    """A count that is asked before a line: the answer's place, what runs first there, the query."""

    place: int
    first: int
    query: int


class Unrolled(Session):
    """The lists of a scene that no line of is refused, unrolled.

    ``performed`` is what ran. ``lines`` are those of the scene, with a question before each line
    that runs something, for each query on which what it runs depends; :meth:`note` takes what the
    device answers. A question runs what is pending, and changes no meaning.
    """

    def __init__(self, scene: Scene) -> None:
        super().__init__(scene.width, scene.height)
        self.performed: list[Performed] = []
        self.lines: list[Line] = []
        self._answers = 0
        self._asked: list[AskedCount] = []
        self.take_all(scene.lines)

    @property
    def asks(self) -> bool:
        """Whether a question was put in."""
        return bool(self._asked)

    def perform(self, number: int, commands: CommandItems, is_list: bool) -> None:
        self.performed.append(Performed(number, commands, is_list))

    def take(self, number: int, line: Line) -> None:
        if line.word in RUNNING:
            self._ask(self.list_of(line).items if line.word == "exec" else [])
        self.lines.append(line)
        self._answers += line.word in ("query", "pixel")
        super().take(number, line)

    def run(self, number: int, word: str, restore: bool = True) -> None:
        if word not in RUNNING:  # (the end of the script)
            self._ask([])
        super().run(number, word, restore)

    def _ask(self, executed: list[Item]) -> None:
        pending = self.immediate.list
        predicates = [it.state.predicate for it in (*pending.items, *executed)]
        for query in sorted({it[0] for it in predicates if it}):
            # (a query that was never issued has counted nothing, and can't be asked)
            if query in self.issued or query in pending.issues:
                self.lines.append(Line(IMMEDIATE, "query", (query,)))
                self._asked.append(AskedCount(self._answers, len(self.performed), query))
                self._answers += 1

    def note(self, result: Result) -> None:
        """Hands each count to what ran at the line that it was asked before."""
        for asked in self._asked:
            answer = result.answers[asked.place]
            assert isinstance(answer, QueryAnswer)
            number = self.performed[asked.first].number
            # what was pending runs first, and an executed list behind it at the same line
            for performed in self.performed[asked.first : asked.first + 2]:
                if performed.number == number:
                    performed.counts[asked.query] = answer.count


def unroll(scene: Scene, told: Told = lambda _: None, **how: Any) -> Unrolled:
    """The lists of a scene, unrolled, with what was counted for their predicates.

    Where there are some the scene is drawn, which ``told`` hears, by :func:`~yuzuratchet.results.run`,
    which takes ``how``. Raises as that does where a line is refused.
    """
    try:
        unrolled = Unrolled(scene)
    except CallRefused as refusal:
        run(scene, **how)
        message = f"the device takes what the package doesn't: {refusal}"
        raise YuzuratchetError(message) from refusal
    if unrolled.asks:
        told("draws the scene")
        unrolled.note(drawn(scene, unrolled.lines, **how))
    return unrolled


def drawn(scene: Scene, lines: Iterable[Line], **how: Any) -> Result:
    """What a scene answers with other questions."""
    asking = Scene.from_lines(scene.width, scene.height, lines, strict=False)
    result = run(asking, check=False, **how)
    if result.refused:  # (for want of memory: the scene itself says where)
        run(scene, **how)
        raise ScriptRefused(*ran_out(result.refused.number))
    return result
