"""What a scene gave: its answers as values, its image as an array."""

from __future__ import annotations

import os
import re
from collections import deque
from concurrent.futures import Future, ThreadPoolExecutor
from dataclasses import dataclass
from functools import cached_property, partial
from itertools import count, islice
from pathlib import Path, PurePath
from typing import TYPE_CHECKING, Callable, Iterable, Iterator, Union

from .backends import Backend, draw
from .errors import ArgumentError, ImageError, ProgramFailed, ScriptRefused, WrongType
from .messages import message_of
from .program import Ran
from .scene import Scene
from .targa import target_sides

if TYPE_CHECKING:  # (numpy is asked for by whoever looks at an array)
    from .images import Pixels
    from .planes import Depths, Planes, Stencils


@dataclass(frozen=True)
class QueryAnswer:
    """How many pixels the last begin and end of a query counted."""

    query: int
    count: int


@dataclass(frozen=True)
class PixelAnswer:
    """What a pixel holds: red, green, blue and alpha, the stored depth, the stencil."""

    x: int
    y: int
    colour: tuple[int, int, int, int]
    depth: int
    stencil: int


@dataclass(frozen=True)
class Refusal:
    """The line, from 1, that was refused or has a fault, and the number of the reason."""

    line: int
    number: int

    @property
    def meaning(self) -> str:
        """What the number means."""
        return message_of(self.number).when


Answer = Union[QueryAnswer, PixelAnswer]

ANSWER = re.compile(r"(?P<query>query)(?: [0-9]+){2}|pixel(?: [0-9]+){8}")


def parse_answer(line: str) -> Answer:
    """An answer line, ``query`` or ``pixel``, as a value."""
    found = ANSWER.fullmatch(line)
    if not found:
        raise ProgramFailed(f"the program told {line!r}, which is no answer line")
    numbers = [int(it) for it in line.split(" ")[1:]]
    if found["query"]:
        return QueryAnswer(*numbers)
    x, y, red, green, blue, alpha, depth, stencil = numbers
    return PixelAnswer(x, y, (red, green, blue, alpha), depth, stencil)


class Result:
    """The answers, in the order of the questions, and the image of a script.

    A notebook shows it as its image.
    """

    def __init__(
        self, ran: Ran, script: bytes = b"", draw: Callable[[bytes], Ran] | None = None
    ) -> None:
        refused = ran.refused
        self.refused = Refusal(*refused) if refused else None
        """The refusal that ended the script, or None."""
        lines = ran.answers.split("\n")[: -2 if refused else -1]
        self.answers = tuple(map(parse_answer, lines))
        """A :class:`QueryAnswer` or :class:`PixelAnswer` for each question."""
        self.tga = ran.image
        """The image's file; empty where a line was refused."""
        self.text = ran.answers
        """The answer lines as they were written."""
        self.script = script
        """The bytes of the script that was drawn."""
        self._draw = draw

    def __repr__(self) -> str:
        sides = target_sides(self.script)
        size = f" {sides[0]} by {sides[1]} pixels" if sides else ""
        told = counted(len(self.answers), "answer")
        if self.refused:
            told = f"line {self.refused.line} refused with {self.refused.number}, {told}"
        return f"<Result:{size}{',' if size else ''} {told}>"

    @cached_property
    def image(self) -> Pixels:
        """The target: an array of height, width and red, green, blue, alpha, each 0 to 255.

        Raises :class:`~yuzuratchet.errors.ImageError` where a line was refused.
        """
        from .images import decode  # (here, so that writing and asking need no numpy)

        if self.refused:
            line, number = self.refused.line, self.refused.number
            raise ImageError(f"there is no image, since line {line} was refused with {number}")
        return decode(self.tga)

    @cached_property
    def planes(self) -> Planes:
        """Depth and stencil of the whole target, for which the script is drawn once more.

        Raises :class:`~yuzuratchet.errors.ImageError` where a line was refused.
        """
        from .planes import planes_behind

        if self.refused or self._draw is None:
            raise ImageError("there is neither depth nor stencil, since nothing was drawn")
        return planes_behind(self.script, self._draw)

    def save(self, path: str | Path, *, keep_alpha: bool = False, scale: float = 1) -> None:
        """Saves the image, as ``result.save("x.png")``; opaque unless alpha is kept."""
        from .images import save

        save(self.image, path, keep_alpha=keep_alpha, scale=scale)

    def _repr_png_(self) -> bytes | None:
        """The image as notebooks show it; None where a line was refused."""
        from .images import notebook_png

        return None if self.refused else notebook_png(self.image)


def counted(number: int, thing: str) -> str:
    """``1 line``, ``2 lines``."""
    return f"{number} {thing}{'' if number == 1 else 's'}"


def script_bytes(scene: Scene | str | bytes) -> bytes:
    """The script of a scene, or the text of one.

    Raises :class:`~yuzuratchet.errors.ArgumentError` where it is neither, as the name of a file.
    """
    if isinstance(scene, Scene):
        return scene.script().encode("ascii")
    if isinstance(scene, bytes):
        return scene
    if isinstance(scene, str):
        if scene and "\n" not in scene and not scene.startswith("target"):
            hint = "is no script; for the name of a file there is load_script"
            raise ArgumentError("scene", f"{scene!r} {hint}: run(load_script({scene!r}))")
        return scene.encode("utf-8")
    if isinstance(scene, PurePath):
        raise WrongType("scene", f"{scene!r} is the name of a file: run(load_script(..)) draws it")
    raise WrongType("scene", f"a Scene or the text of a script is wanted, and not {scene!r}")


def run(
    scene: Scene | str | bytes,
    *,
    backend: Backend | None = None,
    library: str | Path | None = None,
    workers: int | None = None,
    program: str | Path | None = None,
    check: bool = True,
    seconds: float | None = None,
) -> Result:
    """Draws a scene, or the text of a script, and gives its answers and its image.

    It is drawn by the library where there is one, in this process, and else by the program;
    ``backend``, ``"library"`` or ``"program"``, says which it has to be, and changes no byte.
    ``library`` and ``program`` name the built files, which else are looked for
    (:mod:`yuzuratchet.library`, :mod:`yuzuratchet.program`). ``workers``, 0 to 15, is how many
    threads draw beside the program's own, and changes no byte. ``seconds`` ends a run that takes
    longer. Both ask for the program. Raises :class:`~yuzuratchet.errors.ScriptRefused` where a line
    was refused, unless ``check`` is False.
    """
    script = script_bytes(scene)
    drawing = partial(
        draw,
        backend=backend,
        library=library,
        workers=workers,
        program=program,
        seconds=seconds,
    )
    result = Result(drawing(script), script, drawing)
    refused, given = result.refused, len(result.answers)
    if isinstance(scene, Scene) and not refused and given != scene.questions:
        raise ProgramFailed(f"the program told {given} answers to {scene.questions} questions")
    if check and refused:
        raise ScriptRefused(refused.line, refused.number, refused.meaning, result.answers)
    return result


def run_many(
    scenes: Iterable[Scene | str | bytes],
    *,
    workers: int | None = None,
    backend: Backend | None = None,
    library: str | Path | None = None,
    program: str | Path | None = None,
    check: bool = True,
) -> Iterator[Result]:
    """Draws scenes side by side, and gives their results in the order of the scenes.

    ``workers`` is how many are drawn at once, each on one thread: as many as there are processors
    where it isn't said. A few more than that are drawn ahead of the result that is taken, so that
    scenes may be made as they are wanted. The rest is as with :func:`run`: the library is what
    makes many small scenes fast. An error is raised at its scene's turn, and ends the others.
    """
    if isinstance(scenes, (Scene, str, bytes)):
        raise WrongType("scenes", "several scenes are wanted, as a list, and not one")
    if workers is not None and (isinstance(workers, bool) or not isinstance(workers, int)):
        raise WrongType("workers", f"a whole number is wanted, and not {workers!r}")
    if workers is not None and workers < 1:
        raise ArgumentError("workers", f"{workers} is not at least 1")
    one = partial(run, backend=backend, library=library, program=program, check=check)
    return _each(one, scenes, workers or os.cpu_count() or 1)


def _each(
    one: partial[Result], scenes: Iterable[Scene | str | bytes], workers: int
) -> Iterator[Result]:
    """The results of some scenes, of which so many are drawn at once."""
    waiting: deque[Future[Result]] = deque()
    left = iter(scenes)
    with ThreadPoolExecutor(max_workers=workers) as pool:
        try:
            waiting.extend(pool.submit(one, it) for it in islice(left, 2 * workers))
            for number in count():
                if not waiting:
                    return
                try:
                    yield waiting.popleft().result()
                except ScriptRefused as refused:
                    raise refused.of_scene(number) from refused
                waiting.extend(pool.submit(one, it) for it in islice(left, 1))
        finally:
            pool.shutdown(wait=True, cancel_futures=True)


def depth_and_stencil(
    scene: Scene, *, workers: int | None = None, program: str | Path | None = None
) -> tuple[Depths, Stencils]:
    """Depth (stored, 0 to 16,777,215) and stencil of the whole target, each of height and width.

    The scene is drawn with a question for each pixel behind it, once for each million pixels, which
    takes some two seconds each. Raises as :func:`run` does.
    """
    planes = planes_of(scene, workers=workers, program=program)
    return planes.depth, planes.stencil


def planes_of(
    scene: Scene, *, workers: int | None = None, program: str | Path | None = None
) -> Planes:
    """The same as :class:`~yuzuratchet.planes.Planes`, which have pictures and digests."""
    from .planes import planes_behind

    if not isinstance(scene, Scene):
        hint = "read_script makes one of a text, load_script of a file"
        raise WrongType("scene", f"a Scene is wanted, and not {type(scene).__name__}: {hint}")
    return planes_behind(script_bytes(scene), partial(draw, workers=workers, program=program))
