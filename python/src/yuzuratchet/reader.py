"""Reads scripts: from text to a :class:`~yuzuratchet.scene.Scene`, which writes the same bytes."""

from __future__ import annotations

from collections import Counter
from pathlib import Path

from .errors import ScriptFault
from .faults import EMPTY, FIRST_LINE, LineReader, parsed_line, parsed_target
from .labels import Labels
from .line import Line
from .scene import Scene


def lines_of(text: bytes) -> list[LineReader]:
    """The lines of a text, before they are read; the last may lack its line feed."""
    pieces = text.split(b"\n")
    last = pieces.pop()
    found = [LineReader(piece, number) for number, piece in enumerate(pieces, 1)]
    return found + ([LineReader(last, len(found) + 1, False)] if last else [])


def parse(text: str | bytes) -> tuple[int, int, list[Line]]:
    """Width, height and later lines of a script.

    Raises :class:`~yuzuratchet.errors.ScriptFault` at the first line that has a fault.
    """
    lines = lines_of(text if isinstance(text, bytes) else text.encode("utf-8"))
    if not lines:
        raise ScriptFault(1, FIRST_LINE, 0, 0, EMPTY)
    width, height = parsed_target(lines[0])
    found, finished = [], Counter[str]()
    for line in lines[1:]:
        found.append(parsed_line(line, finished).spelled(line.text.decode("ascii")))
        if found[-1].word == "finish":
            finished[found[-1].actor] += 1
    return width, height, found


def read_script(text: str | bytes, *, strict: bool = False) -> Scene:
    """The scene that a script spells, calls that the device refuses included.

    With ``strict`` such a call raises :class:`~yuzuratchet.errors.CallRefused`. Raises
    :class:`~yuzuratchet.errors.ScriptFault` where the text has a fault.

    >>> scene = read_script("target 4 4\\ni clearc 1 2 3 4\\n")
    >>> scene.width, str(scene.lines[0])
    (4, 'i clearc 1 2 3 4')
    """
    width, height, lines = parse(text)
    return Scene.from_lines(width, height, lines, strict=strict)


def load_script(path: str | Path, *, strict: bool = False) -> Scene:
    """The scene of a script's file, as :func:`read_script`, with the names that lie beside it."""
    text = Path(path).read_bytes()
    scene = read_script(text, strict=strict)
    scene.labels = Labels.read(Path(path), text)
    return scene
