"""Makes a script that shows something smaller: lines, then vertices, then numbers, as long as it still shows it."""

from __future__ import annotations

import time
from dataclasses import dataclass, field
from typing import Callable, Final, Iterator

from .errors import YuzuratchetError
from .reader import parse

Shows = Callable[[bytes], bool]
Lines = list[list[str]]

DEFAULTS: Final = {
    "raster": "1 0 0",
    "ds": "1 1 2 0 255 255 1 1 1 8 1 1 1 8 0",
    "blend": "0 4 15",
    "scissor": "0 0 4096 4096",
    "clearc": "0 0 0 0",
    "cleards": "16777215 0",
}
"""Numbers that are plain, for lines whose numbers mean one thing each."""

VERTEX: Final = 7
PIXEL: Final = 65536


@dataclass
class Shrinking:
    """A script that shows something, and how to ask whether a smaller one does; it asks no more than so
    often, and for so many seconds."""

    lines: Lines
    shows: Shows
    tries: int = 1500
    seconds: float = 120.0
    begun: float = field(default_factory=time.monotonic)

    @classmethod
    def of(cls, script: bytes, shows: Shows) -> Shrinking:
        """That of a script's bytes."""
        return cls([line.split(" ") for line in script.decode("ascii").splitlines()], shows)

    @property
    def is_over(self) -> bool:
        """Whether nothing more is tried."""
        return self.tries <= 0 or time.monotonic() - self.begun > self.seconds

    def smallest(self) -> bytes:
        """The smallest script that was found."""
        before = None
        while before != self.lines and not self.is_over:
            before = [list(line) for line in self.lines]
            self._drop_lines()
            self._drop_pairs()
            self._undo_lists()
            self._drop_vertices()
            self._plain_numbers()
            self._small_target()
        return text_of(self.lines)

    def _take(self, lines: Lines) -> bool:
        """Takes other lines where they show it too, and are a script."""
        if self.is_over or lines == self.lines:
            return False
        script = text_of(lines)
        try:
            parse(script)
        except YuzuratchetError:
            return False
        self.tries -= 1
        if not self.shows(script):
            return False
        self.lines = lines
        return True

    def _drop_lines(self) -> None:
        size = max(1, (len(self.lines) - 1) // 2)
        while size:
            at = len(self.lines) - size
            while at >= 1:
                self._take(self.lines[:at] + self.lines[at + size :])
                at = min(at, len(self.lines)) - size
            size //= 2

    def _drop_pairs(self) -> None:
        """Drops the begin of a query with an end behind it, neither of which may go alone."""
        for at in self._places("begin"):
            end = [self.lines[at][0], "end", self.lines[at][2]]
            later = next((it for it in range(at, len(self.lines)) if self.lines[it] == end), None)
            if later is not None:
                kept = [line for it, line in enumerate(self.lines) if it not in (at, later)]
                if not self._take([line for line in kept if line[1:] != ["query", end[2]]]):
                    self._take(kept)

    def _undo_lists(self) -> None:
        """Lets the immediate context do what lists do, where the first of them is executed."""
        for actor in {line[0] for line in self.lines if line[0].startswith("d")}:
            done = [
                ["i", *line[1:]] for line in self.lines if line[0] == actor and line[1] != "finish"
            ]
            lines: Lines = []
            for line in self.lines:
                if line[1:3] == ["exec", actor]:
                    lines, done = lines + done, []
                elif line[0] != actor:
                    lines.append(line)
            self._take(lines)

    def _with(self, at: int, words: list[str]) -> Lines:
        return [*self.lines[:at], words, *self.lines[at + 1 :]]

    def _places(self, *words: str) -> Iterator[int]:
        """The places of lines of some words, the last one first."""
        yield from (at for at in reversed(range(1, len(self.lines))) if self.lines[at][1] in words)

    def _drop_vertices(self) -> None:
        for at in self._places("drawi"):
            self._draw_in_order(at)
        for at in self._places("draw", "drawi"):
            words = self.lines[at]
            for start in range(max(0, int(words[2]) - 2)):
                if int(words[2]) > 3:
                    self._take(
                        self._with(at, [*words[:2], "3", str(start + int(words[3])), *words[4:]])
                    )
        for at in self._places("vb"):
            self._drop_of_buffer(at)

    def _draw_in_order(self, at: int) -> None:
        """Draws the vertices that indices name, in their order and without them."""
        vb = next((it for it in range(at, 0, -1) if self.lines[it][1] == "vb"), None)
        ib = next((it for it in range(at, 0, -1) if self.lines[it][1] == "ib"), None)
        if vb is None or ib is None:
            return
        vertices, indices = self._vertices(vb), list(map(int, self.lines[ib][2:]))
        if any(it >= len(vertices) for it in indices):
            return
        named = [word for it in indices for word in vertices[it]]
        lines = self._with(vb, [*self.lines[vb][:2], *named])
        lines[at] = [lines[at][0], "draw", *lines[at][2:4]]
        self._take(lines[:ib] + lines[ib + 1 :])

    def _vertices(self, at: int) -> list[list[str]]:
        words = self.lines[at][2:]
        return [words[it : it + VERTEX] for it in range(0, len(words), VERTEX)]

    def _drop_of_buffer(self, at: int) -> None:
        for place in reversed(range(len(self._vertices(at)))):
            left = self._vertices(at)
            del left[place]
            lines = self._with(at, [*self.lines[at][:2], *(it for vertex in left for it in vertex)])
            later = next((it for it in range(at, len(lines)) if lines[it][1] == "draw"), None)
            if not self._take(lines) and later is not None:
                count, start = map(int, lines[later][2:4])
                if place < start:
                    lines[later] = [*lines[later][:2], str(count), str(start - 1)]
                    self._take(lines)

    def _plain_numbers(self) -> None:
        for at in self._places(*DEFAULTS):
            plain = DEFAULTS[self.lines[at][1]].split(" ")
            if self._take(self._with(at, [*self.lines[at][:2], *plain])):
                continue
            for place, word in enumerate(plain, 2):
                words = list(self.lines[at])
                if place < len(words):
                    words[place] = word
                    self._take(self._with(at, words))
        for at in self._places("vb"):
            for place in range(2, len(self.lines[at])):
                self._plain_number(at, place)

    def _plain_number(self, at: int, place: int) -> None:
        """A number of a vertex: a round one in its place."""
        column, number = (place - 2) % VERTEX, int(self.lines[at][place])
        if column < 2:
            choices = [0, round(number / PIXEL) * PIXEL, round(number / PIXEL * 2) * PIXEL // 2]
        else:
            choices = [0, 1, 1000] if column == 2 else [0, 255]
        for choice in choices:
            if number in choices[: choices.index(choice) + 1]:
                return
            words = list(self.lines[at])
            words[place] = str(choice)
            if self._take(self._with(at, words)):
                return

    def _small_target(self) -> None:
        for place in (1, 2):
            for side in (1, 2, 4, 8):
                words = list(self.lines[0])
                if side < int(words[place]):
                    words[place] = str(side)
                    if self._take(self._with(0, words)):
                        break


def text_of(lines: Lines) -> bytes:
    """The bytes of a script's lines."""
    return "".join(f"{' '.join(line)}\n" for line in lines).encode("ascii")
