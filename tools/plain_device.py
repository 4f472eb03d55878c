#!/usr/bin/env python3
"""A second, plain evaluation of scripts: one primitive and one pixel at a time, by whole numbers without bound.

    tools/plain_device.py SCRIPT OUT.tga

It answers what the program answers: the answer lines, with the `refused` line where the script has a fault or a call
is refused, and the image, which is empty then. It shares nothing with the program: cover is told by the sign of each
edge against the opposite vertex, depth by one exact division a pixel, state by copies of settings, an issue's count
by adding one at each pixel where both tests pass. Lines are read, and refusals decided, by the package in python/. It
is slow. `--workers N` is taken and changes nothing, so that it can stand in for the program. `histories` tells what
touched some pixels.
"""

from __future__ import annotations

import argparse
import sys
from collections.abc import Callable, Iterable, Sequence
from dataclasses import dataclass

import package_path  # noqa: F401
from yuzuratchet.assembly import triangles
from yuzuratchet.ending import ended
from yuzuratchet.errors import CallRefused, ScriptFault
from yuzuratchet.limits import DEEPEST
from yuzuratchet.line import Line
from yuzuratchet.reader import parse
from yuzuratchet.recording import CommandItems, Item, State
from yuzuratchet.session import Session
from yuzuratchet.states import BlendState, RasterizerState

Place = tuple[int, int]
Colour = tuple[int, ...]
Held = tuple[Colour, int, int]
# whether the stencil test passes, and whether the depth test does
Tests = tuple[bool, bool]


# ---- the rasterizer


def snapped(place: int) -> int:
    """The nearest multiple of 1/256 pixel, ties to even."""
    below, rest = divmod(place, 256)
    return below + (rest > 128 or (rest == 128 and below % 2 == 1))


def side(a: Place, b: Place, p: Place) -> int:
    return (b[0] - a[0]) * (p[1] - a[1]) - (b[1] - a[1]) * (p[0] - a[0])


def is_top_or_left(a: Place, b: Place, c: Place) -> bool:
    if a[1] == b[1]:
        return c[1] > a[1]
    if a[1] > b[1]:
        a, b = b, a
    return (c[0] - a[0]) * (b[1] - a[1]) > (c[1] - a[1]) * (b[0] - a[0])


class Triangle:
    """A triangle of vertices (x, y, z, red, green, blue, alpha), the leading one first, on the snapped grid, and its
    depth bias."""

    def __init__(self, vertices: Sequence[Sequence[int]], bias: int) -> None:
        self.bias = bias
        self.corners = [(snapped(v[0]), snapped(v[1])) for v in vertices]
        self.depths = [v[2] for v in vertices]
        self.rgba = tuple(vertices[0][3:7])
        self.area = side(*self.corners)
        self.edges = []
        for i in range(3):
            a, b, c = self.corners[(i + 1) % 3], self.corners[(i + 2) % 3], self.corners[i]
            self.edges.append((a, b, 1 if side(a, b, c) > 0 else -1, is_top_or_left(a, b, c)))

    def is_front(self, rasterizer: RasterizerState) -> bool:
        return (self.area > 0) != rasterizer.front_counter_clockwise

    def is_culled(self, rasterizer: RasterizerState) -> bool:
        return self.area == 0 or rasterizer.cull_mode == (2 if self.is_front(rasterizer) else 3)

    def weights(self, x: int, y: int) -> list[int] | None:
        """How far the centre of a pixel lies from each edge, towards the opposite vertex; None where it isn't
        covered."""
        centre, weights = (256 * x + 128, 256 * y + 128), []
        for a, b, inner, keeps in self.edges:
            weight = inner * side(a, b, centre)
            if weight < 0 or (weight == 0 and not keeps):
                return None
            weights.append(weight)
        return weights

    def depth(self, weights: list[int]) -> int:
        depth = sum(w * z for w, z in zip(weights, self.depths)) // sum(weights)
        return min(max(depth + self.bias, 0), DEEPEST)

    def pixels(self, width: int, height: int) -> tuple[range, range]:
        """The columns and rows of a target that the triangle can reach."""
        xs, ys = zip(*self.corners)
        columns = range(max(0, min(xs) // 256 - 1), min(width, max(xs) // 256 + 2))
        return columns, range(max(0, min(ys) // 256 - 1), min(height, max(ys) // 256 + 2))


def is_cut(state: State, x: int, y: int) -> bool:
    """Whether the scissor rectangle acts and leaves the pixel out."""
    left, top, right, bottom = state.scissor
    return state.rasterizer.scissor_enable and not (left <= x < right and top <= y < bottom)


# ---- the output merger

COMPARE: dict[int, Callable[[int, int], bool]] = {
    1: lambda new, old: False,
    2: lambda new, old: new < old,
    3: lambda new, old: new == old,
    4: lambda new, old: new <= old,
    5: lambda new, old: new > old,
    6: lambda new, old: new != old,
    7: lambda new, old: new >= old,
    8: lambda new, old: True,
}

STENCIL: dict[int, Callable[[int, int], int]] = {
    1: lambda v, r: v,
    2: lambda v, r: 0,
    3: lambda v, r: r,
    4: lambda v, r: min(v + 1, 255),
    5: lambda v, r: max(v - 1, 0),
    6: lambda v, r: 255 - v,
    7: lambda v, r: (v + 1) % 256,
    8: lambda v, r: (v - 1) % 256,
}

# the result bit for (s, d) = (0, 0), (0, 1), (1, 0), (1, 1), by the operation's number
LOGIC = "0000 1111 0011 1100 0101 1010 0001 1110 0111 1000 0110 1001 0010 0100 1011 1101".split()


def logic(operation: int, s: int, d: int) -> int:
    return sum(int(LOGIC[operation][2 * (s >> bit & 1) + (d >> bit & 1)]) << bit for bit in range(8))


def tested(state: State, front: bool, depth: int, old_depth: int, old_stencil: int) -> Tests:
    """Whether the stencil test passes, and whether the depth test does."""
    tests, reference = state.depth_stencil, state.stencil_ref
    face, read = tests.front_face if front else tests.back_face, tests.stencil_read_mask
    stencil_passes = not tests.stencil_enable or COMPARE[face.stencil_func](reference & read, old_stencil & read)
    return stencil_passes, not tests.depth_enable or COMPARE[tests.depth_func](depth, old_depth)


def new_stencil(state: State, front: bool, stencil_passes: bool, depth_passes: bool, old: int) -> int:
    tests = state.depth_stencil
    if not tests.stencil_enable:
        return old
    face, write = tests.front_face if front else tests.back_face, tests.stencil_write_mask
    operation = face.stencil_fail_op
    if stencil_passes:
        operation = face.stencil_pass_op if depth_passes else face.stencil_depth_fail_op
    return STENCIL[operation](old, state.stencil_ref) & write | old & ~write & 255


def new_color(blend: BlendState, rgba: Colour, old: Colour) -> Colour:
    mixed = [logic(blend.logic_op, s, d) if blend.logic_op_enable else s for s, d in zip(rgba, old)]
    return tuple(
        new if blend.write_mask >> channel & 1 else kept for channel, (new, kept) in enumerate(zip(mixed, old))
    )


class Target:
    """What is drawn on: a colour, a depth and a stencil value for each pixel."""

    def __init__(self, width: int, height: int) -> None:
        self.width, self.height = width, height
        self.color: list[Colour] = [(0, 0, 0, 0)] * (width * height)
        self.depth = [DEEPEST] * (width * height)
        self.stencil = [0] * (width * height)

    def clear(self, line: Line) -> None:
        if line.word == "clearc":
            self.color = [line.arguments] * len(self.color)
        else:
            self.depth, self.stencil = ([value] * len(self.color) for value in line.arguments)

    def draw(self, triangle: Triangle, state: State) -> int:
        """Draws a triangle, and gives how many pixels passed both tests."""
        if triangle.is_culled(state.rasterizer):
            return 0
        passed, front = 0, triangle.is_front(state.rasterizer)
        columns, rows = triangle.pixels(self.width, self.height)
        for y in rows:
            for x in columns:
                weights = None if is_cut(state, x, y) else triangle.weights(x, y)
                if weights is not None:
                    passed += self.merge(y * self.width + x, triangle.depth(weights), triangle.rgba, front, state)
        return passed

    def merge(self, at: int, depth: int, rgba: Colour, front: bool, state: State) -> bool:
        """Tests and writes one pixel, and tells whether both tests passed."""
        stencil_passes, depth_passes = tested(state, front, depth, self.depth[at], self.stencil[at])
        self.stencil[at] = new_stencil(state, front, stencil_passes, depth_passes, self.stencil[at])
        if not (stencil_passes and depth_passes):
            return False
        if state.depth_stencil.depth_enable and state.depth_stencil.depth_write:
            self.depth[at] = depth
        self.color[at] = new_color(state.blend, rgba, self.color[at])
        return True

    def pixel(self, x: int, y: int) -> Held:
        at = y * self.width + x
        return self.color[at], self.depth[at], self.stencil[at]

    def image(self) -> bytes:
        header = bytes([0, 0, 2, *[0] * 9]) + self.width.to_bytes(2, "little") + self.height.to_bytes(2, "little")
        return header + bytes([32, 0x28]) + b"".join(bytes((b, g, r, a)) for r, g, b, a in self.color)


# ---- a session


def triangles_of(item: Item) -> list[Triangle]:
    """The triangles of a draw."""
    assert item.state.topology is not None  # (refused before)
    places = triangles(item.places, item.state.topology, item.line.word == "drawi")
    bias = item.state.rasterizer.depth_bias
    return [Triangle([item.state.vertices[place + item.base] for place in triple], bias) for triple in places]


class PlainSession(Session):
    """The target, the count of the last issue of each query that ran, and the answer lines."""

    def __init__(self, width: int, height: int) -> None:
        super().__init__(width, height)
        self.target = Target(width, height)
        self.counts: dict[int, int] = {}
        self.answers: list[str] = []

    def is_withheld(self, item: Item, counts: dict[int, int]) -> bool:
        """Whether the item's predicate withholds it, by the counts of the lists that ran before."""
        predicate = item.state.predicate
        return predicate is not None and (counts.get(predicate[0], 0) > 0) == predicate[1]

    def perform(self, number: int, commands: CommandItems, is_list: bool) -> None:
        before, counts = dict(self.counts), [0] * len(commands.issues)
        for item in commands.items:
            passed = 0 if self.is_withheld(item, before) else self.perform_item(item)
            for issue in item.issues:
                counts[issue] += passed
        self.counts.update(zip(commands.issues, counts))

    def perform_item(self, item: Item) -> int:
        """Draws or clears, and gives how many pixels passed both tests."""
        if item.line.word.startswith("clear"):
            self.target.clear(item.line)
            return 0
        return sum(self.target.draw(triangle, item.state) for triangle in triangles_of(item))

    def answer(self, number: int, line: Line) -> None:
        if line.word == "query":
            values = [*line.arguments, self.counts[line.arguments[0]]]
        else:
            color, depth, stencil = self.target.pixel(*line.arguments)
            values = [*line.arguments, *color, depth, stencil]
        self.answers.append(" ".join(map(str, [line.word, *values])))


# ---- the history of a pixel


@dataclass(frozen=True)
class Event:
    """What an item did to a pixel that it touched. An item is a clear, or a triangle of a draw, drawn or not.

    ``item`` counts those that are performed, in the order of execution, from 0 on. ``line`` is that of the immediate
    context that recorded it, or executed its list, of which ``command`` is its command then, from 0 on; else that is 0.
    ``triangle`` counts those of the draw, and is 0 for a clear.
    """

    item: int
    line: int
    command: int
    triangle: int
    stencil_passed: bool
    depth_passed: bool
    before: Held
    after: Held


class Histories(PlainSession):
    """A plain session that gathers what touches some pixels, while it draws the whole target."""

    def __init__(self, width: int, height: int, places: Iterable[Place]) -> None:
        super().__init__(width, height)
        self.events: dict[Place, list[Event]] = {place: [] for place in places}
        self.items = 0
        self.executed_by: int | None = None

    def perform(self, number: int, commands: CommandItems, is_list: bool) -> None:
        self.executed_by = number if is_list else None
        super().perform(number, commands, is_list)

    def perform_item(self, item: Item) -> int:
        if item.line.word.startswith("clear"):
            cleared = {place: ((True, True), self.target.pixel(*place)) for place in self.events}
            super().perform_item(item)
            self.note(item, 0, cleared)
            return 0
        passed = 0
        for number, triangle in enumerate(triangles_of(item)):
            found = {place: self.tests(item.state, triangle, place) for place in self.events}
            touched = {place: (tests, self.target.pixel(*place)) for place, tests in found.items() if tests}
            passed += self.target.draw(triangle, item.state)
            self.note(item, number, touched)
        return passed

    def tests(self, state: State, triangle: Triangle, place: Place) -> Tests | None:
        """Whether the stencil and the depth test pass at a pixel; None where the triangle doesn't reach it."""
        if triangle.is_culled(state.rasterizer) or is_cut(state, *place):
            return None
        weights = triangle.weights(*place)
        if weights is None:
            return None
        _, depth, stencil = self.target.pixel(*place)
        return tested(state, triangle.is_front(state.rasterizer), triangle.depth(weights), depth, stencil)

    def note(self, item: Item, triangle: int, touched: dict[Place, tuple[Tests, Held]]) -> None:
        """Counts an item that was performed, and adds an event to each pixel that it touched."""
        by = self.executed_by
        line, command = (item.number, 0) if by is None else (by, item.command)
        for place, (tests, before) in touched.items():
            after = self.target.pixel(*place)
            self.events[place].append(Event(self.items, line, command, triangle, *tests, before, after))
        self.items += 1


def histories(text: str | bytes, places: Iterable[Place]) -> dict[Place, list[Event]]:
    """What touched some pixels of a script's target, in order. Raises what `parse` and `Session` raise."""
    width, height, lines = parse(text)
    session = Histories(width, height, places)
    session.take_all(lines)
    return session.events


def history(text: str | bytes, x: int, y: int) -> list[Event]:
    """The same of one pixel."""
    return histories(text, [(x, y)])[x, y]


# ---- a script


def evaluate(text: str | bytes) -> tuple[str, bytes]:
    """The answer lines and the image of a script; the image is empty where a line is refused."""
    answers: list[str] = []
    image = b""
    try:
        width, height, lines = parse(text)
    except ScriptFault as fault:
        return f"refused {fault.line} {fault.number}\n", image
    try:
        session = PlainSession(width, height)
        answers = session.answers
        session.take_all(lines)
        image = session.target.image()
    except CallRefused as refusal:
        answers.append(f"refused {refusal.line or 1} {refusal.number}")
    return "".join(f"{it}\n" for it in answers), image


def main() -> int:
    parser = argparse.ArgumentParser(description=__doc__, formatter_class=argparse.RawDescriptionHelpFormatter)
    parser.add_argument("script", metavar="SCRIPT")
    parser.add_argument("image", metavar="OUT.tga")
    parser.add_argument("--workers", metavar="N", type=int, help="changes nothing")
    given = parser.parse_args()
    try:
        with open(given.script, "rb") as script, open(given.image, "wb") as out:
            answers, image = evaluate(script.read())
            out.write(image)
    except OSError as error:
        parser.exit(3, f"plain_device.py: {error.filename}: {error.strerror}\n")
    sys.stdout.write(answers)
    return 1 if "refused" in answers else 0


if __name__ == "__main__":
    sys.exit(ended(main))
