"""What there is to tell of a pixel: the steps that touched it, as a table and for machines."""

from __future__ import annotations

from dataclasses import asdict, dataclass, replace
from enum import Enum
from itertools import zip_longest
from textwrap import wrap
from typing import Any, Final

from .assembly import triangle_count
from .labels import Labels
from .limits import DEEPEST
from .recording import Item, Vertex
from .states import BlendState, ColorWriteEnable

Corners = tuple[Vertex, ...]

WIDTH: Final = 120
"""Columns of a table."""

LEAST: Final = 12
"""Columns that a cell keeps where a line is long."""


class Outcome(Enum):
    """What became of a pixel at one step."""

    CLEARED = "cleared"
    DRAWN = "drawn"
    LEFT_OUT = "left out by the predicate"
    CULLED = "culled"
    OUTSIDE_SCISSOR = "outside the scissor rectangle"
    STENCIL_FAILED = "the stencil test fails"
    DEPTH_FAILED = "the depth test fails"


TESTS = (Outcome.CULLED, Outcome.OUTSIDE_SCISSOR, Outcome.STENCIL_FAILED, Outcome.DEPTH_FAILED)
"""What refuses a triangle, in the order in which it is asked."""


@dataclass(frozen=True)
class Content:
    """What a pixel holds: red, green, blue, alpha; the stored depth; the stencil."""

    colour: tuple[int, int, int, int]
    depth: int
    stencil: int


@dataclass(frozen=True)
class Covering:
    """A triangle that covers a pixel: its place in its draw, its vertices, its depth there."""

    triangle: int
    corners: Corners
    depth: int

    @property
    def colour(self) -> tuple[int, ...]:
        """The colour of the leading vertex."""
        return tuple(self.corners[0][3:7])


@dataclass(frozen=True)
class Step:
    """A clear, or a triangle that covers the pixel, in the order of execution.

    ``item`` is the clear or the draw, with its line's number; ``executed_by`` is the number of the
    ``exec`` line, or None where the immediate context drew it. ``covering`` is None for a clear.
    """

    item: Item
    executed_by: int | None
    covering: Covering | None
    outcome: Outcome
    before: Content
    after: Content


@dataclass(frozen=True)
class Explanation:
    """Why pixel (x, y) is what it is: what it held at first, each step, and what it holds."""

    x: int
    y: int
    opening: Content
    steps: tuple[Step, ...]
    content: Content


def triangle_count_of(item: Item) -> int:
    """How many triangles a draw makes."""
    assert item.state.topology is not None  # (a draw without one is refused)
    return triangle_count(item.places, item.state.topology, item.line.word == "drawi")


# ---- the table


def heading(explanation: Explanation) -> str:
    """What the pixel holds, in a line."""
    content = explanation.content
    depth = depth_text(content.depth)
    holds = f"colour {_shown(content.colour)}, depth {depth}, stencil {content.stencil}"
    return f"pixel ({explanation.x}, {explanation.y}) holds {holds}"


def changing(explanation: Explanation) -> Explanation:
    """The same with those steps alone that changed the pixel."""
    steps = tuple(it for it in explanation.steps if it.before != it.after)
    return replace(explanation, steps=steps)


def table(explanation: Explanation, labels: Labels = Labels()) -> str:
    """The steps as a table for a terminal of 120 columns: what each changed stands behind it."""
    opening = explanation.opening
    held = [f"colour {_shown(opening.colour)}", f"depth {depth_text(opening.depth)}"]
    rows = [["line", "what", "outcome", "what changed"]]
    rows.append(["", "a new target", "", "\n".join([*held, f"stencil {opening.stencil}"])])
    rows += [_row(step, labels) for step in explanation.steps]
    return columns(rows, WIDTH)


def depth_text(depth: int) -> str:
    """A stored depth, and what part of the whole it is."""
    part = depth / DEEPEST
    return f"{depth} ({f'{part:.4f}' if 0 < part < 1 else int(part)})"


def columns(rows: list[list[str]], most: int) -> str:
    """Rows of cells in columns with two spaces between; cells are wrapped where a line is too long.

    A cell may have several lines. The first and the last column keep their widths.
    """
    widths = [max(len(line) for row in rows for line in row[at].split("\n")) for at in range(4)]
    room = most - 2 * (len(widths) - 1) - widths[0] - widths[3]
    if widths[1] + widths[2] > room:
        widths[1] = max(min(widths[1], room - widths[2]), min(widths[1], room // 2))
        widths[2] = max(LEAST, room - widths[1])
    lines = []
    for row in rows:
        cells = [_wrapped(cell, width) for cell, width in zip(row, widths)]
        for parts in zip_longest(*cells, fillvalue=""):
            line = "  ".join(part.ljust(width) for part, width in zip(parts, widths))
            lines.append(line.rstrip())
    return "\n".join(lines)


def _wrapped(cell: str, width: int) -> list[str]:
    return [part for line in cell.split("\n") for part in wrap(line, width) or [""]]


def _row(step: Step, labels: Labels) -> list[str]:
    number, what, covering = str(step.item.number), step.item.line.word, step.covering
    if step.executed_by is not None:
        number += f" by {step.executed_by}"
    if label := labels.of(step.item.number):
        what = f"{label}: {what}"
    if covering is not None:
        of = f"triangle {covering.triangle} of {triangle_count_of(step.item)}"
        what += f", {of}:\n{_shown(covering.colour)} at {depth_text(covering.depth)}"
    return [number, what, outcome_text(step), "\n".join(changes(step))]


def changes(step: Step) -> list[str]:
    """What a step changed of the pixel."""
    before, after = step.before, step.after
    found = []
    if before.colour != after.colour:
        found.append(f"colour {_shown(before.colour)} -> {_shown(after.colour)}")
    if before.depth != after.depth:
        found.append(f"depth {before.depth} -> {depth_text(after.depth)}")
    if before.stencil != after.stencil:
        found.append(f"stencil {before.stencil} -> {after.stencil}")
    return found


def _shown(colour: tuple[int, ...]) -> str:
    return " ".join(map(str, colour))


def outcome_text(step: Step) -> str:
    """The outcome, with the comparison that failed, or the logic operation and mask that act."""
    state, text = step.item.state, step.outcome.value
    if step.outcome is Outcome.DRAWN:
        text += written_text(state.blend)
        return text if step.before != step.after else f"{text}, changing nothing"
    if step.outcome is Outcome.LEFT_OUT and state.predicate:
        query, value = state.predicate
        return f"{text}: query {query} counted {'a pixel' if value else 'none'}"
    if step.outcome is Outcome.CULLED:
        return f"{text} by {state.rasterizer.cull_mode.name}"
    if step.outcome is Outcome.OUTSIDE_SCISSOR:
        return f"{text} {_shown(state.scissor)}"
    if step.outcome is Outcome.DEPTH_FAILED and step.covering:
        func = state.depth_stencil.depth_func.name
        return f"{text}: {step.covering.depth} {func} {step.before.depth}"
    if step.outcome is Outcome.STENCIL_FAILED:
        sides = f"{state.stencil_ref} {_stencil_func(step)} {step.before.stencil}"
        return f"{text}: {sides}{_mask(step)}"
    return text


def written_text(blend: BlendState) -> str:
    """By which logic operation and into which channels a colour is written, where that isn't usual."""
    text = f" by {blend.logic_op.name}" if blend.logic_op_enable else ""
    if blend.write_mask == ColorWriteEnable.NONE:
        return f"{text}, writing no colour"
    if blend.write_mask == ColorWriteEnable.ALL:
        return text
    names = [it.name for it in CHANNELS if it & blend.write_mask and it.name]
    return f"{text} into {' and '.join(names)} alone"


CHANNELS = (
    ColorWriteEnable.RED,
    ColorWriteEnable.GREEN,
    ColorWriteEnable.BLUE,
    ColorWriteEnable.ALPHA,
)


def _stencil_func(step: Step) -> str:
    """The comparison of the face, or of both where they aren't the same."""
    tests = step.item.state.depth_stencil
    names = {tests.front_face.stencil_func.name, tests.back_face.stencil_func.name}
    return " or ".join(sorted(names))


def _mask(step: Step) -> str:
    """The bits that are compared, where not all are."""
    mask = step.item.state.depth_stencil.stencil_read_mask
    return "" if mask == 255 else f" in bits {mask}"


# ---- for machines


def as_json(explanation: Explanation, labels: Labels = Labels()) -> dict[str, Any]:
    """The explanation in plain values: depths as stored, colours as four numbers."""
    return {
        "version": 1,
        "x": explanation.x,
        "y": explanation.y,
        "opening": asdict(explanation.opening),
        "steps": [_step_json(it, labels) for it in explanation.steps],
        "content": asdict(explanation.content),
    }


def _step_json(step: Step, labels: Labels) -> dict[str, Any]:
    item, covering = step.item, step.covering
    found: dict[str, Any] = {"line": item.number, "word": item.line.word}
    if step.executed_by is not None:
        found["executed_by"] = step.executed_by
    if label := labels.of(item.number):
        found["label"] = label
    if covering is not None:
        found["triangle"] = {
            "number": covering.triangle,
            "of": triangle_count_of(item),
            "colour": covering.colour,
            "depth": covering.depth,
        }
    outcome = step.outcome.name.lower().replace("_", "-")
    found |= {"outcome": outcome, "text": outcome_text(step)}
    return found | {"before": asdict(step.before), "after": asdict(step.after)}
