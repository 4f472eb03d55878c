"""How another device's picture stands to the device's own: what differs, of which kind, and where first."""

from __future__ import annotations

from dataclasses import dataclass, replace
from enum import Enum
from typing import Any, Iterator, Union

import numpy as np
import numpy.typing as npt

from .adapters import Adapter, AdapterDied, AdapterHung, Held, NotSupported, Picture, device_picture
from .difference import EXACT, Tolerance
from .errors import ProgramFailed, YuzuratchetError
from .explain import explain
from .explanation import Explanation, Step, table
from .reader import read_script
from .results import Answer, PixelAnswer, QueryAnswer

Mask = npt.NDArray[np.bool_]


class Kind(Enum):
    """What another device does otherwise."""

    COVER = "cover"
    COLOUR = "colour"
    DEPTH = "depth"
    STENCIL = "stencil"
    COUNT = "count"
    NO_ANSWER = "no answer"
    CRASH = "crash"
    TIME_OUT = "time out"


class Verdict(Enum):
    """How a script ended on another device."""

    PASSED = "passed"
    FAILED = "failed"
    NOT_SUPPORTED = "not supported"


@dataclass(frozen=True)
class Finding:
    """One kind of difference: in how many pixels or answers, by how much at most, and where first."""

    kind: Kind
    text: str
    units: int = 0
    pixel: tuple[int, int] | None = None

    @property
    def name(self) -> str:
        """The kind, with how many units depths lie apart."""
        return f"depth by {self.units}" if self.kind is Kind.DEPTH else str(self.kind.value)


@dataclass(frozen=True)
class Judgement:
    """What was found of a script.

    ``rows`` explain the first pixel that differs, as the device has it; the pictures are kept where
    the script failed.
    """

    verdict: Verdict
    findings: tuple[Finding, ...] = ()
    message: str = ""
    rows: str = ""
    ours: Picture | None = None
    theirs: Picture | None = None

    @property
    def kinds(self) -> tuple[Kind, ...]:
        """The kinds of what differs."""
        return tuple(it.kind for it in self.findings)


@dataclass(frozen=True)
class Judge:
    """Holds an adapter against the device; ``how`` says by which program that draws."""

    adapter: Adapter
    tolerance: Tolerance = EXACT
    how: Union[dict[str, Any], None] = None

    def compare(self, script: bytes) -> Judgement:
        """Plays a script on both; what differs isn't explained.

        Raises :class:`~yuzuratchet.errors.ScriptRefused` where the device refuses a line.
        """
        ours = device_picture(script, **(self.how or {}))
        try:
            theirs = self.adapter.play(script)
        except NotSupported as missing:
            return Judgement(Verdict.NOT_SUPPORTED, message=str(missing))
        except AdapterHung as hung:
            return Judgement(Verdict.FAILED, (Finding(Kind.TIME_OUT, str(hung)),), ours=ours)
        except AdapterDied as died:
            return Judgement(Verdict.FAILED, (Finding(Kind.CRASH, str(died)),), ours=ours)
        if ours.colour.shape != theirs.colour.shape:
            wrong = Finding(Kind.CRASH, "its picture has another size")
            return Judgement(Verdict.FAILED, (wrong,), ours=ours)
        found = tuple(differences(ours, theirs, self.tolerance))
        if not found:
            return Judgement(Verdict.PASSED)
        return Judgement(Verdict.FAILED, found, ours=ours, theirs=theirs)

    def judge(self, script: bytes) -> Judgement:
        """The same, with the first pixel that differs explained."""
        found = self.compare(script)
        first = next((it for it in found.findings if it.pixel), None)
        if first is None or first.pixel is None or found.theirs is None:
            return found
        try:
            told = explain(read_script(script), *first.pixel, **(self.how or {}))
        except (ProgramFailed, YuzuratchetError) as error:
            return replace(found, rows=f"(not explained: {error})")
        kind = kind_of(told, found.theirs.at(*first.pixel), first.kind)
        named = replace(first, kind=kind)
        findings = tuple(named if it is first else it for it in found.findings)
        return replace(found, findings=findings, rows=table(told))


def kind_of(told: Explanation, theirs: Held, kind: Kind) -> Kind:
    """COVER where the other device holds what stood in the pixel before some triangle, or drew where the
    device draws nothing; else the kind as it was."""
    if kind is Kind.DEPTH and told.content.colour == theirs.colour and _is_near(told, theirs):
        return kind
    drawn = [it for it in told.steps if it.covering and it.before != it.after]
    held = {it.before.colour for it in drawn if it.before.colour != told.content.colour}
    if not drawn and theirs.colour != told.content.colour:
        return Kind.COVER
    if any(_is_before(step, theirs) for step in drawn) or theirs.colour in held:
        return Kind.COVER
    return kind


def _is_before(step: Step, theirs: Held) -> bool:
    before = step.before
    return (before.colour, before.depth, before.stencil) == (
        theirs.colour,
        theirs.depth,
        theirs.stencil,
    )


def _is_near(told: Explanation, theirs: Held) -> bool:
    """Whether a depth is of the triangle that the device drew, but for a small part."""
    depths = [it.covering.depth for it in told.steps if it.covering]
    return any(abs(depth - theirs.depth) <= 4096 for depth in depths)


# ---- what differs


def differences(ours: Picture, theirs: Picture, tolerance: Tolerance) -> Iterator[Finding]:
    """What differs in two pictures of one size."""
    colour = (ours.colour != theirs.colour).any(axis=2)
    if colour.any():
        yield pixels_finding(Kind.COLOUR, colour, ours, theirs)
    apart = np.abs(ours.planes.depth.astype(np.int64) - theirs.planes.depth.astype(np.int64))
    depth = (apart > tolerance.depth) & ~colour
    if depth.any():
        found = pixels_finding(Kind.DEPTH, depth, ours, theirs)
        units = int(apart[depth].max())
        yield replace(found, units=units, text=f"{found.text}; at most {units} units apart")
    stencil = (ours.planes.stencil != theirs.planes.stencil) & ~colour
    if stencil.any():
        yield pixels_finding(Kind.STENCIL, stencil, ours, theirs)
    yield from answer_findings(ours.answers, theirs.answers, tolerance)


def pixels_finding(kind: Kind, mask: Mask, ours: Picture, theirs: Picture) -> Finding:
    """How many pixels differ, and the first of them in both."""
    rows, columns = np.nonzero(mask)
    x, y = int(columns[0]), int(rows[0])
    here, there = (held_text(it.at(x, y), kind) for it in (ours, theirs))
    text = f"{len(rows)} of {mask.size} pixels, first ({x}, {y}): {there} where {here} is right"
    return Finding(kind, text, pixel=(x, y))


def held_text(held: Held, kind: Kind) -> str:
    """What a pixel holds of what differs."""
    if kind is Kind.DEPTH:
        return f"depth {held.depth}"
    return f"stencil {held.stencil}" if kind is Kind.STENCIL else " ".join(map(str, held.colour))


def answer_findings(
    ours: tuple[Answer, ...], theirs: tuple[Answer, ...], tolerance: Tolerance
) -> Iterator[Finding]:
    """Questions that aren't answered, and the first answer that differs."""
    left, missing, wrong = list(theirs), 0, []
    for answer in ours:
        if not left or question_of(left[0]) != question_of(answer):
            missing += 1
            continue
        found = answer_finding(answer, left.pop(0), tolerance)
        wrong += [found] if found else []
    if missing or left:
        yield Finding(Kind.NO_ANSWER, f"{missing} of {len(ours)} questions aren't answered")
    yield from wrong[:1]


def answer_finding(ours: Answer, theirs: Answer, tolerance: Tolerance) -> Finding | None:
    """How two answers to a question differ, if they do."""
    if isinstance(ours, QueryAnswer) and isinstance(theirs, QueryAnswer):
        text = f"query {ours.query} counts {theirs.count} where {ours.count} is right"
        apart = abs(theirs.count - ours.count)
        return Finding(Kind.COUNT, text, units=apart) if apart else None
    assert isinstance(ours, PixelAnswer) and isinstance(theirs, PixelAnswer)
    units = abs(ours.depth - theirs.depth)
    differs = {
        Kind.COLOUR: ours.colour != theirs.colour,
        Kind.DEPTH: units > tolerance.depth,
        Kind.STENCIL: ours.stencil != theirs.stencil,
    }
    kind = next((kind for kind, is_so in differs.items() if is_so), None)
    if kind is None:
        return None
    here, there = (held_text(Held(it.colour, it.depth, it.stencil), kind) for it in (ours, theirs))
    return Finding(kind, f"asked for ({ours.x}, {ours.y}): {there} where {here} is right", units)


def question_of(answer: Answer) -> tuple[int, ...]:
    """What was asked."""
    return (answer.x, answer.y) if isinstance(answer, PixelAnswer) else (answer.query,)
