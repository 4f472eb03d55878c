"""A page that only shows: a picture, answers, the script, and why pixels are what they are.

It is one file of under 100 KB and runs nothing, so it can be looked at from afar and sent by mail.
"""

from __future__ import annotations

import base64
import html
from dataclasses import dataclass, field
from functools import partial
from string import Template
from typing import Any, Final

from .backends import draw
from .check import all_located, report_all
from .excerpt import Played, lines_up_to, play
from .explain import explain
from .explanation import Explanation, heading, table
from .findings import letters
from .images import Pixels, decode, encode, opaque, scaled
from .labels import Labels
from .reader import read_script

MOST_BYTES: Final = 100_000
"""The whole page is smaller."""

PICTURE_BYTES: Final = 40_000
"""Of the picture's PNG, which takes a third more in the page."""

TEXT_BYTES: Final = {"answers": 6_000, "script": 16_000, "pixels": 14_000}
"""Of the page's parts, as they stand there."""

SIDE: Final = 512
"""How long the longer side of a small picture is at most, in whole squares."""

LINE: Final = 110
"""Letters of a line of the script."""

AROUND: Final = 12
"""Lines that stand round a refused one."""

PAGE: Final = Template(
    """<!DOCTYPE html>
<html lang="en">
<head>
<meta charset="utf-8">
<meta name="viewport" content="width=device-width">
<title>$title</title>
<style>
:root { color-scheme: light dark }
body { font: 15px/1.5 system-ui, sans-serif; margin: 1.5em auto; max-width: 84em; padding: 0 1em }
h1 { font-size: 1.3em } h2 { font-size: 1.05em; margin: 1.6em 0 .3em }
img { image-rendering: pixelated; border: 1px solid #8888; display: block; max-width: none }
pre { background: #8881; padding: .6em 1em; overflow-x: auto; line-height: 1.35; margin: .4em 0 }
.refused { background: #b3261e; color: #fff } .label { color: #3d7ab5 } .n { color: #888; user-select: none }
.picture { overflow-x: auto }
</style>
</head>
<body>
<h1>$title</h1>
<p>$summary</p>
$sections
</body>
</html>
"""
)


@dataclass(frozen=True)
class Shown:
    """A script to be shown: its name and its bytes, the names of its lines, and pixels that are asked
    about."""

    name: str
    script: bytes
    labels: Labels = field(default_factory=Labels)
    pixels: tuple[tuple[int, int], ...] = ()


def static_page(shown: Shown, **how: Any) -> str:
    """The page of a script, drawn here; ``how`` says by which program, as for ``run``.

    Raises :class:`~yuzuratchet.errors.ArgumentError` where the target has no such pixel.
    """
    played = play(shown.script, partial(draw, **how))
    sections = [refusal_section(shown, played)] if played.ran.refused else []
    if played.image:
        sections.append(picture_section(decode(played.image, shown.name), played, shown))
        sections.append(pixels_section(shown, played, **how))
    sections += [answers_section(played), script_section(shown, played)]
    return PAGE.substitute(
        title=html.escape(shown.name),
        summary=html.escape(summary(shown, played)),
        sections="\n".join(it for it in sections if it),
    )


def summary(shown: Shown, played: Played) -> str:
    """How the script ended, in a line."""
    count = shown.script.count(b"\n")
    lines = f"{count} line{'' if count == 1 else 's'}"
    if not played.ran.refused:
        return f"{lines}, drawn to the end"
    line, number = played.ran.refused
    what = "has a fault" if number > 100 else "is refused"
    return f"{lines}; line {line} {what} ({number})"


def refusal_section(shown: Shown, played: Played) -> str:
    """Which word is to blame, why, and what to do."""
    assert played.ran.refused is not None
    found = all_located(shown.script, *played.ran.refused)[:3]
    text = report_all(found, shown.name, shown.script, shown.labels)
    return f"<pre>{html.escape(text)}</pre>"


def picture_section(pixels: Pixels, played: Played, shown: Shown) -> str:
    """The picture in whole squares; one whose file would be too large is made smaller, and says so."""
    height, width = pixels.shape[:2]
    small, part, data = opaque(pixels), 1, b""
    while len(data := encode(small)) > PICTURE_BYTES:
        part *= 2
        small = opaque(scaled(pixels, 1 / part))
    size = f"{width} by {height} pixels"
    if part > 1:
        size += f", shown at 1/{part} of its size"
    if played.ran.refused:
        size += f", as line {played.shown} leaves it"
    square = max(1, SIDE // max(small.shape[:2]))
    source = base64.b64encode(data).decode("ascii")
    image = (
        f'<img src="data:image/png;base64,{source}" width="{small.shape[1] * square}" '
        f'alt="{html.escape(shown.name)}">'
    )
    return f'<div class="picture">{image}</div>\n<p>{size}</p>'


def pixels_section(shown: Shown, played: Played, **how: Any) -> str:
    """Of each pixel that is asked about, what it holds and which lines made it so."""
    script = shown.script
    if played.ran.refused:
        script = lines_up_to(script, played.shown)
    scene, parts = read_script(script), []
    for x, y in shown.pixels:
        found = explain(scene, x, y, **how)
        room = TEXT_BYTES["pixels"] // len(shown.pixels)
        parts.append(f"<h2>{html.escape(heading(found))}</h2>")
        parts.append(f"<pre>{_fitted(_table(found, shown.labels), room)}</pre>")
    return "\n".join(parts)


def _table(found: Explanation, labels: Labels) -> list[str]:
    return [html.escape(line) for line in table(found, labels).splitlines()]


def answers_section(played: Played) -> str:
    """The answer lines."""
    lines = played.ran.answers.splitlines()
    if not lines:
        return ""
    return f"<h2>answers</h2>\n<pre>{_fitted(lines, TEXT_BYTES['answers'])}</pre>"


def script_section(shown: Shown, played: Played) -> str:
    """The script's lines, of which the refused one is marked; of a long one those round it."""
    lines = letters(shown.script).split("\n")
    lines = lines[:-1] if lines[-1] == "" else lines
    refused = played.ran.refused[0] if played.ran.refused else 0
    first = max(0, refused - 1 - AROUND) if len(lines) > 3 * AROUND else 0
    told = [f'<span class="n">... {first} lines before</span>'] if first else []
    named: str | None = None
    for number, line in enumerate(lines[first:], first + 1):
        if (name := shown.labels.of(number)) != named:
            named = name
            told.append(f'<span class="label">{html.escape(name or "-")}</span>')
        told.append(_line(number, line, number == refused))
    return f"<h2>script</h2>\n<pre>{_fitted(told, TEXT_BYTES['script'])}</pre>"


def _line(number: int, line: str, is_refused: bool) -> str:
    cut = line if len(line) <= LINE else f"{line[: LINE - 3]}..."
    text = f'<span class="n">{number:>5} </span>{html.escape(cut)}'
    return f'<span class="refused">{text}</span>' if is_refused else text


def _fitted(lines: list[str], room: int) -> str:
    """As many lines as there is room for, and how many more there are."""
    kept: list[str] = []
    used = 0
    for line in lines:
        used += len(line.encode("utf-8")) + 1
        if used > room:
            kept.append(f"... and {len(lines) - len(kept)} lines more")
            break
        kept.append(line)
    return "\n".join(kept)
