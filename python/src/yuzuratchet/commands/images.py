"""``yuzuratchet draw`` and ``yuzuratchet png``."""

from __future__ import annotations

import argparse
import sys
from functools import partial
from pathlib import Path
from typing import TYPE_CHECKING, Any, Final

from ..arguments import whole_number
from .common import STANDARD, WELL, Refused, add_command, check_writable, how, is_script
from .common import read_bytes, shown_name

if TYPE_CHECKING:
    from ..images import Pixels
    from ..program import Ran


PLANES: Final = ("depth", "stencil", "overdraw", "changed")
"""What ``draw`` shows in place of the colours."""


def add(commands: Any) -> None:
    """Adds ``draw`` and ``png``."""
    add_draw(commands)
    add_png(commands)


def add_looks(found: argparse.ArgumentParser) -> None:
    """Adds how an image is written."""
    found.add_argument("--keep-alpha", action="store_true", help="keeps alpha as it was drawn")
    scale = "makes each pixel a square of N by N"
    found.add_argument("--scale", metavar="N", type=whole_number(1, 64), default=1, help=scale)


def add_draw(commands: Any) -> None:
    """Adds ``draw``."""
    about = "Draws a script into an image that can be looked at; the answer lines go to standard output."
    found = add_command(commands, "draw", about)
    found.epilog = (
        "With OUT.png - the image goes to standard output, and the answers to standard error."
    )
    found.add_argument("script", metavar="SCRIPT", type=Path, help="a script; - is standard input")
    kinds = "the image (.png, .tga, .tiff); - is a PNG to standard output"
    found.add_argument("image", metavar="OUT.png", type=Path, help=kinds)
    at = "draws the lines up to this one, which is counted from 1"
    found.add_argument("--at", metavar="LINE", type=whole_number(1), help=at)
    plane = (
        "in place of the colours a picture of the depth (the nearest white, what nobody drew on "
        "black), of the stencil, of how often each pixel was touched (overdraw: black never, then "
        "blue, red, yellow to nearly white the most often), or of what the last line that is drawn "
        "changed (changed: red where the colour, green where the depth, blue where the stencil)"
    )
    found.add_argument("--plane", choices=PLANES, help=plane)
    add_looks(found)
    found.set_defaults(run=draw)


def draw(given: argparse.Namespace) -> int:
    """Draws a script."""
    from ..excerpt import up_to

    if given.image != STANDARD:
        check_image(given.image)
    whole = read_bytes(given.script)
    script = up_to(whole, given.at) if given.at else whole
    ran = ran_well(given.script, script, given)
    told = sys.stderr if given.image == STANDARD else sys.stdout
    print(ran.answers, end="", file=told, flush=True)
    if given.plane == "changed":
        pixels = changed_picture(whole, given)
    elif given.plane == "overdraw":
        pixels = overdraw_picture(script, given)
    else:
        pixels = plane_picture(script, given) if given.plane else decoded(ran)
    write(pixels, given, keep_alpha=given.keep_alpha or bool(given.plane))
    return WELL


def check_image(path: Path) -> None:
    """Raises where an image can't be written: before anything is drawn."""
    from ..images import kind_of

    kind_of(path)
    check_writable(path)


def ran_well(path: Path, script: bytes, given: argparse.Namespace) -> Ran:
    """What the device gave for a script; where a line is refused the error says which word and why."""
    from ..backends import draw as drawn
    from ..check import located, report

    ran = drawn(script, **how(given))
    if ran.refused:
        answers = ran.answers.splitlines(keepends=True)[:-1]
        print("".join(answers), end="", file=sys.stderr if given.image == STANDARD else sys.stdout)
        raise Refused(report(located(script, *ran.refused), shown_name(path), script))
    return ran


def decoded(ran: Ran) -> Pixels:
    """The pixels of an image that was drawn."""
    from ..images import decode

    return decode(ran.image)


def plane_picture(script: bytes, given: argparse.Namespace) -> Pixels:
    """Depth or stencil behind a script, as a picture."""
    from ..backends import draw as drawn
    from ..planes import planes_behind

    return planes_behind(script, partial(drawn, **how(given))).picture(given.plane)


def overdraw_picture(script: bytes, given: argparse.Namespace) -> Pixels:
    """How often each pixel was touched, as a picture."""
    from ..overdraw import overdraw
    from ..planes import heat_picture
    from ..reader import read_script

    return heat_picture(overdraw(read_script(script), **how(given)))


def changed_picture(script: bytes, given: argparse.Namespace) -> Pixels:
    """What the last line changed that is drawn of a script, as a picture."""
    from ..backends import draw as drawn
    from ..changes import changes
    from ..excerpt import line_count

    line = given.at or line_count(script)
    return changes(script, line, partial(drawn, **how(given))).picture()


def write(pixels: Pixels, given: argparse.Namespace, keep_alpha: bool) -> None:
    """Writes an image, to a file or to standard output."""
    from ..images import encode, opaque, save, scaled

    if given.image == STANDARD:
        shown = pixels if keep_alpha else opaque(pixels)
        sys.stdout.buffer.write(encode(scaled(shown, given.scale)))
        sys.stdout.buffer.flush()
        return
    save(pixels, given.image, keep_alpha=keep_alpha, scale=given.scale)
    print(f"{given.image}: {size_text(pixels, given.scale)}", file=sys.stderr)


def size_text(pixels: Pixels, scale: int) -> str:
    """The size of a written image."""
    height, width = pixels.shape[:2]
    return f"{width * scale} by {height * scale} pixels"


def add_png(commands: Any) -> None:
    """Adds ``png``."""
    about = "Makes a PNG of a TGA image or a script, opaque, since viewers show nothing where alpha is 0."
    found = add_command(commands, "png", about)
    found.add_argument(
        "source", metavar="IN", type=Path, help="an image, or a script that is drawn"
    )
    found.add_argument("image", metavar="OUT.png", type=Path)
    add_looks(found)
    found.set_defaults(run=png)


def png(given: argparse.Namespace) -> int:
    """Makes a PNG."""
    from ..images import decode, save

    data = read_bytes(given.source)
    check_image(given.image)
    if is_script(data):
        pixels = decoded(ran_well(given.source, data, given))
    else:
        pixels = decode(data, shown_name(given.source))
    save(pixels, given.image, keep_alpha=given.keep_alpha, scale=given.scale)
    print(f"{given.image}: {size_text(pixels, given.scale)}")
    return WELL
