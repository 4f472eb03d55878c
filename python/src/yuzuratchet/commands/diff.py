"""``yuzuratchet diff``."""

from __future__ import annotations

import argparse
from difflib import unified_diff
from functools import partial
from pathlib import Path
from typing import TYPE_CHECKING, Any

from ..arguments import whole_number
from ..errors import ImageError
from .common import DIFFERENT, WELL, Refused, add_command, check_writable, how, is_script
from .common import read_bytes, refused, shown_name

if TYPE_CHECKING:  # (what wants numpy or Pillow is imported by the command that uses it)
    from ..difference import Difference
    from ..images import Pixels
    from ..planes import Planes


def add(commands: Any) -> None:
    """Adds ``diff``."""
    about = "Tells in which pixels two images or scripts differ, by how much, and marks them in a picture."
    found = add_command(commands, "diff", about)
    found.epilog = "Of two scripts answers, depth and stencil are compared too."
    found.add_argument("a", metavar="A", type=Path, help="an image, or a script that is drawn")
    found.add_argument("b", metavar="B", type=Path, help="another")
    picture = "where the pixels that differ are marked"
    found.add_argument("picture", metavar="OUT.png", nargs="?", type=Path, help=picture)
    most = "how many pixels are listed (10)"
    found.add_argument("--list", metavar="N", type=whole_number(0), default=10, help=most)
    channel = "lets channels pass that lie at most so far apart, 0 to 255 (0)"
    found.add_argument(
        "--tolerance", metavar="N", type=whole_number(0, 255), default=0, help=channel
    )
    depth = "lets depths pass that lie at most so many of 16,777,215 apart (0)"
    found.add_argument("--depth-units", metavar="N", type=whole_number(0), default=0, help=depth)
    colour = "compares no depth and no stencil, which take two seconds for each million pixels"
    found.add_argument("--colour-only", action="store_true", help=colour)
    found.set_defaults(run=diff)


class Side:
    """One of the two: its image, and of a script its answer lines and its planes."""

    def __init__(self, path: Path, given: argparse.Namespace) -> None:
        from ..images import decode
        from ..results import Result, run

        self.name = shown_name(path)
        self.data, self.how = read_bytes(path), how(given)
        self.result: Result | None = None
        if is_script(self.data):
            self.result = run(self.data, check=False, **self.how)
            if self.result.refused:
                raise refused(path, self.result.refused.line, self.result.refused.number)
        self.image: Pixels = self.result.image if self.result else decode(self.data, self.name)

    def planes(self) -> Planes:
        """Depth and stencil of a script."""
        from ..backends import draw
        from ..planes import planes_behind

        return planes_behind(self.data, partial(draw, **self.how))


def diff(given: argparse.Namespace) -> int:
    """Compares two images or scripts."""
    from ..difference import compare

    if given.picture:
        check_picture(given.picture)
    a, b = Side(given.a, given), Side(given.b, given)
    try:
        difference = compare(a.image, b.image, given.tolerance)
    except ImageError as error:
        raise Refused(str(error)) from error
    others = [*answer_lines(a, b), *plane_lines(a, b, given)]
    if difference is None and not others:
        print(f"{a.name} and {b.name} are the same in each pixel{lenient(given)}")
        return WELL
    print("\n".join([*others, difference.text if difference else "the images are the same"]))
    if difference:
        tell_pixels(a, b, difference, given)
    return DIFFERENT


def check_picture(path: Path) -> None:
    """Raises where the picture can't be written: before anything is drawn."""
    from ..images import kind_of

    kind_of(path)
    check_writable(path)


def lenient(given: argparse.Namespace) -> str:
    """What is let pass, in words."""
    return " but for what is let pass" if given.tolerance or given.depth_units else ""


def answer_lines(a: Side, b: Side) -> list[str]:
    """The answer lines in which two scripts differ; an image has none."""
    if a.result is None or b.result is None:
        return []
    texts = a.result.text.splitlines(), b.result.text.splitlines()
    return list(unified_diff(*texts, a.name, b.name, n=0, lineterm=""))


def plane_lines(a: Side, b: Side, given: argparse.Namespace) -> list[str]:
    """In which pixels depth and stencil of two scripts differ; an image has neither."""
    from ..difference import Tolerance, compare_planes

    if given.colour_only or a.result is None or b.result is None:
        return []
    tolerance = Tolerance(given.tolerance, given.depth_units)
    found = compare_planes(a.planes(), b.planes(), tolerance)
    return [f"{name}: {it.text}" for name, it in found.items()]


def tell_pixels(a: Side, b: Side, difference: Difference, given: argparse.Namespace) -> None:
    """Lists the first pixels that differ, and marks all of them in the picture that is asked for."""
    from ..difference import marked
    from ..images import save

    for x, y in list(difference.places())[: given.list]:
        colours = [" ".join(map(str, it.image[y, x])) for it in (a, b)]
        print(f"  ({x}, {y}): {' | '.join(colours)}")
    if given.picture:
        save(marked(b.image, difference), given.picture)
        print(f"they are marked in {given.picture}")
