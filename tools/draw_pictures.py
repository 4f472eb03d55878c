#!/usr/bin/env python3
"""Draws the gallery's examples with the built program, and makes the PNGs of docs/pictures.

    tools/draw_pictures.py [NAME ..] [--folder FOLDER] [--program FILE]

The pictures are opaque, since the targets' alpha is 0 where nobody drew it. One whose target is wider than 1,024
pixels is made smaller, and two-faced-count has a legend of its counts. Pillow and numpy are wanted.
"""

from __future__ import annotations

import argparse
import pathlib
import sys
from typing import TYPE_CHECKING

import make_examples
import package_path
from yuzuratchet import YuzuratchetError, load_script, run
from yuzuratchet.ending import ended

if TYPE_CHECKING:
    from yuzuratchet.images import Pixels

NAMES = [
    "fan",
    "shared-edges",
    "pile",
    "slivers",
    "far",
    "large",
    "ribbon",
    "mesh",
    "bowl",
    "shadow-volumes",
    "two-faced-count",
    "logic-operations",
    "eight-contexts",
    "lamps",
    "decals",
]
FOLDER = package_path.TOP / "docs" / "pictures"
WIDEST = 1024
SWATCH = 24


def with_legend(pixels: Pixels) -> Pixels:
    """The picture of two-faced-count, twice as large, over a row of its colours with the counts that they stand for."""
    import numpy as np
    from PIL import Image, ImageDraw
    from yuzuratchet.images import scaled

    # (what has a greater count keeps the background)
    labels = {
        **{str(count): colour for count, colour in enumerate(make_examples.COUNT_COLOURS)},
        "7+": make_examples.BACKGROUND,
    }
    large = scaled(pixels, 2)
    width = large.shape[1]
    step = width // (2 * len(labels))
    # (drawn small and enlarged, so that it needs no font but Pillow's own)
    row = Image.new("RGBA", (width // 2, SWATCH + 6), (255, 255, 255, 255))
    draw = ImageDraw.Draw(row)
    for number, (label, colour) in enumerate(labels.items()):
        left = number * step + 2
        draw.rectangle((left, 4, left + SWATCH // 3, SWATCH), fill=colour)
        draw.text((left + SWATCH // 3 + 3, 8), label, fill=(0, 0, 0, 255))
    return np.concatenate([large, scaled(np.asarray(row), 2)])


def picture(name: str, program: str | None) -> Pixels:
    """The picture of an example."""
    from yuzuratchet.images import opaque, scaled

    script = load_script(make_examples.FOLDER / f"{name}.txt")
    pixels = opaque(run(script, program=program).image)
    if name == "two-faced-count":
        return with_legend(pixels)
    return scaled(pixels, WIDEST / pixels.shape[1]) if pixels.shape[1] > WIDEST else pixels


def main() -> None:
    parser = argparse.ArgumentParser(description=__doc__, formatter_class=argparse.RawDescriptionHelpFormatter)
    parser.add_argument("names", metavar="NAME", nargs="*", help=f"of {', '.join(NAMES)}; without one, all")
    parser.add_argument(
        "--folder", type=pathlib.Path, default=FOLDER, help="where the pictures are written (docs/pictures)"
    )
    parser.add_argument("--program", metavar="FILE", help="the built program, if it isn't this clone's")
    given = parser.parse_args()
    unknown = [it for it in given.names if it not in NAMES]
    if unknown:
        parser.error(f"no picture {' '.join(unknown)}")
    try:
        from yuzuratchet.images import encode

        for name in given.names or NAMES:
            pixels, path = picture(name, given.program), given.folder / f"{name}.png"
            path.write_bytes(encode(pixels))
            print(f"{path}: {pixels.shape[1]} by {pixels.shape[0]} pixels")
    except (YuzuratchetError, OSError, ImportError) as error:
        sys.exit(f"draw_pictures.py: {error}")


if __name__ == "__main__":
    sys.exit(ended(main))
