#!/usr/bin/env python3
"""Prints what crates/gallery has to print: of each script that data/index names the answers and the digest of the
image, by the plain evaluation of plain_device.py. The file crates/gallery/stdout is this program's output:

    tools/gallery_answers.py > crates/gallery/stdout

With names of scripts it prints those alone: large-lists.txt alone takes minutes.
"""

from __future__ import annotations

import argparse
import hashlib
import pathlib
import sys

import plain_device
from yuzuratchet.ending import ended

DATA = pathlib.Path(__file__).resolve().parent.parent / "crates" / "gallery" / "data"


def main() -> None:
    parser = argparse.ArgumentParser(description=__doc__, formatter_class=argparse.RawDescriptionHelpFormatter)
    indexed = (DATA / "index").read_text(encoding="ascii").splitlines()
    parser.add_argument(
        "names", metavar="NAME", nargs="*", help="a script of crates/gallery/data, as its index has it (all)"
    )
    given = parser.parse_args()
    unknown = [name for name in given.names if name not in indexed]
    if unknown:
        parser.error(f"{unknown[0]} isn't in the index")
    for name in given.names or indexed:
        answers, image = plain_device.evaluate((DATA / name).read_bytes())
        print(f"{name}\n{answers}image {hashlib.sha256(image).hexdigest()}")


if __name__ == "__main__":
    sys.exit(ended(main))
