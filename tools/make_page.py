#!/usr/bin/env python3
"""Builds the page that draws in a browser: one file with the device, the scripts of the gallery and all code in it.

    tools/make_page.py [--module FILE.wasm] [-o PAGE.html]

The WebAssembly module is built by tools/build_module.py where the toolchain is: a minute or two behind a gate run, and
as long as that on a fresh clone. Elsewhere the module that was built last, or FILE, is taken, and Python alone is
wanted. The page opens from a file, and from any host that serves files.
"""

from __future__ import annotations

import argparse
import pathlib
import shutil
import subprocess
import sys

import package_path
from yuzuratchet import page
from yuzuratchet.ending import ended

TOP = package_path.TOP
MODULE = TOP / "web" / "out" / "yuzuratchet.wasm"
BUILD_MODULE = pathlib.Path(__file__).resolve().parent / "build_module.py"
GALLERY = TOP / "crates" / "gallery" / "data"
EXAMPLES = TOP / "python" / "examples"
OPENING = "shadow-volumes"
MAGIC = b"\0asm"
FAILED = f"{BUILD_MODULE.name} failed"


def group_of(name: str) -> str | None:
    """The heading under which a script of the gallery stands in the menu, or None where it has no place there."""
    if "-cut-behind-" in name or name.startswith("width-"):
        return None
    if name.startswith("rows/"):
        return "worked rows"
    if name.startswith("refused/"):
        return "refused calls"
    if (TOP / "docs" / "pictures" / f"{name}.png").is_file():
        return "pictures"
    return "random scenes" if name.startswith("scene-") else "more"


def menu() -> list[page.Entry]:
    """The scripts of the menu: the package's examples, and those of the gallery in the order of their headings."""
    found = [
        page.Entry("first steps", it.stem, it.read_text(encoding="ascii")) for it in sorted(EXAMPLES.glob("*.txt"))
    ]
    names = [it.removesuffix(".txt") for it in (GALLERY / "index").read_text(encoding="ascii").split()]
    for group in ("pictures", "more", "worked rows", "refused calls", "random scenes"):
        for name in names:
            if group_of(name) == group:
                found.append(page.Entry(group, name, (GALLERY / f"{name}.txt").read_text(encoding="ascii")))
    return found


def built(module: bytes) -> str:
    """The page with a module's bytes."""
    return page.build_page(TOP / "web", module, menu(), OPENING)


def find_module() -> tuple[pathlib.Path | None, str]:
    """The module at its place: built anew where the toolchain is, else the one that is there; or None, and why."""
    if shutil.which("rt") and BUILD_MODULE.is_file():
        MODULE.parent.mkdir(parents=True, exist_ok=True)
        print(f"{BUILD_MODULE.name} builds {MODULE.relative_to(TOP)}", flush=True)
        if subprocess.run([sys.executable, BUILD_MODULE, MODULE], check=False).returncode:
            return None, FAILED
    if MODULE.is_file():
        return MODULE, ""
    return (
        None,
        f"{MODULE.relative_to(TOP)} isn't built, and the command rt, which comes with the toolchain, is missing",
    )


def main() -> None:
    parser = argparse.ArgumentParser(description=__doc__, formatter_class=argparse.RawDescriptionHelpFormatter)
    parser.add_argument(
        "--module", metavar="FILE.wasm", type=pathlib.Path, help="the module (built where the toolchain is)"
    )
    parser.add_argument(
        "-o", metavar="PAGE.html", dest="page", type=pathlib.Path, default=TOP / page.BUILT, help=f"({page.BUILT})"
    )
    given = parser.parse_args()
    path, why = (given.module, "") if given.module else find_module()
    if path is None:
        sys.exit(f"make_page.py: there is no module, and so no page: {why}")
    try:
        module = path.read_bytes()
        if not module.startswith(MAGIC):
            sys.exit(f"make_page.py: {path} is no WebAssembly module")
        given.page.parent.mkdir(parents=True, exist_ok=True)
        size = given.page.write_text(built(module), encoding="utf-8")
    except OSError as error:
        sys.exit(f"make_page.py: {error.filename}: {error.strerror}")
    print(f"{given.page}: {size} bytes, to be opened in a browser")


if __name__ == "__main__":
    sys.exit(ended(main))
