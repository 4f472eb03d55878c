#!/usr/bin/env python3
"""Draws a script with the device, right from a fresh clone, and makes a picture that can be looked at.

    tools/first_picture.py [SCRIPT [OUT.png]]

Without words it draws crates/gallery/data/shadow-volumes.txt into out/shadow-volumes.png of the clone. Where the proved
program is built or installed, that one draws. Else `rt try` compiles the device with checks and without a proof, in
about a minute, the seconds are counted on the screen, and what it built is kept: the next picture takes a second, and
the package finds it too (crates/tiledraw/out/tiledraw-checked: checked, not proved, slow). On a machine without the
toolchain the plain evaluation in tools/plain_device.py draws, which is slower by far.

The answers are printed, and where the script has a fault or is refused, the line and the word that are to blame. Where
no Python here has Pillow and numpy the picture is a TGA image, as the device writes it.
"""

from __future__ import annotations

import argparse
import os
import pathlib
import subprocess
import sys
import tempfile
import time
from collections.abc import Sequence

import checked_build
import package_path
import toolchain
from yuzuratchet.check import located, report
from yuzuratchet.ending import ended
from yuzuratchet.errors import ProgramMissing
from yuzuratchet.program import Ran, find_program

SCRIPT = package_path.TOP / "crates" / "gallery" / "data" / "shadow-volumes.txt"
SOURCES = package_path.TOP / "python" / "src"
PLAIN = package_path.TOP / "tools" / "plain_device.py"
CACHE = pathlib.Path(os.environ.get("XDG_CACHE_HOME") or pathlib.Path.home() / ".cache")
# the tests' own environment, and Debian's Python, may have Pillow and numpy where this one has not
PYTHONS = [sys.executable, str(CACHE / "yuzuratchet" / "environment" / "bin" / "python"), "/usr/bin/python3"]


def say(text: str) -> None:
    print(text, flush=True)


def count_seconds(process: subprocess.Popen[bytes]) -> None:
    """Waits for a process and counts the seconds: in one place on a terminal, else as dots."""
    is_terminal, begun = sys.stdout.isatty(), time.monotonic()
    while True:
        try:
            process.wait(1)
            break
        except subprocess.TimeoutExpired:
            print(f"\r{time.monotonic() - begun:4.0f} s" if is_terminal else ".", end="", flush=True)
    say(f"{chr(13) if is_terminal else ' '}{time.monotonic() - begun:.0f} seconds")


def run_counted(words: Sequence[str], folder: pathlib.Path) -> str:
    """Runs a command in a folder while the seconds are counted; gives what it said."""
    with tempfile.TemporaryFile() as said:
        process = subprocess.Popen(words, cwd=folder, stdin=subprocess.DEVNULL, stdout=said, stderr=said)
        try:
            count_seconds(process)
        finally:
            if process.poll() is None:
                process.terminate()
                process.wait()
        said.seek(0)
        return said.read().decode(errors="replace")


def program() -> list[str]:
    """The words of what draws: the program that is found, built where it has to be, or the plain evaluation."""
    try:
        found = find_program()
    except ProgramMissing:
        found = None
    if found and (found != checked_build.PROGRAM or checked_build.is_built()):
        return [str(found)]
    if not toolchain.is_there():
        say("There is no program, nor the command rt, which comes with the toolchain rattle-kit-13 and builds it.")
        return [sys.executable, "-B", str(PLAIN)]
    say("The device is compiled with checks, and without a proof: 30 to 80 seconds on the machines that were measured.")
    return [str(checked_build.build_program(run_counted))]


def python_with_pillow() -> str | None:
    """A Python that can make a PNG, or None."""
    for python in PYTHONS:
        if (
            os.access(python, os.X_OK)
            and subprocess.run([python, "-c", "import numpy, PIL"], capture_output=True, check=False).returncode == 0
        ):
            return python
    return None


def make_png(python: str, image: pathlib.Path, png: pathlib.Path) -> int:
    """Makes the PNG, and says where it lies."""
    environment = {**os.environ, "PYTHONPATH": str(SOURCES)}
    return subprocess.run(
        [python, "-B", "-m", "yuzuratchet", "png", image, png], env=environment, check=False
    ).returncode


def draw(script: pathlib.Path, text: bytes, image: pathlib.Path) -> bool:
    """Draws a script, and says its answers; gives whether there is an image."""
    words = program()
    say(f"{words[-1]} draws {script}.")
    ran = subprocess.run([*words, script, image], stdin=subprocess.DEVNULL, capture_output=True, text=True, check=False)
    print(ran.stdout, end="")
    if ran.returncode not in (0, 1):
        sys.exit(f"first_picture.py: nothing was drawn (status {ran.returncode}):\n{ran.stderr[-2000:]}")
    refused = Ran(ran.returncode, ran.stdout, b"").refused
    if refused:
        say(report(located(text, *refused), str(script), text))
    return refused is None


def asked() -> tuple[pathlib.Path, pathlib.Path]:
    """The script, and the picture."""
    parser = argparse.ArgumentParser(description=__doc__, formatter_class=argparse.RawDescriptionHelpFormatter)
    parser.add_argument("script", metavar="SCRIPT", nargs="?", type=pathlib.Path, default=SCRIPT)
    named = "the picture (SCRIPT's name, in this clone's folder out, which git leaves out)"
    parser.add_argument("png", metavar="OUT.png", nargs="?", type=pathlib.Path, help=named)
    given = parser.parse_args()
    return given.script, given.png or package_path.TOP / "out" / f"{given.script.stem}.png"


def main() -> int:
    script, png = asked()
    python = python_with_pillow()
    if python is None:
        say("No Python here has Pillow and numpy (Debian: python3-pil python3-numpy), so the picture is a TGA image.")
    try:
        text = script.read_bytes()
        png.parent.mkdir(exist_ok=True)
        with tempfile.TemporaryDirectory() as room:
            image = png.with_suffix(".tga").absolute() if python is None else pathlib.Path(room, "image.tga")
            if not draw(script, text, image):
                return 1
            if python:
                return make_png(python, image, png)
            say(f"{image}: the image as the device writes it; GIMP opens it, for one")
            return 0
    except OSError as error:
        sys.exit(f"first_picture.py: {error.filename}: {error.strerror}")
    except toolchain.NotBuilt as error:
        sys.exit(f"first_picture.py: {error}")


if __name__ == "__main__":
    sys.exit(ended(main))
