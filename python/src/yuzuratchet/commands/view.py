"""``yuzuratchet view``."""

from __future__ import annotations

import argparse
import re
from pathlib import Path
from typing import Any

from ..errors import PageMissing, YuzuratchetError
from ..labels import Labels
from .common import STANDARD, WELL, add_command, check_writable, how, read_bytes, shown_name


def add(commands: Any) -> None:
    """Adds ``view``."""
    about = "Writes a page, one file, that plays a script in a browser: for a picture from afar."
    found = add_command(commands, "view", about)
    found.epilog = (
        "Faults are shown on the page. It is built in the repository by tools/make_page.py; "
        "--static needs none."
    )
    found.add_argument("script", metavar="SCRIPT", type=Path, help="a script; - is standard input")
    written = "the page that is written (SCRIPT's name with .html, in this folder)"
    found.add_argument("-o", "--output", metavar="PAGE.html", type=Path, help=written)
    built = "the built page; else YUZURATCHET_PAGE, or this clone's"
    found.add_argument("--page", metavar="FILE", type=Path, help=built)
    static = "a page of under 100 KB that runs nothing: picture, answers, script"
    found.add_argument("--static", action="store_true", help=static)
    why = "with --static: why this pixel is what it is, as explain tells it; again for another one"
    found.add_argument("--pixel", metavar="X,Y", action="append", type=pixel, default=[], help=why)
    found.set_defaults(run=view)


def pixel(text: str) -> tuple[int, int]:
    """The two numbers of a pixel: a kind of argument."""
    found = re.fullmatch(r"([0-9]{1,9}),([0-9]{1,9})", text)
    if not found:
        raise argparse.ArgumentTypeError(f"{text!r} is no X,Y in whole numbers")
    return int(found[1]), int(found[2])


def view(given: argparse.Namespace) -> int:
    """Writes a page with a script."""
    if given.pixel and not given.static:
        raise YuzuratchetError("--pixel is for --static: the page that plays has a pointer")
    built = None if given.static else built_page(given)
    name = "stdin" if given.script == STANDARD else given.script.stem
    written = given.output or Path(f"{name}.html")
    check_writable(written)
    script = read_bytes(given.script)
    labels = Labels() if given.script == STANDARD else Labels.read(given.script, script)
    if built is None:
        text = static(given, script, labels)
    else:
        text = playing(given, built, script, labels)
    written.write_text(text, encoding="utf-8")
    print(f"{written}: to be opened in a browser")
    return WELL


def built_page(given: argparse.Namespace) -> str:
    """The built page."""
    from ..page import find_page, with_script

    try:
        built = find_page(given.page).read_text(encoding="utf-8")
        with_script(built, "", "")  # (so that another file is told at once)
        return built
    except PageMissing as error:
        raise PageMissing(f"{error}\nWith --static a page is written that needs none.") from error


def playing(given: argparse.Namespace, built: str, script: bytes, labels: Labels) -> str:
    """The page that plays a script."""
    from ..page import with_script

    # (a byte that is no letter is a fault of the script, which the page shows)
    text = script.decode("utf-8", "replace")
    return with_script(built, title(given.script), text, labels)


def static(given: argparse.Namespace, script: bytes, labels: Labels) -> str:
    """The page that only shows."""
    from ..static_page import Shown, static_page

    shown = Shown(title(given.script), script, labels, tuple(given.pixel))
    return static_page(shown, **how(given))


def title(path: Path) -> str:
    """The name of a script as the page shows it."""
    return shown_name(path) if path == STANDARD else path.name
