"""The command ``yuzuratchet``: its parser, and what becomes of what goes wrong."""

from __future__ import annotations

import argparse
import sys
import warnings
from functools import partial
from typing import Sequence

from . import __version__, interrupts
from .backends import NoLibraryWarning
from .commands import check, diff, explain, images, judge, proof, suite, view
from .commands.common import DIFFERENT, TROUBLE, Refused
from .ending import ended
from .errors import YuzuratchetError


def parser() -> argparse.ArgumentParser:
    """The parser of the command's words."""
    top = argparse.ArgumentParser(
        prog="yuzuratchet",
        description="Looks at scripts of the graphics device Yuzuratchet, and at what it draws.",
        epilog="Exit status: 0 where all is well, 1 where a script is refused, images differ or a "
        "suite doesn't agree, 2 where something is missing, 130 or 143 where a signal cut it short, "
        "141 where nobody reads on.",
    )
    top.add_argument("--version", action="version", version=f"yuzuratchet {__version__}")
    commands = top.add_subparsers(dest="command", required=True, metavar="COMMAND")
    for command in (images, check, explain, diff, suite, judge, view, proof):
        command.add(commands)
    return top


def main(words: Sequence[str] | None = None) -> int:
    """The command; gives its exit status."""
    return ended(partial(_run, words))


def _run(words: Sequence[str] | None) -> int:
    given = parser().parse_args(words)
    try:
        with interrupts.raised(), warnings.catch_warnings():
            warnings.simplefilter("ignore", NoLibraryWarning)
            status: int = given.run(given)
            return status
    except BrokenPipeError:
        raise
    except OSError as error:
        where = f"{error.filename}: " if error.filename else ""
        print(f"yuzuratchet: {where}{error.strerror or error}", file=sys.stderr)
    except ImportError as error:
        missing = f"{error.name} isn't installed (numpy and Pillow are wanted)"
        print(f"yuzuratchet: {missing}: 'pip install ./python' installs it", file=sys.stderr)
    except YuzuratchetError as error:
        print(f"yuzuratchet: {error}", file=sys.stderr)
        return DIFFERENT if isinstance(error, Refused) else TROUBLE
    return TROUBLE
