"""What draws a script: the library, in this process, or the program. Both give the same bytes."""

from __future__ import annotations

import os
import warnings
from pathlib import Path
from typing import Final, Literal

from . import library as libraries
from . import program as programs
from .errors import ArgumentError, LibraryMissing
from .program import Ran, check_wishes

Backend = Literal["library", "program"]

BACKENDS: Final = ("library", "program")


class NoLibraryWarning(UserWarning):
    """The program draws, a process for each scene, since the library isn't installed."""


NO_LIBRARY: Final = (
    "each scene is drawn by a process of its own, which takes some 25 ms to start. Where the "
    "library is installed, run draws small scenes 20 times as fast: "
    "'tools/install_library.py ~/.local', in a clone of the repository, builds it"
)


def draw(
    script: bytes,
    *,
    backend: Backend | None = None,
    library: str | Path | None = None,
    program: str | Path | None = None,
    workers: int | None = None,
    seconds: float | None = None,
) -> Ran:
    """Draws the bytes of a script.

    Without ``backend`` it is the library where one is found, and the program where none is, where a
    program is named, or where ``workers`` or ``seconds`` ask for what only a process has. Raises as
    :func:`yuzuratchet.library.run_library` and :func:`yuzuratchet.program.run_program` do.
    """
    if backend not in (None, *BACKENDS):
        raise ArgumentError("backend", f"{backend!r} is neither 'library' nor 'program'")
    check_wishes(workers, seconds)
    wishes = {"program": program, "workers": workers, "seconds": seconds}
    wish = next((name for name, value in wishes.items() if value), None)
    if backend == "library" and wish:
        raise ArgumentError(wish, "the library draws in this process, on one thread: it takes none")
    if (backend or chosen(wish, library)) == "library":
        return libraries.run_library(script, library=library)
    return programs.run_program(script, workers=workers, program=program, seconds=seconds)


def tells_histories(*, program: str | Path | None = None, workers: int | None = None) -> bool:
    """Whether what draws a scene tells the history of its pixels: the library does."""
    wish = next((name for name, it in (("program", program), ("workers", workers)) if it), None)
    return chosen(wish, None) == "library" and libraries.tells_histories()


def chosen(wish: str | None, library: str | Path | None) -> Backend:
    """The backend that fits, where none is named; ``wish`` is the argument that asks for a process.

    The first time that the program draws for want of a library, a :class:`NoLibraryWarning` says so.
    """
    if wish:
        return "program"
    if library or os.environ.get(libraries.VARIABLE):
        return "library"
    if os.environ.get(programs.VARIABLE):
        return "program"
    try:
        libraries.load_library(libraries.find_library())
    except LibraryMissing:
        _tell_once()
        return "program"
    return "library"


_told: list[bool] = []


def _tell_once() -> None:
    if not _told:
        _told.append(True)
        # (the caller of `run`, by way of draw and chosen)
        warnings.warn(NO_LIBRARY, NoLibraryWarning, stacklevel=5)
