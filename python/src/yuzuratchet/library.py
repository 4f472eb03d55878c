"""Finds the library ``libyuzuratchet.so``, draws scripts with it, and asks it for the history of a
pixel, in this process.

The calls are those of yuzuratchet.h. A call starts no thread, and lets other threads of Python run.
"""

from __future__ import annotations

import ctypes
import ctypes.util
from dataclasses import dataclass
from functools import lru_cache
from pathlib import Path
from typing import Final

from .device import DEVICE
from .errors import LibraryMissing, ProgramFailed
from .program import INSTALLED, Ran, named_file
from .targa import HEADER_SIZE, image_size, target_sides

NAME: Final = "yuzuratchet"
VARIABLE: Final = "YUZURATCHET_LIBRARY"
FOLDERS: Final = (Path.home() / ".local" / "lib", Path("/usr/local/lib"))
"""Where it is looked for before the system's loader is asked."""

OLDEST: Final = 300

_STATUSES: Final = DEVICE["library"]["statuses"]
STATUS: Final[dict[str, int]] = {name: it["number"] for name, it in _STATUSES.items()}
"""The numbers of the statuses, by their names."""

STATUSES: Final[dict[int, str]] = {it["number"]: it["text"] for it in _STATUSES.values()}
"""What each means."""

DONE, REFUSED = STATUS["done"], STATUS["refused"]
TOO_SMALL: Final = (STATUS["lines_too_small"], STATUS["image_too_small"])
EVENTS_TOO_SMALL, PIXEL_RANGE = STATUS["events_too_small"], STATUS["pixel_range"]

NO_TARGET: Final = (1, 102)
"""Line and number of the fault of an empty script, since the library takes no empty area."""

HISTORY: Final = "yuzuratchet_history"
"""The call that tells the history of a pixel, which a library of 0.4.0 may lack."""

EVENT_SIZE: Final[int] = DEVICE["library"]["event"]["size"]

LINE_SIZE: Final[int] = DEVICE["answers"]["longest_line"]

HOW_TO_BUILD: Final = f"""\
A release has it inside (pip install yuzuratchet-VERSION-py3-none-manylinux_X_Y_x86_64.whl).
The library is built in a clone of the repository, where the toolchain is, and installed into a folder:
    tools/install_library.py ~/.local
It is then ~/.local/lib/lib{NAME}.so; name one elsewhere by library, or in the environment by {VARIABLE}."""


class Report(ctypes.Structure):
    """What a call tells: ``struct yuzuratchet_report``."""

    _fields_ = (
        ("lines_size", ctypes.c_uint64),
        ("image_size", ctypes.c_uint64),
        ("refused_line", ctypes.c_uint64),
        ("refusal", ctypes.c_uint32),
        ("status", ctypes.c_uint32),
    )


class HistoryReport(ctypes.Structure):
    """What is told of a history: ``struct yuzuratchet_history_report``."""

    _fields_ = (
        ("count", ctypes.c_uint64),
        ("refused_line", ctypes.c_uint64),
        ("refusal", ctypes.c_uint32),
        ("status", ctypes.c_uint32),
    )


@dataclass(frozen=True)
class HistoryTold:
    """What the library tells of the history of a pixel: the status, how many events there are, the
    refused line with the number of its refusal, and the events, :data:`EVENT_SIZE` bytes each."""

    status: int
    count: int
    refused: tuple[int, int]
    events: bytes


def find_library(library: str | Path | None = None) -> Path | str:
    """The library: the one that is named here, or else by the environment, or else the one that
    came with this package, or is installed for this user, or for all.

    Raises :class:`~yuzuratchet.errors.LibraryMissing`, whose text says how to build it.
    """
    if named := named_file(library, VARIABLE):
        path, by = named
        if path.is_file():
            return path.absolute()
        raise LibraryMissing(f"there is no library {path} ({by}).\n{HOW_TO_BUILD}")
    found = _installed()
    if found:
        return found
    raise LibraryMissing(f"no built library {NAME} is found.\n{HOW_TO_BUILD}")


@lru_cache(maxsize=1)
def _installed() -> Path | str | None:
    # (once a process, since other programs are started to ask for the loader's list)
    places = (folder / f"lib{NAME}.so" for folder in (INSTALLED, *FOLDERS))
    return next((it for it in places if it.is_file()), None) or ctypes.util.find_library(NAME)


@lru_cache(maxsize=8)
def load_library(path: Path | str) -> ctypes.CDLL:
    """The library at a path, with its calls declared.

    Raises :class:`~yuzuratchet.errors.LibraryMissing` where it can't be loaded, or is another.
    """
    try:
        loaded = ctypes.CDLL(str(path))
        version = loaded.yuzuratchet_version
        draw = loaded.yuzuratchet_draw
    except (OSError, AttributeError) as error:
        raise LibraryMissing(
            f"{path} is no library of this device: {error}\n{HOW_TO_BUILD}"
        ) from error
    version.restype, version.argtypes = ctypes.c_uint32, []
    if version() < OLDEST:
        raise LibraryMissing(
            f"{path} has version {version()}, and {OLDEST} is the oldest that is known"
        )
    area = [ctypes.c_void_p, ctypes.c_size_t]
    draw.restype, draw.argtypes = ctypes.c_uint32, [*area, *area, *area, ctypes.POINTER(Report)]
    history = getattr(loaded, HISTORY, None)
    if history is not None:
        pixel, report = [ctypes.c_uint32, ctypes.c_uint32], ctypes.POINTER(HistoryReport)
        history.restype, history.argtypes = ctypes.c_uint32, [*area, *pixel, *area, report]
    return loaded


def tells_histories(library: str | Path | None = None) -> bool:
    """Whether the library has the history of a pixel; raises as :func:`find_library` does."""
    return hasattr(load_library(find_library(library)), HISTORY)


def run_library(script: bytes, *, library: str | Path | None = None) -> Ran:
    """Draws the bytes of a script with the library.

    It gives what :func:`yuzuratchet.program.run_program` gives. Raises
    :class:`~yuzuratchet.errors.LibraryMissing` and :class:`~yuzuratchet.errors.ProgramFailed`.
    """
    loaded = load_library(find_library(library))
    if not script:
        return Ran(REFUSED, "refused {} {}\n".format(*NO_TARGET), b"")
    lines_size, image_size = LINE_SIZE * (script.count(b"\n") + 2), _image_size(script)
    while True:
        lines, image = ctypes.create_string_buffer(lines_size), ctypes.create_string_buffer(
            image_size
        )
        report = Report()
        status = loaded.yuzuratchet_draw(
            script, len(script), lines, lines_size, image, image_size, ctypes.byref(report)
        )
        if status in (DONE, REFUSED):
            answers = ctypes.string_at(lines, report.lines_size).decode("ascii")
            return Ran(status, answers, ctypes.string_at(image, report.image_size))
        if status not in TOO_SMALL:
            raise ProgramFailed(
                f"the library draws nothing: {STATUSES.get(status, f'status {status}')}"
            )
        lines_size = max(lines_size, report.lines_size)
        image_size = max(image_size, report.image_size)


def tell_history(
    script: bytes, x: int, y: int, room: int, *, library: str | Path | None = None
) -> HistoryTold:
    """The history of a pixel of a script, into an area with room for so many events, at least 1.

    The status is done, or that a line is refused, that there are more events, of which none is told
    then, or that the target has no such pixel. Raises
    :class:`~yuzuratchet.errors.LibraryMissing` and :class:`~yuzuratchet.errors.ProgramFailed`.
    """
    found = find_library(library)
    history = getattr(load_library(found), HISTORY, None)
    if history is None:
        raise LibraryMissing(f"{found} is an older one: it has no history of a pixel")
    if not script:
        return HistoryTold(REFUSED, 0, NO_TARGET, b"")
    events, report = ctypes.create_string_buffer(EVENT_SIZE * room), HistoryReport()
    status = history(script, len(script), x, y, events, room, ctypes.byref(report))
    if status not in (DONE, REFUSED, EVENTS_TOO_SMALL, PIXEL_RANGE):
        raise ProgramFailed(
            f"the library tells no history: {STATUSES.get(status, f'status {status}')}"
        )
    told = events.raw[: EVENT_SIZE * report.count] if status == DONE else b""
    return HistoryTold(status, report.count, (report.refused_line, report.refusal), told)


def _image_size(script: bytes) -> int:
    """The size of the image by the first line; where that says nothing, the report will."""
    sides = target_sides(script)
    return image_size(*sides) if sides else HEADER_SIZE
