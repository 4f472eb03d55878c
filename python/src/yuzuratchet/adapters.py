"""Other devices: an adapter plays scripts with the command line of tiledraw, and writes depth and stencil too.

``ADAPTER SCRIPT OUT.tga --planes FILE`` ends with status 0, or with 77 where the device can't do what a
script asks. Answer lines stand on its standard output; on standard error a line ``device: NAME`` says what
it plays on, others are notes.
"""

from __future__ import annotations

import os
import shlex
import shutil
import signal
import subprocess
import tempfile
from contextlib import suppress
from dataclasses import dataclass
from pathlib import Path
from typing import Final, NamedTuple, Sequence

import numpy as np

from .backends import draw
from .errors import ImageError, ProgramFailed, ScriptRefused, YuzuratchetError
from .images import Pixels, decode
from .limits import DEEPEST
from .messages import message_of
from .planes import Planes
from .results import Answer, parse_answer
from .targa import target_sides

NOT_SUPPORTED: Final = 77
DEVICE: Final = "device: "
NOTE: Final = "note: "
FILES: Final = ("script.txt", "image.tga", "planes")
"""What an adapter reads and writes; names without a folder are the same on Windows."""


class Held(NamedTuple):
    """What a pixel holds: red, green, blue and alpha, the stored depth, the stencil."""

    colour: tuple[int, int, int, int]
    depth: int
    stencil: int


@dataclass(frozen=True)
class Picture:
    """What a script leaves: its answers, and the whole target."""

    answers: tuple[Answer, ...]
    colour: Pixels
    planes: Planes

    def at(self, x: int, y: int) -> Held:
        """What a pixel holds."""
        red, green, blue, alpha = (int(it) for it in self.colour[y, x])
        return Held(
            (red, green, blue, alpha), int(self.planes.depth[y, x]), int(self.planes.stencil[y, x])
        )


class NotSupported(YuzuratchetError):
    """The device behind an adapter can't do what a script asks."""


class AdapterDied(YuzuratchetError):
    """An adapter ended in another way than with a picture."""


class AdapterHung(YuzuratchetError):
    """An adapter took too long, and was ended."""


def device_picture(script: bytes, **how: object) -> Picture:
    """What the device itself leaves; ``how`` says by which program, as for ``run``.

    Raises :class:`~yuzuratchet.errors.ScriptRefused` where a line is refused.
    """
    sides = target_sides(script)
    width, height = sides or (1, 1)
    asked = "".join(f"i pixel {x} {y}\n" for y in range(height) for x in range(width))
    ran = draw(script + asked.encode("ascii"), **how)  # type: ignore[arg-type]
    if ran.refused:
        line, number = ran.refused
        raise ScriptRefused(line, number, message_of(number).when)
    lines = ran.answers.splitlines()
    count = width * height
    rows = np.array([line.split()[7:] for line in lines[-count:]], dtype=np.uint32)
    both = rows.reshape(height, width, 2)
    planes = Planes(both[..., 0], both[..., 1].astype(np.uint8))
    return Picture(tuple(map(parse_answer, lines[:-count])), decode(ran.image), planes)


@dataclass
class Adapter:
    """A program that plays scripts on another device, with the words before the script's name."""

    words: Sequence[str]
    seconds: float
    device: str = ""
    notes: tuple[str, ...] = ()

    @classmethod
    def of(cls, text: str, seconds: float = 20) -> Adapter:
        """The adapter that a command names; raises YuzuratchetError where there is no such program."""
        words = shlex.split(text)
        found = shutil.which(words[0]) if words else None
        if found is None:
            raise YuzuratchetError(f"there is no adapter {text!r} that can be executed")
        # (it runs in a folder of its own, from where other files are found by whole paths alone)
        others = [str(Path(it).absolute()) if Path(it).is_file() else it for it in words[1:]]
        return cls([str(Path(found).absolute()), *others], seconds)

    def play(self, script: bytes) -> Picture:
        """What a script leaves on the other device.

        Raises :class:`NotSupported`, :class:`AdapterDied` or :class:`AdapterHung`.
        """
        with tempfile.TemporaryDirectory(prefix="yuzuratchet-") as folder:
            names = [Path(folder, name) for name in FILES]
            names[0].write_bytes(script)
            answers = self._run(Path(folder))
            try:
                colour = decode(names[1].read_bytes(), "the adapter's image")
                words = np.fromfile(names[2], dtype="<u4").reshape(colour.shape[:2])
            except (OSError, ValueError, ImageError) as error:
                raise AdapterDied(f"it wrote no picture: {error}") from error
        planes = Planes(words & np.uint32(DEEPEST), (words >> np.uint32(24)).astype(np.uint8))
        try:
            return Picture(tuple(map(parse_answer, answers.splitlines())), colour, planes)
        except ProgramFailed as error:
            raise AdapterDied(str(error)) from error

    def _run(self, folder: Path) -> str:
        """The answers of the adapter, which runs in a folder.

        What it says goes into files, since what it starts may hold pipes open.
        """
        script, image, planes = FILES
        paths = folder / "answers", folder / "told"
        with paths[0].open("wb") as answers, paths[1].open("wb") as told:
            process = subprocess.Popen(
                [*self.words, script, image, "--planes", planes],
                cwd=folder,
                stdin=subprocess.DEVNULL,
                stdout=answers,
                stderr=told,
                start_new_session=True,
            )
        try:
            status = process.wait(self.seconds)
        except subprocess.TimeoutExpired as error:
            raise AdapterHung(f"it took longer than {self.seconds:g} seconds") from error
        finally:
            if process.poll() is None:
                with suppress(ProcessLookupError):
                    os.killpg(process.pid, signal.SIGKILL)
                process.wait()
        said = paths[1].read_text(encoding="utf-8", errors="replace")
        self._hear(said)
        last = said.strip().splitlines()[-1:] or [""]
        if status == NOT_SUPPORTED:
            raise NotSupported(last[0].removeprefix("not supported: "))
        if status != 0:
            raise AdapterDied(f"it ended {_how(status)}: {last[0]}")
        return paths[0].read_text(encoding="utf-8", errors="replace")

    def _hear(self, told: str) -> None:
        for line in told.splitlines():
            if line.startswith(DEVICE):
                self.device = self.device or line.removeprefix(DEVICE).strip()
            elif line.startswith(NOTE) and line.removeprefix(NOTE) not in self.notes:
                self.notes += (line.removeprefix(NOTE),)


def _how(status: int) -> str:
    return f"with status {status}" if status > 0 else f"by {signal.Signals(-status).name}"
