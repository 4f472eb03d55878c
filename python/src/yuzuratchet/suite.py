"""A suite: a folder of scripts, and what is stored of each: answers, digests, and images.

A folder has scripts, ``*.txt`` in it and below, or those that its file ``index`` names. Its file
``expected`` has for each script its name, its answer lines, the SHA-256 of its depth and stencil
where they are stored too, and ``image`` with that of the image's file. The image itself is stored
beside the script as a PNG of the same name, where there is one, so that a difference can be shown.
A folder with ``data`` and ``stdout``, as crates/gallery has them, is taken too: the scripts are in
the one, and what is expected in the other.

What draws the scripts is :mod:`yuzuratchet.suite_run`.
"""

from __future__ import annotations

import hashlib
import time
import zlib
from dataclasses import dataclass, field, replace
from enum import Enum
from fnmatch import fnmatchcase
from pathlib import Path
from typing import TYPE_CHECKING, Callable, Final

from .difference import EXACT, Tolerance, compare
from .errors import ImageError, YuzuratchetError
from .images import decode, load
from .planes import planes_behind
from .program import REFUSED, Ran

if TYPE_CHECKING:
    from .difference import Difference

FIRST_FAULT = 101


class Verdict(Enum):
    """How what was drawn stands to what is stored."""

    AGREES = "agrees"
    DIFFERS = "differs"
    NOT_STORED = "nothing is stored"
    NO_SCRIPT = "is stored, and there is no such script"
    FAILED = "the program failed"


@dataclass(frozen=True)
class Expected:
    """The answer lines of a script, and the digests of its image, depth and stencil.

    Those of depth and stencil are empty where they aren't stored.
    """

    answers: str
    digest: str
    depth: str = ""
    stencil: str = ""

    @property
    def refused(self) -> tuple[int, int] | None:
        """Line and number of what was refused, or is a fault."""
        found = REFUSED.search(self.answers)
        return (int(found[1]), int(found[2])) if found else None

    @property
    def is_fault(self) -> bool:
        """Whether the script has a fault, so that nothing of it is played."""
        return self.refused is not None and self.refused[1] >= FIRST_FAULT

    @property
    def has_planes(self) -> bool:
        """Whether depth and stencil are stored."""
        return bool(self.depth and self.stencil)


@dataclass(frozen=True)
class Outcome:
    """What came of a script.

    ``image`` is its file where it isn't as it was stored, and ``differs`` names what isn't:
    ``answers``, ``image``, ``depth``, ``stencil``.
    """

    name: str
    verdict: Verdict
    seconds: float = 0.0
    drawn: Expected | None = None
    expected: Expected | None = None
    image: bytes = field(default=b"", repr=False)
    message: str = ""
    differs: tuple[str, ...] = ()

    @property
    def text(self) -> str:
        """The verdict in words."""
        if self.verdict is not Verdict.DIFFERS:
            return str(self.verdict.value)
        names = [f"the {name}" for name in self.differs]
        verb = "differs" if names in (["the image"], ["the depth"], ["the stencil"]) else "differ"
        return f"{', '.join(names[:-1])}{' and ' if names[:-1] else ''}{names[-1]} {verb}"


@dataclass(frozen=True)
class Shard:
    """One of ``of`` parts of a suite, counted from 1. A name alone says in which part it is, so that
    machines that know nothing of each other draw each script once."""

    number: int
    of: int

    def has(self, name: str) -> bool:
        """Whether a script is in this part."""
        return zlib.crc32(name.encode("utf-8")) % self.of == self.number - 1

    def __str__(self) -> str:
        return f"{self.number}/{self.of}"


WHOLE: Final = Shard(1, 1)


@dataclass(frozen=True)
class Suite:
    """A folder of scripts, the file of what is expected, and the folder of stored images.

    Where ``only`` is given, the suite has the scripts whose names match it, as ``fog/*``, and of
    these those of its ``shard``.
    """

    scripts: Path
    expected: Path
    pictures: Path | None
    only: str | None = None
    shard: Shard = WHOLE

    @classmethod
    def of_folder(cls, folder: Path, only: str | None = None, shard: Shard = WHOLE) -> Suite:
        """The suite of a folder; raises :class:`~yuzuratchet.errors.YuzuratchetError`."""
        if not folder.is_dir():
            raise YuzuratchetError(f"{folder} is no folder")
        if (folder / "data").is_dir() and (folder / "stdout").is_file():
            return cls(folder / "data", folder / "stdout", None, only, shard)
        return cls(folder, folder / "expected", folder, only, shard)

    def names(self) -> list[str]:
        """The names of the scripts, below their folder."""
        index = self.scripts / "index"
        if index.is_file():
            names = index.read_text(encoding="utf-8").splitlines()
        else:
            found = sorted(self.scripts.rglob("*.txt"))
            names = [path.relative_to(self.scripts).as_posix() for path in found]
        return [name for name in names if self.has(name)]

    def has(self, name: str) -> bool:
        """Whether the suite has a script of this name, if there is one."""
        return self.shard.has(name) and (self.only is None or fnmatchcase(name, self.only))

    def every_stored(self) -> dict[str, Expected]:
        """What is expected of each script of the folder; nothing where nothing is stored yet."""
        if not self.expected.is_file():
            return {}
        return parse_expected(
            self.expected.read_text(encoding="utf-8", errors="replace"), str(self.expected)
        )

    def stored(self) -> dict[str, Expected]:
        """What is expected of each script of the suite."""
        return {name: it for name, it in self.every_stored().items() if self.has(name)}

    def picture(self, name: str) -> Path | None:
        """The stored image of a script, where there is one."""
        path = self.picture_path(name)
        return path if path and path.is_file() else None

    def picture_path(self, name: str) -> Path | None:
        """Where the image of a script is stored, if images are."""
        return (self.pictures / name).with_suffix(".png") if self.pictures else None

    def image_difference(self, outcome: Outcome, tolerance: int = 0) -> Difference | None:
        """In which pixels the image that was drawn differs from the stored one.

        Raises :class:`~yuzuratchet.errors.ImageError` where there isn't a picture of both.
        """
        picture = self.picture(outcome.name)
        if not outcome.image:
            raise ImageError("no image was drawn")
        if picture is None:
            raise ImageError("the image that was expected isn't stored; its digest is another")
        return compare(load(picture), decode(outcome.image, outcome.name), tolerance)


def drawn_outcome(
    name: str, script: bytes, draw: Callable[[bytes], Ran], planes: bool = False
) -> Outcome:
    """What comes of a script, compared with nothing yet; depth and stencil where they are wanted."""
    begun = time.monotonic()
    ran = draw(script)
    drawn = Expected(ran.answers, hashlib.sha256(ran.image).hexdigest())
    if planes and not ran.refused:
        depth, stencil = planes_behind(script, draw).digests
        drawn = replace(drawn, depth=depth, stencil=stencil)
    took = time.monotonic() - begun
    return Outcome(name, Verdict.AGREES, took, drawn=drawn, image=ran.image)


def parse_expected(text: str, name: str) -> dict[str, Expected]:
    """What is stored of the scripts, by their names; ``name`` is that of the file."""
    found: dict[str, Expected] = {}
    script, answers, planes = "", "", {"depth": "", "stencil": ""}
    for number, line in enumerate(text.splitlines(), 1):
        word, _, rest = line.partition(" ")
        if word == "image" and script:
            found[script] = Expected(answers, rest, **planes)
            script, answers, planes = "", "", dict.fromkeys(planes, "")
        elif word in planes and script:
            planes[word] = rest
        elif word in ("query", "pixel", "refused") and script:
            answers += f"{line}\n"
        elif not script and line:
            script = line
        else:
            raise YuzuratchetError(
                f"{name}:{number}: {line!r} has no place in a file of what is expected"
            )
    return found


def expected_text(stored: dict[str, Expected]) -> str:
    """The file of what is expected."""
    return "".join(f"{name}\n{_entry(it)}" for name, it in stored.items())


def _entry(stored: Expected) -> str:
    planes = f"depth {stored.depth}\nstencil {stored.stencil}\n" if stored.has_planes else ""
    return f"{stored.answers}{planes}image {stored.digest}\n"


def judged(
    suite: Suite, outcome: Outcome, expected: Expected | None, tolerance: Tolerance = EXACT
) -> Outcome:
    """The outcome, compared with what is expected; an image that agrees is let go."""
    drawn = outcome.drawn
    if drawn is None:
        return replace(outcome, expected=expected)
    if expected is None:
        return replace(outcome, verdict=Verdict.NOT_STORED)
    outcome = replace(outcome, expected=expected)
    names = {"answers": "answers", "image": "digest"}
    if expected.has_planes:
        names |= {"depth": "depth", "stencil": "stencil"}
    apart = [it for it, key in names.items() if getattr(drawn, key) != getattr(expected, key)]
    if "image" in apart and tolerance.channel and _passes(suite, outcome, tolerance):
        apart.remove("image")
    image = outcome.image if "image" in apart else b""
    verdict = Verdict.DIFFERS if apart else Verdict.AGREES
    return replace(outcome, verdict=verdict, image=image, differs=tuple(apart))


def _passes(suite: Suite, outcome: Outcome, tolerance: Tolerance) -> bool:
    """Whether an image is as the stored one, but for what is let pass."""
    try:
        return suite.image_difference(outcome, tolerance.channel) is None
    except ImageError:
        return False
