"""What was proved of the device that is installed here: the release's PROOF.txt, held against the files that draw."""

from __future__ import annotations

import hashlib
import re
from dataclasses import dataclass
from pathlib import Path
from typing import Final

from .errors import LibraryMissing, ProgramMissing, ProofMissing
from .library import find_library
from .program import CHECKED, INSTALLED, find_program

NAME: Final = "PROOF.txt"
SHARED: Final = Path("share", "doc", "yuzuratchet", NAME)
SUM: Final = re.compile(r"^([0-9a-f]{64})  (\S+)$", re.M)
NOT_PROVED: Final = "NOT PROVED."
NONE_HERE: Final = f"""\
no {NAME} is installed here, so nothing is claimed of what draws. A release has one.
Of a clone the gate says what is proved: tools/test_all.sh, whose last line is the gate's."""


@dataclass(frozen=True)
class Proof:
    """A release's PROOF.txt."""

    path: Path
    text: str

    @property
    def sums(self) -> dict[str, str]:
        """The release's binaries by their SHA-256."""
        return {digest: name for digest, name in SUM.findall(self.text)}

    @property
    def is_proved(self) -> bool:
        """Whether the gate passed on what the release was built of."""
        return NOT_PROVED not in self.text

    def judge(self, path: Path) -> str:
        """What this says of a file: which of the release's binaries it is, or that it is another."""
        name = self.sums.get(hashlib.sha256(path.read_bytes()).hexdigest())
        return f"{path}: {f'is {name} of this release' if name else OTHER}"

    @property
    def verdicts(self) -> list[str]:
        """What this says of the program and of the library that draw here."""
        return [self.judge(it) for it in drawing()]

    @property
    def is_of_all(self) -> bool:
        """Whether all that draws here is of the release."""
        return not any(it.endswith(OTHER) for it in self.verdicts)


OTHER: Final = "is no binary of this release: nothing is claimed of it"


def drawing() -> list[Path]:
    """The program and the library that draw here, those that there are."""
    found = []
    try:
        found.append(find_program())
    except ProgramMissing:
        pass
    try:
        library = Path(find_library())
        found += [library] if library.is_file() else []
    except LibraryMissing:
        pass
    return found


def find_proof() -> Proof:
    """The PROOF.txt of what is installed: that of this package, or of where the program lies.

    Raises :class:`~yuzuratchet.errors.ProofMissing`, whose text says what there is in its place.
    """
    programs = [it for it in drawing() if it.name != CHECKED.name]
    beside = [it.resolve().parent.parent / SHARED for it in programs]
    for path in (INSTALLED / NAME, *beside):
        if path.is_file():
            return Proof(path, path.read_text(encoding="utf-8"))
    raise ProofMissing(NONE_HERE)
