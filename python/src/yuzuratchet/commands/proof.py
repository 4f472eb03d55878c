"""``yuzuratchet proof``."""

from __future__ import annotations

import argparse
from typing import Any

from .common import DIFFERENT, WELL, add_command


def add(commands: Any) -> None:
    """Adds ``proof``."""
    about = (
        "Tells what was proved of the device that is installed here, and whether it is that one."
    )
    found = add_command(commands, "proof", about, draws=False)
    found.epilog = (
        "Status 1: the release was built without a proof, or what draws here isn't the release's."
    )
    found.set_defaults(run=proof)


def proof(given: argparse.Namespace) -> int:
    """Tells what was proved."""
    from ..proof import find_proof

    found = find_proof()
    print(found.text)
    print(f"Here, by {found.path}:\n")
    for verdict in found.verdicts:
        print(verdict)
    return WELL if found.is_proved and found.is_of_all else DIFFERENT
