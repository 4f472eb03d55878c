"""What the numbers of a ``refused`` line mean, and what to do, from device.json.

docs/SCRIPT.md has the same tables.
"""

from __future__ import annotations

from dataclasses import dataclass
from typing import Any, Final

from .device import DEVICE
from .limits import LIMITS


@dataclass(frozen=True)
class Message:
    """When a number is told, and what to do about it."""

    when: str
    advice: str


def _messages(table: dict[str, dict[str, Any]]) -> dict[int, Message]:
    """The messages of a table, with the limits that they name. What no script meets has none."""
    return {
        int(number): Message(entry["when"].format(**LIMITS), entry["advice"].format(**LIMITS))
        for number, entry in table.items()
        if "when" in entry
    }


FAULTS: Final = _messages(DEVICE["faults"])
"""The faults of a text by their numbers."""

REFUSALS: Final = _messages(DEVICE["refusals"])
"""The refusals of calls by their numbers."""


def message_of(number: int) -> Message:
    """The message of a number that the program told."""
    unknown = Message(f"the number {number} has no meaning here", "look into docs/SCRIPT.md")
    return FAULTS.get(number) or REFUSALS.get(number) or unknown
