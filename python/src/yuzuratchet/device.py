"""What device.json says: the words of a script, the limits, the refusals, how the library answers.

The file is the one place of these numbers and texts. :mod:`yuzuratchet.words`,
:mod:`yuzuratchet.limits` and :mod:`yuzuratchet.messages` hand them out in Python's types, and the
page in the browser has the file as it is. A test reads the device's own sources against it, and
docs/SCRIPT.md and yuzuratchet.h.
"""

from __future__ import annotations

import json
from importlib import resources
from typing import Any, Final


def read_device() -> dict[str, Any]:
    """The file as it lies beside this module."""
    text = resources.files(__package__).joinpath("device.json").read_text(encoding="utf-8")
    read: dict[str, Any] = json.loads(text)
    return read


DEVICE: Final = read_device()
"""All of the file."""
