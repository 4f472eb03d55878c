"""What the device takes at most, from device.json. A call that asks for more is refused.

The ranges of the numbers of a script, which are wider, stand in :mod:`yuzuratchet.words`.
"""

from typing import Final

from .device import DEVICE

LIMITS: Final[dict[str, int]] = DEVICE["limits"]
"""All of them by their names."""

TARGET_SIDE: Final = LIMITS["target_side"]
"""Pixels of a side of the target; a scissor rectangle ends there at the latest."""

SUBPIXELS: Final = LIMITS["subpixels"]
"""Parts of a pixel in which a script gives coordinates."""

FARTHEST_PIXEL: Final = LIMITS["farthest_pixel"]
"""How many pixels a vertex may lie from the upper left corner, either way."""

FARTHEST: Final = LIMITS["farthest"]
"""The same in parts of a pixel."""

DEEPEST: Final = LIMITS["deepest"]
"""The greatest depth: 24 bits, all set."""

BUFFER_LENGTH: Final = LIMITS["buffer_length"]
"""Vertices, or indices, of a buffer."""

LIST_COMMANDS: Final = LIMITS["list_commands"]
"""Commands of a list, and of what is pending."""

LIST_TRIANGLES: Final = LIMITS["list_triangles"]
"""Triangles of all draws of a list, dropped ones included."""

LIST_ISSUES: Final = LIMITS["list_issues"]
"""Pairs of ``begin`` and ``end`` of a list."""

QUERIES: Final = LIMITS["queries"]
"""Queries, numbered from 0."""

DEFERRED_CONTEXTS: Final = LIMITS["deferred_contexts"]
"""Deferred contexts, ``d0`` to ``d7``."""

WORKERS: Final = LIMITS["workers"]
"""Threads that draw beside the program's own."""

STRIP_CUT: Final = LIMITS["strip_cut"]
"""The index that cuts an indexed strip."""
