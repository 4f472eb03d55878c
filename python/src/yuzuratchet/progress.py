"""A line on standard error that tells how far something is."""

from __future__ import annotations

import sys
import time


class ProgressLine:
    """On a terminal the line is written over; else it is written anew now and then.

    ``every`` is how many seconds lie between lines that are no terminal's.
    """

    def __init__(self, every: float = 10.0) -> None:
        self.every = every
        self.is_terminal = sys.stderr.isatty()
        self.told = time.monotonic()
        self.width = 0

    def tell(self, line: str) -> None:
        """Tells how far it is."""
        if self.is_terminal:
            print(f"\r{line.ljust(self.width)}", end="", file=sys.stderr, flush=True)
            self.width = len(line)
        elif time.monotonic() - self.told > self.every:
            self.told = time.monotonic()
            print(line, file=sys.stderr, flush=True)

    def end(self) -> None:
        """Leaves the line of a terminal behind."""
        if self.is_terminal and self.width:
            print(file=sys.stderr, flush=True)

    def clear(self) -> None:
        """Takes the line of a terminal away."""
        if self.is_terminal and self.width:
            print(f"\r{' ' * self.width}\r", end="", file=sys.stderr, flush=True)
            self.width = 0
