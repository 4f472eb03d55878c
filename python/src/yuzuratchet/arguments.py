"""Kinds of arguments of a command line, for :mod:`argparse`."""

from __future__ import annotations

import argparse
from typing import Callable


def whole_number(least: int, most: int | None = None) -> Callable[[str], int]:
    """A kind of argument: a whole number in a range, both ends included."""
    bounds = f"at least {least}" if most is None else f"from {least} to {most}"

    def parse(text: str) -> int:
        try:
            value = int(text)
        except ValueError:
            value = least - 1
        if value < least or (most is not None and value > most):
            raise argparse.ArgumentTypeError(f"{text!r} is no whole number {bounds}")
        return value

    return parse
