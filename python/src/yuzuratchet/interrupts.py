"""Ctrl-C and SIGTERM: both end a command in order, so that nothing is left behind.

Within :func:`raised` either signal raises :class:`KeyboardInterrupt` in the main thread, once: what
is open is closed on the way out. A signal that comes again within a second is the same wish; one
that comes later ends the process at once.
"""

from __future__ import annotations

import os
import signal
import threading
import time
from contextlib import contextmanager
from types import FrameType
from typing import Final, Iterator

SIGNALS: Final = (signal.SIGINT, signal.SIGTERM)
SAME_WISH: Final = 1.0
"""Seconds within which a second signal adds nothing to the first."""


class Interrupted(KeyboardInterrupt):
    """A signal that asks the process to end: ``number`` is that of the signal."""

    def __init__(self, number: int) -> None:
        super().__init__(f"interrupted by {signal.Signals(number).name}")
        self.number = number


def name_of(interrupt: KeyboardInterrupt) -> str:
    """The signal's name: ``SIGINT`` or ``SIGTERM``."""
    return signal.Signals(_number(interrupt)).name


def status_of(interrupt: KeyboardInterrupt) -> int:
    """The exit status of a process that a signal ended: 130 by SIGINT, 143 by SIGTERM."""
    return 128 + _number(interrupt)


def _number(interrupt: KeyboardInterrupt) -> int:
    return interrupt.number if isinstance(interrupt, Interrupted) else int(signal.SIGINT)


class _Raising:
    """The handler: raises at the first signal, and not again while that one is dealt with."""

    def __init__(self) -> None:
        self.first: float | None = None

    def __call__(self, number: int, _: FrameType | None) -> None:
        now = time.monotonic()
        if self.first is None:
            self.first = now
            raise Interrupted(number)
        if now - self.first > SAME_WISH:
            signal.signal(number, signal.SIG_DFL)
            os.kill(os.getpid(), number)


@contextmanager
def raised() -> Iterator[None]:
    """Within the block SIGINT and SIGTERM raise :class:`Interrupted`, where they end a process.

    A signal that is ignored stays so. Outside of the main thread nothing is changed.
    """
    if threading.current_thread() is not threading.main_thread():
        yield
        return
    usual = (signal.SIG_DFL, signal.default_int_handler)
    changed = {it: old for it in SIGNALS if (old := signal.getsignal(it)) in usual}
    handler = _Raising()
    for number in changed:
        signal.signal(number, handler)
    try:
        yield
    finally:
        for number, old in changed.items():
            signal.signal(number, old)
