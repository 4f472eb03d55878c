"""How a command ends where a signal asks it to, or where whoever reads its output has gone."""

from __future__ import annotations

import os
import sys
from typing import Callable, Final, Union

from . import interrupts

CLOSED_PIPE: Final = 141
"""The exit status where nobody reads the output any more: what shells give of a process that SIGPIPE ends."""


def ended(main: Callable[[], Union[int, None]]) -> int:
    """Runs a command to its end, when all that it printed is written; gives its exit status.

    A reader that has had enough, as ``| head`` has, is no fault: nothing is said of it. What a
    command says where a file can't be written, by :func:`sys.exit`, isn't said then either.
    """
    try:
        try:
            status = main() or 0
        except SystemExit as end:
            if isinstance(end.__context__, BrokenPipeError):
                raise end.__context__
            sys.stdout.flush()
            raise
        sys.stdout.flush()
        return status
    except BrokenPipeError:
        # nothing more is written, not even as the process ends
        os.dup2(os.open(os.devnull, os.O_WRONLY), sys.stdout.fileno())
        return CLOSED_PIPE
    except KeyboardInterrupt as interrupt:
        return interrupts.status_of(interrupt)
