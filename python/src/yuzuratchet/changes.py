"""Which pixels a line of a script changed.

They are those that differ between the target behind the line before and the target behind the line,
with what is pending run at both ends. So a draw or a clear of the immediate context changes what it
changes when it runs right then, wherever it does run in the whole script: nothing stands between
that would make it draw something else. An ``exec`` line changes what its list changes. Lines that
set states, begin and end queries or ask change nothing; nor does ``flush``, since what it runs is
told of the lines that recorded it; nor do the lines of deferred contexts and ``finish``, since what
they record is told of each ``exec`` line. A pixel that was drawn anew with what it held has not
changed: :mod:`yuzuratchet.overdraw` counts those.
"""

from __future__ import annotations

from dataclasses import dataclass

import numpy as np
import numpy.typing as npt

from .errors import ArgumentError
from .excerpt import up_to
from .images import Pixels
from .planes import Draw, contents_behind, opaque_picture

Mask = npt.NDArray[np.bool_]


@dataclass(frozen=True)
class Changes:
    """The pixels that a line changed: planes of height and width, True where it did."""

    colour: Mask
    depth: Mask
    stencil: Mask

    @property
    def any(self) -> Mask:
        """Where any of the three was changed."""
        return self.colour | self.depth | self.stencil

    def picture(self) -> Pixels:
        """A picture: red where the colour was changed, green where the depth was, blue where the
        stencil was, so that white is all three, and black where nothing was."""
        shown = np.stack((self.colour, self.depth, self.stencil), axis=2)
        return opaque_picture(np.where(shown, 255, 0).astype(np.uint8))


def changes(script: bytes, line: int, draw: Draw) -> Changes:
    """The pixels that a line changed, which is counted from 1; the first, the target's, changes none.

    The script is drawn up to the line before and up to the line, with a question for each pixel
    behind it, which takes some two seconds a million. Raises
    :class:`~yuzuratchet.errors.ArgumentError` where there is no such line, and
    :class:`~yuzuratchet.errors.ScriptRefused` where one up to it is refused.
    """
    if line == 1:
        raise ArgumentError("line", "1 is that of the target: no line stands before it")
    before, after = (contents_behind(up_to(script, it), draw) for it in (line - 1, line))
    differs = before != after
    return Changes(differs[..., :4].any(axis=2), differs[..., 4], differs[..., 5])
