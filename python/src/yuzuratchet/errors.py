"""What can go wrong, as exceptions. Each has a text that can be shown as it is."""

from __future__ import annotations


class YuzuratchetError(Exception):
    """Any error of this package."""


class ArgumentError(YuzuratchetError, ValueError):
    """An argument that no script can spell: of the wrong type, or out of its range.

    ``argument`` is its name.
    """

    def __init__(self, argument: str, message: str) -> None:
        super().__init__(f"{argument}: {message}")
        self.argument = argument
        self.message = message


class WrongType(ArgumentError, TypeError):
    """An argument of a type that can't be taken."""


class CallRefused(YuzuratchetError, ValueError):
    """A call that the device refuses.

    ``number`` is the refusal's number, which :data:`yuzuratchet.messages.REFUSALS` explains, and
    ``argument`` the name of the argument that is to blame, or the call's own word where none is.
    ``place`` counts the argument among those of the line, from 0, and is None where none is to
    blame. ``line`` is the number of the line, where a whole script was taken. ``of`` is another line
    that has to do with it, and the place of the argument there: the index that is no vertex.
    """

    def __init__(
        self,
        number: int,
        argument: str,
        message: str,
        place: int | None = None,
        of: tuple[int, int] | None = None,
    ) -> None:
        super().__init__(f"{argument}: {message} (refusal {number})")
        self.number = number
        self.argument = argument
        self.place = place
        self.message = message
        self.of = of
        self.line: int | None = None


class ScriptFault(YuzuratchetError, ValueError):
    """A text that is no script.

    ``line`` is counted from 1, ``number`` is the fault's number, which
    :data:`yuzuratchet.messages.FAULTS` explains, and ``start`` and ``end`` enclose the bytes of the
    line that are to blame, counted from 0. They are equal where something is missing there.
    """

    def __init__(self, line: int, number: int, start: int, end: int, message: str) -> None:
        super().__init__(f"line {line}, column {start + 1}: {message} (fault {number})")
        self.line = line
        self.number = number
        self.start = start
        self.end = end
        self.message = message


class ScriptRefused(YuzuratchetError):
    """The program refused a line of a script, or found a fault in it.

    ``line`` and ``number`` are those of its last answer line, and ``answers`` are the answers
    before it. ``scene`` counts the scene from 0, where many were drawn.
    """

    def __init__(
        self,
        line: int,
        number: int,
        meaning: str,
        answers: tuple[object, ...] = (),
        scene: int | None = None,
    ) -> None:
        which = "" if scene is None else f"scene {scene}: "
        super().__init__(f"{which}line {line} was refused with {number}: {meaning}")
        self.line = line
        self.number = number
        self.meaning = meaning
        self.answers = answers
        self.scene = scene

    def of_scene(self, scene: int) -> ScriptRefused:
        """The same, of a scene among many."""
        return ScriptRefused(self.line, self.number, self.meaning, self.answers, scene)


class ProgramMissing(YuzuratchetError):
    """The program ``tiledraw`` isn't built, or isn't where it was said to be."""


class LibraryMissing(YuzuratchetError):
    """The library isn't built, isn't where it was said to be, or is another."""


class PackageMissing(YuzuratchetError):
    """A package of Python's that something wants isn't installed."""


class PageMissing(YuzuratchetError):
    """The page isn't built, or isn't where it was said to be."""


class ProofMissing(YuzuratchetError):
    """Nothing here says what was proved of the device."""


class ProgramFailed(YuzuratchetError):
    """The program ended as it never should: by a signal, with another status, or too late."""


class ProgramStopped(ProgramFailed):
    """A run of the program was ended by whoever started it."""


class ImageError(YuzuratchetError, ValueError):
    """A file is no image that can be shown, or two images can't be compared."""
