"""Which fault a text has that is no script, and at which bytes of its line.

The reader takes a script by :func:`parsed_line`; where that isn't a line, the first row of the
table of faults that applies is told as a :class:`~yuzuratchet.errors.ScriptFault`.
"""

from __future__ import annotations

import difflib
import re
from typing import Mapping, NoReturn

from .errors import ScriptFault
from .line import Line
from .states import names_of
from .words import ACTORS, DEFERRED, TARGET, WORDS, Argument, Word

FORM = re.compile(rb"[!-~]+(?: [!-~]+)*")
NUMBER = re.compile(rb"0|-?[1-9][0-9]*")
# no range has more than ten digits, and the reader turns no longer ones into numbers
NUMBERS = re.compile(rb"(?:0|-?[1-9][0-9]{0,18})(?: (?:0|-?[1-9][0-9]{0,18}))*")

LINE_FORM, FIRST_LINE, ACTOR, COMMAND, ARGUMENT_COUNT, ARGUMENT, NO_SUCH_LIST = range(101, 108)

EMPTY = "the script is empty"
COMMAS = "; one space stands between numbers, and no comma"
COMMENT = "; a script has no comments"
BYTE_ORDER_MARK = b"\xef\xbb\xbf"


class LineReader:
    """One line of a text, on the way to being read; ``number`` counts it from 1."""

    def __init__(self, text: bytes, number: int, has_line_feed: bool = True) -> None:
        self.text, self.number, self.has_line_feed = text, number, has_line_feed
        self.words = text.split(b" ")

    def fail(self, fault: int, place: int, message: str) -> NoReturn:
        """Raises a fault at a word; a place past the last word is the end of the line."""
        start = sum(len(word) + 1 for word in self.words[:place])
        if place >= len(self.words):
            self.fail_at(fault, len(self.text), len(self.text), message)
        self.fail_at(fault, start, start + len(self.words[place]), message)

    def fail_at(self, fault: int, start: int, end: int, message: str) -> NoReturn:
        """Raises a fault at bytes of the line."""
        raise ScriptFault(self.number, fault, start, end, message)

    def shown(self, place: int) -> str:
        """A word as a message shows it."""
        return repr(self.words[place].decode("ascii", "replace"))

    def check_form(self) -> None:
        """Raises a fault where the bytes of the line are none of a script's line."""
        if self.has_line_feed and FORM.fullmatch(self.text):
            return
        if self.number == 1 and self.text.startswith(BYTE_ORDER_MARK):
            message = (
                "the file begins with a byte-order mark; it is to be saved as UTF-8 without one"
            )
            self.fail_at(LINE_FORM, 0, len(BYTE_ORDER_MARK), message)
        for at, byte in enumerate(self.text):
            if not 0x20 <= byte <= 0x7E:
                self.fail_at(LINE_FORM, at, at + width_of(self.text, at), self.strange(at))
        if not self.text:
            self.fail_at(LINE_FORM, 0, 0, "the line is empty; a script has no empty lines")
        if self.text.startswith(b" "):
            spaces = len(self.text) - len(self.text.lstrip(b" "))
            self.fail_at(LINE_FORM, 0, spaces, "the line begins with a space")
        if b"  " in self.text.rstrip(b" "):
            first = self.text.index(b"  ")
            is_comment = is_comment_sign(self.text[first:].lstrip(b" "))
            message = "two spaces stand together" + COMMENT * is_comment
            self.fail_at(LINE_FORM, first, first + 2, message)
        if self.text.endswith(b" "):
            last = len(self.text.rstrip(b" "))
            self.fail_at(LINE_FORM, last, len(self.text), "the line ends with a space")
        message = "the last line has no line feed behind it"
        self.fail_at(LINE_FORM, len(self.text), len(self.text), message)

    def strange(self, at: int) -> str:
        """Why a byte can't stand in a script."""
        byte = self.text[at]
        if byte == 0x0D and at == len(self.text) - 1:
            return (
                "the line ends as on Windows, with a carriage return; "
                "a script's lines end with a line feed alone"
            )
        if byte == 0x09:
            return "a tab stands here; one space stands between words"
        if byte < 0x80:
            return f"the byte 0x{byte:02X} stands here; a line holds 0x20 to 0x7E"
        letter = self.text[at : at + width_of(self.text, at)].decode("utf-8", "replace")
        shown = f"the byte 0x{byte:02X}" if letter == "\ufffd" else repr(letter)
        return f"{shown} stands here; a line holds letters of ASCII alone"

    def arguments(self, word: Word, first: int) -> tuple[int, ...]:
        """The numbers behind a word, from a place of the line on."""
        given = len(self.words) - first
        if not word.takes_count(given):
            self.fail_count(word, first, given)
        spelled = b" ".join(self.words[first:])
        if given and NUMBERS.fullmatch(spelled):
            values = tuple(map(int, self.words[first:]))
            if word.misfit(values) is None:
                return values
        for at in range(given):
            self.check_argument(word, first, at)
        return ()  # (there is none, or one of them was told)

    def fail_count(self, word: Word, first: int, given: int) -> NoReturn:
        """Raises the fault of a wrong number of arguments: at the first too many, or at the end."""
        most = given - given % len(word.arguments) if word.counts is None else max(word.counts)
        place = first + most if given > most else len(self.words)
        message = f"{word.name} takes {word.count_text}, and {given} stand here"
        is_comment = place < len(self.words) and is_comment_sign(self.words[place])
        has_commas = any(b"," in it for it in self.words[first:]) and not is_comment
        self.fail(ARGUMENT_COUNT, place, message + COMMENT * is_comment + COMMAS * has_commas)

    def check_argument(self, word: Word, first: int, at: int) -> None:
        """Raises a fault where an argument is no number, or out of its range."""
        argument, text = word.argument(at), self.words[first + at]
        if not NUMBER.fullmatch(text):
            why = value_of_name(argument, text) or why_no_number(text)
            message = f"{self.shown(first + at)} is no number of a script{why}"
        elif len(text) > 19 or not argument.takes(int(text)):
            message = (
                f"{argument.name} is {argument.range}, and {self.shown(first + at)} stands here"
            )
        else:
            return
        self.fail(ARGUMENT, first + at, message)


def width_of(text: bytes, at: int) -> int:
    """How many bytes the letter that begins here has; 1 where none does."""
    for width in (1, 2, 3, 4):
        piece = text[at : at + width]
        try:
            if len(piece) == width and piece.decode("utf-8"):
                return width
        except UnicodeDecodeError:
            continue
    return 1


def is_comment_sign(word: bytes) -> bool:
    """Whether a word begins a comment in other languages."""
    return word.startswith((b"#", b"//", b"/*", b";", b"--", b"%"))


def why_no_number(text: bytes) -> str:
    """A sentence for the likely slips in the spelling of a number."""
    if re.fullmatch(rb"-?0[0-9]+", text):
        return ": no zero stands in front"
    if re.fullmatch(rb"\+[0-9]+", text):
        return ": no + stands in front"
    if text == b"-0":
        return ": zero is spelled 0"
    if re.fullmatch(rb"-?[0-9]*\.[0-9]*(?:[eE]-?[0-9]+)?", text):
        return ": it has no fraction (a pixel is 65536, the farthest depth 16777215)"
    if re.fullmatch(rb"0[xX][0-9a-fA-F]+", text):
        return ": it is decimal"
    if b"," in text:
        return COMMAS
    return ""


def value_of_name(argument: Argument, text: bytes) -> str:
    """The number of a name that stands where a number should, as ``TRIANGLELIST`` or ``true``."""
    written = text.decode("ascii", "replace").upper()
    known = [it for it in names_of(argument) if written == it or written.endswith(f"_{it}")]
    if known:  # (the longest is meant: LESS_EQUAL, and not EQUAL)
        name = max(known, key=len)
        return f": {name} is {names_of(argument)[name]}"
    if (argument.least, argument.most) == (0, 1) and written in ("TRUE", "FALSE"):
        return f": {written.lower()} is {int(written == 'TRUE')}"
    return ""


def likely(word: bytes, known: list[str]) -> str:
    """The known word that was probably meant, as a question."""
    close = difflib.get_close_matches(word.decode("ascii", "replace"), known, n=1)
    return in_lower_case(word, known) or (f"; is {close[0]!r} meant?" if close else "")


def in_lower_case(word: bytes, known: list[str]) -> str:
    """A sentence for a known word that stands in upper case."""
    lower = word.decode("ascii", "replace").lower()
    return f"; words are in lower case: {lower!r}" if lower in known else ""


def parsed_target(line: LineReader) -> tuple[int, int]:
    """Width and height of the first line, or its fault."""
    line.check_form()
    if line.words[0] != TARGET.name.encode():
        is_comment = is_comment_sign(line.words[0])
        message = f"the first line begins with 'target', and not with {line.shown(0)}"
        line.fail(
            FIRST_LINE, 0, message + COMMENT * is_comment + in_lower_case(line.words[0], ["target"])
        )
    width, height = line.arguments(TARGET, 1)
    return width, height


def parsed_line(line: LineReader, finished: Mapping[str, int]) -> Line:
    """A later line, or its fault; ``finished`` counts the ``finish`` lines before it, by actors."""
    line.check_form()
    actor = line.words[0].decode("ascii")
    if actor not in ACTORS:
        fail_actor(line)
    word = WORDS.get(line.words[1].decode("ascii")) if len(line.words) > 1 else None
    if word is None or not word.serves(actor):
        fail_command(line, actor, word)
    if word.name == "exec":
        return parsed_execution(line, word, actor, finished)
    return Line(actor, word.name, line.arguments(word, 2))


def fail_actor(line: LineReader) -> NoReturn:
    """Raises the fault of a line whose first word is no actor."""
    message = f"{line.shown(0)} is no actor: a line begins with i or d0 to d7"
    if line.words[0] == TARGET.name.encode():
        message = "'target' stands in the first line alone"
    elif line.words[0].decode("ascii") in WORDS:
        message = f"an actor stands before {line.shown(0)}: i, or d0 to d7"
    message += in_lower_case(line.words[0], [*ACTORS])
    line.fail(ACTOR, 0, message + COMMENT * is_comment_sign(line.words[0]))


def fail_command(line: LineReader, actor: str, word: Word | None) -> NoReturn:
    """Raises the fault of a line whose second word is missing, or no command of its actor."""
    if len(line.words) == 1:
        line.fail(COMMAND, 1, f"a command stands behind {actor}")
    if word is not None:
        whose = "d0 to d7" if word.deferred else "i"
        line.fail(COMMAND, 1, f"{line.shown(1)} is for {whose}, and not for {actor}")
    known = [it.name for it in WORDS.values() if it.serves(actor)]
    message = f"{line.shown(1)} is no command{likely(line.words[1], known)}"
    line.fail(COMMAND, 1, message + COMMENT * is_comment_sign(line.words[1]))


def parsed_execution(line: LineReader, word: Word, actor: str, finished: Mapping[str, int]) -> Line:
    """An ``exec`` line, or its fault: a context spelled as an actor, a list that is finished."""
    given = len(line.words) - 2
    if not word.takes_count(given):
        line.fail_count(word, 2, given)
    context = line.words[2].decode("ascii")
    if context not in DEFERRED:
        line.fail(ARGUMENT, 2, f"{line.shown(2)} is no deferred context: d0 to d7")
    for at in (1, 2):
        line.check_argument(word, 2, at)
    made = finished.get(context, 0)
    if int(line.words[3]) >= made:
        lists = f"list{'s' if made != 1 else ''} before this line"
        line.fail(
            NO_SUCH_LIST,
            3,
            f"{context} has finished {made or 'no'} {lists}; they are counted from 0",
        )
    return Line(actor, word.name, (DEFERRED.index(context), *map(int, line.words[3:])))
