"""Scripts of the gallery with one thing changed: a byte, a word, a line.

Where the change can be only one fault, `mutated` tells it: the line, the fault's number, and the first byte of the
line that is to blame.
"""

from __future__ import annotations

from collections.abc import Callable
from random import Random
from typing import Optional

import package_path

Lines = list[bytes]
# the line, the fault's number, and the first byte of the line that is to blame
Fault = tuple[int, int, int]
Changed = tuple[bytes, Optional[Fault]]
Change = Callable[[Random, Lines, int], Optional[Changed]]

DATA = package_path.TOP / "crates" / "gallery" / "data"

# scripts and targets above these take long to draw
LONGEST = 9_000
WIDEST = 100

NO_NUMBERS = b"01 +1 -0 1.5 0x10 1e3 --1 x - 1_0 00".split()
NUMBERS = [
    *b"0 1 2 3 4 7 8 9 15 16 63 64 -1 255 256 4096 4097 65535 65536 16777215 16777216".split(),
    *b"268435456 268435457 -268435457 2147483647 2147483648 -2147483648 -2147483649".split(),
    *(b"4294967295", b"4294967296", b"9" * 19, b"9" * 20, b"1" * 5000),
]
WORDS = [
    *b"i d0 d3 d7 d8 vb ib topology raster scissor ds blend predicate draw drawi clearc cleards".split(),
    *b"begin end finish exec flush query pixel target Draw drawx #".split(),
]


def sources() -> list[bytes]:
    """The scripts that are changed."""
    found = []
    for name in (DATA / "index").read_text(encoding="ascii").split():
        text = (DATA / name).read_bytes()
        sides = map(int, text.split(b"\n")[0].split(b" ")[1:])
        if len(text) <= LONGEST and max(sides) <= WIDEST:
            found.append(text)
    return found


def joined(lines: Lines) -> bytes:
    return b"".join(line + b"\n" for line in lines)


def start_of(words: Lines, at: int) -> int:
    return sum(len(word) + 1 for word in words[:at])


def strange_byte(chance: Random, lines: Lines, at: int) -> Changed:
    """A byte that no script has."""
    byte = chance.choice([b"\t", b"\r", b"\0", b"\x7f", b"\x80", b"\xc3\xa4", b"\xff", b"\x1b"])
    place = chance.randrange(len(lines[at]) + 1)
    lines[at] = lines[at][:place] + byte + lines[at][place:]
    return joined(lines), (at + 1, 101, place)


def windows_end(_: Random, lines: Lines, at: int) -> Changed:
    lines[at] += b"\r"
    return joined(lines), (at + 1, 101, len(lines[at]) - 1)


def empty_line(_: Random, lines: Lines, at: int) -> Changed:
    lines.insert(at, b"")
    return joined(lines), (at + 1, 101, 0)


def comment(chance: Random, lines: Lines, at: int) -> Changed:
    lines.insert(at, chance.choice([b"# a comment", b"// a comment", b"; a comment"]))
    return joined(lines), (at + 1, 103 if at else 102, 0)


def no_line_feed(_: Random, lines: Lines, __: int) -> Changed:
    return joined(lines)[:-1], (len(lines), 101, len(lines[-1]))


def space(chance: Random, lines: Lines, at: int) -> Changed:
    """A space in front, at the end, or beside another."""
    places = [0, len(lines[at]), *(n for n, byte in enumerate(lines[at]) if byte == 0x20)]
    place = chance.choice(places)
    lines[at] = lines[at][:place] + b" " + lines[at][place:]
    return joined(lines), (at + 1, 101, place)


def no_number(chance: Random, lines: Lines, at: int) -> Changed | None:
    """An argument that is no number."""
    words = lines[at].split(b" ")
    first = 2 if at else 1
    if len(words) == first:
        return None
    place = chance.randrange(first, len(words))
    words[place] = chance.choice(NO_NUMBERS)
    lines[at] = b" ".join(words)
    return joined(lines), (at + 1, 106, start_of(words, place))


def number(chance: Random, lines: Lines, at: int) -> Changed:
    """Another number in the place of a word."""
    words = lines[at].split(b" ")
    words[chance.randrange(len(words))] = chance.choice(NUMBERS)
    lines[at] = b" ".join(words)
    return joined(lines), None


def word(chance: Random, lines: Lines, at: int) -> Changed:
    """Another word in the place of the actor or the command."""
    words = lines[at].split(b" ")
    words[chance.randrange(min(2, len(words)))] = chance.choice(WORDS)
    lines[at] = b" ".join(words)
    return joined(lines), None


def more_or_less(chance: Random, lines: Lines, at: int) -> Changed:
    """A word twice, or not at all."""
    words = lines[at].split(b" ")
    place = chance.randrange(len(words))
    words[place : place + 1] = [words[place]] * chance.choice([0, 2])
    lines[at] = b" ".join(words)
    return joined(lines), None


def lines_moved(chance: Random, lines: Lines, at: int) -> Changed:
    """A line twice, not at all, or in another place."""
    line = lines.pop(at)
    for _ in range(chance.randrange(3)):
        lines.insert(chance.randrange(len(lines) + 1), line)
    return joined(lines), None


def cut(chance: Random, lines: Lines, _: int) -> Changed:
    """The first bytes of a script."""
    text = joined(lines)
    return text[: chance.randrange(len(text))], None


def any_byte(chance: Random, lines: Lines, _: int) -> Changed:
    """A byte changed, put in, or taken out."""
    text = joined(lines)
    place = chance.randrange(len(text))
    put = bytes([chance.choice([chance.randrange(256), chance.choice(b" 0123456789-id\n")])] * chance.randrange(2))
    return text[:place] + put + text[place + chance.randrange(2) :], None


CHANGES: tuple[Change, ...] = (
    *(strange_byte, windows_end, empty_line, comment, no_line_feed, space, no_number),
    *(number, number, number, word, more_or_less, lines_moved, cut, any_byte),
)


def mutated(chance: Random, texts: list[bytes]) -> Changed:
    """A changed script, and the one fault that it must have, or None where that isn't known."""
    while True:
        lines = chance.choice(texts).split(b"\n")[:-1]
        found = chance.choice(CHANGES)(chance, lines, chance.randrange(len(lines)))
        if found:
            return found
