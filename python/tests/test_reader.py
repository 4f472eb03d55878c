"""Reading and writing gives the same bytes; a text that is no script has the fault that the page says."""

from __future__ import annotations

from operator import attrgetter
from pathlib import Path

import pytest
from conftest import DATA, TOP, gallery_names

from yuzuratchet import ScriptFault, load_script, read_script
from yuzuratchet.errors import CallRefused
from yuzuratchet.reader import parse
from yuzuratchet.session import Session
from yuzuratchet.suite import Expected

EXAMPLES = sorted((TOP / "python" / "examples").glob("*.txt"))


@pytest.mark.parametrize("name", gallery_names())
def test_the_gallery_is_written_back_byte_for_byte(name: str) -> None:
    assert load_script(DATA / name).script().encode("ascii") == (DATA / name).read_bytes()


@pytest.mark.parametrize("path", EXAMPLES, ids=attrgetter("name"))
def test_the_examples_are_written_back_byte_for_byte(path: Path) -> None:
    assert load_script(path).script().encode("ascii") == path.read_bytes()


@pytest.mark.parametrize("name", gallery_names())
def test_refusals_are_those_of_the_gallery(name: str, expected: dict[str, Expected]) -> None:
    """The rules of the package refuse the line that is stored, by the same number, and no other."""
    last = expected[name].answers.splitlines()[-1:] or [""]
    wanted = tuple(map(int, last[0].split()[1:])) if last[0].startswith("refused") else None
    width, height, lines = parse((DATA / name).read_bytes())
    found = None
    try:
        Session(width, height).take_all(lines)
    except CallRefused as refusal:
        found = (refusal.line or 1, refusal.number)
    assert found == wanted


FAULTS = [
    (b"", 1, 102, 0, 0),
    (b"\n", 1, 101, 0, 0),
    (b"target 1 1", 1, 101, 10, 10),
    (b"target 1 1\r\n", 1, 101, 10, 11),
    (b" target 1 1\n", 1, 101, 0, 1),
    (b"target 1 1 \n", 1, 101, 10, 11),
    (b"target  1 1\n", 1, 101, 6, 8),
    (b"target\t1 1\n", 1, 101, 6, 7),
    ("target 1 é\n".encode(), 1, 101, 9, 11),
    (b"target 1 \xff\n", 1, 101, 9, 10),
    (b"# comment\ntarget 1 1\n", 1, 102, 0, 1),
    (b"Target 1 1\n", 1, 102, 0, 6),
    (b"target 1\n", 1, 105, 8, 8),
    (b"target 1 1 1\n", 1, 105, 11, 12),
    (b"target 01 1\n", 1, 106, 7, 9),
    (b"target 1 4294967296\n", 1, 106, 9, 19),
    (b"target 1 1\n\ni flush\n", 2, 101, 0, 0),
    (b"target 1 1\n# x\n", 2, 103, 0, 1),
    (b"target 1 1\ntarget 1 1\n", 2, 103, 0, 6),
    (b"target 1 1\ndraw 3 0\n", 2, 103, 0, 4),
    (b"target 1 1\nd8 finish 0\n", 2, 103, 0, 2),
    (b"target 1 1\ni\n", 2, 104, 1, 1),
    (b"target 1 1\ni finish 0\n", 2, 104, 2, 8),
    (b"target 1 1\nd0 pixel 0 0\n", 2, 104, 3, 8),
    (b"target 1 1\ni drwa 3 0\n", 2, 104, 2, 6),
    (b"target 1 1\ni draw 3\n", 2, 105, 8, 8),
    (b"target 1 1\ni draw 3 0 1\n", 2, 105, 11, 12),
    (b"target 1 1\ni draw x\n", 2, 105, 8, 8),
    (b"target 1 1\ni flush 1\n", 2, 105, 8, 9),
    (b"target 1 1\ni vb 1 2 3 4 5 6\n", 2, 105, 5, 6),
    (b"target 1 1\ni vb 0 0 0 1 2 3 4 5\n", 2, 105, 19, 20),
    (b"target 1 1\ni raster 3 0 0 1 1\n", 2, 105, 17, 18),
    (b"target 1 1\ni raster 3 0\n", 2, 105, 12, 12),
    (b"target 1 1\ni raster 3 0 0 0\n", 2, 106, 15, 16),
    (b"target 1 1\ni raster 3 0 0 -0\n", 2, 106, 15, 17),
    (b"target 1 1\ni raster 3 0 0 2147483648\n", 2, 106, 15, 25),
    (b"target 1 1\ni raster 3 0 0 -2147483649\n", 2, 106, 15, 26),
    (b"target 1 1\ni predicate 1\n", 2, 105, 13, 13),
    (b"target 1 1\ni predicate 1 2\n", 2, 106, 14, 15),
    (b"target 1 1\ni draw -1 0\n", 2, 106, 7, 9),
    (b"target 1 1\ni draw +1 0\n", 2, 106, 7, 9),
    (b"target 1 1\ni drawi 0 0 -0\n", 2, 106, 12, 14),
    (b"target 1 1\ni drawi 0 0 -2147483649\n", 2, 106, 12, 23),
    (b"target 1 1\ni ib 0 1 65536 70000\n", 2, 106, 9, 14),
    (b"target 1 1\ni ib 0 " + b"9" * 5000 + b"\n", 2, 106, 7, 5007),
    (b"target 1 1\ni topology 6\n", 2, 106, 11, 12),
    (b"target 1 1\ni exec d9 0 1\n", 2, 106, 7, 9),
    (b"target 1 1\ni exec i 0 1\n", 2, 106, 7, 8),
    (b"target 1 1\ni exec d0 x 1\n", 2, 106, 10, 11),
    (b"target 1 1\ni exec d0 0 2\n", 2, 106, 12, 13),
    (b"target 1 1\ni exec d0 0\n", 2, 105, 11, 11),
    (b"target 1 1\ni exec d0 0 1\n", 2, 107, 10, 11),
    (b"target 1 1\nd0 finish 0\ni exec d0 1 1\n", 3, 107, 10, 11),
    (b"target 1 1\nd1 finish 0\ni exec d0 0 1\nd0 finish 0\n", 3, 107, 10, 11),
    (b"target 1 1\ni flush\ni flush", 3, 101, 7, 7),
]


@pytest.mark.parametrize(("text", "line", "number", "start", "end"), FAULTS)
def test_faults(text: bytes, line: int, number: int, start: int, end: int) -> None:
    with pytest.raises(ScriptFault) as raised:
        read_script(text)
    fault = raised.value
    assert (fault.line, fault.number, fault.start, fault.end) == (line, number, start, end)


@pytest.mark.parametrize(
    "text",
    [
        b"target 0 4294967295\n",
        b"target 1 1\ni vb\ni ib\ni predicate\n",
        b"target 1 1\ni drawi 4294967295 4294967295 -2147483648\n",
        b"target 1 1\nd0 finish 0\nd0 finish 1\ni exec d0 1 0\n",
    ],
)
def test_scripts_without_a_fault(text: bytes) -> None:
    assert read_script(text).script().encode("ascii") == text


def test_text_may_be_a_string() -> None:
    assert read_script("target 3 4\n").height == 4


def test_strict_reading_raises_at_what_is_refused() -> None:
    text = "target 1 1\ni draw 3 0\n"
    assert len(read_script(text).lines) == 1
    with pytest.raises(CallRefused):
        read_script(text, strict=True)
    read_script("target 1 1\ni flush\n", strict=True).immediate.flush()
