"""`check`: line and number are the program's, the word is the right one, and likely slips have a sentence each."""

from __future__ import annotations

import random
import re
from pathlib import Path

import compare_checked
import mutated_scripts
import pytest
from conftest import DATA, STAND_IN, gallery_names

from yuzuratchet.check import check_script, located, report
from yuzuratchet.suite import Expected

SMALL = [name for name in gallery_names() if not name.startswith(("scene-", "large", "width-"))]


@pytest.mark.parametrize("name", gallery_names())
def test_the_gallery(name: str, expected: dict[str, Expected]) -> None:
    """Each script that is stored as refused has a word for its line and number."""
    answers = expected[name].answers.splitlines()
    if answers and answers[-1].startswith("refused"):
        line, number = map(int, answers[-1].split()[1:])
        assert located((DATA / name).read_bytes(), line, number).is_located


@pytest.mark.parametrize("name", [name for name in SMALL if name.startswith("refused/")])
def test_refused_scripts(name: str, program: Path, expected: dict[str, Expected]) -> None:
    text = (DATA / name).read_bytes()
    line, number = map(int, expected[name].answers.splitlines()[-1].split()[1:])
    finding = check_script(text, program=program)
    assert finding is not None and finding.is_located and finding.kind == "refusal"
    assert (finding.line, finding.number) == (line, number)


def test_the_whole_gallery_with_the_program(
    fast_program: Path, expected: dict[str, Expected]
) -> None:
    for name in gallery_names():
        finding = check_script((DATA / name).read_bytes(), program=fast_program)
        told = "" if finding is None else f"refused {finding.line} {finding.number}\n"
        assert expected[name].answers.endswith(told) and (finding is None or finding.is_located)
        assert bool(told) == ("refused" in expected[name].answers)


def test_changed_scripts(program: Path) -> None:
    """A sample; tools/compare_checked.py looks at as many as one likes."""
    texts = mutated_scripts.sources()
    for seed in range(60 if program == STAND_IN else 800):
        text, wrong, _ = compare_checked.compare_one(seed, texts, program)
        assert wrong is None, (wrong, text)


def test_each_change_can_be_made() -> None:
    texts = mutated_scripts.sources()
    for change in mutated_scripts.CHANGES:
        for seed in range(20):
            chance = random.Random(seed)
            lines = chance.choice(texts).split(b"\n")[:-1]
            found = change(chance, lines, chance.randrange(len(lines)))
            assert found is None or isinstance(found[0], bytes)


SLIPS = [
    (b"target 4 4\ni flush", "x:2:8: fault 101: the last line has no line feed behind it"),
    (b"target 4 4\r\ni flush\r\n", "x:1:11: fault 101: the line ends as on Windows"),
    (
        b"target 4 4\n\ni flush\n",
        "x:2:1: fault 101: the line is empty; a script has no empty lines",
    ),
    (
        b"target 4 4\n# flush\n",
        "x:2:1: fault 103: '#' is no actor: a line begins with i or d0 to d7; a script has no comments",
    ),
    (
        b"// scene\ntarget 4 4\n",
        "x:1:1: fault 102: the first line begins with 'target', and not with '//'; a script has no comments",
    ),
    (
        b"target 4 4\ni flush # now\n",
        "x:2:9: fault 105: flush takes no arguments, and 2 stand here; a script has no comments",
    ),
    (
        b"target 4 4\ni\tflush\n",
        "x:2:2: fault 101: a tab stands here; one space stands between words",
    ),
    (
        b"target 4 4\ni draw 1.5 0\n",
        "x:2:8: fault 106: '1.5' is no number of a script: it has no fraction",
    ),
    (b"target 4 4\ni drow 3 0\n", "x:2:3: fault 104: 'drow' is no command; is 'draw' meant?"),
    (b"target 4 4\ndraw 3 0\n", "x:2:1: fault 103: an actor stands before 'draw': i, or d0 to d7"),
    (
        "target 4 4\ni draẃ 3 0\n".encode(),
        "x:2:6: fault 101: 'ẃ' stands here; a line holds letters of ASCII alone",
    ),
]


@pytest.mark.parametrize(("text", "head"), SLIPS)
def test_likely_slips(text: bytes, head: str, program: Path) -> None:
    finding = check_script(text, program=program)
    assert finding is not None
    assert report(finding, "x", text).startswith(head)


def test_a_message(program: Path) -> None:
    text = b"target 4 4\ni topology 4\ni draw 3 0\n"
    finding = check_script(text, program=program)
    assert finding is not None
    assert report(finding, "scene.txt", text) == (
        "scene.txt:3:8: refusal 5: count: 3 from place 0 on pass the end of the 0 vertices that are set\n"
        "    i draw 3 0\n"
        "           ^\n"
        "  5: `draw`: start and count together pass the end of the vertices; `drawi`: that of the indices\n"
        "  what to do (docs/SCRIPT.md): count the vertices or indices that are set; buffers of another\n"
        "    context do not count, and those of the list before only behind `finish 1`"
    )


def test_long_lines_are_cut(program: Path) -> None:
    text = b"target 4 4\ni ib " + b"7 " * 3000 + b"x" + b" 7" * 3000 + b"\n"
    finding = check_script(text, program=program)
    assert finding is not None
    lines = report(finding, "x", text).splitlines()
    assert max(map(len, lines[1:])) <= 100
    assert lines[1][lines[2].index("^")] == "x" and lines[1].count("...") == 2


def test_behind_the_last_line(program: Path) -> None:
    text = b"target 4 4\ni begin 7\n"
    finding = check_script(text, program=program)
    assert finding is not None
    assert report(finding, "x", text).startswith(
        "x:3:1: refusal 9: the end: query 7 is open since line 2\n  9: "
    )


def test_what_the_tables_do_not_tell_shows_the_whole_line() -> None:
    """Where memory was refused, no word is to blame; nor where the program knows better."""
    text = b"target 4 4\ni flush\n"
    memory = located(text, 0, 1)
    assert not memory.is_located
    assert report(memory, "x", text).startswith("x:0:1: refusal 1: memory was refused")
    other = located(text, 2, 13)
    assert (other.start, other.end, other.is_located) == (0, 7, False)
    assert re.match(r"x:2:1: refusal 13: .*\n    i flush\n    \^{7}\n", report(other, "x", text))


def test_a_sound_script(program: Path) -> None:
    assert check_script(b"target 1 1\n", program=program) is None
