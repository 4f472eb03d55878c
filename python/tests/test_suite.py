"""`suite`: what is stored, what differs, and how it is told."""

from __future__ import annotations

import errno
import hashlib
import os
import stat
from pathlib import Path
from xml.etree import ElementTree

import pytest
from conftest import GALLERY, STAND_IN, TOP

from yuzuratchet.cli import main
from yuzuratchet.commands.common import check_writable
from yuzuratchet.images import load
from yuzuratchet.suite import Expected, Suite, expected_text, parse_expected


def suite(folder: Path, program: Path, *words: str) -> int:
    return main(["suite", str(folder), "--program", str(program), *words])


def test_what_is_stored(folder: Path) -> None:
    stored = Suite.of_folder(folder).stored()
    assert list(stored) == ["asked.txt", "below/plain.txt", "refused.txt"]
    assert stored["asked.txt"].answers == "pixel 1 1 1 2 3 4 16777215 0\n"
    assert stored["refused.txt"].answers == "refused 2 7\n"
    # SHA-256 of nothing, and of the header with six pixels of 0
    assert stored["refused.txt"].digest.startswith("e3b0c44298fc1c14")
    assert load(folder / "asked.png").tolist() == [[[1, 2, 3, 4]] * 2] * 2
    assert not (folder / "refused.png").exists()


def test_agreement(folder: Path, program: Path, capsys: pytest.CaptureFixture[str]) -> None:
    assert suite(folder, program) == 0
    assert capsys.readouterr().out == "3 of 3 scripts agree\n"


def change(folder: Path, name: str, old: str, new: str) -> None:
    path = folder / name
    path.write_text(path.read_text(encoding="ascii").replace(old, new), encoding="ascii")


def test_an_image_that_differs(
    folder: Path, program: Path, capsys: pytest.CaptureFixture[str]
) -> None:
    change(
        folder,
        "below/plain.txt",
        "target 3 2\n",
        "target 3 2\ni raster 1 0 0\ni vb 65536 0 0 9 9 9 9 131072 0 0 9 9 9 9 65536 131072 0 9 9 9 9\n"
        "i topology 4\ni draw 3 0\n",
    )
    junit, page = folder / "junit.xml", folder / "page.html"
    assert suite(folder, program, "--junit", str(junit), "--page", str(page)) == 1
    out = capsys.readouterr().out
    assert (
        "below/plain.txt: the image differs\n    1 of 6 pixels differ, in columns 1 to 1 and rows 0 to 0, "
        "at most by 9 in red, 9 in green, 9 in blue, 9 in alpha\n" in out
    )
    assert out.endswith("2 of 3 scripts agree\n")
    root = ElementTree.parse(junit).getroot()
    assert (root.get("tests"), root.get("failures"), root.get("errors")) == ("3", "1", "0")
    failed = [
        case.get("name") for case in root.iter("testcase") if case.find("failure") is not None
    ]
    assert failed == ["below/plain.txt"]
    text = page.read_text(encoding="utf-8")
    assert (
        text.count("<img ") == 3
        and "what differs, 3 by 2 pixels" in text
        and "2 of 3 scripts agree" in text
    )
    assert "asked.txt" not in text


def test_answers_that_differ(
    folder: Path, program: Path, capsys: pytest.CaptureFixture[str]
) -> None:
    change(folder, "asked.txt", "pixel 1 1", "pixel 0 1")
    change(folder, "refused.txt", "i draw 3 0", "i flush")
    assert suite(folder, program) == 1
    out = capsys.readouterr().out
    assert "asked.txt: the answers differ\n" in out
    assert "-pixel 1 1 1 2 3 4 16777215 0" in out and "+pixel 0 1 1 2 3 4 16777215 0" in out
    assert "refused.txt: the answers and the image differ\n" in out
    assert "the image that was expected isn't stored; its digest is another" in out


def test_an_image_that_is_not_drawn(
    folder: Path, program: Path, capsys: pytest.CaptureFixture[str]
) -> None:
    change(folder, "asked.txt", "pixel 1 1", "pixel 2 1")
    assert suite(folder, program, "--page", str(folder / "page.html")) == 1
    assert "no image was drawn" in capsys.readouterr().out


def test_new_and_missing_scripts(
    folder: Path, program: Path, capsys: pytest.CaptureFixture[str]
) -> None:
    (folder / "asked.txt").rename(folder / "other.txt")
    assert suite(folder, program, "--page", str(folder / "page.html")) == 1
    out = capsys.readouterr().out
    assert (
        "other.txt: nothing is stored\n" in out
        and "asked.txt: is stored, and there is no such script\n" in out
    )
    assert "--write" in out and out.endswith("2 of 4 scripts agree\n")


def failing(path: Path) -> Path:
    path.write_text("#!/bin/sh\necho out of luck >&2\nexit 3\n", encoding="ascii")
    path.chmod(path.stat().st_mode | stat.S_IXUSR)
    return path


def test_a_program_that_fails(
    folder: Path, tmp_path: Path, capsys: pytest.CaptureFixture[str]
) -> None:
    broken, junit = failing(tmp_path / "broken"), tmp_path / "junit.xml"
    before = (folder / "expected").read_bytes()
    assert suite(folder, broken, "--junit", str(junit)) == 1
    assert "asked.txt: the program failed\n" in capsys.readouterr().out
    root = ElementTree.parse(junit).getroot()
    assert (root.get("failures"), root.get("errors")) == ("0", "3")
    assert suite(folder, broken, "--write") == 1
    assert "nothing is stored" in capsys.readouterr().out
    assert (folder / "expected").read_bytes() == before


def test_folders_that_are_no_suite(
    tmp_path: Path, program: Path, capsys: pytest.CaptureFixture[str]
) -> None:
    assert suite(tmp_path / "none", program) == 2
    assert suite(tmp_path, program) == 2
    (tmp_path / "a.txt").write_text("target 1 1\n")
    (tmp_path / "expected").write_text("a.txt\nnonsense\n")
    assert suite(tmp_path, program) == 2
    err = capsys.readouterr().err
    assert (
        "is no folder" in err
        and "has no scripts" in err
        and "expected:2: 'nonsense' has no place" in err
    )


def test_what_a_tool_of_its_own_writes_is_not_written_here(
    tmp_path: Path, program: Path, capsys: pytest.CaptureFixture[str]
) -> None:
    (tmp_path / "data").mkdir()
    (tmp_path / "data" / "a.txt").write_text("target 1 1\n")
    (tmp_path / "stdout").write_text("")
    assert suite(tmp_path, program, "--write") == 2
    assert "isn't written here" in capsys.readouterr().err
    assert (tmp_path / "stdout").read_text() == ""


def test_sizes_that_differ(folder: Path, program: Path, capsys: pytest.CaptureFixture[str]) -> None:
    change(folder, "below/plain.txt", "target 3 2", "target 2 3")
    page = folder / "page.html"
    assert suite(folder, program, "--page", str(page)) == 1
    assert "the sizes differ: 3 by 2 and 2 by 3 pixels" in capsys.readouterr().out
    assert "the sizes differ" in page.read_text(encoding="utf-8")


def test_a_fault_is_no_truth(
    folder: Path, program: Path, capsys: pytest.CaptureFixture[str]
) -> None:
    """What was stored of the script stays, unless faults are allowed."""
    before = Suite.of_folder(folder).stored()
    change(folder, "asked.txt", "clearc", "clerac")
    (folder / "new.txt").write_text("nonsense\n")
    assert suite(folder, program, "--write") == 1
    out = capsys.readouterr().out
    assert "asked.txt:2: fault 104, a later line has no second word" in out
    assert "new.txt:1: fault 102, " in out and "page does not have" not in out
    assert out.count(", not stored\n") == 2 and "2 scripts drawn, and stored in" in out
    assert "mend it, or store it as it is by --allow-faults" in out
    assert Suite.of_folder(folder).stored() == before and (folder / "asked.png").is_file()
    assert suite(folder, program) == 1
    capsys.readouterr()
    assert suite(folder, program, "--write", "--allow-faults") == 0
    out = capsys.readouterr().out
    assert f"removed: {folder / 'asked.png'}\n" in out and "not stored" not in out
    stored = Suite.of_folder(folder).stored()
    assert stored["asked.txt"].answers == "refused 2 104\n" and "new.txt" in stored
    assert suite(folder, program) == 0


def test_refused_scripts_are_listed(
    folder: Path, program: Path, capsys: pytest.CaptureFixture[str]
) -> None:
    assert suite(folder, program, "--write") == 0
    out = capsys.readouterr().out
    assert "refused.txt:2: refused with 7, `draw` or `drawi` while no topology is set\n" in out
    assert "asked.txt" not in out


def test_a_part_is_stored(folder: Path, program: Path, capsys: pytest.CaptureFixture[str]) -> None:
    change(folder, "asked.txt", "clearc 1", "clearc 9")
    change(folder, "below/plain.txt", "3 2", "2 2")
    before = Suite.of_folder(folder).stored()
    assert suite(folder, program, "--write", "--only", "below/*") == 0
    assert "1 script drawn, and stored in" in capsys.readouterr().out
    after = Suite.of_folder(folder).stored()
    assert list(after) == list(before)
    assert {name for name in after if after[name] != before[name]} == {"below/plain.txt"}
    assert suite(folder, program, "--only", "below/*") == 0
    assert capsys.readouterr().out == "1 of 1 scripts agree\n"
    assert suite(folder, program) == 1


def test_pictures_of_scripts_that_are_gone(
    folder: Path, program: Path, capsys: pytest.CaptureFixture[str]
) -> None:
    (folder / "of-somebody.png").write_bytes(b"theirs")
    (folder / "below" / "plain.txt").unlink()
    (folder / "asked.txt").rename(folder / "other.txt")
    assert suite(folder, program, "--write", "--only", "other*") == 0
    assert (folder / "below" / "plain.png").is_file() and (folder / "asked.png").is_file()
    assert suite(folder, program, "--write") == 0
    out = capsys.readouterr().out
    removed = (folder / "below" / "plain.png", folder / "asked.png")
    assert all(f"removed: {path}\n" in out and not path.exists() for path in removed)
    assert (folder / "other.png").is_file() and (folder / "of-somebody.png").is_file()
    assert list(Suite.of_folder(folder).stored()) == ["other.txt", "refused.txt"]


@pytest.mark.parametrize("word", ["--junit", "--page"])
def test_what_can_not_be_written_is_told_first(
    word: str, folder: Path, capsys: pytest.CaptureFixture[str]
) -> None:
    broken = failing(folder / "broken")
    assert suite(folder, broken, word, str(folder / "no" / "such" / "file")) == 2
    told = capsys.readouterr()
    assert told.out == "" and "No such file or directory" in told.err
    kept = folder / "kept"
    kept.write_text("it was there")
    check_writable(kept)
    check_writable(folder / "new")
    assert kept.read_text() == "it was there" and not (folder / "new").exists()


def test_the_verdict_is_told_whatever_happens_to_the_files(
    folder: Path, program: Path, capsys: pytest.CaptureFixture[str], monkeypatch: pytest.MonkeyPatch
) -> None:
    monkeypatch.setattr("yuzuratchet.report.write_junit", full)
    words = ["--junit", str(folder / "x.xml"), "--page", str(folder / "x.html")]
    assert suite(folder, program, *words) == 2
    told = capsys.readouterr()
    assert told.out == f"written: {folder / 'x.html'}\n3 of 3 scripts agree\n"
    assert told.err == f"yuzuratchet: {folder / 'x.xml'}: No space left on device\n"


def full(*_: object) -> None:
    raise OSError(errno.ENOSPC, os.strerror(errno.ENOSPC))


def test_junit_with_write_is_refused_in_words(
    folder: Path, program: Path, capsys: pytest.CaptureFixture[str]
) -> None:
    assert suite(folder, program, "--write", "--junit", "x.xml") == 2
    why = "--junit is for comparing, and --write stores and compares nothing: leave one of them out"
    assert why in capsys.readouterr().err


def test_planes_are_stored_and_compared(
    folder: Path, program: Path, capsys: pytest.CaptureFixture[str]
) -> None:
    assert suite(folder, program, "--write", "--planes") == 0
    stored = Suite.of_folder(folder).stored()
    assert not stored["refused.txt"].has_planes  # (it draws nothing)
    # four depths of 16,777,215, and four stencil values of 0
    depth, stencil = bytes([255, 255, 255, 0]) * 4, bytes(4)
    digests = tuple(hashlib.sha256(it).hexdigest() for it in (depth, stencil))
    assert (stored["asked.txt"].depth, stored["asked.txt"].stencil) == digests
    assert suite(folder, program) == 0
    change(folder, "asked.txt", "i pixel 1 1\n", "i pixel 1 1\ni cleards 16777215 3\n")
    change(folder, "below/plain.txt", "target 3 2\n", "target 3 2\ni cleards 7 1\n")
    capsys.readouterr()
    assert suite(folder, program, "--page", str(folder / "x.html")) == 1
    out = capsys.readouterr().out
    assert "asked.txt: the stencil differs\n    stencil: its digest is another\n" in out
    assert "below/plain.txt: the depth and the stencil differ\n" in out


def test_images_that_differ_a_little(folder: Path, program: Path) -> None:
    change(folder, "asked.txt", "clearc 1 2 3 4\ni pixel 1 1\n", "clearc 1 2 5 4\n")
    (folder / "expected").write_text(
        (folder / "expected").read_text().replace("pixel 1 1 1 2 3 4 16777215 0\n", "")
    )
    assert suite(folder, program, "--tolerance", "1") == 1
    assert suite(folder, program, "--tolerance", "2") == 0


def test_expected_there_and_back() -> None:
    text = (GALLERY / "stdout").read_text(encoding="ascii")
    assert expected_text(parse_expected(text, "stdout")) == text
    assert parse_expected("a\nquery 0 1\nimage 12\n", "x") == {"a": Expected("query 0 1\n", "12")}
    planes = "a\nquery 0 1\ndepth 12\nstencil 34\nimage 56\n"
    found = parse_expected(planes, "x")
    assert (
        found == {"a": Expected("query 0 1\n", "56", "12", "34")} and expected_text(found) == planes
    )


def test_the_gallery_is_a_suite(fast_program: Path, capsys: pytest.CaptureFixture[str]) -> None:
    assert suite(GALLERY, fast_program) == 0
    names = Suite.of_folder(GALLERY).names()
    assert capsys.readouterr().out == f"{len(names)} of {len(names)} scripts agree\n"


def test_the_examples_are_a_suite(program: Path, capsys: pytest.CaptureFixture[str]) -> None:
    examples = TOP / "python" / "examples"
    assert suite(examples, program) == 0
    stored = Suite.of_folder(examples)
    assert all(stored.picture(name) for name in stored.names())


def test_the_stand_in_is_no_part_of_what_is_installed() -> None:
    assert STAND_IN.is_file()
