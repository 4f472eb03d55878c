"""tools/wrong_bodies.py: the page has the edits' tables, each edit can be applied, and a planted fault is told."""

from __future__ import annotations

from pathlib import Path

import pytest
import wrong_bodies

EDIT = "what: a number that is one more\nfile: src/lib.rt\nold: 41\nnew: 42\n"


@pytest.fixture
def edit(tmp_path: Path, monkeypatch: pytest.MonkeyPatch) -> Path:
    """The one edit of a crate, which is the one of its repository."""
    crate = tmp_path / "crates" / "answer"
    (crate / "src").mkdir(parents=True)
    (crate / "must-fail").mkdir()
    (crate / "src" / "lib.rt").write_text(
        "fn a() -> u32 {\n    41\n}\n\nfn b() -> u32 {\n    7 + 7\n}\n", encoding="utf-8"
    )
    (tmp_path / "docs").mkdir()
    page = tmp_path / "docs" / "WRONG_BODIES.md"
    page.write_text(
        f"# Before\n\n{wrong_bodies.BEGIN}\n{wrong_bodies.END}\n\nBehind.\n", encoding="utf-8"
    )
    monkeypatch.setattr(wrong_bodies, "TOP", tmp_path)
    monkeypatch.setattr(wrong_bodies, "CRATES", tmp_path / "crates")
    monkeypatch.setattr(wrong_bodies, "PAGE", page)
    wrong_bodies.texts.cache_clear()
    path = crate / "must-fail" / "one-more.edit"
    path.write_text(EDIT, encoding="utf-8")
    return path


def run(monkeypatch: pytest.MonkeyPatch, *words: str) -> int:
    monkeypatch.setattr("sys.argv", ["wrong_bodies.py", *words])
    return wrong_bodies.main()


def test_the_page_has_the_tables(monkeypatch: pytest.MonkeyPatch) -> None:
    assert run(monkeypatch, "--check") == 0


def test_the_tables_are_written(edit: Path, monkeypatch: pytest.MonkeyPatch) -> None:
    assert run(monkeypatch, "--check") == 1
    assert run(monkeypatch, "--write") == 0
    assert run(monkeypatch, "--check") == 0
    page = wrong_bodies.PAGE.read_text(encoding="utf-8")
    assert page.startswith("# Before\n") and page.endswith("\n\nBehind.\n")
    assert "The gate tries 1 edits, and 0 stand beside it." in page
    assert "| a number that is one more | answer `one-more` |" in page
    edit.unlink()
    assert run(monkeypatch, "--check") == 1


def test_the_edits_of_each_crate_are_counted(
    edit: Path, monkeypatch: pytest.MonkeyPatch, capsys: pytest.CaptureFixture[str]
) -> None:
    assert run(monkeypatch, "--crates") == 0
    assert "| answer | 1 | 0 |" in capsys.readouterr().out


@pytest.mark.parametrize(
    ("text", "told"),
    [
        (EDIT.replace("old: 41", "old: 43"), "doesn't stand in its file just once"),
        (EDIT.replace("old: 41", "old: 7"), "doesn't stand in its file just once"),
        (EDIT.replace("new: 42", "new: 41"), "the new text is the old one"),
        (EDIT.replace("new: 42\n", ""), "it changes nothing"),
        (EDIT.replace("src/lib.rt", "src/gone.rt"), "doesn't stand in its file just once"),
        (EDIT.replace("what:", "why:"), "line 1 is none of"),
    ],
)
def test_an_edit_that_can_not_be_applied(
    edit: Path,
    text: str,
    told: str,
    monkeypatch: pytest.MonkeyPatch,
    capsys: pytest.CaptureFixture[str],
) -> None:
    run(monkeypatch, "--write")
    edit.write_text(text, encoding="utf-8")
    wrong_bodies.texts.cache_clear()
    assert run(monkeypatch) == 1
    error = capsys.readouterr().err
    assert error.startswith("crates/answer/must-fail/one-more.edit: ") and told in error


def test_a_page_without_a_place(edit: Path, monkeypatch: pytest.MonkeyPatch) -> None:
    wrong_bodies.PAGE.write_text("# Before\n", encoding="utf-8")
    with pytest.raises(SystemExit, match="no place for the tables"):
        run(monkeypatch, "--check")
