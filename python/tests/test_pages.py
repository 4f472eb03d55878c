"""The pages: what tools/pages.py looks at is so, and a planted fault is told."""

from __future__ import annotations

from pathlib import Path

import pages
import pytest


@pytest.mark.parametrize("page", pages.pages(), ids=lambda it: str(it.relative_to(pages.TOP)))
def test_links_lead_somewhere(page: Path) -> None:
    lines = page.read_text(encoding="utf-8").split("\n")
    assert [*pages.broken_links(page, lines), *pages.missing_files(page, lines)] == []


def test_the_pages_are_not_too_long() -> None:
    assert pages.word_count() <= pages.MOST_WORDS


@pytest.fixture
def top(tmp_path: Path, monkeypatch: pytest.MonkeyPatch) -> Path:
    """A folder in place of the repository."""
    monkeypatch.setattr(pages, "TOP", tmp_path)
    for folder in ("docs/design", "tools", "crates/snap/specs"):
        (tmp_path / folder).mkdir(parents=True)
    for name in ("tools/there.py", "docs/SCRIPT.md", "crates/snap/specs/Sides.antt"):
        (tmp_path / name).write_text("# One\n\n## Form, and more\n", encoding="utf-8")
    return tmp_path


@pytest.mark.parametrize(
    ("name", "text", "told"),
    [
        ("README.md", "a" * 121, "the line has 121 letters"),
        ("README.md", "| " + "a" * 121 + " |", "a cell has 121 letters"),
        ("README.md", "a\n" * 121, "the page has 121 lines"),
        ("README.md", "see [it](docs/GONE.md)", "docs/GONE.md isn't there"),
        ("README.md", '<img src="docs/gone.png">', "docs/gone.png isn't there"),
        ("README.md", "see [it](docs/SCRIPT.md#gone)", "no heading gone"),
        ("README.md", "run tools/gone.py", "tools/gone.py isn't there"),
        ("docs/X.md", "see GONE.md", "GONE.md isn't there"),
        ("docs/X.md", "`snap/specs/Gone.antt`", "snap/specs/Gone.antt isn't there"),
        ("docs/ARCHITECTURE.md", "| " + "a" * 140 + " |", "may have 140 in this page"),
        ("docs/design/tiles.md", "a\n" * 150, "may have 149"),
    ],
)
def test_a_fault_is_told(top: Path, name: str, text: str, told: str) -> None:
    page = top / name
    page.write_text(f"{text.rstrip()}\n", encoding="utf-8")
    found = [text for _, text in pages.problems(page)]
    assert len(found) == 1 and told in found[0], found


@pytest.mark.parametrize(
    "text",
    [
        "a" * 120,
        "see [it](docs/SCRIPT.md#form-and-more) and [that](https://example.org/gone)",
        "run tools/there.py, or `snap/specs/Sides.antt`; SCRIPT.md has it",
        "crates/NAME/must-fail, web/out/index.html and crates/tiledraw/out/tiledraw are made",
    ],
)
def test_what_is_so_is_not_told(top: Path, text: str) -> None:
    (top / "README.md").write_text(f"{text}\n", encoding="utf-8")
    assert [*pages.problems(top / "README.md")] == []


def test_too_many_words(
    top: Path, monkeypatch: pytest.MonkeyPatch, capsys: pytest.CaptureFixture[str]
) -> None:
    monkeypatch.setattr("sys.argv", ["pages.py"])
    assert pages.main() == 0
    (top / "docs" / "X.md").write_text("word\n" * pages.MOST_WORDS, encoding="utf-8")
    assert pages.main() == 1
    assert "words together" in capsys.readouterr().out


def test_other_readmes_may_be_longer(top: Path) -> None:
    page = top / "docs" / "README.md"
    page.write_text("| " + "a" * 121 + " |\n" + "a\n" * 121, encoding="utf-8")
    assert [*pages.problems(page)] == []
