"""tools/trusted.py: what the headline reaches is what docs/TRUSTED.md lists, and a planted fault is told."""

from __future__ import annotations

import re
import shutil
from pathlib import Path
from typing import Iterator

import pytest
import trusted


@pytest.fixture
def top(tmp_path: Path, monkeypatch: pytest.MonkeyPatch) -> Iterator[Path]:
    """A copy of the page and of the crates that it speaks of."""
    for part in (it for name in ("src", "specs") for it in trusted.CRATES.glob(f"*/{name}")):
        shutil.copytree(part, tmp_path / "crates" / part.relative_to(trusted.CRATES))
    (tmp_path / "docs").mkdir()
    shutil.copy(trusted.PAGE, tmp_path / "docs")
    monkeypatch.setattr(trusted, "TOP", tmp_path)
    monkeypatch.setattr(trusted, "CRATES", tmp_path / "crates")
    monkeypatch.setattr(trusted, "PAGE", tmp_path / "docs" / "TRUSTED.md")
    yield tmp_path


def complaints() -> list[str]:
    trusted.specification.cache_clear()
    trusted.code_imports.cache_clear()
    trusted.code_type.cache_clear()
    trusted.code_constant.cache_clear()
    trusted.contract.cache_clear()
    page = trusted.listed()
    return trusted.complaints(trusted.Reached().files(page), page)


def change(path: Path, old: str, new: str) -> None:
    text = path.read_text(encoding="utf-8")
    assert text.count(old) == 1, old
    path.write_text(text.replace(old, new), encoding="utf-8")


def row(page: Path, name: str) -> str:
    """The page's row of a file."""
    return next(
        it
        for it in page.read_text(encoding="utf-8").splitlines(keepends=True)
        if f"/{name}.antt" in it
    )


def test_the_page_lists_what_is_reached(top: Path) -> None:
    assert complaints() == []


def test_a_file_that_the_page_does_not_list(top: Path) -> None:
    change(top / "docs" / "TRUSTED.md", row(top / "docs" / "TRUSTED.md", "Raster"), "")
    assert complaints() == [
        "crates/gfxspec/specs/Raster.antt is reached, and docs/TRUSTED.md doesn't list it"
    ]


def test_a_file_that_is_not_reached(top: Path) -> None:
    page = top / "docs" / "TRUSTED.md"
    change(
        page,
        row(page, "Raster"),
        row(page, "Raster") + "| [Sides](../crates/snap/specs/Sides.antt) | x | y |\n",
    )
    assert complaints() == [
        "docs/TRUSTED.md lists crates/snap/specs/Sides.antt, which isn't reached"
    ]


def test_a_file_before_one_on_which_it_stands(top: Path) -> None:
    page = top / "docs" / "TRUSTED.md"
    raster, facing = row(page, "Raster"), row(page, "Facing")
    change(page, raster + facing, facing + raster)
    assert complaints() == [
        "docs/TRUSTED.md has crates/gfxspec/specs/Facing.antt "
        "before crates/gfxspec/specs/Raster.antt, on which it stands"
    ]


def test_a_definition_that_begins_to_be_used(top: Path) -> None:
    """A rule of the headline that calls on another file is followed there."""
    path = top / "crates" / "gfxspec" / "specs" / "Raster.antt"
    name = re.search(
        r"^abbrev pub (\w+) :",
        (top / "crates/snap/specs/Sides.antt").read_text(encoding="utf-8"),
        re.M,
    )
    assert name
    change(
        path,
        "use Rattle.std.specs.Ordering",
        f"use Rattle.snap.specs.Sides.{{{name[1]}}}\nuse Rattle.std.specs.Ordering",
    )
    assert complaints() == []  # (imported, and used nowhere)
    change(
        path, "is_empty t = int_eq (area t) (pos 0)", f"is_empty t = int_eq (area t) ({name[1]} t)"
    )
    assert (
        "crates/snap/specs/Sides.antt is reached, and docs/TRUSTED.md doesn't list it"
        in complaints()
    )


@pytest.mark.parametrize(
    ("old", "new", "told"),
    [
        ("abbrev pub is_empty : Triangle → Bool\n", "", None),
        (
            "use Rattle.std.specs.Ordering.{int_eq}",
            "use Rattle.std.specs.Ordering",
            "isn't understood",
        ),
        (
            "use Rattle.std.specs.Ordering.{int_eq}\n",
            "use Rattle.std.specs.Ordering.{int_eq}\n\nx = 1\n",
            "part of no definition",
        ),
        (
            "use Rattle.std.specs.Ordering.{int_eq}",
            "use Rattle.gfxspec.specs.Facing.{int_eq}",
            "has no int_eq",
        ),
        (
            "use Rattle.std.specs.Ordering.{int_eq}",
            "use Rattle.gfxspec.specs.Gone.{int_eq}",
            "isn't there",
        ),
    ],
)
def test_what_can_not_be_followed(top: Path, old: str, new: str, told: str | None) -> None:
    change(top / "crates" / "gfxspec" / "specs" / "Raster.antt", old, new)
    if (
        told is None
    ):  # (the lines of a definition that has lost its head belong to the one before it)
        with pytest.raises(trusted.NotFound, match="has no is_empty"):
            complaints()
    else:
        with pytest.raises(trusted.NotFound, match=told):
            complaints()


def test_a_root_that_is_gone(top: Path) -> None:
    change(
        top / "crates" / "sessions" / "src" / "bytes.rt",
        "pub fn session_alone<",
        "pub fn session_by_itself<",
    )
    with pytest.raises(trusted.NotFound, match="no function session_alone"):
        complaints()
