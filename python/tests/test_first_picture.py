"""The first picture: what draws it, what is kept, and what is told."""

from __future__ import annotations

from pathlib import Path
from typing import Sequence

import checked_build
import first_picture
import pytest
import toolchain
from conftest import TOP
from test_running import shell_script

from yuzuratchet.errors import ProgramMissing
from yuzuratchet.images import load

SCRIPT = "target 2 1\ni clearc 1 2 3 255\ni pixel 1 0\n"


@pytest.fixture
def no_program(monkeypatch: pytest.MonkeyPatch) -> None:
    def missing() -> Path:
        raise ProgramMissing("none")

    monkeypatch.setattr(first_picture, "find_program", missing)


@pytest.fixture
def checked(monkeypatch: pytest.MonkeyPatch, tmp_path: Path) -> Path:
    """Where the checked program would be, with sources whose sum is known."""
    program = tmp_path / "tiledraw-checked"
    monkeypatch.setattr(checked_build, "PROGRAM", program)
    monkeypatch.setattr(checked_build, "SUM", program.with_suffix(".sum"))
    monkeypatch.setattr(checked_build, "sources_sum", lambda: "a sum")
    monkeypatch.setattr(toolchain, "is_there", lambda: True)
    return program


def draw(monkeypatch: pytest.MonkeyPatch, folder: Path) -> int:
    (folder / "scene.txt").write_text(SCRIPT)
    words = ["first_picture.py", str(folder / "scene.txt"), str(folder / "scene.png")]
    monkeypatch.setattr("sys.argv", words)
    return first_picture.main()


def test_without_the_toolchain_the_plain_evaluation_draws(
    monkeypatch: pytest.MonkeyPatch,
    tmp_path: Path,
    capfd: pytest.CaptureFixture[str],
    no_program: None,
) -> None:
    monkeypatch.setattr(toolchain, "is_there", lambda: False)
    assert draw(monkeypatch, tmp_path) == 0
    assert load(tmp_path / "scene.png").tolist() == [[[1, 2, 3, 255]] * 2]
    said = capfd.readouterr().out
    assert "plain_device.py draws" in said and "pixel 1 0 1 2 3 255 16777215 0\n" in said
    assert not list(tmp_path.glob("*.tga"))


def test_without_pillow_it_is_told_first_and_the_image_stays(
    monkeypatch: pytest.MonkeyPatch,
    tmp_path: Path,
    capfd: pytest.CaptureFixture[str],
    no_program: None,
) -> None:
    monkeypatch.setattr(toolchain, "is_there", lambda: False)
    monkeypatch.setattr(first_picture, "python_with_pillow", lambda: None)
    assert draw(monkeypatch, tmp_path) == 0
    assert (tmp_path / "scene.tga").stat().st_size == 18 + 2 * 4
    assert capfd.readouterr().out.startswith("No Python here has Pillow")


def test_what_is_built_is_kept(
    monkeypatch: pytest.MonkeyPatch, checked: Path, no_program: None
) -> None:
    """It is built where there is none, or where the sources are others, and not again."""
    built: list[str] = []

    def build(run: object) -> Path:
        built.append("built")
        checked_build.SUM.write_text(checked_build.sources_sum())
        return shell_script(checked, "exit 0")

    monkeypatch.setattr(checked_build, "build_program", build)
    assert first_picture.program() == [str(checked)]
    monkeypatch.setattr(first_picture, "find_program", lambda: checked)
    assert first_picture.program() == [str(checked)] and len(built) == 1
    monkeypatch.setattr(checked_build, "sources_sum", lambda: "another sum")
    assert first_picture.program() == [str(checked)] and len(built) == 2


def test_a_build_that_fails_is_told(checked: Path) -> None:
    def run(words: Sequence[str], folder: Path) -> str:
        return "error: no such thing\nrun=none proved=no\n"

    with pytest.raises(toolchain.NotBuilt, match="(?s)no program that ends well:.*no such thing"):
        checked_build.try_program(checked_build.CRATE, [], ["rt", "try"], run)


def test_the_picture_without_a_name_is_where_git_does_not_look(
    monkeypatch: pytest.MonkeyPatch,
) -> None:
    monkeypatch.setattr("sys.argv", ["first_picture.py"])
    script, png = first_picture.asked()
    assert script == first_picture.SCRIPT
    assert png.relative_to(TOP) == Path("out/shadow-volumes.png")
    ignored = (TOP / ".gitignore").read_text()
    assert "out/" in ignored.splitlines()


def test_the_library_is_exported_from_what_calls_it() -> None:
    names = [f"yuzuratchet_{it}" for it in checked_build.EXPORTED]
    defined = [f'define internal void @"yuzuratchet::{it}"(ptr %a) #0 {{' for it in names]
    called = [f'call void @"yuzuratchet::{it}"(ptr %a)' for it in names]
    text = checked_build.exporting("\n".join([*defined, *called, "define i32 @main() #0 {"]))
    assert "define void @yuzuratchet_version(ptr %a) #0 {" in text
    assert "call void @yuzuratchet_sizes_fitting(ptr %a)" in text
    assert '@"yuzuratchet' not in text and "define internal i32 @main() #0 {" in text
    with pytest.raises(toolchain.NotBuilt, match="yuzuratchet_version isn't in"):
        checked_build.exporting("")
