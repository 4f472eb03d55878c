"""The examples write the scripts that are stored, stay short, and draw what is stored."""

from __future__ import annotations

import os
import subprocess
import sys
from pathlib import Path

import pytest
from conftest import TOP

from yuzuratchet.cli import main
from yuzuratchet.images import load
from yuzuratchet.program import VARIABLE
from yuzuratchet.suite import Suite

EXAMPLES = TOP / "python" / "examples"
SCENES = sorted(EXAMPLES.glob("*.py"))


def run_example(path: Path, room: Path, program: Path) -> None:
    environment = {**os.environ, "PYTHONPATH": str(TOP / "python" / "src"), VARIABLE: str(program)}
    subprocess.run([sys.executable, "-B", path], cwd=room, env=environment, check=True)


@pytest.mark.parametrize("path", SCENES, ids=[it.stem for it in SCENES])
def test_an_example(path: Path, tmp_path: Path, program: Path) -> None:
    run_example(path, tmp_path, program)
    script, picture = f"{path.stem}.txt", f"{path.stem}.png"
    assert (tmp_path / script).read_bytes() == (EXAMPLES / script).read_bytes()
    assert (load(tmp_path / picture) == load(EXAMPLES / picture)).all()


@pytest.mark.parametrize("path", SCENES, ids=[it.stem for it in SCENES])
def test_an_example_is_short(path: Path) -> None:
    assert len(path.read_text(encoding="utf-8").splitlines()) < 40


NEW_USERS = ("cube_on_checker", "mirror", "two_lists")


@pytest.mark.parametrize("name", NEW_USERS)
def test_what_a_new_user_would_write_is_shorter_still(name: str) -> None:
    assert len((EXAMPLES / f"{name}.py").read_text(encoding="utf-8").splitlines()) < 25


def test_there_are_examples() -> None:
    wanted = {"lit_cube", "hidden_object", "overlaps", *NEW_USERS}
    assert {path.stem for path in SCENES} >= wanted


def test_two_lists_counts_what_is_beside_the_wall() -> None:
    """Of the square's columns 20 to 51 the wall hides those below 40: 12 by 32 pixels are left."""
    stored = Suite.of_folder(EXAMPLES).stored()["two_lists.txt"]
    assert stored.answers == f"query 0 {12 * 32}\n"


def test_the_readme_has_the_example() -> None:
    """The lines of the package's page are those of the example, but for the script that it saves."""
    page = (TOP / "python" / "README.md").read_text(encoding="utf-8")
    shown = page.split("```python\n")[1].split("```")[0]
    example = (EXAMPLES / "overlaps.py").read_text(encoding="utf-8").split('"""\n\n', 1)[1]
    assert shown == example.replace('scene.save("overlaps.txt")\n', "")


def test_the_readme_tells_what_explain_tells(
    program: Path, capsys: pytest.CaptureFixture[str], monkeypatch: pytest.MonkeyPatch
) -> None:
    page = (TOP / "python" / "README.md").read_text(encoding="utf-8")
    command, _, shown = page.split("$ yuzuratchet explain ")[1].split("```")[0].partition("\n")
    monkeypatch.chdir(TOP)
    assert main(["explain", *command.split(), "--program", str(program)]) == 0
    assert capsys.readouterr().out == shown


def test_the_first_page_has_the_examples() -> None:
    page = (TOP / "README.md").read_text(encoding="utf-8")
    example = (EXAMPLES / "overlaps.py").read_text(encoding="utf-8").split('"""\n\n', 1)[1]
    assert example.replace('scene.save("overlaps.txt")\n', "") in page
    assert (EXAMPLES / "first_triangle.txt").read_text(encoding="ascii") in page
