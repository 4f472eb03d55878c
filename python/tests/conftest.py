"""What the tests share: the gallery, and a program to draw with.

The built program is looked for as the package looks for it. Where there is none, or the checked one alone, which takes
longer than starting it, tools/plain_device.py stands in, which gives the same answers slowly, so that every test runs
on a fresh machine; the first lines of pytest say which it is.
"""

from __future__ import annotations

import subprocess
from pathlib import Path

import plain_device
import pytest

import yuzuratchet.program
from yuzuratchet.cli import main
from yuzuratchet.errors import LibraryMissing, ProgramMissing
from yuzuratchet.library import find_library, load_library, tells_histories
from yuzuratchet.program import CHECKED, Running, find_program
from yuzuratchet.suite import Expected, parse_expected

TOP = Path(__file__).resolve().parents[2]
GALLERY = TOP / "crates" / "gallery"
DATA = GALLERY / "data"
STAND_IN = TOP / "tools" / "plain_device.py"
SCRIPTS = {
    "asked.txt": "target 2 2\ni clearc 1 2 3 4\ni pixel 1 1\n",
    "below/plain.txt": "target 3 2\n",
    "refused.txt": "target 2 2\ni draw 3 0\n",
}


def built_program() -> Path | None:
    """The built program, or None."""
    try:
        found = find_program()
    except ProgramMissing:
        return None
    return None if found.name == CHECKED.name else found


def pytest_report_header() -> str:
    built = built_program()
    if built:
        return f"the program: {built}"
    return f"the program isn't built: {STAND_IN.relative_to(TOP)} stands in, and what needs speed is skipped"


@pytest.fixture(scope="session")
def program() -> Path:
    """The built program, or what stands in for it."""
    return built_program() or STAND_IN


@pytest.fixture(autouse=True)
def stand_in_without_a_process(monkeypatch: pytest.MonkeyPatch) -> None:
    """Lets what stands in for the program run in this process, since starting Python takes longer than most scenes."""
    run = yuzuratchet.program._ended

    def ended(
        words: list[str], seconds: float | None, running: Running
    ) -> subprocess.CompletedProcess[str]:
        if words[0] != str(STAND_IN):
            return run(words, seconds, running)
        answers, image = plain_device.evaluate(Path(words[1]).read_bytes())
        Path(words[2]).write_bytes(image)
        return subprocess.CompletedProcess(words, int("refused" in answers), answers, "")

    monkeypatch.setattr(yuzuratchet.program, "_ended", ended)


@pytest.fixture(scope="session")
def fast_program() -> Path:
    """The built program; a test that wants it is skipped where there is none."""
    built = built_program()
    if built is None:
        pytest.skip("the program isn't built")
    return built


@pytest.fixture(scope="session")
def library() -> Path | str:
    """The built library; a test that wants it is skipped where there is none."""
    try:
        found = find_library()
        load_library(found)
    except LibraryMissing as error:
        pytest.skip(str(error).splitlines()[0])
    return found


@pytest.fixture(scope="session")
def history_library(library: Path | str) -> Path | str:
    """The same, where it tells the history of a pixel."""
    if not tells_histories(library):
        pytest.skip(f"{library} is an older one: it has no history of a pixel")
    return library


@pytest.fixture(scope="session")
def expected() -> dict[str, Expected]:
    """What the plain evaluation gives for each script of the gallery, as it is stored there."""
    return parse_expected((GALLERY / "stdout").read_text(encoding="ascii"), "stdout")


def gallery_names() -> list[str]:
    """The names of the gallery's scripts."""
    return (DATA / "index").read_text(encoding="ascii").split()


@pytest.fixture
def folder(tmp_path: Path, program: Path, capsys: pytest.CaptureFixture[str]) -> Path:
    """A suite of three scripts, with what is stored."""
    for name, text in SCRIPTS.items():
        (tmp_path / name).parent.mkdir(exist_ok=True)
        (tmp_path / name).write_text(text, encoding="ascii")
    assert main(["suite", str(tmp_path), "--write", "--program", str(program)]) == 0
    assert "3 scripts drawn, and stored in" in capsys.readouterr().out
    return tmp_path
