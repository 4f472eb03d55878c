"""What is told of the proof: that of the release, and whether what draws here is of it."""

from __future__ import annotations

import hashlib
from pathlib import Path

import pytest
from test_running import shell_script

from yuzuratchet import library
from yuzuratchet.cli import main
from yuzuratchet.program import VARIABLE

TEXT = "Yuzuratchet 0.4.0, commit 1\n\nBinaries\n\n{sum}  tiledraw\n  how\n"


@pytest.fixture
def installed(monkeypatch: pytest.MonkeyPatch, tmp_path: Path) -> Path:
    """The folder of an installed package that has the program alone, and its PROOF.txt."""
    folder = tmp_path / "built"
    folder.mkdir()
    program = shell_script(folder / "tiledraw", "exit 0")
    digest = hashlib.sha256(program.read_bytes()).hexdigest()
    (folder / "PROOF.txt").write_text(TEXT.format(sum=digest))
    for name in ("program", "library", "proof"):
        monkeypatch.setattr(f"yuzuratchet.{name}.INSTALLED", folder)
    monkeypatch.delenv(VARIABLE, raising=False)
    monkeypatch.delenv(library.VARIABLE, raising=False)
    monkeypatch.setattr(library, "_installed", lambda: None)
    return folder


def test_the_program_of_the_release(installed: Path, capsys: pytest.CaptureFixture[str]) -> None:
    assert main(["proof"]) == 0
    said = capsys.readouterr().out
    assert said.startswith("Yuzuratchet 0.4.0") and "is tiledraw of this release" in said


def test_another_program(installed: Path, capsys: pytest.CaptureFixture[str]) -> None:
    shell_script(installed / "tiledraw", "exit 1")
    assert main(["proof"]) == 1
    assert "is no binary of this release" in capsys.readouterr().out


def test_a_release_without_a_proof(installed: Path, capsys: pytest.CaptureFixture[str]) -> None:
    text = (installed / "PROOF.txt").read_text()
    (installed / "PROOF.txt").write_text(f"NOT PROVED. Of nothing.\n{text}")
    assert main(["proof"]) == 1
    assert "is tiledraw of this release" in capsys.readouterr().out


def test_the_proof_beside_the_program(
    installed: Path, tmp_path: Path, capsys: pytest.CaptureFixture[str]
) -> None:
    """As the archive for any Linux has it: bin/tiledraw, and the text below share."""
    shared = tmp_path / "share" / "doc" / "yuzuratchet"
    shared.mkdir(parents=True)
    (installed / "PROOF.txt").rename(shared / "PROOF.txt")
    assert main(["proof"]) == 0
    assert str(shared / "PROOF.txt") in capsys.readouterr().out


def test_nothing_is_claimed_without_a_text(
    installed: Path, capsys: pytest.CaptureFixture[str]
) -> None:
    (installed / "PROOF.txt").unlink()
    assert main(["proof"]) == 2
    assert "nothing is claimed" in capsys.readouterr().err
