"""The line that tells how far something is: over itself on a terminal, now and then elsewhere."""

from __future__ import annotations

import pytest

from yuzuratchet.progress import ProgressLine


def test_on_a_terminal(capsys: pytest.CaptureFixture[str], monkeypatch: pytest.MonkeyPatch) -> None:
    monkeypatch.setattr("sys.stderr.isatty", lambda: True)
    line = ProgressLine()
    line.tell("one of two")
    line.tell("both")
    assert capsys.readouterr().err == "\rone of two\rboth      "
    line.clear()
    assert capsys.readouterr().err == "\r    \r"
    line.tell("all")
    line.end()
    assert capsys.readouterr().err == "\rall\n"


def test_elsewhere(capsys: pytest.CaptureFixture[str]) -> None:
    line = ProgressLine(every=3)
    for number in range(5):
        line.tell(f"{number}")
    assert capsys.readouterr().err == ""
    line.told -= 4
    line.tell("5")
    line.tell("6")
    line.clear()
    line.end()
    assert capsys.readouterr().err == "5\n"
