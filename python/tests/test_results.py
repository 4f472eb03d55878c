"""What the tests of the tools tell of themselves: each outcome in a line, and all of them in the last one."""

from __future__ import annotations

import pytest
import results


def fails() -> str:
    raise AssertionError("it is so")


def told(found: results.Results) -> tuple[str, int]:
    return found.last_line, found.status


def test_what_passes_and_what_is_skipped(capsys: pytest.CaptureFixture[str]) -> None:
    found = results.Results()
    assert found.test("one", lambda: "seen") and found.test("two", lambda number: None, 2)
    found.skip("three", "it is missing")
    assert told(found) == ("2 passed, 0 failed, 1 skipped (three)", 0)
    lines = capsys.readouterr().out.splitlines()
    assert lines[0].startswith("ok one: seen (") and lines[1].startswith("ok two (")
    assert lines[2] == "skipped three: it is missing"


def test_what_fails(capsys: pytest.CaptureFixture[str]) -> None:
    found = results.Results(errors=[KeyError])
    assert not found.test("one", fails) and not found.test("two", {}.__getitem__, "a")
    assert told(found) == ("0 passed, 2 failed (one, two), 0 skipped, nothing was tested", 1)
    assert capsys.readouterr().out == "FAILED one: it is so\nFAILED two: 'a'\n"
    with pytest.raises(ZeroDivisionError):
        found.test("three", lambda: 1 // 0)


def test_what_fails_as_known(capsys: pytest.CaptureFixture[str]) -> None:
    found = results.Results({"one": "not mended yet", "two": "not mended yet"})
    found.test("one", fails)
    found.test("three", lambda: None)
    assert told(found) == ("1 passed, 0 failed, 0 skipped, 1 failed as known (one)", 0)
    # one that passes is to leave the list
    assert not found.test("two", lambda: None)
    assert told(found)[1] == 1 and "failed (two)" in found.last_line
    assert "it passes, so it is to leave the list" in capsys.readouterr().out


def test_where_nothing_was_tested() -> None:
    found = results.Results()
    found.skip("all", "it is missing")
    assert told(found) == ("0 passed, 0 failed, 1 skipped (all), nothing was tested", 1)


def test_progress(capsys: pytest.CaptureFixture[str], monkeypatch: pytest.MonkeyPatch) -> None:
    monkeypatch.setattr(results, "PROGRESS_SECONDS", -1)
    assert list(results.told("ab", 2, "letters")) == ["a", "b"]
    assert capsys.readouterr().out == "  0 of 2 letters\n  1 of 2 letters\n"
