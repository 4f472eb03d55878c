"""tools/hostile_runs.py: a program that answers wrongly is told, and the built program answers as it must."""

from __future__ import annotations

from dataclasses import replace

import pytest
from conftest import built_program
from hostile_runs import ENDED, LONG, Ended, difference, growth, stored
from plain_device import evaluate
from test_tools import run_tool

TOOL = "tools/hostile_runs.py"


def test_a_program_that_does_nothing_is_wrong() -> None:
    ran = run_tool(TOOL, "--program", "true")
    lines = ran.stdout.splitlines()
    assert ran.returncode == 1 and "Traceback" not in ran.stderr
    assert lines[-1] == f"{sum(line.startswith('WRONG ') for line in lines)} runs are wrong"
    assert not any(line.startswith("right ") for line in lines)


@pytest.mark.parametrize("words", [("x",), ("--program", "/no/such/program")], ids=" ".join)
def test_wrong_words_are_told(words: tuple[str, ...]) -> None:
    ran = run_tool(TOOL, *words)
    assert ran.returncode not in (0, -1) and ran.stderr and "Traceback" not in ran.stderr


def test_a_difference_is_told() -> None:
    run = Ended(0, "pixel\n", "", b"image")
    assert difference(run, run) is None
    for other in (
        replace(run, status=1),
        replace(run, output=""),
        replace(run, error="x"),
        replace(run, image=b""),
        replace(run, image=None),
    ):
        assert difference(run, other) and difference(other, run)
    assert difference(run, replace(run, output=None, error=None)) is None


def test_one_row_has_answers_and_one_has_none() -> None:
    assert stored("counted-then-cleared")[1] and not stored("four-tiles")[1]


def test_time_that_grows_with_the_square_is_told() -> None:
    assert growth(0.5, 2.0) is None and growth(0.001, 0.02) is None
    told = growth(0.5, 8.0)
    assert told is not None and "8.00 s" in told


@pytest.mark.parametrize("name", LONG)
def test_how_often_a_line_of_a_long_script_stands_changes_nothing(name: str) -> None:
    before, line, times = LONG[name]
    assert times % 4 == 0
    once, often = (
        evaluate(("target 4 4\n" + before + count * line + "i pixel 0 0\n").encode("ascii"))
        for count in (2, 20)
    )
    assert once == often and once[1]


# (the plain evaluation takes a text for whole lines)
@pytest.mark.parametrize("name", [name for name in ENDED if ENDED[name][0].endswith("\n")])
def test_scripts_that_end_early_are_refused_by_the_plain_evaluation(name: str) -> None:
    text, answers = ENDED[name]
    assert evaluate(text.encode("ascii")) == (answers, b"")


@pytest.mark.skipif(built_program() is None, reason="the program isn't built")
def test_the_program_answers_as_it_must() -> None:
    ran = run_tool(TOOL, "--program", str(built_program()))
    assert ran.returncode == 0, ran.stdout
