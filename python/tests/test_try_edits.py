"""What refused an edit is read off what the check said: a goal, a name that is gone, or the borrow checker."""

from __future__ import annotations

import sys
from collections import Counter
from pathlib import Path

import pytest

sys.path.insert(0, str(Path(__file__).resolve().parents[2] / "tools"))

import try_edits  # noqa: E402
from try_edits import Edit, Refusal  # noqa: E402

CLAUSE = "note: src/text.rt:12:1: it is not proved that what the function ensures holds when it returns (`returns`)\n"
GOAL = CLAUSE + "fn answers::text::lines_end: not proved: a clause\n"
NAME = (
    "./proofs/text/lines_end/Answers.antt:6:49: error: module `Rattle.answers.proofs.text.lines_end.Goals` has no "
    "`then-text-at-eq10` that can be named from here (names: `x`)\nfn answers::text::lines_end: not proved\n"
)
BORROW = "src/text.rt:46:38: error[borrow-e0382]: use of moved value: `text`: note: the value was moved\n"
FUNCTION = "answers::text::lines_end"


def an_edit(tmp_path: Path) -> Edit:
    path = tmp_path / "one.edit"
    path.write_text("file: src/text.rt\nold: a\nnew: b\n", encoding="utf-8")
    return Edit(str(path))


@pytest.mark.parametrize(
    "said, refusal",
    [(GOAL, Refusal.GOAL), (NAME, Refusal.NAME), (BORROW, Refusal.BORROW)],
    ids=["goal", "name", "borrow"],
)
def test_what_refused_an_edit(tmp_path: Path, said: str, refusal: Refusal) -> None:
    edit = an_edit(tmp_path)
    try_edits.judge(edit, {FUNCTION}, 1, said, alone=True)
    assert (edit.outcome, edit.refusal) == ("refused", refusal)


def test_a_name_that_is_gone_elsewhere_is_not_this_edits(tmp_path: Path) -> None:
    edit = an_edit(tmp_path)
    said = GOAL + NAME.replace("lines_end", "first_lines")
    try_edits.judge(edit, {FUNCTION}, 1, said, alone=False)
    assert edit.refusal is Refusal.GOAL


def test_methods_have_the_path_of_their_type(tmp_path: Path) -> None:
    edit = an_edit(tmp_path)
    method = try_edits.pattern_of(["states", "color_mask", try_edits.METHOD + "ColorMask", "all"])
    said = NAME.replace("text/lines_end", "color_mask/ColorMask/all").replace(
        FUNCTION, "states::color_mask::ColorMask::all"
    )
    try_edits.judge(edit, {method}, 1, said, alone=False)
    assert (edit.outcome, edit.refusal) == ("refused", Refusal.NAME)


def test_an_edit_outside_of_functions_is_refused_by_any_refusal(tmp_path: Path) -> None:
    edit = an_edit(tmp_path)
    try_edits.judge(edit, {None}, 1, GOAL, alone=True)
    assert edit.refusal is Refusal.GOAL


def test_one_that_is_proved_has_no_refusal(tmp_path: Path) -> None:
    edit = an_edit(tmp_path)
    try_edits.judge(edit, {FUNCTION}, 0, f"fn {FUNCTION}: proved\n", alone=False)
    assert (edit.outcome, edit.refusal) == ("NOT REFUSED", None)


def test_counts_name_what_refused() -> None:
    counted = try_edits.counted(Counter([Refusal.GOAL, Refusal.GOAL, Refusal.NAME]))
    assert (
        counted == "2 by a goal of a contract, 1 since a written answer names a goal that is gone"
    )
