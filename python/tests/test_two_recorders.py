"""The program that draws by calls prints what the script answers that spells its calls."""

from pathlib import Path

import plain_device

CRATE = Path(__file__).resolve().parents[2] / "crates" / "two_recorders"


def test_its_answers_are_those_of_the_plain_evaluation_to_its_script() -> None:
    answers, image = plain_device.evaluate((CRATE / "data" / "picture.txt").read_bytes())
    assert image
    assert answers == (CRATE / "stdout").read_text(encoding="ascii")
