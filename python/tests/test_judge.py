"""`judge`: adapters over the plain evaluation, with and without bugs, and what is told of them."""

from __future__ import annotations

import json
import sys
from pathlib import Path
from random import Random
from xml.etree import ElementTree

import make_conformance
import numpy as np
import plain_device
import pytest
from conftest import STAND_IN, TOP
from plain_device import PlainSession

from yuzuratchet.adapters import Adapter, AdapterDied, AdapterHung, NotSupported, Picture
from yuzuratchet.cli import main
from yuzuratchet.conformance import Conformance
from yuzuratchet.features import Feature, features_of
from yuzuratchet.images import decode
from yuzuratchet.judging import Judge, Kind
from yuzuratchet.planes import Planes
from yuzuratchet.random_script import random_script
from yuzuratchet.reader import parse
from yuzuratchet.results import parse_answer
from yuzuratchet.shrinking import Shrinking

EVERY = frozenset(Feature)

BUGS = {
    "none": "",
    "comparison": "plain_device.COMPARE[5] = plain_device.COMPARE[7]",
    "deeper": "offset = 1",
    "silent": "session.answers = []",
    "abort": "os.abort()",
    "hang": "time.sleep(60)",
    "unsupported": "sys.exit(print('not supported: anything', file=sys.stderr) or 77)",
}

ADAPTER = """#!{python} -B
import os, sys, time
sys.path[:0] = [{tools!r}, {package!r}]
import plain_device
from yuzuratchet.reader import parse
print("device: a plain one\\nnote: it is slow", file=sys.stderr)
offset = 0
script, image, _, planes = sys.argv[1:5]
width, height, lines = parse(open(script, "rb").read())
session = plain_device.PlainSession(width, height)
{before}
session.take_all(lines)
{behind}
target = session.target
print("".join(f"{{it}}\\n" for it in session.answers), end="")
open(image, "wb").write(target.image())
words = ((d + offset) % 2**24 | s << 24 for d, s in zip(target.depth, target.stencil))
open(planes, "wb").write(b"".join(it.to_bytes(4, "little") for it in words))
"""


def adapter(folder: Path, bug: str) -> str:
    """An adapter over the plain evaluation, with a bug."""
    path = folder / bug
    places = {"tools": str(TOP / "tools"), "package": str(TOP / "python" / "src")}
    parts = {"before": BUGS[bug], "behind": BUGS[bug] if bug == "silent" else ""}
    path.write_text(ADAPTER.format(python=sys.executable, **places, **parts), encoding="ascii")
    path.chmod(0o755)
    return str(path)


def judge(folder: Path, bug: str, only: str, *words: str) -> int:
    """Judges an adapter with a bug by some scripts of the suite."""
    suite = str(TOP / "conformance")
    drawn = "--program", str(STAND_IN)
    return main(["judge", adapter(folder, bug), suite, "--only", only, *drawn, *words])


def test_agreement(tmp_path: Path, capsys: pytest.CaptureFixture[str]) -> None:
    assert judge(tmp_path, "none", "depth-functions/greater-[efn]*") == 0
    told = capsys.readouterr().out.splitlines()
    assert told[0] == "the adapter notes: it is slow"
    assert [line.split() for line in told[1:]][1:3] == [
        ["depth-functions", "13", "0", "0"],
        ["all", "13", "0", "0"],
    ]
    assert told[-1] == "a plain one: 13 passed, 0 failed, 0 not supported"


def test_a_comparison(tmp_path: Path, capsys: pytest.CaptureFixture[str]) -> None:
    assert judge(tmp_path, "comparison", "depth-functions/greater-[efn]*") == 1
    told = capsys.readouterr().out
    assert told.startswith("depth-functions/greater-equal.txt: colour\n")
    assert "the depth test fails: 1000 GREATER 1000" in told
    assert "look at depth-functions first (Output Merger Stage: depth test)" in told
    assert "12 passed, 1 failed" in told


@pytest.mark.parametrize(
    "bug, found",
    [
        ("abort", "crash"),
        ("hang", "time out"),
        ("silent", "no answer"),
        ("unsupported", "anything"),
        ("deeper", "depth by 1"),
    ],
)
def test_kinds(bug: str, found: str, tmp_path: Path) -> None:
    out = tmp_path / "out.json"
    words = "--json", str(out), "--seconds", "3" if bug == "hang" else "60", "--exact"
    status = judge(tmp_path, bug, "queries/one-drawn.txt", *words)
    (script,) = json.loads(out.read_text(encoding="utf-8"))["scripts"]
    texts = [f"{it['kind']} by {it['units']}" for it in script.get("findings", [])]
    assert found in " ".join([*texts, script.get("message", "")])
    assert status == (0 if bug == "unsupported" else 1)


def test_a_unit_of_depth_passes(tmp_path: Path) -> None:
    assert judge(tmp_path, "deeper", "depth-functions/less-nearer.txt") == 0
    assert judge(tmp_path, "deeper", "depth-functions/less-nearer.txt", "--depth-units", "0") == 1


def test_files(tmp_path: Path) -> None:
    page, junit = tmp_path / "page.html", tmp_path / "junit.xml"
    words = "--page", str(page), "--junit", str(junit)
    assert judge(tmp_path, "comparison", "depth-functions/greater-e*", *words) == 1
    root = ElementTree.parse(junit).getroot()
    assert (root.get("tests"), root.get("failures"), root.get("skipped")) == ("10", "1", "0")
    text = page.read_text(encoding="utf-8")
    assert text.count("<img ") == 3 and "where they differ" in text


def test_known(tmp_path: Path, capsys: pytest.CaptureFixture[str]) -> None:
    known = tmp_path / "known"
    known.write_text("# of a version\ndepth-functions/greater-equal.txt\n", encoding="ascii")
    words = "depth-functions/greater-[ef]*", "--known", str(known)
    assert judge(tmp_path, "comparison", *words) == 0
    assert judge(tmp_path, "none", *words) == 1
    told = capsys.readouterr().out
    assert "greater-equal.txt: doesn't fail, and is to leave" in told


def test_known_to_fail_sometimes(tmp_path: Path, capsys: pytest.CaptureFixture[str]) -> None:
    known = tmp_path / "known"
    name = "depth-functions/greater-equal.txt"
    known.write_text(f"sometimes {name}  # where it is busy\n", encoding="ascii")
    words = "depth-functions/greater-[ef]*", "--known", str(known)
    assert judge(tmp_path, "comparison", *words) == 0
    assert f"{name}: fails, as it is known to do sometimes" in capsys.readouterr().out
    assert judge(tmp_path, "none", *words) == 0
    assert "sometimes" not in capsys.readouterr().out
    known.write_text("sometimes depth-functions/greater-far.txt\n", encoding="ascii")
    assert judge(tmp_path, "comparison", *words) == 1
    assert f"{name}: fails, and isn't known to" in capsys.readouterr().out


def test_words(tmp_path: Path, capsys: pytest.CaptureFixture[str]) -> None:
    assert main(["judge", "no-such-adapter"]) == 2
    assert main(["judge", adapter(tmp_path, "none"), str(tmp_path / "none-there")]) == 2
    told = capsys.readouterr().err
    assert "there is no adapter 'no-such-adapter'" in told and "is no folder" in told


# ---- in this process


class PlainAdapter(Adapter):
    """The plain evaluation as another device."""

    def play(self, script: bytes) -> Picture:
        width, height, lines = parse(script)
        session = PlainSession(width, height)
        session.take_all(lines)
        target, shape = session.target, (height, width)
        depth = np.array(target.depth, dtype=np.uint32).reshape(shape)
        stencil = np.array(target.stencil, dtype=np.uint8).reshape(shape)
        answers = tuple(map(parse_answer, session.answers))
        return Picture(answers, decode(target.image()), Planes(depth, stencil))


class WrongAdapter(PlainAdapter):
    """The same with another comparison."""

    def play(self, script: bytes) -> Picture:
        right = plain_device.COMPARE[5]
        plain_device.COMPARE[5] = plain_device.COMPARE[7]
        try:
            return super().play(script)
        finally:
            plain_device.COMPARE[5] = right


def test_random_scripts_agree_with_themselves() -> None:
    judging = Judge(PlainAdapter([], 60), how={"program": STAND_IN})
    for number in range(20):
        script = random_script(f"3-{number}", EVERY).script().encode("ascii")
        assert judging.compare(script).findings == ()


def test_features_are_left_out() -> None:
    every: set[Feature] = set()
    for number in range(60):
        every |= features_of(random_script(f"1-{number}", EVERY).lines)
        assert not features_of(random_script(f"1-{number}", frozenset()).lines)
    assert every == EVERY


def test_a_smallest_script() -> None:
    judging = Judge(WrongAdapter([], 60), how={"program": STAND_IN})
    scripts = (
        random_script(f"7-{number}", EVERY).script().encode("ascii") for number in range(200)
    )
    script = next(it for it in scripts if judging.compare(it).kinds[:1] == (Kind.COLOUR,))
    smallest = Shrinking.of(script, lambda it: shows_colour(judging, it)).smallest()
    assert judging.compare(smallest).kinds[:1] == (Kind.COLOUR,)
    assert smallest.count(b"\n") <= 10 < script.count(b"\n")
    assert b" 5 " in smallest  # (the comparison, of depths or of stencils)


def shows_colour(judging: Judge, script: bytes) -> bool:
    try:
        return judging.compare(script).kinds[:1] == (Kind.COLOUR,)
    except Exception as error:  # (whatever a script that is cut to pieces is refused for)
        assert type(error).__name__ in ("ScriptRefused", "CallRefused")
        return False


def test_adapters_fail_by_errors(tmp_path: Path) -> None:
    script = b"target 1 1\n"
    for bug, error in (
        ("abort", AdapterDied),
        ("unsupported", NotSupported),
        ("hang", AdapterHung),
    ):
        with pytest.raises(error):
            Adapter.of(adapter(tmp_path, bug), seconds=2).play(script)


# ---- the suite


def test_the_suite_is_what_is_written(capsys: pytest.CaptureFixture[str]) -> None:
    expected = {name: make_conformance.plain(case) for _, name, case in make_conformance.cases()}
    make_conformance.check(make_conformance.files(expected))
    assert len(expected) >= 400


def test_each_rule_has_scripts() -> None:
    suite = Conformance.of_folder(TOP / "conformance")
    assert len(suite.rules) == len(make_conformance.RULES)
    chance = Random(1)
    for script in chance.sample(suite.scripts, 20):
        _, _, lines = parse(suite.read(script))
        assert {it.value for it in features_of(lines)} == set(script.needs)
