"""`assert_same`, and the plugin for pytest, which is run here on folders of its own."""

from __future__ import annotations

import os
import subprocess
import sys
from pathlib import Path
from types import ModuleType
from typing import Any

import numpy as np
import pytest
from conftest import TOP

from yuzuratchet import run
from yuzuratchet.cli import main
from yuzuratchet.pytest_plugin import add_to_html
from yuzuratchet.testing import ScenesDiffer, assert_same

ONE = "target 2 1\ni clearc 1 2 3 4\ni cleards 100 5\ni pixel 0 0\n"


def test_what_is_the_same(program: Path, tmp_path: Path) -> None:
    result, again = (run(ONE, program=program) for _ in range(2))
    assert_same(result, again)
    assert_same(result, again, planes=True)
    assert_same(result, result.image)
    result.save(tmp_path / "x.png", keep_alpha=True)
    assert_same(result, tmp_path / "x.png")
    assert_same(result.image, str(tmp_path / "x.png"))


def test_images_that_differ(program: Path) -> None:
    result = run(ONE, program=program)
    other = run(ONE.replace("1 2 3 4", "1 5 3 4"), program=program)
    with pytest.raises(ScenesDiffer) as raised:
        assert_same(result, other)
    assert str(raised.value) == (
        "--- expected answers\n+++ answers\n@@ -1 +1 @@\n"
        "-pixel 0 0 1 5 3 4 100 5\n+pixel 0 0 1 2 3 4 100 5\n"
        "image: 2 of 2 pixels differ, in columns 0 to 1 and rows 0 to 0, at most by 3 in green\n"
        "  (0, 0): 1 5 3 4 expected, 1 2 3 4 drawn\n"
        "  (1, 0): 1 5 3 4 expected, 1 2 3 4 drawn"
    )
    assert [caption for caption, _ in raised.value.pictures] == [
        "expected",
        "drawn",
        "what differs",
    ]
    assert_same(result, other.image, tolerance=3)
    with pytest.raises(AssertionError, match="differ by more than 2"):
        assert_same(result, other.image, tolerance=2)


def test_planes_that_differ(program: Path) -> None:
    result = run(ONE, program=program)
    other = run(ONE.replace("100 5\ni pixel 0 0", "90 5"), program=program)
    assert_same(result.image, other)
    with pytest.raises(AssertionError, match="^depth: 2 of 2 pixels differ, .* at most by 10$"):
        assert_same(run(ONE.replace("i pixel 0 0\n", ""), program=program), other, planes=True)
    with pytest.raises(AssertionError, match="depth: 2 of 2 pixels differ by more than 9"):
        assert_same(result, other, planes=True, depth_units=9)
    with pytest.raises(TypeError, match="^planes: "):
        assert_same(result, result.image, planes=True)


def test_other_sizes_and_refused_scripts(program: Path) -> None:
    result = run(ONE, program=program)
    with pytest.raises(AssertionError, match="the sizes differ: 1 by 2 and 2 by 1 pixels"):
        assert_same(result.image, np.zeros((2, 1, 4), np.uint8))
    refused = run(ONE + "i draw 3 0\n", program=program, check=False)
    with pytest.raises(AssertionError, match="(?s)refused 5 7.*one of the two was refused"):
        assert_same(refused, result)
    assert_same(refused, run(ONE + "i draw 3 0\n", program=program, check=False))


@pytest.mark.parametrize("expected", [None, 7, np.zeros((2, 1), np.uint8)])
def test_what_is_no_picture(expected: Any, program: Path) -> None:
    with pytest.raises(TypeError, match="^expected: a Result, an image or its file is wanted"):
        assert_same(run(ONE, program=program), expected)


# ---- the plugin


def plugin(folder: Path, program: Path, *words: str) -> subprocess.CompletedProcess[str]:
    """Pytest in a folder, with the plugin."""
    environment = {
        **os.environ,
        "PYTHONPATH": str(TOP / "python" / "src"),
        "YUZURATCHET_PROGRAM": str(program),
        "PYTEST_DISABLE_PLUGIN_AUTOLOAD": "1",
    }
    call = [sys.executable, "-B", "-m", "pytest", "-p", "yuzuratchet.pytest_plugin"]
    call += ["-p", "no:cacheprovider", "-q", *words]
    return subprocess.run(
        call, cwd=folder, env=environment, capture_output=True, text=True, check=False
    )


@pytest.fixture
def scenes(tmp_path: Path, program: Path) -> Path:
    """A suite of two scenes, one of which lies in a folder below, and a script that is none."""
    (tmp_path / "below").mkdir()
    (tmp_path / "one.scene.txt").write_text(ONE)
    (tmp_path / "below" / "two.scene.txt").write_text("target 3 3\ni clearc 9 9 9 255\n")
    (tmp_path / "notes.txt").write_text("target 1 1\n")
    assert main(["suite", str(tmp_path), "--write", "--program", str(program)]) == 0
    (tmp_path / "notes.txt").write_text("no script, and no scene\n")
    return tmp_path


def test_scenes_are_tests(scenes: Path, program: Path) -> None:
    ran = plugin(scenes, program)
    assert ran.returncode == 0 and "2 passed" in ran.stdout, ran.stdout
    # from another folder it is the same suite
    ran = plugin(scenes / "below", program, "--rootdir", str(scenes))
    assert ran.returncode == 0 and "1 passed" in ran.stdout, ran.stdout


def test_a_scene_that_differs(scenes: Path, program: Path) -> None:
    path = scenes / "below" / "two.scene.txt"
    path.write_text("target 3 3\ni clearc 9 8 9 255\n")
    ran = plugin(scenes, program, "--scenes-page", "out.html", "--junitxml", "out.xml")
    assert ran.returncode == 1 and "1 failed, 1 passed" in ran.stdout
    told = "9 of 9 pixels differ, in columns 0 to 2 and rows 0 to 2, at most by 1 in green"
    assert "below/two.scene.txt: the image differs" in ran.stdout and told in ran.stdout
    assert (
        "Traceback" not in ran.stdout and "scenes that differ are shown in out.html" in ran.stdout
    )
    text = (scenes / "out.html").read_text()
    assert "2 tests ran, 1 scene differs" in text and text.count("<img ") == 3 and told in text
    assert told in (scenes / "out.xml").read_text()


def test_a_scene_that_is_not_stored(scenes: Path, program: Path) -> None:
    (scenes / "three.scene.txt").write_text("target 1 1\n")
    ran = plugin(scenes, program)
    assert ran.returncode == 1 and "three.scene.txt: nothing is stored" in ran.stdout
    assert f"it is stored by: yuzuratchet suite {scenes} --write" in ran.stdout


def test_pictures_of_a_test_of_ones_own(scenes: Path, program: Path) -> None:
    (scenes / "test_own.py").write_text(
        "from yuzuratchet import run\nfrom yuzuratchet.testing import assert_same\n\n\n"
        "def test_own():\n    assert_same(run('target 1 1\\n'), run('target 1 1\\ni clearc 1 1 1 1\\n'))\n\n\n"
        "def test_other():\n    assert False\n"
    )
    ran = plugin(scenes, program, "--scenes-page", "out.html")
    assert "2 failed, 2 passed" in ran.stdout and "image: 1 of 1 pixels differ" in ran.stdout
    text = (scenes / "out.html").read_text()
    assert text.count("<h2>") == 1 and "test_own.py::test_own" in text and text.count("<img ") == 3


def test_a_page_that_can_not_be_written_is_told_first(scenes: Path, program: Path) -> None:
    ran = plugin(scenes, program, "--scenes-page", "no/such/out.html")
    assert ran.returncode == 4 and "--scenes-page: no/such/out.html: No such file" in ran.stderr


@pytest.mark.parametrize(("version", "attribute"), [("4.1.1", "extras"), ("3.2.0", "extra")])
def test_pictures_in_the_report_of_pytest_html(
    version: str, attribute: str, monkeypatch: pytest.MonkeyPatch
) -> None:
    """By a stand-in with its calls."""
    html = ModuleType("pytest_html")
    html.__version__ = version  # type: ignore[attr-defined]
    html.extras = ModuleType("extras")  # type: ignore[attr-defined]
    html.extras.png = lambda data, name: (name, data[:4])  # type: ignore[attr-defined]
    monkeypatch.setitem(sys.modules, "pytest_html", html)

    class Report:
        pass

    report = Report()
    setattr(report, attribute, ["before"])
    add_to_html(report, [("drawn", np.zeros((1, 1, 4), np.uint8))])
    assert getattr(report, attribute) == ["before", ("drawn", "iVBO")]


def test_the_plugin_is_found_where_the_package_is_installed() -> None:
    text = (TOP / "python" / "pyproject.toml").read_text(encoding="utf-8")
    entry = '[project.entry-points.pytest11]\nyuzuratchet = "yuzuratchet.pytest_plugin"\n'
    assert entry in text


def test_it_asks_for_numpy_where_there_is_a_scene_alone() -> None:
    """Each run of pytest loads a plugin, so it loads little."""
    code = "import yuzuratchet.pytest_plugin, sys; print('numpy' in sys.modules)"
    environment = {**os.environ, "PYTHONPATH": str(TOP / "python" / "src")}
    words = [sys.executable, "-B", "-c", code]
    ran = subprocess.run(words, env=environment, capture_output=True, text=True, check=True)
    assert ran.stdout == "False\n"
