"""The tools: each has a help, and a message in place of a traceback; the examples are those of the gallery."""

from __future__ import annotations

import os
import re
import subprocess
import sys
from operator import attrgetter
from pathlib import Path
from typing import Any

import make_examples
import plain_device
import pytest
from conftest import DATA, TOP, gallery_names

from yuzuratchet.program import VARIABLE
from yuzuratchet.suite import Expected

TOOLS = sorted(
    path
    for folder in ("tools", "bench")
    for path in (TOP / folder).glob("*.py")
    if os.access(path, os.X_OK)
)
MODULES = {
    *("browser", "checked_build", "conformance_calls", "conformance_merger"),
    *("conformance_raster", "conformance_scripts", "firefox", "mutated_scripts"),
    *("package_path", "page_features", "page_in_browser", "random_scenes", "refused_lines"),
    *("results", "toolchain"),
}


def run_tool(name: str, *words: str, **environment: str) -> subprocess.CompletedProcess[str]:
    """Runs a tool with this Python, and neither a program nor the package on a path of its own."""
    kept = {key: value for key, value in os.environ.items() if key not in (VARIABLE, "PYTHONPATH")}
    command = [sys.executable, "-B", str(TOP / name), *words]
    return subprocess.run(
        command,
        env={**kept, **environment},
        capture_output=True,
        text=True,
        timeout=100,
        check=False,
    )


@pytest.mark.parametrize("tool", TOOLS, ids=attrgetter("stem"))
def test_help(tool: Path) -> None:
    ran = run_tool(str(tool), "--help")
    assert (ran.returncode, ran.stderr) == (0, "") and ran.stdout.startswith("usage: ")


def run_unread(*words: str, **environment: str) -> tuple[int, str]:
    """Runs a tool whose output nobody reads; gives its status, and what it said besides."""
    reader, writer = os.pipe()
    os.close(reader)
    kept = {key: it for key, it in os.environ.items() if key != "PYTHONUNBUFFERED"}
    kept["PYTHONPATH"] = str(TOP / "python" / "src")
    how: dict[str, Any] = {"env": {**kept, **environment}, "cwd": TOP, "timeout": 100}
    with open(writer, "wb") as pipe:
        command = [sys.executable, "-B", *words]
        ran = subprocess.run(command, stdout=pipe, stderr=subprocess.PIPE, check=False, **how)
    return ran.returncode, ran.stderr.decode()


@pytest.mark.parametrize("tool", TOOLS, ids=attrgetter("stem"))
def test_a_closed_pipe_is_no_fault(tool: Path) -> None:
    assert run_unread(str(tool), "--help") == (141, "")


@pytest.mark.parametrize(
    "words",
    [
        ("tools/trusted.py",),
        ("tools/trusted.py", "--definitions"),
        ("tools/wrong_bodies.py",),
        ("tools/gallery_answers.py", "fan.txt"),
        ("-m", "yuzuratchet", "--help"),
    ],
    ids=" ".join,
)
def test_a_pipe_that_is_closed_before_the_end(words: tuple[str, ...]) -> None:
    assert run_unread(*words) == (141, "")


def test_a_closed_pipe_is_no_fault_of_a_file(tmp_path: Path) -> None:
    words = "tools/install_library.py", str(tmp_path), "--uninstall"
    assert run_tool(*words).stdout == "0 files taken away\n"
    assert run_unread(*words, PYTHONUNBUFFERED="1") == (141, "")


def test_each_file_is_a_tool_or_a_module() -> None:
    others = {path.stem for path in (TOP / "tools").glob("*.py")} - {path.stem for path in TOOLS}
    assert others == MODULES


@pytest.mark.parametrize(
    "words",
    [
        ("tools/compare.py", "--workers", "16"),
        ("tools/compare.py", "-5"),
        ("tools/compare.py", "0"),
        ("tools/compare.py", "x"),
        ("tools/compare.py", "1", "--without", "nothing"),
        ("tools/compare.py", "1", "--program", "/no/such/program"),
        ("tools/compare_calls.py", "0"),
        ("tools/compare_calls.py", "1", "--groups", "-1"),
        ("tools/compare_calls.py", "1", "--program", "/no/such/program"),
        ("tools/compare_calls.py", "1", "--library", "/no/such/library"),
        ("tools/compare_checked.py", "0"),
        ("tools/compare_checked.py", "1", "--program", "/no/such/program"),
        ("tools/compare_explained.py", "-1"),
        ("tools/compare_explained.py", "1", "--program", "/no/such/program"),
        ("tools/make_examples.py", "nothing"),
        ("tools/make_examples.py", "fan", "--folder", "/no/such/folder"),
        ("tools/plain_device.py", "/no/such/script", "/tmp/x.tga"),
        ("tools/plain_device.py", "x"),
        ("tools/gallery_answers.py", "x"),
        ("tools/gate_times.py", "--no-such-option"),
        ("tools/gate_times.py", "/no/such/command"),
        ("tools/first_picture.py", "/no/such/script"),
        ("tools/draw_pictures.py", "--program", "/no/such/program"),
        ("tools/draw_pictures.py", "nothing"),
        ("tools/make_page.py", "--module", "/no/such/module"),
        ("tools/make_page.py", "--module", "/dev/null"),
        ("tools/make_page.py", "-o", "/no/such/folder/page.html", "--module", "README.md"),
        ("tools/test_page.py", "--no-such-option"),
        ("tools/pages.py", "/no/such/page"),
        ("tools/pages.py", "docs/GONE.md"),
        ("tools/trusted.py", "x"),
        ("tools/wrong_bodies.py", "--write", "--check"),
        ("bench/scenes.py", "nothing"),
        ("bench/scenes.py", "clear", "0"),
        ("bench/suites.py", "--scripts", "3"),
        ("bench/suites.py", "--program", "/no/such/program"),
        ("bench/unchecked.py",),
        ("bench/unchecked.py", "--clone", "/no/such/clone", "program"),
        ("bench/run.py", "nothing"),
        ("bench/run.py", "clear", "--runs", "0"),
        ("bench/run.py", "clear", "--workers", "16"),
        ("bench/run.py", "clear", "--program", "/no/such/program"),
        ("bench/run.py", "clear", "--against", "/no/such/program"),
        ("bench/peers.py",),
        ("bench/peers.py", "/no/such/adapter"),
        ("bench/peers.py", "tools/plain_device.py", "nothing"),
        ("bench/peers.py", "tools/plain_device.py", "clear", "--threads", "17"),
        ("bench/peers.py", "tools/plain_device.py", "clear", "--program", "/no/such/program"),
    ],
    ids=" ".join,
)
def test_wrong_words_are_told(words: tuple[str, ...]) -> None:
    ran = run_tool(*words)
    assert ran.returncode not in (0, -1) and ran.stderr and "Traceback" not in ran.stderr


@pytest.mark.parametrize(("words", "status"), [(("--help",), 0), (("--no-such-option",), 2)])
def test_what_looks_over_the_sources_has_a_help(words: tuple[str, ...], status: int) -> None:
    ran = subprocess.run(
        ["sh", TOP / "tools" / "lint.sh", *words], capture_output=True, text=True, check=False
    )
    assert (ran.returncode, "tools/lint.sh [--install]" in ran.stdout + ran.stderr) == (
        status,
        True,
    )


def test_the_plain_evaluation_stands_in_for_the_program(tmp_path: Path) -> None:
    script, image = tmp_path / "x.txt", tmp_path / "x.tga"
    for text, answers, status in (
        ("target 1 1\ni pixel 0 0\n", "pixel 0 0 0 0 0 0 16777215 0\n", 0),
        ("target 1 1\ni\n", "refused 2 104\n", 1),
    ):
        script.write_text(text)
        ran = run_tool("tools/plain_device.py", str(script), str(image), "--workers", "3")
        assert (ran.returncode, ran.stdout, ran.stderr) == (status, answers, "")
        assert len(image.read_bytes()) == (0 if status else 22)


def test_random_scenes_agree(program: Path) -> None:
    ran = run_tool("tools/compare.py", "4", "3", "--program", str(program))
    assert ran.stdout.startswith("4 scenes agree"), ran.stderr


def test_the_examples_of_the_gallery_are_as_they_are_made(tmp_path: Path) -> None:
    ran = run_tool("tools/make_examples.py", "--folder", str(tmp_path))
    made = {path.stem for path in tmp_path.iterdir()}
    assert ran.returncode == 0 and made == set(make_examples.EXAMPLES)
    other = [it for it in tmp_path.iterdir() if it.read_bytes() != (DATA / it.name).read_bytes()]
    assert other == []


@pytest.mark.parametrize(
    "name", [name for name in gallery_names() if name.startswith(("rows/", "refused/"))]
)
def test_the_plain_evaluation_gives_what_is_stored(
    name: str, expected: dict[str, Expected]
) -> None:
    import hashlib

    answers, image = plain_device.evaluate((DATA / name).read_bytes())
    assert Expected(answers, hashlib.sha256(image).hexdigest()) == expected[name]


def test_two_programs_are_timed_in_turns() -> None:
    program = "tools/plain_device.py"
    ran = run_tool(
        *("bench/run.py", "many-finishes", "--runs", "1", "--workers", "0", "3"),
        *("--program", program, "--against", program),
    )
    rows = [line.split(" | ") for line in ran.stdout.splitlines() if "many-finishes" in line]
    assert [row[1] for row in rows] == ["0", "3"] and len({row[8] for row in rows}) == 1, ran.stderr
    assert "| Times alone |" in ran.stdout and rows[0][9] in (
        "1.00 (1.00 to 1.00)",
        "not to be told",
    )


def test_whole_runs_are_compared() -> None:
    ran = run_tool(
        *("bench/run.py", "smallest", "--runs", "2", "--whole", "--workers", "0", "3"),
        *("--program", "tools/plain_device.py"),
    )
    rows = [line.split(" | ") for line in ran.stdout.splitlines() if "smallest" in line]
    assert [row[3:5] for row in rows] == [["-", "-"]] * 2, ran.stderr
    assert rows[0][9].startswith("1.00 (1.00 to 1.00)")


def test_another_device_is_timed_in_the_same_turns() -> None:
    program = "tools/plain_device.py"
    ran = run_tool(
        *("bench/peers.py", program, "smallest", "--runs", "1", "--threads", "1", "4"),
        *("--program", program),
    )
    rows = [line.split(" | ") for line in ran.stdout.splitlines() if "smallest" in line]
    assert [row[1] for row in rows] == ["1", "4"] and all(
        row[2].endswith(" ms") for row in rows
    ), ran.stderr


def test_suites_are_timed() -> None:
    words = "--scripts", "4", "--runs", "1", "--program", "tools/plain_device.py"
    ran = run_tool("bench/suites.py", *words)
    rows = {line.split(" | ")[0]: line for line in ran.stdout.splitlines()[2:]}
    assert len(rows) == 5 and re.search(r"\| \d+ \(", rows["| `yuzuratchet suite`"]), ran.stderr


def test_scenes_are_scripts() -> None:
    ran = run_tool("bench/scenes.py", "ten-tiles", "2")
    lines = ran.stdout.splitlines()
    assert lines[0] == "target 2048 2048" and lines.count("i exec d0 0 1") == 2000
