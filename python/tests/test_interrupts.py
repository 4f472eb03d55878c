"""Ctrl-C and SIGTERM, sent to real processes: a command ends within a second, in order, and leaves nothing."""

from __future__ import annotations

import os
import signal
import subprocess
import sys
import time
from pathlib import Path
from typing import Iterator
from xml.etree import ElementTree

import pytest
from conftest import TOP

STATUSES = {signal.SIGINT: 130, signal.SIGTERM: 143}
# it draws what is asked for, and sleeps where the script is a pixel wide
SLOW = f"""#!/bin/sh
echo $$ >> "$PIDS"
case $(head -n 1 "$1") in "target 1 1") sleep 60 ;; esac
exec {sys.executable} -B {TOP / "tools" / "plain_device.py"} "$@"
"""


@pytest.fixture
def folder(tmp_path: Path) -> Path:
    """A suite of which two scripts are drawn at once and the others take a minute; the program, and a
    folder for what is temporary."""
    scripts = tmp_path / "suite"
    scripts.mkdir()
    for name in ("a", "b"):
        (scripts / f"{name}.txt").write_text("target 2 1\n")
    for number in range(20):
        (scripts / f"slow-{number:02}.txt").write_text("target 1 1\n")
    program = tmp_path / "slow"
    program.write_text(SLOW)
    program.chmod(0o755)
    (tmp_path / "temporary").mkdir()
    return tmp_path


def started(folder: Path, *words: str) -> subprocess.Popen[str]:
    """The command, with the signals as a terminal leaves them, and a folder of its own for what is temporary."""
    environment = {
        **os.environ,
        "PYTHONPATH": str(TOP / "python" / "src"),
        "TMPDIR": str(folder / "temporary"),
        "PIDS": str(folder / "pids"),
    }
    return subprocess.Popen(
        [sys.executable, "-B", "-m", "yuzuratchet", *words, "--program", str(folder / "slow")],
        env=environment,
        stdout=subprocess.PIPE,
        stderr=subprocess.PIPE,
        text=True,
        preexec_fn=lambda: signal.signal(signal.SIGINT, signal.default_int_handler) and None,
    )


def wait_for(condition, seconds: float = 20) -> None:  # type: ignore[no-untyped-def]
    end = time.monotonic() + seconds
    while not condition():
        assert time.monotonic() < end, "it took too long"
        time.sleep(0.02)


def pids(folder: Path) -> list[int]:
    path = folder / "pids"
    return [int(it) for it in path.read_text().split()] if path.exists() else []


def lives(pid: int) -> bool:
    try:
        os.kill(pid, 0)
    except ProcessLookupError:
        return False
    return True


def wait_until_none_lives(folder: Path) -> None:
    """A process that was killed goes a moment later, on a busy machine."""
    wait_for(lambda: not any(map(lives, pids(folder))), 5)


@pytest.fixture
def cut_short(folder: Path) -> Iterator[subprocess.Popen[str]]:
    """A suite that is drawn, up to its slow scripts."""
    words = ["suite", str(folder / "suite"), "--jobs", "4"]
    words += ["--junit", str(folder / "out.xml"), "--page", str(folder / "out.html")]
    process = started(folder, *words)
    wait_for(lambda: len(pids(folder)) >= 6)
    time.sleep(0.5)  # (until the two that are drawn at once are told)
    yield process
    process.kill()
    process.wait()


@pytest.mark.parametrize("number", STATUSES, ids=[it.name for it in STATUSES])
def test_a_suite_ends_in_order(
    number: signal.Signals, folder: Path, cut_short: subprocess.Popen[str]
) -> None:
    begun = time.monotonic()
    cut_short.send_signal(number)
    out, err = cut_short.communicate(timeout=10)
    took = time.monotonic() - begun
    assert cut_short.returncode == STATUSES[number] and "Traceback" not in err
    assert took < 5, f"{took:.1f} seconds"  # (a second, and what a busy machine adds)
    name = number.name
    assert f"0 of 2 scripts agree; cut short by {name}: 20 of 22 were not drawn\n" in out
    assert not list((folder / "temporary").iterdir())
    wait_until_none_lives(folder)
    root = ElementTree.parse(folder / "out.xml").getroot()
    counts = {key: root.get(key) for key in ("tests", "failures", "errors", "skipped")}
    assert counts == {"tests": "23", "failures": "2", "errors": "1", "skipped": "20"}
    case = [it for it in root.iter("testcase") if it.find("error") is not None]
    assert [it.get("name") for it in case] == ["the whole suite"]
    assert f"cut short by {name}" in (folder / "out.html").read_text(encoding="utf-8")


def test_a_signal_twice_is_one_wish(folder: Path, cut_short: subprocess.Popen[str]) -> None:
    """As `timeout` sends it: to the process, and to its group."""
    for _ in range(2):
        cut_short.send_signal(signal.SIGTERM)
    out, _ = cut_short.communicate(timeout=10)
    assert cut_short.returncode == 143 and "cut short by SIGTERM" in out
    assert (folder / "out.xml").is_file() and not list((folder / "temporary").iterdir())


def test_nothing_is_stored_of_a_part(folder: Path) -> None:
    process = started(folder, "suite", str(folder / "suite"), "--write", "--jobs", "3")
    wait_for(lambda: len(pids(folder)) >= 4)
    process.send_signal(signal.SIGINT)
    out, err = process.communicate(timeout=10)
    assert process.returncode == 130 and "Traceback" not in err
    assert "cut short by SIGINT: nothing is stored\n" in out
    assert not (folder / "suite" / "expected").exists()
    assert not list((folder / "temporary").iterdir())


@pytest.mark.parametrize("number", STATUSES, ids=[it.name for it in STATUSES])
def test_other_commands_leave_nothing_either(number: signal.Signals, folder: Path) -> None:
    process = started(folder, "check", str(folder / "suite" / "slow-00.txt"))
    wait_for(lambda: bool(pids(folder)))
    process.send_signal(number)
    out, err = process.communicate(timeout=5)
    assert (process.returncode, out, err) == (STATUSES[number], "", "")
    assert not list((folder / "temporary").iterdir())
    wait_until_none_lives(folder)
