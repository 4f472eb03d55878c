"""The device by its calls: contexts that draw at once, against what the library draws of a script."""

from __future__ import annotations

import os
import random
import subprocess
import sys
import threading
from concurrent.futures import ThreadPoolExecutor
from dataclasses import replace
from pathlib import Path

import compare_calls
import numpy as np
import plain_device
import pytest
import random_scenes
from compare_histories import plain
from conftest import DATA, TOP, gallery_names

from yuzuratchet import (
    ArgumentError,
    CallRefused,
    LibraryMissing,
    Line,
    PixelAnswer,
    PrimitiveTopology,
    QueryAnswer,
    Scene,
    load_script,
    run,
)
from yuzuratchet.calls import Device, LiveContext
from yuzuratchet.errors import ProgramFailed, WrongType
from yuzuratchet.images import load
from yuzuratchet.library import run_library
from yuzuratchet.reader import parse
from yuzuratchet.recipes import count_overlaps
from yuzuratchet.results import Result
from yuzuratchet.scene import Context
from yuzuratchet.shapes import draw_triangles, rectangle
from yuzuratchet.words import IMMEDIATE

Place = tuple[int, int]

# the slowest scripts take seconds
SLOW = ("large", "largest-target")


@pytest.fixture(autouse=True)
def library() -> None:
    """Skips a test where there is no library with these calls."""
    try:
        Device(1, 1)
    except LibraryMissing as error:
        pytest.skip(str(error).splitlines()[0])


@pytest.mark.parametrize("name", [it for it in gallery_names() if not it.startswith(SLOW)])
def test_the_gallery_by_calls(name: str) -> None:
    script = (DATA / name).read_bytes()
    result = Result(run_library(script), script)
    scene = load_script(DATA / name, strict=False)
    if result.refused:
        with pytest.raises(CallRefused) as refused:
            device = Device(scene.width, scene.height)
            device.replay(scene)
            device.immediate.flush()
        assert refused.value.number == result.refused.number
        return
    device = Device(scene.width, scene.height)
    told = [it.count if isinstance(it, QueryAnswer) else it for it in result.answers]
    assert device.replay(scene) == told
    assert np.array_equal(device.image, result.image)


@pytest.mark.parametrize("name", [it for it in gallery_names() if not it.startswith(SLOW)])
def test_the_gallery_by_lines(name: str) -> None:
    script = (DATA / name).read_bytes()
    result = Result(run_library(script), script)
    scene = load_script(DATA / name, strict=False)
    lines = script.decode().split("\n", 1)[1]
    if result.refused:
        with pytest.raises(CallRefused) as refused:
            device = Device(scene.width, scene.height)
            list(device.play(lines))
            device.immediate.flush()
        assert refused.value.number == result.refused.number
        if refused.value.line is not None:
            assert refused.value.line + 1 == result.refused.line
        return
    device = Device(scene.width, scene.height)
    told = [it.count if isinstance(it, QueryAnswer) else it for it in result.answers]
    assert list(device.play(lines)) == told
    assert np.array_equal(device.image, result.image)


def test_lines_go_on_behind_a_refused_one() -> None:
    device = Device(8, 4)
    answers = device.play("d0 clearc 1 2 3 4\nd0 finish 0\ni exec d0 0 1\ni pixel 7 3\ni draw 3\n")
    assert next(answers) == PixelAnswer(7, 3, (1, 2, 3, 4), 16_777_215, 0)
    with pytest.raises(CallRefused, match="refusal 105") as refused:
        next(answers)
    assert refused.value.line == 5
    for line, number in (
        ("i exec d0 1 1\n", 107),
        ("d1 end 3\n", 10),
        ("i flush", 101),
        ("ü\n", 101),
    ):
        with pytest.raises(CallRefused, match=f"refusal {number}"):
            list(device.play(line))
    assert not list(device.play("d0 clearc 9 9 9 9\nd0 finish 0\ni exec d0 0 1\n"))
    device.immediate.clear_depth_stencil(7, 5)
    assert list(device.play("i pixel 0 0\n")) == [PixelAnswer(0, 0, (1, 2, 3, 4), 7, 5)]
    recorded = Device(8, 4)
    recorded.record()
    with pytest.raises(ProgramFailed, match="scene of calls"):
        list(recorded.play("i flush\n"))


def draw(context: Context, immediate: Context) -> None:
    count_overlaps(context)
    for at in (8, 24, 40):
        draw_triangles(context, rectangle(at, at, at + 48, at + 48))
    immediate.clear_color("#181828")


def test_one_function_draws_on_both() -> None:
    scene, device = Scene(96, 96), Device(96, 96)
    draw(scene.immediate, scene.immediate)
    draw(device.immediate, device.immediate)
    assert np.array_equal(run(scene).image, device.image)
    assert device.planes.stencil.max() == 3 and device.planes.depth.min() == 16_777_215


def test_a_refused_call_is_no_end(tmp_path: Path) -> None:
    with Device(8, 4) as device:
        context = device.immediate
        context.clear_color((1, 2, 3, 4))
        with pytest.raises(CallRefused, match="refusal 7") as refused:
            context.draw(3)
        assert refused.value.number == 7
        with pytest.raises(CallRefused):
            context.pixel(8, 0)
        with pytest.raises(ArgumentError):
            context.draw(-1)
        assert context.pixel(7, 3) == PixelAnswer(7, 3, (1, 2, 3, 4), 16_777_215, 0)
        device.save(tmp_path / "frame.png")
    with pytest.raises(ProgramFailed, match="closed"):
        context.flush()
    device.close()


def by_calls(scenes: int, monkeypatch: pytest.MonkeyPatch, folder: Path) -> dict[int, int]:
    """How many calls of random scenes were refused with each number, where all agree with the program."""
    monkeypatch.chdir(folder)
    monkeypatch.setattr("sys.argv", ["compare_calls.py", str(scenes)])
    with ThreadPoolExecutor(1) as pool:
        return compare_calls.compare(compare_calls.parsed(), pool)


def test_random_scenes_go_on_behind_refused_calls(
    monkeypatch: pytest.MonkeyPatch, tmp_path: Path
) -> None:
    numbers = by_calls(40, monkeypatch, tmp_path)
    assert {3, 5, 7, 8, 9, 10, 11, 12, 15, 17, 20} <= set(numbers)


def test_what_a_refused_call_leaves_behind_is_found(
    monkeypatch: pytest.MonkeyPatch, tmp_path: Path
) -> None:
    take = LiveContext.take

    def leaving(context: LiveContext, line: Line) -> None:
        try:
            take(context, line)
        except CallRefused:
            context._held.call("clear_color", 1, 2, 3, 4)
            raise

    monkeypatch.setattr(LiveContext, "take", leaving)
    with pytest.raises(SystemExit, match="its lines are in differs.txt"):
        by_calls(20, monkeypatch, tmp_path)
    assert (tmp_path / "differs.txt").is_file()


def test_lists_are_executed_again() -> None:
    device, other = Device(16, 16), Device(16, 16)
    recorder = device.deferred[3]
    with recorder.counted(5):
        draw_triangles(recorder, rectangle(2, 2, 10, 10, colour="#ff8000"))
    finished = recorder.finish_command_list()
    for it in (device, device, other):
        it.immediate.clear_depth_stencil()
        it.immediate.execute(finished)
        assert it.immediate.get_data(5) == 64
    with pytest.raises(WrongType):
        device.immediate.execute("d3 0")  # type: ignore[arg-type]
    with recorder.counted(1), pytest.raises(CallRefused, match="refusal 12"):
        recorder.finish_command_list()


def record(context: LiveContext, failed: list[BaseException]) -> None:
    try:
        for _ in range(50):
            context.ia_set_vertices([(0, 0, 0.5, "#ffffff")] * 3)
            context.ia_set_indices(range(3))
            context.ia_set_topology(PrimitiveTopology.TRIANGLELIST)
            context.draw_indexed(3)
    except BaseException as error:
        failed.append(error)


def test_contexts_on_threads() -> None:
    device, failed = Device(16, 16), list[BaseException]()
    several = [*device.deferred, device.immediate, device.immediate]
    threads = [threading.Thread(target=record, args=(it, failed)) for it in several]
    for thread in threads:
        thread.start()
    for thread in threads:
        thread.join()
    for context in device.deferred:
        device.immediate.execute(context.finish_command_list())
    assert not failed and device.immediate.pixel(0, 0).colour == (0, 0, 0, 0)


@pytest.mark.parametrize("name", [it for it in gallery_names() if not it.startswith(SLOW)])
def test_a_recording_is_the_script(name: str) -> None:
    scene = load_script(DATA / name, strict=False)
    if Result(run_library(scene.script().encode()), scene.script().encode()).refused:
        with pytest.raises(CallRefused):
            device = Device(scene.width, scene.height)
            recorded = device.record()
            device.replay(scene)
            assert recorded.lines == scene.lines
            device.immediate.flush()
        return
    device = Device(scene.width, scene.height)
    recorded = device.record()
    device.replay(scene)
    assert recorded.script() == scene.script()
    assert np.array_equal(run(recorded).image, device.image)


def test_a_recording_leaves_out_what_is_refused() -> None:
    device = Device(8, 8)
    scene = device.record()
    device.immediate.clear_color((1, 2, 3, 4))
    with pytest.raises(CallRefused):
        device.immediate.draw(3)
    with pytest.raises(CallRefused):
        device.immediate.end(5)
    assert scene.script().splitlines() == ["target 8 8", "i clearc 1 2 3 4"]


def printed_by(name: str, folder: Path, *words: str) -> list[str]:
    """What an example prints."""
    command = [sys.executable, "-B", str(TOP / "python" / "examples" / "calls" / name), *words]
    environment = {**os.environ, "PYTHONPATH": str(TOP / "python" / "src")}
    ran = subprocess.run(command, cwd=folder, env=environment, capture_output=True, text=True)
    assert (ran.returncode, ran.stderr) == (0, "")
    return ran.stdout.splitlines()


def test_the_cube_turns_as_that_in_c_does(tmp_path: Path) -> None:
    frames = printed_by("turning_cube.py", tmp_path, "cube.png", "60")
    assert frames[:3] == ["26122 pixels", "26154 pixels", "26079 pixels"] and len(frames) == 60
    seen = (load(tmp_path / "cube.png")[..., :3] != (24, 28, 40)).any(axis=2).sum()
    assert frames[-1] == f"{seen} pixels"


def test_eight_threads_record(tmp_path: Path) -> None:
    squares = ["4096 pixels", *7 * ["1792 pixels"]]
    assert printed_by("recorders.py", tmp_path) == ["refused with 7", *squares]


def test_a_recording_begins_before_all_calls() -> None:
    device = Device(8, 8)
    device.deferred[2].clear_color((1, 2, 3, 4))
    with pytest.raises(ProgramFailed, match="before the first one"):
        device.record()


def test_a_list_of_another_device_is_not_recorded() -> None:
    device, other = Device(8, 8), Device(8, 8)
    scene = device.record()
    other.deferred[0].clear_color((9, 9, 9, 9))
    finished = other.deferred[0].finish_command_list()
    with pytest.raises(ProgramFailed, match="aren't recorded"):
        device.immediate.execute(finished)
    assert not scene.lines and device.image[0, 0, 0] == 0


def test_threads_record_one_scene() -> None:
    device = Device(64, 64)
    scene = device.record()

    def record(at: int) -> None:
        context = device.deferred[at]
        for turn in range(20):
            draw_triangles(context, rectangle(8 * at, turn, 8 * at + 6, turn + 5))
            device.immediate.execute(context.finish_command_list())

    threads = [threading.Thread(target=record, args=(at,)) for at in range(8)]
    for thread in threads:
        thread.start()
    for thread in threads:
        thread.join()
    assert sum(line.word == "exec" for line in scene.lines) == 160
    assert np.array_equal(run(scene).image, device.image)


RUNS = ("flush", "exec", "query", "pixel")


def pending_events(scene: Scene, places: list[Place]) -> dict[Place, list[plain_device.Event]]:
    """What the plain evaluation has of pixels behind the last line that runs or executes."""
    own = [(at, line) for at, line in enumerate(scene.lines, 2) if line.actor == IMMEDIATE]
    ran = [(at, line) for at, line in own if line.word in RUNS]
    at, last = ran[-1] if ran else (1, None)
    # (the state that is kept behind a run is the first pending command)
    kept = last is not None and (last.word != "exec" or last.arguments[2] == 1)
    commands = {
        line: number for number, (line, _) in enumerate((it for it in own if it[0] > at), kept)
    }
    before = plain_device.Histories(scene.width, scene.height, [])
    before.take_all(parse(scene.script())[2][: at - 1])
    told = plain_device.histories(scene.script(), places)
    return {
        place: [
            replace(it, item=it.item - before.items, line=0, command=commands[it.line])
            for it in told[place]
            if it.line > at
        ]
        for place in places
    }


def check_pending(scene: Scene, places: list[Place]) -> int:
    """Holds the histories of a device on which a scene's calls were made against the plain ones; how many events."""
    wanted = pending_events(scene, places)
    with Device(scene.width, scene.height) as device:
        device.replay(scene)
        for again in range(2):
            found = {place: device.immediate.history(*place) for place in places}
            assert {place: [*map(plain, told)] for place, told in found.items()} == wanted, again
    return sum(map(len, wanted.values()))


def test_the_history_of_what_is_pending() -> None:
    """Of random scenes with and without a last run, against the plain evaluation."""
    chance, events = random.Random(7), 0
    for number in range(20):
        scene = random_scenes.random_scene(chance, number, asked=0)
        places = [(chance.randrange(scene.width), chance.randrange(scene.height)) for _ in range(5)]
        try:
            events += check_pending(scene, places)
        except CallRefused:
            continue
    assert events > 150


def test_a_history_runs_nothing() -> None:
    device = Device(4, 4)
    immediate = device.immediate
    assert immediate.history(1, 1) == []
    for number in range(70):
        immediate.clear_color((number, 0, 0, 255))
    told = immediate.history(1, 1)
    assert [it.item for it in told] == [it.command for it in told] == [*range(70)]
    assert [it.after.colour[0] for it in told] == [*range(70)]
    assert {it.line for it in told} == {0} and all(it.passed for it in told)
    assert told[1].before == told[0].after and told[0].before.depth == 16777215
    for place in ((4, 0), (0, 4)):
        with pytest.raises(CallRefused, match="pixel"):
            immediate.history(*place)
    immediate.flush()
    assert immediate.history(1, 1) == []
    immediate.begin(3)
    with pytest.raises(CallRefused) as refused:
        immediate.history(1, 1)
    assert refused.value.number == 9
