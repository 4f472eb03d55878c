"""Running the program: where it is found, what it gives, what is told where it fails."""

from __future__ import annotations

import os
import re
import stat
from functools import partial
from pathlib import Path
from typing import Iterator

import numpy as np
import pytest
from conftest import DATA, STAND_IN, TOP

import yuzuratchet
from yuzuratchet import PixelAnswer, QueryAnswer, Refusal, Scene, ScriptRefused
from yuzuratchet import read_script, run, run_many
from yuzuratchet.backends import draw
from yuzuratchet.errors import ArgumentError, ImageError, ProgramFailed, ProgramMissing
from yuzuratchet.planes import planes_behind
from yuzuratchet.program import HUGE_PAGES, TUNABLES, VARIABLE, find_program, run_program
from yuzuratchet.results import parse_answer
from yuzuratchet.shapes import draw_triangles, rectangle

# the image of a target of one pixel
SMALL = "000002000000000000000000010001002028" + "00000000"
TWO_TRIANGLES = (DATA / "rows" / "counted-triangles.txt").read_text(encoding="ascii")


def shell_script(path: Path, text: str) -> Path:
    path.write_text(f"#!/bin/sh\n{text}\n", encoding="ascii")
    path.chmod(path.stat().st_mode | stat.S_IXUSR)
    return path


def test_answers_and_image_are_values(program: Path) -> None:
    result = run(
        "target 2 1\ni clearc 1 2 3 4\ni begin 0\ni end 0\ni query 0\ni pixel 1 0\n",
        program=program,
    )
    assert result.answers == (QueryAnswer(0, 0), PixelAnswer(1, 0, (1, 2, 3, 4), 16_777_215, 0))
    assert result.refused is None
    assert result.image.shape == (1, 2, 4) and result.image.dtype == np.uint8
    assert result.image.tolist() == [[[1, 2, 3, 4], [1, 2, 3, 4]]]
    # the header and two pixels, blue first, as the image's format says
    assert result.tga.hex() == "000002000000000000000000020001002028" + "0302010403020104"


def test_the_worked_triangles(program: Path) -> None:
    result = run(TWO_TRIANGLES, program=program)
    counts = [it.count for it in result.answers if isinstance(it, QueryAnswer)]
    assert counts == [6, 10]


def test_workers_change_nothing(program: Path) -> None:
    alone, together = (run(TWO_TRIANGLES, program=program, workers=workers) for workers in (0, 3))
    assert (alone.text, alone.tga) == (together.text, together.tga)


@pytest.mark.parametrize("tuned", (None, "glibc.malloc.check=0"))
def test_huge_pages_unless_somebody_tunes(
    tuned: str | None, tmp_path: Path, monkeypatch: pytest.MonkeyPatch
) -> None:
    if tuned is None:
        monkeypatch.delenv(TUNABLES, raising=False)
    else:
        monkeypatch.setenv(TUNABLES, tuned)
    says = shell_script(tmp_path / "says", f'echo "${TUNABLES} $PATH" >&2; exit 7')
    with pytest.raises(ProgramFailed) as failure:
        run("target 1 1\n", program=says)
    assert f"{tuned or HUGE_PAGES} {os.environ['PATH']}" in str(failure.value)


def test_a_scene_in_bytes(program: Path) -> None:
    assert run(b"target 1 1\n", program=program).answers == ()


def test_a_refusal_is_raised_or_given(program: Path) -> None:
    text = "target 1 1\ni pixel 0 0\ni draw 3 0\n"
    with pytest.raises(ScriptRefused, match="line 3 was refused with 7") as raised:
        run(text, program=program)
    assert (raised.value.line, raised.value.number, len(raised.value.answers)) == (3, 7, 1)
    result = run(text, program=program, check=False)
    assert result.refused == Refusal(3, 7) and result.refused.meaning.startswith("`draw`")
    assert len(result.answers) == 1 and result.tga == b""
    with pytest.raises(ImageError, match="line 3 was refused with 7"):
        result.image  # noqa: B018


def test_a_result_shows_its_image_in_a_notebook(program: Path) -> None:
    from yuzuratchet.images import decode

    shown = run("target 2 1\ni clearc 1 2 3 4\n", program=program)._repr_png_()
    assert shown and decode(shown)[0, 0].tolist() == [1, 2, 3, 255]
    refused = run("target 1 1\ni draw 3 0\n", program=program, check=False)
    assert refused._repr_png_() is None


def test_save(program: Path, tmp_path: Path) -> None:
    from yuzuratchet.images import load

    result = run("target 2 2\ni clearc 1 2 3 4\n", program=program)
    result.save(tmp_path / "opaque.png")
    result.save(tmp_path / "kept.png", keep_alpha=True)
    result.save(tmp_path / "large.png", scale=3)
    assert load(tmp_path / "opaque.png")[0, 0].tolist() == [1, 2, 3, 255]
    assert load(tmp_path / "kept.png")[0, 0].tolist() == [1, 2, 3, 4]
    assert load(tmp_path / "large.png").shape == (6, 6, 4)


def test_depth_and_stencil_in_bands(program: Path, monkeypatch: pytest.MonkeyPatch) -> None:
    """Whatever the rows that are asked at once, each pixel has the depth that was drawn there."""
    monkeypatch.setattr("yuzuratchet.planes.PIXELS_AT_ONCE", 7)
    scene = Scene(3, 5)
    scene.immediate.pixel(0, 0)
    scene.immediate.clear_depth_stencil(10, 3)
    draw_triangles(scene.immediate, rectangle(1, 2, 3, 4, depth=7))
    scene.immediate.pixel(0, 0)
    depth, stencil = yuzuratchet.depth_and_stencil(scene, program=program)
    assert depth.tolist() == [[10] * 3] * 2 + [[10, 7, 7]] * 2 + [[10] * 3]
    assert stencil.tolist() == [[3] * 3] * 5


def test_depth_and_stencil_of_a_refused_scene(program: Path) -> None:
    scene = Scene(2, 2, strict=False)
    scene.immediate.begin(0)
    with pytest.raises(ScriptRefused) as raised:
        yuzuratchet.depth_and_stencil(scene, program=program)
    assert (raised.value.line, raised.value.number) == (3, 9)


def test_depth_and_stencil_of_what_is_no_scene() -> None:
    with pytest.raises(
        TypeError, match="^scene: a Scene is wanted, and not str: read_script makes"
    ):
        yuzuratchet.depth_and_stencil("target 1 1\n")  # type: ignore[arg-type]


def test_planes_of_a_text_without_a_line_feed(program: Path) -> None:
    for text in (b"target 1 1", b"nonsense\n", b""):
        with pytest.raises(ScriptRefused) as raised:
            planes_behind(text, partial(draw, program=program))
        assert raised.value.line == 1


@pytest.mark.parametrize(
    ("scene", "kind", "why"),
    [
        ("scene.txt", ValueError, "for the name of a file there is load_script"),
        ("/no/such/file", ValueError, "run\\(load_script\\('/no/such/file'\\)\\)"),
        (Path("scene.txt"), TypeError, "is the name of a file"),
        (None, TypeError, "a Scene or the text of a script is wanted, and not None"),
        (7, TypeError, "and not 7"),
    ],
)
def test_what_is_no_scene(scene: object, kind: type[Exception], why: str) -> None:
    with pytest.raises(kind, match=f"^scene: .*{why}") as raised:
        run(scene, program=STAND_IN)  # type: ignore[arg-type]
    assert isinstance(raised.value, yuzuratchet.YuzuratchetError)


@pytest.mark.parametrize("seconds", [-1, 0, float("nan"), float("inf")])
def test_how_many_seconds(seconds: float) -> None:
    with pytest.raises(ArgumentError, match="^seconds: .* is no number above 0"):
        run("target 1 1\n", seconds=seconds)


@pytest.mark.parametrize("wish", [{"seconds": "1"}, {"seconds": True}, {"workers": 1.5}])
def test_wishes_of_another_type(wish: dict[str, object]) -> None:
    with pytest.raises(TypeError, match=f"^{next(iter(wish))}: "):
        run("target 1 1\n", **wish)  # type: ignore[arg-type]


def test_a_result_says_what_it_is(program: Path) -> None:
    one = run("target 2 1\ni pixel 0 0\n", program=program)
    assert repr(one) == "<Result: 2 by 1 pixels, 1 answer>"
    assert repr(run("target 2 1\n", program=program)) == "<Result: 2 by 1 pixels, 0 answers>"
    refused = run("target 2 1\ni draw 3 0\n", program=program, check=False)
    assert repr(refused) == "<Result: 2 by 1 pixels, line 2 refused with 7, 0 answers>"
    assert (
        repr(run("", program=program, check=False))
        == "<Result: line 1 refused with 102, 0 answers>"
    )


def test_many_scenes(program: Path) -> None:
    """Results come in the order of the scenes, which may be scenes, texts and bytes."""
    texts = [f"target 1 1\ni clearc {number} 0 0 9\n" for number in range(20)]
    scenes: list[Scene | str | bytes] = [texts[0].encode(), read_script(texts[1]), *texts[2:]]
    found = [it.image[0, 0, 0] for it in run_many(scenes, workers=3, program=program)]
    assert found == list(range(20))
    assert list(run_many([], program=program)) == []


def test_a_refused_scene_among_many(program: Path) -> None:
    scenes = ["target 1 1\n", "target 1 1\ni draw 3 0\n", "target 1 1\n"]
    several = run_many(scenes, program=program)
    assert next(several).refused is None
    with pytest.raises(ScriptRefused, match="^scene 1: line 2 was refused with 7") as raised:
        next(several)
    assert (raised.value.scene, raised.value.line) == (1, 2)
    assert [it.refused for it in run_many(scenes, program=program, check=False)] == [
        None,
        Refusal(2, 7),
        None,
    ]


def test_scenes_are_made_as_they_are_wanted(program: Path) -> None:
    made = []

    def scenes() -> Iterator[str]:
        for number in range(100):
            made.append(number)
            yield "target 1 1\n"

    several = run_many(scenes(), workers=2, program=program)
    next(several)
    assert len(made) <= 5
    several.close()  # type: ignore[attr-defined]


@pytest.mark.parametrize("scenes", ["target 1 1\n", b"target 1 1\n", Scene(1, 1)])
def test_one_scene_is_not_many(scenes: object) -> None:
    with pytest.raises(
        TypeError, match="^scenes: several scenes are wanted, as a list, and not one"
    ):
        run_many(scenes)  # type: ignore[arg-type]


@pytest.mark.parametrize("workers", [0, -1])
def test_how_many_at_once(workers: int) -> None:
    with pytest.raises(ArgumentError, match="^workers: .* is not at least 1"):
        run_many([], workers=workers)


def test_the_program_is_found(monkeypatch: pytest.MonkeyPatch, tmp_path: Path) -> None:
    named = shell_script(tmp_path / "named", "exit 0")
    on_path = shell_script(tmp_path / "tiledraw", "exit 0")
    monkeypatch.delenv(VARIABLE, raising=False)
    monkeypatch.setattr("yuzuratchet.program.repository", lambda: None)
    monkeypatch.setenv("PATH", str(tmp_path))
    assert find_program() == on_path
    assert find_program(named) == named
    assert find_program("named") == named  # (by the path too)
    monkeypatch.setenv(VARIABLE, str(named))
    assert find_program() == named
    assert find_program(on_path) == on_path


def test_the_program_of_this_clone_comes_before_the_path(
    monkeypatch: pytest.MonkeyPatch, tmp_path: Path
) -> None:
    built = tmp_path / "crates" / "tiledraw" / "out" / "tiledraw"
    built.parent.mkdir(parents=True)
    shell_script(built, "exit 0")
    monkeypatch.delenv(VARIABLE, raising=False)
    monkeypatch.setattr("yuzuratchet.program.repository", lambda: tmp_path)
    monkeypatch.setenv("PATH", str(shell_script(tmp_path / "tiledraw", "exit 0").parent))
    assert find_program() == built


def test_the_checked_program_comes_last_and_that_of_a_release_first(
    monkeypatch: pytest.MonkeyPatch, tmp_path: Path
) -> None:
    monkeypatch.delenv(VARIABLE, raising=False)
    monkeypatch.setattr("yuzuratchet.program.repository", lambda: tmp_path / "clone")
    monkeypatch.setattr("yuzuratchet.program.INSTALLED", tmp_path / "installed")
    monkeypatch.setenv("PATH", str(tmp_path / "path"))
    out = tmp_path / "clone" / "crates" / "tiledraw" / "out"
    for folder in (out, tmp_path / "path", tmp_path / "installed"):
        folder.mkdir(parents=True)
    checked = shell_script(out / "tiledraw-checked", "exit 0")
    assert find_program() == checked
    for it in (tmp_path / "path" / "tiledraw", tmp_path / "installed" / "tiledraw"):
        assert find_program() != it
        shell_script(it, "exit 0")
        assert find_program() == it


def test_a_missing_program_tells_how_to_build_it(
    monkeypatch: pytest.MonkeyPatch, tmp_path: Path
) -> None:
    monkeypatch.delenv(VARIABLE, raising=False)
    monkeypatch.setattr("yuzuratchet.program.repository", lambda: None)
    monkeypatch.setenv("PATH", str(tmp_path))
    with pytest.raises(ProgramMissing, match="(?s)first_picture.py.*rt all check.*plain_device.py"):
        run("target 1 1\n", backend="program")
    with pytest.raises(ProgramMissing, match="there is no program /no/where"):
        find_program("/no/where")
    (tmp_path / "text").write_text("no program")
    with pytest.raises(ProgramMissing, match="can't be executed"):
        find_program(tmp_path / "text")
    monkeypatch.setenv(VARIABLE, "/no/where")
    with pytest.raises(ProgramMissing, match=VARIABLE):
        find_program()


def test_a_program_that_fails(tmp_path: Path) -> None:
    with pytest.raises(ProgramFailed, match="status 3: no such thing"):
        run_program(b"", program=shell_script(tmp_path / "a", "echo no such thing >&2; exit 3"))
    with pytest.raises(ProgramFailed, match="signal 9"):
        run_program(b"", program=shell_script(tmp_path / "b", "kill -9 $$"))
    with pytest.raises(ProgramFailed, match="within 0.2 seconds"):
        run_program(b"", program=shell_script(tmp_path / "c", "exec sleep 5"), seconds=0.2)
    (tmp_path / "d").write_text("#!/no/such/interpreter\n")
    (tmp_path / "d").chmod(0o755)
    with pytest.raises(ProgramMissing, match="does not start"):
        run_program(b"", program=tmp_path / "d")


@pytest.mark.parametrize("workers", [-1, 16])
def test_how_many_workers(workers: int) -> None:
    with pytest.raises(ArgumentError, match="^workers: "):
        run("target 1 1\n", workers=workers, program=STAND_IN)


@pytest.mark.parametrize("line", ["query 1", "pixel 1 2 3", "answer 1 2", "query x 1", ""])
def test_no_answer_lines(line: str) -> None:
    with pytest.raises(ProgramFailed, match="no answer line"):
        parse_answer(line)


def test_another_program(tmp_path: Path) -> None:
    """What is no such program at all is told, whatever it prints."""
    image = "".join(f"\\{it:03o}" for it in bytes.fromhex(SMALL))
    for text in ("echo hello", "printf 'refused 1 x\\n'", "printf '\\377\\n'"):
        path = shell_script(tmp_path / "other", f"{text}; printf '{image}' > \"$2\"")
        with pytest.raises(ProgramFailed, match="no answer line"):
            run("target 1 1\n", program=path)
    with pytest.raises(ProgramFailed, match="status 0 and gave no image: is it tiledraw"):
        run("target 1 1\n", program=shell_script(tmp_path / "silent", "exit 0"))
    for of, why in (("000002", "another image"), (SMALL[:-2], "a part of an image")):
        bytes_of = "".join(f"\\{int(of[at : at + 2], 16):03o}" for at in range(0, len(of), 2))
        path = shell_script(tmp_path / "shorter", f"printf '{bytes_of}' > \"$2\"")
        with pytest.raises(ProgramFailed, match=f"status 0 and gave {why}"):
            run("target 1 1\n", program=path)
    scene = Scene(1, 1)
    scene.immediate.pixel(0, 0)
    with pytest.raises(ProgramFailed, match="0 answers to 1 questions"):
        run(scene, program=shell_script(tmp_path / "mute", f"printf '{image}' > \"$2\""))
    with pytest.raises(ProgramFailed, match="status 1, which its answers belie"):
        run(scene, program=shell_script(tmp_path / "failing", "exit 1"))


def test_the_scripts_of_the_page_give_what_it_says(program: Path) -> None:
    page = (TOP / "docs" / "SCRIPT.md").read_text(encoding="utf-8")
    blocks = re.findall(r"^```\n(.*?)^```$", page, re.S | re.M)
    scripts = [at for at, block in enumerate(blocks) if block.startswith("target ")]
    told = 0
    for at in scripts:
        result = run(blocks[at], program=program)
        if at + 1 < len(blocks) and blocks[at + 1].startswith(("query ", "pixel ")):
            assert result.text == blocks[at + 1]
            told += 1
    assert len(scripts) >= 4 and told >= 2
