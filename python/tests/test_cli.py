"""The command: what it tells, its statuses, and no traceback."""

from __future__ import annotations

import os
import subprocess
import sys
from pathlib import Path

import pytest
from conftest import DATA, TOP

import yuzuratchet
from yuzuratchet.cli import main
from yuzuratchet.images import decode, load

SCENE = "target 4 4\ni clearc 1 2 3 4\n"
TGA = bytes.fromhex("000002000000000000000000020001002028" + "0302010407060508")


@pytest.fixture
def scene(tmp_path: Path) -> Path:
    path = tmp_path / "scene.txt"
    path.write_text(SCENE, encoding="ascii")
    return path


def test_check(scene: Path, program: Path, capsys: pytest.CaptureFixture[str]) -> None:
    assert main(["check", str(scene), "--program", str(program)]) == 0
    assert capsys.readouterr().out == f"{scene}: no fault, and nothing is refused\n"
    refused = DATA / "refused" / "begun-twice.txt"
    assert main(["check", str(scene), str(refused), "--program", str(program)]) == 1
    assert (
        f"{refused}:3:9: refusal 9: query: 0 is open since line 2\n    i begin 0\n            ^\n"
        in capsys.readouterr().out
    )


def test_explain(scene: Path, program: Path, capsys: pytest.CaptureFixture[str]) -> None:
    assert main(["explain", str(scene), "1", "2", "--program", str(program)]) == 0
    assert capsys.readouterr().out.startswith(
        f"{scene}: pixel (1, 2) holds colour 1 2 3 4, depth 16777215 (1), stencil 0\n\nline "
    )


def test_explain_up_to_a_line(
    tmp_path: Path, program: Path, capsys: pytest.CaptureFixture[str]
) -> None:
    script = tmp_path / "steps.txt"
    script.write_text(STEPS + "nonsense\n")
    words = ["explain", str(script), "0", "0", "--program", str(program)]
    assert main([*words, "--at", "6"]) == 0
    told = capsys.readouterr().out.splitlines()
    assert told[0].endswith("holds colour 1 2 3 4, depth 5 (0.0000), stencil 0")
    assert [it.split()[0] for it in told[3:] if it[0] != " "] == ["2", "6"]
    assert main([*words, "--at", "11"]) == 2 and main(words) == 1


def test_explain_tells_of_a_script_that_is_refused(
    tmp_path: Path, program: Path, capsys: pytest.CaptureFixture[str]
) -> None:
    for text, where in (
        ("target 2 2\ni draw 3 0\n", ":2: refused with 7"),
        ("target 2 2\n\n", ":2: refused with 101"),
    ):
        path = tmp_path / "x.txt"
        path.write_text(text)
        assert main(["explain", str(path), "0", "0", "--program", str(program)]) == 1
        assert f"{path}{where}; 'yuzuratchet check {path}' tells more" in capsys.readouterr().err


def test_diff(
    scene: Path, tmp_path: Path, program: Path, capsys: pytest.CaptureFixture[str]
) -> None:
    other, picture = tmp_path / "other.txt", tmp_path / "picture.png"
    other.write_text(
        SCENE + "i raster 1 0 0\ni vb 0 0 0 9 9 9 9 65536 0 0 9 9 9 9 0 131072 0 9 9 9 9\n"
        "i topology 4\ni draw 3 0\ni pixel 0 0\n"
    )
    words = ["--program", str(program)]
    assert main(["diff", str(scene), str(scene), *words]) == 0
    assert main(["diff", str(scene), str(other), str(picture), *words]) == 1
    out = capsys.readouterr().out
    assert "+pixel 0 0 9 9 9 9 0 0\n" in out
    assert (
        "1 of 16 pixels differ, in columns 0 to 0 and rows 0 to 0, "
        "at most by 8 in red, 7 in green, 6 in blue, 5 in alpha\n  (0, 0): 1 2 3 4 | 9 9 9 9\n"
        in out
    )
    assert (
        "depth: 1 of 16 pixels differ, in columns 0 to 0 and rows 0 to 0, at most by 16777215\n"
        in out
    )
    assert "stencil" not in out
    assert load(picture).shape == (4, 4, 4)
    image = tmp_path / "image.tga"
    image.write_bytes(TGA)
    assert main(["diff", str(image), str(image)]) == 0
    assert main(["diff", str(image), str(scene), *words]) == 1
    assert "the sizes differ: 2 by 1 and 4 by 4 pixels" in capsys.readouterr().err


def test_diff_of_a_refused_script(
    scene: Path, tmp_path: Path, program: Path, capsys: pytest.CaptureFixture[str]
) -> None:
    other = tmp_path / "other.txt"
    other.write_text("target 4 4\ni draw 3 0\n")
    assert main(["diff", str(scene), str(other), "--program", str(program)]) == 1
    assert f"{other}:2: refused with 7" in capsys.readouterr().err


def test_diff_lets_pass_what_it_is_told_to(
    scene: Path, tmp_path: Path, program: Path, capsys: pytest.CaptureFixture[str]
) -> None:
    other, words = tmp_path / "other.txt", ["--program", str(program)]
    other.write_text("target 4 4\ni clearc 1 2 6 4\ni cleards 16777205 7\n")
    pair = ["diff", str(scene), str(other), *words]
    assert main(pair) == 1
    out = capsys.readouterr().out
    assert (
        "depth: 16 of 16 pixels differ, in columns 0 to 3 and rows 0 to 3, at most by 10\n" in out
    )
    assert "stencil: 16 of 16 pixels differ" in out and "at most by 3 in blue\n" in out
    assert main([*pair, "--tolerance", "2", "--colour-only"]) == 1
    told = "16 of 16 pixels differ by more than 2, in columns 0 to 3 and rows 0 to 3, at most by 3"
    assert capsys.readouterr().out.startswith(told)
    assert main([*pair, "--tolerance", "3", "--colour-only"]) == 0
    assert "are the same in each pixel but for what is let pass" in capsys.readouterr().out
    assert main([*pair, "--tolerance", "3", "--depth-units", "10"]) == 1
    assert capsys.readouterr().out.startswith("stencil: ")
    other.write_text("target 4 4\ni clearc 1 2 3 4\ni cleards 16777205 0\n")
    assert main([*pair, "--depth-units", "10"]) == 0
    assert main([*pair, "--depth-units", "9"]) == 1


def test_diff_tries_the_picture_first(
    scene: Path, tmp_path: Path, capsys: pytest.CaptureFixture[str]
) -> None:
    for name, why in (("no/such/x.png", "No such file"), ("x.jpg", "its suffix is none of those")):
        words = ["diff", str(scene), str(scene), str(tmp_path / name), "--program", "/no/such"]
        assert main(words) == 2
        assert why in capsys.readouterr().err
    assert not (tmp_path / "x.jpg").exists()


def test_diff_of_answers_alone(
    scene: Path, tmp_path: Path, program: Path, capsys: pytest.CaptureFixture[str]
) -> None:
    other = tmp_path / "other.txt"
    other.write_text(SCENE + "i pixel 0 0\n")
    assert main(["diff", str(scene), str(other), "--program", str(program)]) == 1
    assert capsys.readouterr().out.endswith(
        "+pixel 0 0 1 2 3 4 16777215 0\nthe images are the same\n"
    )


def test_png(tmp_path: Path, capsys: pytest.CaptureFixture[str]) -> None:
    image, png = tmp_path / "image.tga", tmp_path / "image.png"
    image.write_bytes(TGA)
    assert main(["png", str(image), str(png)]) == 0
    assert load(png).tolist() == [[[1, 2, 3, 255], [5, 6, 7, 255]]]
    assert main(["png", str(image), str(png), "--keep-alpha", "--scale", "2"]) == 0
    assert load(png).tolist() == [[[1, 2, 3, 4]] * 2 + [[5, 6, 7, 8]] * 2] * 2
    assert capsys.readouterr().out.splitlines()[-1] == f"{png}: 4 by 2 pixels"


def test_png_of_a_script(
    scene: Path, tmp_path: Path, program: Path, capsys: pytest.CaptureFixture[str]
) -> None:
    png = tmp_path / "x.png"
    assert main(["png", str(scene), str(png), "--program", str(program)]) == 0
    assert load(png).tolist() == [[[1, 2, 3, 255]] * 4] * 4
    scene.write_text("target 4 4\ni draw 3 0\n")
    assert main(["png", str(scene), str(png), "--program", str(program)]) == 1
    assert f"{scene}:2:3: refusal 7: draw: no topology is set\n" in capsys.readouterr().err


# a clear, a triangle on the upper left half, and one more clear while a query is open
STEPS = (
    "target 2 2\ni clearc 9 9 9 9\ni vb 0 0 5 1 2 3 4 131072 0 5 1 2 3 4 0 131072 5 1 2 3 4\n"
    "i topology 4\ni begin 0\ni draw 3 0\ni clearc 7 7 7 7\ni end 0\ni query 0\n"
)


def drawn(tmp_path: Path, program: Path, *words: str, text: str = STEPS) -> list[list[list[int]]]:
    script, image = tmp_path / "steps.txt", tmp_path / "steps.png"
    script.write_text(text, encoding="ascii")
    assert main(["draw", str(script), str(image), "--program", str(program), *words]) == 0
    return load(image).tolist()  # type: ignore[no-any-return]


def test_draw(tmp_path: Path, program: Path, capsys: pytest.CaptureFixture[str]) -> None:
    assert drawn(tmp_path, program) == [[[7, 7, 7, 255]] * 2] * 2
    told = capsys.readouterr()
    assert told.out == "query 0 1\n" and told.err == f"{tmp_path / 'steps.png'}: 2 by 2 pixels\n"
    assert drawn(tmp_path, program, "--keep-alpha", "--scale", "2") == [[[7, 7, 7, 7]] * 4] * 4


def test_draw_up_to_a_line(
    tmp_path: Path, program: Path, capsys: pytest.CaptureFixture[str]
) -> None:
    """A query that is open there is ended."""
    clear, triangle = [9, 9, 9, 255], [1, 2, 3, 255]
    assert drawn(tmp_path, program, "--at", "1") == [[[0, 0, 0, 255]] * 2] * 2
    assert drawn(tmp_path, program, "--at", "5") == [[clear] * 2] * 2
    assert drawn(tmp_path, program, "--at", "6") == [[triangle, clear], [clear, clear]]
    assert capsys.readouterr().out == ""
    script = tmp_path / "steps.txt"
    words = ["draw", str(script), str(tmp_path / "x.png"), "--program", str(program)]
    assert main([*words, "--at", "10"]) == 2
    assert "line: 10 is not in 1 to 9" in capsys.readouterr().err
    script.write_text(STEPS + "nonsense\n")  # (a fault behind the line hides nothing before it)
    assert main([*words, "--at", "9"]) == 0 and main(words) == 1


def test_draw_a_plane(tmp_path: Path, program: Path) -> None:
    """The nearest depth is white, what nobody drew on black; the stencil's 0 is black."""
    white, black = [255, 255, 255, 255], [0, 0, 0, 255]
    assert drawn(tmp_path, program, "--plane", "depth") == [[white, black], [black, black]]
    assert drawn(tmp_path, program, "--plane", "stencil") == [[black] * 2] * 2


def test_draw_how_often_pixels_were_touched(tmp_path: Path, program: Path) -> None:
    """The least is dark blue, the most nearly white, and none black."""
    least, most, none = [20, 20, 90, 255], [255, 255, 200, 255], [0, 0, 0, 255]
    assert drawn(tmp_path, program, "--plane", "overdraw") == [[most, least], [least, least]]
    assert drawn(tmp_path, program, "--plane", "overdraw", "--at", "5") == [[least] * 2] * 2
    assert drawn(tmp_path, program, "--plane", "overdraw", "--at", "1") == [[none] * 2] * 2


def test_draw_what_the_last_line_changed(tmp_path: Path, program: Path) -> None:
    """Red where the colour, green where the depth."""
    none, both = [0, 0, 0, 255], [255, 255, 0, 255]
    changed = ["--plane", "changed"]
    assert drawn(tmp_path, program, *changed, "--at", "6") == [[both, none], [none, none]]
    assert drawn(tmp_path, program, *changed, "--at", "7") == [[[255, 0, 0, 255]] * 2] * 2
    assert drawn(tmp_path, program, *changed) == [[none] * 2] * 2


def test_draw_from_and_to_standard_streams(scene: Path, program: Path) -> None:
    environment = {**os.environ, "PYTHONPATH": str(TOP / "python" / "src")}
    words = [sys.executable, "-B", "-m", "yuzuratchet", "draw", "-", "-", "--program", str(program)]
    text = SCENE.encode() + b"i pixel 0 0\n"
    ran = subprocess.run(words, env=environment, input=text, capture_output=True, check=True)
    assert decode(ran.stdout).tolist() == [[[1, 2, 3, 255]] * 4] * 4
    assert ran.stderr == b"pixel 0 0 1 2 3 4 16777215 0\n"
    text = SCENE.encode() + b"i pixel 4 0\n"
    ran = subprocess.run(words, env=environment, input=text, capture_output=True, check=False)
    assert (ran.returncode, ran.stdout) == (1, b"")
    assert ran.stderr.startswith(b"yuzuratchet: <stdin>:3:9: refusal 15: x: 4 is not below")


def test_another_program(scene: Path, tmp_path: Path, capsys: pytest.CaptureFixture[str]) -> None:
    """What ends well and gives no image of the target is no tiledraw."""
    copies = tmp_path / "copies"
    copies.write_text('#!/bin/sh\nexec cp "$1" "$2"\n')
    copies.chmod(0o755)
    for program, why in (("/usr/bin/true", "gave no image"), (copies, "gave another image")):
        assert main(["check", str(scene), "--program", str(program)]) == 2
        err = capsys.readouterr().err
        assert f"{program} ended with status 0 and {why}" in err and "is it tiledraw?" in err


def test_an_empty_image_is_told(tmp_path: Path, capsys: pytest.CaptureFixture[str]) -> None:
    (tmp_path / "empty.tga").write_bytes(b"")
    assert main(["png", str(tmp_path / "empty.tga"), str(tmp_path / "x.png")]) == 2
    assert (
        "it is empty, as the program leaves it where a line of the script is refused"
        in capsys.readouterr().err
    )


@pytest.mark.parametrize("command", ["draw", "check", "explain", "diff", "suite", "png", "view"])
def test_help(command: str, capsys: pytest.CaptureFixture[str]) -> None:
    with pytest.raises(SystemExit) as raised:
        main([command, "--help"])
    assert raised.value.code == 0 and capsys.readouterr().out.startswith(
        f"usage: yuzuratchet {command}"
    )


@pytest.mark.parametrize(
    "words",
    [
        [],
        ["nothing"],
        ["check"],
        ["check", "/no/such/file"],
        ["check", "."],
        ["explain", "scene.txt", "x", "0"],
        ["explain", "scene.txt", "0"],
        ["explain", "/no/such/file", "0", "0"],
        ["explain", "{scene}", "0", "0", "--workers", "16"],
        ["explain", "{scene}", "4", "0"],
        ["diff", "{scene}"],
        ["diff", "{scene}", "/no/such/file"],
        ["suite"],
        ["suite", "/no/such/folder"],
        ["suite", ".", "--jobs", "0"],
        ["suite", ".", "--write", "--junit", "x.xml"],
        ["suite", ".", "--write", "--page", "x.html"],
        ["suite", ".", "--planes"],
        ["suite", ".", "--allow-faults"],
        ["suite", ".", "--only", "no-such-*"],
        ["png", "/no/such/file", "x.png"],
        ["png", "{scene}", "x.jpg"],
        ["draw", "{scene}"],
        ["draw", "/no/such/file", "x.png"],
        ["draw", "{scene}", "x.nothing"],
        ["draw", "{scene}", "/no/such/folder/x.png"],
        ["draw", "{scene}", "/dev/null/x.png"],
        ["png", "{scene}", "/no/such/folder/x.png"],
        ["check", "{scene}", "--program", "/no/such/program"],
        ["check", "{scene}", "--workers", "-1"],
    ],
)
def test_wrong_words_have_status_2_and_no_traceback(
    words: list[str], scene: Path, capsys: pytest.CaptureFixture[str]
) -> None:
    try:
        status = main([word.format(scene=scene) for word in words])
    except SystemExit as error:
        status = error.code  # type: ignore[assignment]
    err = capsys.readouterr().err
    assert status == 2 and ("yuzuratchet: " in err or "error: " in err) and "Traceback" not in err


def test_as_a_module_and_its_version() -> None:
    words = [sys.executable, "-m", "yuzuratchet", "--version"]
    environment = {"PYTHONPATH": str(TOP / "python" / "src"), "PATH": "/usr/bin:/bin"}
    ran = subprocess.run(words, env=environment, capture_output=True, text=True, check=True)
    assert ran.stdout == f"yuzuratchet {yuzuratchet.__version__}\n"


def test_the_version_is_that_of_the_changelog() -> None:
    text = (TOP / "CHANGELOG.md").read_text(encoding="utf-8")
    assert f"## {yuzuratchet.__version__}" in text


def test_a_reader_that_has_had_enough(scene: Path, program: Path) -> None:
    scene.write_text(SCENE + "i clearc 1 2 3 4\n" * 3000)
    words = [
        sys.executable,
        "-m",
        "yuzuratchet",
        "explain",
        str(scene),
        "0",
        "0",
        "--program",
        str(program),
    ]
    command = subprocess.Popen(
        words, cwd=TOP / "python" / "src", stdout=subprocess.PIPE, stderr=subprocess.PIPE
    )
    assert command.stdout and command.stderr
    command.stdout.readline()
    command.stdout.close()
    said = command.stderr.read()  # (nothing, or how far it is where the machine is slow)
    assert command.wait() == 141 and b"Traceback" not in said and b"rror" not in said
    command.stderr.close()
