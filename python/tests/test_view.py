"""The page that draws in a browser, as a file: what is put into it. tools/test_page.py tests what it does."""

from __future__ import annotations

import base64
import gzip
import json
import random
import re
from html.parser import HTMLParser
from pathlib import Path

import make_page
import numpy as np
import pytest
from conftest import DATA, TOP

from yuzuratchet import DepthStencilState, Scene, page, run
from yuzuratchet.cli import main
from yuzuratchet.device import DEVICE
from yuzuratchet.errors import PageMissing
from yuzuratchet.images import decode
from yuzuratchet.messages import FAULTS, REFUSALS
from yuzuratchet.shapes import draw_triangles, rectangle
from yuzuratchet.words import WORDS

MODULE = b"\0asm\1\0\0\0"


@pytest.fixture(scope="session")
def built() -> str:
    """A page with the shortest module."""
    return make_page.built(MODULE)


@pytest.fixture
def built_file(built: str, tmp_path: Path) -> Path:
    path = tmp_path / "built.html"
    path.write_text(built, encoding="utf-8")
    return path


def element(text: str, name: str) -> str:
    """What stands in a script element of the page."""
    found = re.findall(rf'<script type="[a-z/]+" id="{name}">(.*?)</script>', text, re.S)
    assert len(found) == 1, name
    return str(found[0])


def unpacked(text: str, name: str) -> bytes:
    return gzip.decompress(base64.b64decode(element(text, name)))


def test_the_page_is_one_file(built: str) -> None:
    assert unpacked(built, "module") == MODULE
    assert "<!-- " not in built.split("<script")[0].split("</style>")[1]
    # it loads nothing: the only addresses are those that it makes itself
    assert not re.findall(r'(?:src|href)="(?!data:)[^"]*"', built)


def test_the_page_is_made_the_same_twice(built: str) -> None:
    assert make_page.built(MODULE) == built


def test_each_source_stands_in_it(built: str) -> None:
    sources = {path.relative_to(TOP / "web").as_posix() for path in (TOP / "web").glob("*/*.js")}
    marks = set(re.findall(r"^// (\w+/\w+\.js)$", built, re.M))
    assert marks == {name for name in sources if not name.startswith(("tests/", "package/"))}
    for name in marks:
        text = (TOP / "web" / name).read_text(encoding="utf-8")
        assert "</script" not in text
        # the last function stands there letter for letter
        assert text.rpartition("\n\n")[2].replace("\nexport ", "\n") in built


def test_a_page_says_that_it_wants_javascript(built: str) -> None:
    assert re.search(r"<noscript>.*JavaScript.*</noscript>", built)


def test_numbers_and_words_are_those_of_the_package(built: str) -> None:
    tables = json.loads(element(built, "tables"))
    for number, message in {**FAULTS, **REFUSALS}.items():
        kind = "fault" if number in FAULTS else "refusal"
        told = {"kind": kind, "when": message.when, "advice": message.advice}
        assert tables["messages"][str(number)] == told
    assert set(tables["words"]) == {"target", *WORDS}
    assert tables["words"]["vb"]["counts"] is None and tables["words"]["raster"]["counts"] == [3, 4]
    assert (tables["limits"], tables["actors"]) == (DEVICE["limits"], DEVICE["actors"])
    alpha = tables["words"]["clearc"]["arguments"][3]
    assert (alpha["name"], alpha["range"], alpha["values"]) == ("alpha", "0 to 255", {})
    assert (alpha["least"], alpha["most"]) == (0, 255)
    assert not alpha["butZero"] and not alpha["isContext"]
    assert tables["words"]["raster"]["arguments"][3]["butZero"]
    assert tables["words"]["exec"]["arguments"][0]["isContext"]
    assert tables["defaults"]["raster"] == "3 0 0" and tables["defaults"]["blend"] == "0 4 15"
    named = {
        (word["name"], it["name"].split(".")[-1]): it["values"]
        for word in tables["words"].values()
        for it in word["arguments"]
        if it["values"]
    }
    assert named["ds", "depth_func"]["2"] == named["ds", "stencil_func"]["2"] == "LESS"
    assert (
        named["ds", "stencil_pass_op"]["8"] == "DECR" and named["blend", "logic_op"]["10"] == "XOR"
    )
    assert (
        named["raster", "cull_mode"]["3"] == "BACK" and named["blend", "write_mask"]["4"] == "BLUE"
    )
    assert named["topology", "topology"] == {"4": "TRIANGLELIST", "5": "TRIANGLESTRIP"}
    assert len(named) == 9
    assert tables["words"]["vb"]["arguments"][0]["unit"] == [65_536, "pixels"]
    assert "unit" not in tables["words"]["pixel"]["arguments"][0]
    actors = {name: word["actors"] for name, word in tables["words"].items()}
    assert (actors["target"], actors["vb"]) == ("line 1", "i, d0 to d7")
    assert (actors["finish"], actors["exec"]) == ("d0 to d7", "i")


def test_the_menu(built: str) -> None:
    menu = json.loads(unpacked(built, "gallery"))
    names = [it["name"] for it in menu]
    assert len(names) == len(set(names)) and make_page.OPENING in names
    for entry in menu:
        if entry["group"] != "first steps":
            assert (DATA / f"{entry['name']}.txt").read_text(encoding="ascii") == entry["text"]
    # (each script of the data folder that is no width has its place)
    top = {path.stem for path in DATA.glob("*.txt") if not path.stem.startswith("width-")}
    assert top <= set(names)


@pytest.mark.parametrize("text", ["target 1 1\n", "</script><!-- \\u003c &lt; ä\n", ""])
def test_a_page_with_a_script(built: str, text: str) -> None:
    once = page.with_script(built, "</title> & a", text)
    assert json.loads(element(once, "opening")) == {"name": "</title> & a", "text": text}
    assert "<title>&lt;/title&gt; &amp; a - Yuzuratchet</title>" in once
    again = page.with_script(once, "b", "c")
    assert again == page.with_script(built, "b", "c")


def test_view(built_file: Path, tmp_path: Path, capsys: pytest.CaptureFixture[str]) -> None:
    script, out = tmp_path / "scene.txt", tmp_path / "out.html"
    script.write_bytes(b"target 1 1\ni \xff\n")
    assert main(["view", str(script), "-o", str(out), "--page", str(built_file)]) == 0
    assert capsys.readouterr().out == f"{out}: to be opened in a browser\n"
    opening = json.loads(element(out.read_text(encoding="utf-8"), "opening"))
    assert opening == {"name": "scene.txt", "text": "target 1 1\ni \ufffd\n"}


def test_view_writes_beside_its_user(
    built_file: Path, tmp_path: Path, monkeypatch: pytest.MonkeyPatch
) -> None:
    monkeypatch.chdir(tmp_path)
    monkeypatch.setenv(page.VARIABLE, str(built_file))
    assert main(["view", str(DATA / "fan.txt")]) == 0
    assert (tmp_path / "fan.html").is_file()


def test_a_page_that_is_not_there(
    tmp_path: Path, monkeypatch: pytest.MonkeyPatch, capsys: pytest.CaptureFixture[str]
) -> None:
    with pytest.raises(PageMissing, match="it was named"):
        page.find_page(tmp_path / "x.html")
    monkeypatch.setenv(page.VARIABLE, str(tmp_path / "y.html"))
    with pytest.raises(PageMissing, match=f"{page.VARIABLE} names it"):
        page.find_page()
    monkeypatch.delenv(page.VARIABLE)
    monkeypatch.setattr(page, "repository", lambda: None)
    with pytest.raises(PageMissing, match="no built page is found"):
        page.find_page()
    assert main(["view", str(DATA / "fan.txt"), "-o", str(tmp_path / "z.html")]) == 2
    assert "tools/make_page.py" in capsys.readouterr().err


def test_another_file_is_no_page(tmp_path: Path) -> None:
    path = tmp_path / "x.html"
    path.write_text("<title>x</title>")
    words = ["view", str(DATA / "fan.txt"), "-o", str(tmp_path / "z.html"), "--page", str(path)]
    assert main(words) == 2 and not (tmp_path / "z.html").exists()


def test_a_missing_page_is_told_before_the_script_is_read(
    tmp_path: Path, capsys: pytest.CaptureFixture[str]
) -> None:
    for page_file in (tmp_path / "none.html", Path(__file__)):
        words = ["view", str(tmp_path / "no-such-script.txt"), "--page", str(page_file)]
        assert main(words) == 2
        err = capsys.readouterr().err
        assert (
            "no-such-script" not in err and "With --static a page is written that needs none" in err
        )


def test_labels_are_put_into_the_page(built_file: Path, tmp_path: Path) -> None:
    scene = Scene(2, 2)
    scene.label("floor")
    scene.immediate.flush()
    script, out = tmp_path / "scene.txt", tmp_path / "out.html"
    scene.save(script)
    assert main(["view", str(script), "-o", str(out), "--page", str(built_file)]) == 0
    opening = json.loads(element(out.read_text(encoding="utf-8"), "opening"))
    assert opening["labels"] == [[2, "floor"]]


# ---- the page that only shows


class Read(HTMLParser):
    """What stands in a page: its tags, its texts, and the source of its picture."""

    def __init__(self, text: str) -> None:
        super().__init__()
        self.tags: list[str] = []
        self.open: list[str] = []
        self.texts: list[tuple[str, str]] = []
        self.picture: dict[str, str | None] = {}
        self.marked: list[str] = []
        self.feed(text)

    def handle_starttag(self, tag: str, attrs: list[tuple[str, str | None]]) -> None:
        self.tags.append(tag)
        if tag == "img":
            self.picture = dict(attrs)
        if tag not in ("meta", "img"):
            self.open.append(f"{tag}.{dict(attrs).get('class', '')}")

    def handle_endtag(self, tag: str) -> None:
        assert self.open.pop().split(".")[0] == tag

    def handle_data(self, data: str) -> None:
        self.texts.append((self.open[-1] if self.open else "", data))

    @property
    def pixels(self) -> np.ndarray:  # type: ignore[type-arg]
        source = self.picture["src"]
        assert source and source.startswith("data:image/png;base64,")
        return decode(base64.b64decode(source.partition(",")[2]))


def shown(script: bytes, program: Path, *words: str, folder: Path) -> Read:
    """The page that only shows a script."""
    path, out = folder / "scene.txt", folder / "page.html"
    path.write_bytes(script)
    words = ("view", str(path), "--static", "-o", str(out), "--program", str(program), *words)
    assert main(words) == 0
    text = out.read_text(encoding="utf-8")
    assert len(text.encode()) < 100_000
    read = Read(text)
    assert not read.open and not {"script", "link", "iframe"} & set(read.tags)
    return read


def test_a_static_page(program: Path, tmp_path: Path) -> None:
    """The picture in whole squares, answers, script, and the table of a pixel."""
    script = (DATA / "rows" / "counted-triangles.txt").read_bytes()
    read = shown(script, program, "--pixel", "0,0", "--pixel", "1,1", folder=tmp_path)
    result = run(script, program=program)
    wanted = result.image.copy()
    wanted[..., 3] = 255
    assert (read.pixels == wanted).all()
    width = int(read.picture["width"] or 0)
    assert width % wanted.shape[1] == 0 and width > 100
    text = "".join(data for _, data in read.texts)
    assert result.text in text and "image-rendering: pixelated" in text
    assert "pixel (0, 0) holds colour" in text and "pixel (1, 1) holds colour" in text
    for line in script.decode().splitlines():
        assert line[:80] in text


def test_a_static_page_of_a_refused_script(program: Path, tmp_path: Path) -> None:
    script = b"target 4 4\ni clearc 1 2 3 4\ni pixel 0 0\ni draw 3 0\ni clearc 9 9 9 9\n"
    read = shown(script, program, "--pixel", "2,2", folder=tmp_path)
    assert read.pixels.tolist() == [[[1, 2, 3, 255]] * 4] * 4  # (the lines before it)
    text = "".join(data for _, data in read.texts)
    assert "5 lines; line 4 is refused (7)" in text and "as line 3 leaves it" in text
    assert "scene.txt:4:3: refusal 7: draw: no topology is set" in text
    assert (
        "what to do" in text
        and "refused 4 7" in text
        and "pixel (2, 2) holds colour 1 2 3 4" in text
    )
    assert ("span.refused", "i draw 3 0") in read.texts


def test_a_static_page_of_a_script_with_a_fault(program: Path, tmp_path: Path) -> None:
    read = shown(b"target 2 1\ni clearc 1 2 3 4\ni <b>&\n", program, folder=tmp_path)
    assert read.pixels.tolist() == [[[1, 2, 3, 255]] * 2]
    assert ("span.refused", "i <b>&") in read.texts
    assert not shown(b"nonsense\n", program, folder=tmp_path).picture


def test_a_static_page_of_much_is_small(fast_program: Path, tmp_path: Path) -> None:
    """A picture without any order, many answers, long lines and a long history."""
    chance = random.Random(1)
    scene = Scene(160, 120)
    corners = []
    for y in range(120):
        for x in range(160):
            colour = tuple(chance.randrange(256) for _ in range(4))
            corners += rectangle(x, y, x + 1, y + 1, colour=colour)
    draw_triangles(scene.immediate, corners)
    for y in range(60):
        scene.immediate.pixels(0, y, 20, y + 1)
        scene.label(f"row {y}")
    scene.immediate.om_set_depth_stencil(DepthStencilState(depth_enable=False))
    for _ in range(500):
        draw_triangles(scene.immediate, rectangle(0, 0, 1, 1, colour=[chance.randrange(256)] * 4))
    script = scene.script().encode()
    read = shown(script, fast_program, "--pixel", "0,0", "--pixel", "3,3", folder=tmp_path)
    text = "".join(data for _, data in read.texts)
    assert "lines more" in text and "shown at 1/" in text


def test_each_script_of_the_gallery_is_shown(fast_program: Path, tmp_path: Path) -> None:
    for path in sorted(DATA.glob("*.txt")):
        if not path.stem.startswith(("width-", "large")):
            shown(path.read_bytes(), fast_program, folder=tmp_path)


def test_labels_stand_on_a_static_page(program: Path, tmp_path: Path) -> None:
    scene = Scene(2, 2)
    with scene.label("the <floor>"):
        draw_triangles(scene.immediate, rectangle(0, 0, 2, 2))
    scene.immediate.flush()
    scene.save(tmp_path / "scene.txt")
    read = shown(scene.script().encode(), program, "--pixel", "1,1", folder=tmp_path)
    assert [data for of, data in read.texts if of == "span.label"] == ["the <floor>", "-"]
    assert any("the <floor>: draw, triangle" in data for _, data in read.texts)


@pytest.mark.parametrize(
    "words", [["--pixel", "2,0"], ["--pixel", "x"], ["--pixel", "1"], ["--pixel", "-1,0"]]
)
def test_no_such_pixels(
    words: list[str], program: Path, tmp_path: Path, capsys: pytest.CaptureFixture[str]
) -> None:
    path = tmp_path / "scene.txt"
    path.write_text("target 2 2\n")
    call = [
        "view",
        str(path),
        "--static",
        "-o",
        str(tmp_path / "x.html"),
        "--program",
        str(program),
    ]
    try:
        status = main([*call, *words])
    except SystemExit as error:
        status = error.code  # type: ignore[assignment]
    assert status == 2 and capsys.readouterr().err
    assert main(["view", str(path), "--pixel", "0,0"]) == 2
