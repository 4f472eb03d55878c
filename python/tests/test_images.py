"""Images, and which of their pixels differ."""

from __future__ import annotations

import hashlib
from pathlib import Path

import numpy as np
import pytest

from yuzuratchet.difference import MARK, Tolerance, compare, compare_planes, marked
from yuzuratchet.errors import ArgumentError, ImageError
from yuzuratchet.images import Picture, decode, encode, load, opaque, save, scaled
from yuzuratchet.planes import Planes, depth_picture, stencil_picture

# two pixels, blue first, as the image's format says
TGA = bytes.fromhex("000002000000000000000000020001002028" + "0302010407060508")


def test_tga() -> None:
    assert decode(TGA).tolist() == [[[1, 2, 3, 4], [5, 6, 7, 8]]]


def test_rows_come_from_the_top() -> None:
    tga = bytes.fromhex("000002000000000000000000010002002028" + "0302010407060508")
    assert decode(tga).tolist() == [[[1, 2, 3, 4]], [[5, 6, 7, 8]]]


def test_png_keeps_colours_where_alpha_is_0(tmp_path: Path) -> None:
    pixels = np.array([[[1, 2, 3, 0], [4, 5, 6, 255]]], dtype=np.uint8)
    assert decode(encode(pixels)).tolist() == pixels.tolist()
    save(pixels, tmp_path / "kept.png", keep_alpha=True)
    assert load(tmp_path / "kept.png").tolist() == pixels.tolist()
    save(pixels, tmp_path / "opaque.png")
    assert (
        load(tmp_path / "opaque.png").tolist()
        == opaque(pixels).tolist()
        == [[[1, 2, 3, 255], [4, 5, 6, 255]]]
    )


def test_scaled() -> None:
    pixels = decode(TGA)
    assert scaled(pixels, 2).tolist() == [[[1, 2, 3, 4]] * 2 + [[5, 6, 7, 8]] * 2] * 2
    whole = opaque(pixels)
    assert scaled(scaled(whole, 4), 0.25).tolist() == whole.tolist()


@pytest.mark.parametrize(
    ("data", "why"),
    [
        (b"", "it is empty, as the program leaves it"),
        (b"no image", "no image that can be read"),
        (TGA[:-3], "no image that can be read"),
    ],
)
def test_no_images(data: bytes, why: str) -> None:
    with pytest.raises(ImageError, match=f"^OUT.tga.*{why}"):
        decode(data, "OUT.tga")


def test_no_such_kind_of_file(tmp_path: Path) -> None:
    with pytest.raises(ImageError, match="can't be written"):
        save(decode(TGA), tmp_path / "x.nothing")


def test_difference() -> None:
    a = np.zeros((8, 10, 4), dtype=np.uint8)
    b = a.copy()
    assert compare(a, b) is None
    b[2, 3, 0] = 1
    b[5, 7, 3] = 9
    found = compare(a, b)
    assert found is not None
    assert (found.count, found.box, list(found.places())) == (2, (3, 2, 8, 6), [(3, 2), (7, 5)])
    assert found.text == (
        "2 of 80 pixels differ, in columns 3 to 7 and rows 2 to 5, at most by 1 in red, 9 in alpha"
    )
    assert found.largest == (1, 0, 0, 9)
    picture = marked(a, found)
    assert tuple(picture[2, 3]) == tuple(picture[5, 7]) == MARK
    assert picture.shape == a.shape and (picture[..., 3] == 255).all()


def test_what_is_let_pass() -> None:
    a = np.zeros((2, 2, 4), dtype=np.uint8)
    b = a.copy()
    b[0, 0, 0], b[1, 1, 2] = 3, 255
    found = compare(a, b, 3)
    assert found is not None and found.count == 1 and found.largest == (0, 0, 255, 0)
    assert compare(a, b, 255) is None


def test_planes_that_differ() -> None:
    depth = np.array([[1, 2], [3, 16_777_215]], dtype=np.uint32)
    stencil = np.array([[0, 1], [2, 255]], dtype=np.uint8)
    a, b = Planes(depth, stencil), Planes(depth.copy(), stencil.copy())
    assert compare_planes(a, b) == {}
    b.depth[1, 1], b.stencil[0, 0] = 0, 255
    found = compare_planes(a, b)
    assert found["depth"].largest == (16_777_215,) and found["stencil"].largest == (255,)
    assert found["depth"].text == (
        "1 of 4 pixels differ, in columns 1 to 1 and rows 1 to 1, at most by 16777215"
    )
    assert list(compare_planes(a, b, Tolerance(depth=16_777_215))) == ["stencil"]


def test_pictures_of_planes() -> None:
    """Worked out by hand: depths from 255 down to 40, and 0 where nothing is; hues as the page has them."""
    depth = np.array([[100, 300, 200, 16_777_215]], dtype=np.uint32)
    shown = depth_picture(depth)
    assert shown[0].tolist() == [[it, it, it, 255] for it in (255, 40, 148, 0)]
    nothing = np.full((1, 1), 16_777_215, dtype=np.uint32)
    assert depth_picture(nothing).tolist() == [[[0, 0, 0, 255]]]
    colours = stencil_picture(np.arange(256, dtype=np.uint8)[None])[0]
    assert colours[0].tolist() == [0, 0, 0, 255] and colours[1].tolist() == [66, 235, 118, 255]
    assert len(set(map(tuple, colours.tolist()))) > 200


def test_digests_of_planes() -> None:
    depth = np.array([[1, 2]], dtype=np.uint32)
    stencil = np.array([[3, 4]], dtype=np.uint8)
    wanted = (bytes([1, 0, 0, 0, 2, 0, 0, 0]), bytes([3, 4]))
    assert Planes(depth, stencil).digests == tuple(hashlib.sha256(it).hexdigest() for it in wanted)


@pytest.mark.parametrize("name", ["x.jpg", "x.webp", "x.gif", "x", ".png"])
def test_kinds_that_change_pixels(name: str, tmp_path: Path) -> None:
    with pytest.raises(ImageError, match="can't be written: its suffix"):
        save(decode(TGA), tmp_path / name)
    assert not (tmp_path / name).exists()


@pytest.mark.parametrize("suffix", [".png", ".tga", ".tif", ".tiff", ".PNG"])
def test_kinds_that_keep_each_pixel(suffix: str, tmp_path: Path) -> None:
    pixels = np.random.default_rng(1).integers(0, 256, (5, 7, 4), dtype=np.uint8)
    save(pixels, tmp_path / f"x{suffix}", keep_alpha=True)
    assert (load(tmp_path / f"x{suffix}") == pixels).all()


@pytest.mark.parametrize("scale", [0, -1, float("nan"), float("inf"), 1e9])
def test_no_scales(scale: float, tmp_path: Path) -> None:
    with pytest.raises(ArgumentError, match="^scale: "):
        save(decode(TGA), tmp_path / "x.png", scale=scale)
    with pytest.raises(TypeError, match="^scale: "):
        save(decode(TGA), tmp_path / "x.png", scale="2")  # type: ignore[arg-type]


def test_other_sizes() -> None:
    with pytest.raises(ImageError, match="2 by 1 and 1 by 2 pixels"):
        compare(np.zeros((1, 2, 4), np.uint8), np.zeros((2, 1, 4), np.uint8))


def test_an_image_shows_itself_in_a_notebook() -> None:
    pixels = decode(TGA)
    assert isinstance(pixels, Picture) and isinstance(pixels[:, :1], Picture)
    shown = decode(pixels._repr_png_() or b"")
    # opaque, and in squares that can be seen
    assert shown.shape == (128, 256, 4)
    assert shown[0, 0].tolist() == [1, 2, 3, 255] and shown[0, 255].tolist() == [5, 6, 7, 255]
    for other in (pixels[..., 0], pixels == pixels, pixels.astype(np.uint32), pixels[:0]):
        assert other._repr_png_() is None
