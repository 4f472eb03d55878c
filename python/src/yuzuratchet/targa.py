"""The image's file, byte by byte: uncompressed Truevision TGA, four bytes a pixel, rows from the top.

What is here needs no numpy. Pixels are read by :mod:`yuzuratchet.images`.
"""

from __future__ import annotations

from typing import Final

from .limits import TARGET_SIDE

HEADER_SIZE: Final = 18
"""Bytes of an image before its pixels."""


def target_sides(script: bytes) -> tuple[int, int] | None:
    """Width and height by the first line of a script; None where it names no target that is taken."""
    words = script[:64].split(b"\n", 1)[0].split(b" ")
    sides = [int(it) if it.isdigit() and len(it) <= 4 else 0 for it in words[1:]]
    if words[0] != b"target" or len(sides) != 2:
        return None
    if not all(0 < it <= TARGET_SIDE for it in sides):
        return None
    return sides[0], sides[1]


def image_header(width: int, height: int) -> bytes:
    """The bytes of an image before its pixels."""
    sides = width.to_bytes(2, "little") + height.to_bytes(2, "little")
    return bytes([0, 0, 2, *[0] * 9]) + sides + bytes([32, 0x28])


def image_size(width: int, height: int) -> int:
    """How many bytes the image of a target has."""
    return HEADER_SIZE + 4 * width * height


def misfit(image: bytes, sides: tuple[int, int] | None) -> str | None:
    """Why bytes are not the image of a target of these sides, or None where they can be."""
    if not image:
        return "no image"
    if sides is None or image[:HEADER_SIZE] != image_header(*sides):
        return "another image than was asked for"
    if len(image) != image_size(*sides):
        return "a part of an image"
    return None
