"""The triangles of a draw: which vertices each has."""

from __future__ import annotations

from typing import Sequence

from .limits import STRIP_CUT
from .states import PrimitiveTopology

Triple = tuple[int, int, int]


def strips(places: Sequence[int], cuts: bool) -> list[Sequence[int]]:
    """The strips of a draw; with ``cuts`` the index 65,535 ends one, and the next begins behind."""
    if not cuts or STRIP_CUT not in places:
        return [places]
    found: list[list[int]] = [[]]
    for place in places:
        if place == STRIP_CUT:
            found.append([])
        else:
            found[-1].append(place)
    return list(found)


def triangle_count(places: Sequence[int], topology: int, cuts: bool) -> int:
    """How many triangles the places make; places left over make none."""
    if topology == PrimitiveTopology.TRIANGLELIST:
        return len(places) // 3
    return sum(max(0, len(strip) - 2) for strip in strips(places, cuts))


def triangles(places: Sequence[int], topology: int, cuts: bool) -> list[Triple]:
    """The places of each triangle, the leading vertex first, which gives its colour.

    ``cuts`` says that the places are indices, of which 65,535 cuts a strip.
    """
    if topology == PrimitiveTopology.TRIANGLELIST:
        whole = len(places) - len(places) % 3
        return [(places[at], places[at + 1], places[at + 2]) for at in range(0, whole, 3)]
    found = []
    for strip in strips(places, cuts):
        for at in range(len(strip) - 2):
            first, second, third = strip[at : at + 3]
            found.append((first, second, third) if at % 2 == 0 else (first, third, second))
    return found
