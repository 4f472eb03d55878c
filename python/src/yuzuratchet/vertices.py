"""Vertices, from what people write to the seven numbers of each: one by one, or many at once by numpy.

Both ways give the same numbers; :mod:`yuzuratchet.units` has the rules.
"""

from __future__ import annotations

from functools import lru_cache
from operator import itemgetter
from typing import TYPE_CHECKING, Any, Iterable, Sequence, Union, overload

from .errors import ArgumentError
from .limits import DEEPEST, FARTHEST_PIXEL, SUBPIXELS
from .line import Line
from .units import UNSURE, Colour, Number, rgba, stored_depth, subpixels
from .words import WORDS

if TYPE_CHECKING:  # (numpy is asked for by whoever has many vertices)
    import numpy as np
    import numpy.typing as npt

    Numbers = npt.NDArray[np.int64]

Vertex = Union[tuple[Number, Number, Number, Colour], Sequence[Any]]
"""``(x, y, depth, colour)``: pixels from the upper left, y downwards, then depth and colour."""

MANY = 64
"""From so many vertices on they are taken by numpy, where it is installed."""


class Vertices(Sequence[Vertex]):
    """Vertices as the device takes them, in an array; as a sequence each is ``(x, y, depth, colour)``.

    :func:`yuzuratchet.meshes.mesh` and :func:`yuzuratchet.camera.project` give them. ``numbers`` has
    a row of seven whole numbers for each: x and y in 1/65,536 of a pixel, the stored depth, red,
    green, blue and alpha.
    """

    def __init__(self, numbers: Numbers) -> None:
        if numbers.ndim != 2 or numbers.shape[1] != 7:
            raise ArgumentError("numbers", f"rows of 7 are wanted, and not {numbers.shape}")
        self.numbers = numbers

    def __len__(self) -> int:
        return len(self.numbers)

    @overload
    def __getitem__(self, place: int) -> Vertex:
        ...

    @overload
    def __getitem__(self, place: slice) -> Vertices:
        ...

    def __getitem__(self, place: int | slice) -> Vertex | Vertices:
        if isinstance(place, slice):
            return Vertices(self.numbers[place])
        x, y, depth, *colour = self.numbers[place].tolist()
        return (x / SUBPIXELS, y / SUBPIXELS, depth, tuple(colour))

    def __add__(self, other: Iterable[Vertex]) -> Vertices:
        import numpy as np

        return Vertices(np.concatenate([self.numbers, _rows(other)]))

    def __radd__(self, other: Iterable[Vertex]) -> Vertices:
        import numpy as np

        return Vertices(np.concatenate([_rows(other), self.numbers]))

    def __repr__(self) -> str:
        return f"<Vertices: {len(self)}>"


def _rows(vertices: Iterable[Vertex]) -> Numbers:
    import numpy as np

    if isinstance(vertices, Vertices):
        return vertices.numbers
    return np.array(one_by_one(vertices), dtype=np.int64).reshape(-1, 7)


def vertex_line(actor: str, vertices: Iterable[Vertex]) -> Line:
    """The line by which a context sets some vertices.

    Raises :class:`~yuzuratchet.errors.ArgumentError` with the number of the vertex, and coordinates
    in pixels as they were given.
    """
    given: Sequence[Vertex] = vertices if isinstance(vertices, Vertices) else list(vertices)
    rows = given.numbers if isinstance(given, Vertices) else _by_numpy(given)
    if rows is not None and can_be_spelled(rows):
        return Line.of_ints(actor, "vb", rows.ravel().tolist(), is_checked=True)
    numbers = one_by_one(given) if rows is None else rows.ravel().tolist()
    place = WORDS["vb"].misfit(tuple(numbers))
    if place is not None:
        raise ArgumentError("vertices", where_outside(place, numbers))
    return Line.of_ints(actor, "vb", numbers)


def one_by_one(vertices: Iterable[Vertex]) -> list[int]:
    """The numbers of some vertices, seven each, one behind the other."""
    numbers: list[int] = []
    for place, vertex in enumerate(vertices):
        try:
            numbers += _numbers_of(vertex)
        except ArgumentError as error:
            raise type(error)(error.argument, f"{error.message} (vertex {place})") from error
    return numbers


def where_outside(place: int, numbers: Sequence[int]) -> str:
    """Which coordinate or depth of a vertex lies outside of what the device takes, in pixels."""
    vertex, at = divmod(place, 7)
    if at > 1:
        return f"the depth of vertex {vertex} is {numbers[place]}, and not in 0 to {DEEPEST}"
    pixels, most = f"{numbers[place] / SUBPIXELS:.12g} pixels", FARTHEST_PIXEL
    return f"{'xy'[at]} of vertex {vertex} is {pixels}, and not in -{most} to {most}"


def can_be_spelled(rows: Numbers) -> bool:
    """Whether a script can have these numbers."""
    import numpy as np

    # (each range has a power of two of numbers: counted from its least they have no bit above the others)
    least, spans = _ranges()
    bits = np.bitwise_or.reduce(rows - least, axis=0, initial=0).tolist()
    return all(0 <= it <= span for it, span in zip(bits, spans))


@lru_cache(maxsize=None)
def _ranges() -> tuple[Numbers, list[int]]:
    """The least of each number of a vertex, and by how much the greatest is above it."""
    import numpy as np

    ranges = WORDS["vb"].arguments
    return np.array([it.least for it in ranges]), [it.most - it.least for it in ranges]


def _numbers_of(vertex: Vertex) -> tuple[int, ...]:
    """The seven numbers of a vertex in a script."""
    try:
        x, y, depth, colour = vertex
    except (TypeError, ValueError) as error:
        raise ArgumentError("vertices", f"{vertex!r} is not (x, y, depth, colour)") from error
    return (subpixels(x, "x"), subpixels(y, "y"), stored_depth(depth), *rgba(colour))


def _by_numpy(given: Sequence[Vertex]) -> Numbers | None:
    """The rows of many vertices; None where there are few or no numpy, or where something stands that
    only the other way takes, or tells what is wrong with."""
    if len(given) < MANY:
        return None
    try:
        import numpy as np

        if set(map(len, given)) != {4}:
            return None
        xs, ys, depths, colours = (list(map(itemgetter(at), given)) for at in range(4))
    except (ImportError, TypeError, KeyError):
        return None
    places, channels = place_numbers(xs, ys, depths), _channels(colours)
    if places is None or channels is None:
        return None
    found: Numbers = np.concatenate([places, channels], axis=1)
    return found


def _channels(colours: list[Colour]) -> Numbers | None:
    """A row of four numbers for each colour, each distinct one of which is read once."""
    import numpy as np

    hashable = colours
    if list in set(map(type, colours)):
        hashable = [tuple(it) if isinstance(it, list) else it for it in colours]
    try:
        distinct = {colour: place for place, colour in enumerate(dict.fromkeys(hashable))}
        table = np.array([rgba(colour) for colour in distinct], dtype=np.int64)
    except (TypeError, ArgumentError):
        return None
    places = np.fromiter(map(distinct.__getitem__, hashable), np.int64, len(hashable))
    found: Numbers = table[places]
    return found


def place_numbers(
    xs: Sequence[Number], ys: Sequence[Number], depths: Sequence[Number]
) -> Numbers | None:
    """A row of x, y and depth for each place; None where something isn't a plain number in range."""
    import numpy as np

    columns = [_subpixels(xs), _subpixels(ys), _depths(depths)]
    found = [it for it in columns if it is not None]
    return np.stack(found, axis=1) if len(found) == len(columns) else None


def _floats(values: Sequence[Number]) -> tuple[npt.NDArray[np.float64], set[type]] | None:
    """Some plain numbers as an array, and which of ``int`` and ``float`` they are; None where one is
    another, or too large."""
    import numpy as np

    kinds = set(map(type, values))
    wholes = {it for it in kinds if it is int or issubclass(it, np.integer)}
    if kinds - wholes - {float, np.float64, np.float32, np.float16}:
        return None
    try:
        found = np.fromiter(values, np.float64, len(values))
    except OverflowError:
        return None
    if not (np.abs(found) < 2**37).all():
        return None
    return found, {int if it in wholes else float for it in kinds}


def _subpixels(values: Sequence[Number]) -> Numbers | None:
    import numpy as np

    plain = _floats(values)
    # (exact, since the factor is a power of two; ties go to the even one)
    return None if plain is None else np.rint(plain[0] * SUBPIXELS).astype(np.int64)


def _depths(values: Sequence[Number]) -> Numbers | None:
    """Stored depths: whole numbers as they are, others scaled, ties upwards."""
    import numpy as np

    plain = _floats(values)
    if plain is None:
        return None
    found, kinds = plain
    if len(kinds) < 2:
        return found.astype(np.int64) if kinds == {int} else _scaled_depths(found)
    are_whole = np.fromiter((not isinstance(it, (float, np.floating)) for it in values), np.bool_)
    scaled = _scaled_depths(np.where(are_whole, 0.0, found))
    return None if scaled is None else np.where(are_whole, found.astype(np.int64), scaled)


def _scaled_depths(values: npt.NDArray[np.float64]) -> Numbers | None:
    import numpy as np

    if not ((values >= 0) & (values <= 1)).all():
        return None
    scaled = values * DEEPEST + 0.5
    found: Numbers = np.floor(scaled).astype(np.int64)
    part = scaled - found
    unsure = (part < UNSURE) | (part > 1 - UNSURE)
    distinct, places = np.unique(values[unsure], return_inverse=True)
    if distinct.size:
        exact = np.array([stored_depth(float(it)) for it in distinct], dtype=np.int64)
        found[unsure] = exact[places]
    return found
