"""Scripts of conformance/ on depths, stencils, logic operations, write masks and clears."""

from __future__ import annotations

from collections.abc import Sequence
from itertools import permutations

from conformance_scripts import BLUE, FACE, GREEN, GRID, RED, UNTESTED, UNWRITTEN, Cases, Pen, places, tests
from yuzuratchet.limits import DEEPEST, SUBPIXELS

FUNCS = ("never", "less", "equal", "less-equal", "greater", "not-equal", "greater-equal", "always")
OPERATIONS = ("keep", "zero", "replace", "incr-sat", "decr-sat", "invert", "incr", "decr")
LOGIC = (
    *("clear", "set", "copy", "copy-inverted", "noop", "invert", "and", "nand", "or", "nor", "xor", "equiv"),
    *("and-reverse", "and-inverted", "or-reverse", "or-inverted"),
)
MASKS = {
    number: "-".join(name for bit, name in enumerate(("red", "green", "blue", "alpha")) if number >> bit & 1) or "none"
    for number in range(16)
}

STORED = 1000
RELATIONS = {"nearer": STORED - 1, "equal": STORED, "farther": STORED + 1}
THAN = {"nearer": "nearer than", "equal": "equal to", "farther": "farther than"}


def depth_functions() -> Cases:
    """Each comparison with a depth that is nearer, equal, farther; what is written; no test; the ends."""
    for func, name in enumerate(FUNCS, 1):
        for relation, depth in RELATIONS.items():
            pen = Pen()
            pen.prepare(STORED)
            pen.add("ds", *tests(func=func))
            pen.whole(depth, GREEN)
            yield pen.case(f"{name}-{relation}", f"{name}: a depth that is {THAN[relation]} the stored one")
        pen = Pen()
        pen.prepare(STORED)
        pen.add("ds", *tests(on=UNWRITTEN, func=func))
        pen.whole(STORED - 1, GREEN)
        yield pen.case(f"{name}-no-write", f"{name}: a nearer depth that isn't to be written")
        pen = Pen()
        pen.add("ds", *tests(on=UNTESTED, func=func))
        pen.whole(STORED, GREEN)
        yield pen.case(f"{name}-test-off", f"{name}, while the test is off: drawn, and no depth is written")
    for func in (2, 4, 5, 7):
        for stored, depth in ((0, 0), (DEEPEST, DEEPEST), (0, DEEPEST), (DEEPEST, 0)):
            pen = Pen()
            pen.prepare(stored)
            pen.add("ds", *tests(func=func))
            pen.whole(depth, GREEN)
            yield pen.case(
                f"{FUNCS[func - 1]}-{depth}-over-{stored}", f"{FUNCS[func - 1]}: depth {depth} over {stored}"
            )


RANGES = {
    "1": (0, 1), "16": (0, 16), "1000": (0, 1000), "half": (0, DEEPEST // 2), "whole": (0, DEEPEST),
    "16-from-the-deepest": (DEEPEST - 16, DEEPEST), "16-in-the-middle": (DEEPEST // 2, DEEPEST // 2 + 16),
}  # fmt: skip


def depth_precision() -> Cases:
    """Planes of depths: rising by few units and by many, in x, in y and across, on large and on steep triangles."""
    square = ((0, 0), (16, 0), (0, 16)), ((16, 0), (16, 16), (0, 16))
    for name, (low, high) in RANGES.items():
        ways = {"x": (low, high, low, high), "y": (low, low, high, high), "back-in-x": (high, low, high, low)}
        ways |= {"both": (low, (low + high) // 2, (low + high) // 2, high)}
        for way, (a, b, c, d) in ways.items():
            pen = Pen(16, 16)
            pen.add("ds", *tests(func=8))
            pen.triangles(places(*square[0]), (a, b, c))
            pen.triangles(places(*square[1]), (b, d, c), (GREEN,))
            yield pen.case(f"rise-of-{name}-{way}", f"a plane of depths from {low} to {high}, rising in {way}")
    yield from steep_ones()


STEEP = {
    "small": ((3.2, 3.1), (5.9, 3.4), (3.6, 5.8)),
    "narrow": ((3.1, 0.2), (4.3, 0.4), (3.6, 15.7)),
    "flat": ((0.2, 3.1), (15.7, 3.6), (0.4, 4.4)),
    "needle": ((0.1, 0.2), (15.8, 15.1), (0.3, 0.9)),
    "large": ((-40.3, -30.2), (50.1, 20.6), (-20.9, 60.7)),
}


def steep_ones() -> Cases:
    """Triangles whose depths go from the nearest to the farthest: with corners on the grid, and beside it, where a
    depth is that of the corners as they were moved."""
    depths = (0, DEEPEST, DEEPEST // 3)
    for name, points in STEEP.items():
        for at, turned in enumerate(permutations(depths)):
            for grid, corners in (("", moved(points)), ("-beside-the-grid", places(*points))):
                pen = Pen(16, 16)
                pen.add("ds", *tests(func=8))
                pen.triangles(corners, turned)
                where = "beside" if grid else "on"
                title = f"depths {turned} at corners {where} the grid, of a triangle that is {name}"
                yield pen.case(f"steep-{name}-{at}{grid}", title)


def moved(points: Sequence[tuple[float, float]]) -> tuple[tuple[int, int], ...]:
    """Places on the grid of 1/256 pixel, near some points."""
    return tuple((round(x * 256) * GRID, round(y * 256) * GRID) for x, y in points)


def depth_bias() -> Cases:
    """Biases on one depth: small, large, cut at either end, and behind one another."""
    for bias in (1, -1, 2, -2, 100, -100, 65536, -65536, 8388608, DEEPEST, -DEEPEST, 2**31 - 1, -(2**31)):
        for depth in (0, 1000, 8388607, DEEPEST):
            pen = Pen()
            pen.add("ds", *tests(func=8))
            pen.add("raster", 1, 0, 0, bias)
            pen.whole(depth)
            yield pen.case(f"{depth}-and-{bias}".replace("--", "-minus-"), f"a bias of {bias} on the depth {depth}")
    pen = Pen()
    for depth, (bias, colour) in enumerate(((-2, RED), (-3, GREEN), (1, BLUE))):
        pen.add("raster", 1, 0, 0, bias)
        pen.whole(500 + depth, colour)
    yield pen.case("of-each-draw", "a bias acts on the draws behind it, up to the next one")
    pen = Pen()
    pen.add("ds", *tests(func=3))
    pen.add("raster", 1, 0, 0, 7)
    pen.whole(DEEPEST - 7)
    yield pen.case("before-the-test", "the sum is what is tested")
    pen.add("raster", 1, 0, 0)
    pen = Pen()
    pen.add("raster", 1, 0, 0, 40)
    pen.add("raster", 1, 0, 0)
    pen.whole(500)
    yield pen.case("unset", "three numbers of a raster line unset it")


PATHS = {"stencil-fails": 0, "depth-fails": 1, "both-pass": 2}


def stencil_case(
    name: str, title: str, path: str, operation: int, stored: int, masks: Sequence[int] = (255, 255)
) -> Cases:
    """A script in which an operation acts where the tests end as the path says."""
    pen = Pen()
    pen.prepare(STORED, stored)
    face = [6, 6, 6, 1 if path == "stencil-fails" else 8]
    face[PATHS[path]] = operation
    pen.add("ds", *tests(ref=7, front=face, masks=masks))
    pen.whole(STORED + 1 if path == "depth-fails" else STORED - 1, GREEN)
    yield pen.case(name, title)


def stencil_operations() -> Cases:
    """Each operation in each place, and at the ends of its range."""
    for operation, name in enumerate(OPERATIONS, 1):
        for path in PATHS:
            for stored in (0, 100, 255):
                title = f"{name} on a stencil of {stored}, where {path.replace('-', ' ')}"
                yield from stencil_case(f"{name}-{path}-{stored}", title, path, operation, stored)
    pen = Pen()
    pen.prepare(STORED, 9)
    pen.add("ds", *tests(on=UNTESTED, ref=7, front=(6, 6, 3, 8)))
    pen.whole(STORED + 1, GREEN)
    yield pen.case("depth-test-off", "the depth test passes while it is off, so the third operation acts")
    pen = Pen()
    pen.prepare(STORED, 9)
    numbers = tests(ref=7, front=(3, 3, 3, 1))
    numbers[3] = 0
    pen.add("ds", *numbers)
    pen.whole(STORED - 1, GREEN)
    yield pen.case("stencil-test-off", "nothing changes the stencil while its test is off, and the test passes")


def stencil_functions() -> Cases:
    """Each comparison with a reference that is less, equal, more."""
    for func, name in enumerate(FUNCS, 1):
        for relation, ref in (("less", 99), ("equal", 100), ("more", 101), ("least", 0), ("most", 255)):
            pen = Pen()
            pen.prepare(STORED, 100)
            pen.add("ds", *tests(ref=ref, front=(2, 1, 1, func)))
            pen.whole(STORED - 1, GREEN)
            yield pen.case(f"{name}-reference-{relation}", f"{name}: a reference of {ref} over a stencil of 100")


def masks_and_faces() -> Cases:
    """Read masks, write masks under each operation, and operations of front and back."""
    for mask in (0, 1, 15, 85, 170, 240, 254):
        pen = Pen()
        pen.prepare(STORED, 0b10100101)
        pen.add("ds", *tests(ref=0b11110000, front=(2, 1, 1, 3), masks=(mask, 255)))
        pen.whole(STORED - 1, GREEN)
        yield pen.case(f"read-mask-{mask}", f"165 and 240 compared in bits {mask}")
    for operation, name in enumerate(OPERATIONS, 1):
        for mask in (0, 15, 129):
            title = f"{name} where bits {mask} alone may change"
            yield from stencil_case(
                f"write-mask-{mask}-{name}", title, "both-pass", operation, 0b11001111, masks=(255, mask)
            )
        for back in (False, True):
            pen = Pen()
            pen.prepare(STORED, 100)
            mine, other = (1, 1, operation, 8), (1, 1, 2 if operation != 2 else 6, 8)
            pen.add("ds", *tests(ref=7, front=other if back else mine, back=mine if back else other))
            pen.whole(STORED - 1, GREEN, back)
            side = "back" if back else "front"
            yield pen.case(f"{side}-{name}", f"{name} is an operation of the {side}, which is drawn")
    for func, name in enumerate(FUNCS, 1):
        pen = Pen()
        pen.prepare(STORED, 100)
        pen.add("ds", *tests(ref=99, front=FACE, back=(2, 1, 1, func)))
        pen.whole(STORED - 1, GREEN, back=True)
        yield pen.case(f"back-compares-{name}", f"{name} is the back's comparison, and the front's always")


UNDER, OVER = (0b00110011, 0b11001100, 0b01010101, 0b11110000), (0b01010101, 0b10100101, 0b00001111, 0b11001100)


def logic_operations() -> Cases:
    """Each operation on all pairs of bits, alone and under write masks."""
    for operation, name in enumerate(LOGIC):
        for mask in (15, 7, 9, 2, 0):
            pen = Pen()
            pen.add("ds", *tests(on=UNTESTED))
            pen.whole(colour=UNDER)
            pen.add("blend", 1, operation, mask)
            pen.whole(colour=OVER)
            under = "" if mask == 15 else f"-under-{MASKS[mask]}"
            title = f"{name}, writing {MASKS[mask].replace('-', ', ')}"
            yield pen.case(f"{name}{under}", title)
    pen = Pen()
    pen.add("ds", *tests(on=UNTESTED))
    pen.whole(colour=UNDER)
    pen.add("blend", 0, 10, 15)
    pen.whole(colour=OVER)
    yield pen.case("off", "an operation that doesn't act: the colour itself is written")


def write_masks() -> Cases:
    """Each mask over a colour, and what a mask of none leaves alone."""
    for mask, name in MASKS.items():
        pen = Pen()
        pen.add("ds", *tests(on=UNTESTED))
        pen.whole(colour=(10, 20, 30, 40))
        pen.add("blend", 0, 4, mask)
        pen.whole(colour=(110, 120, 130, 140))
        yield pen.case(name, f"writing {name.replace('-', ', ')}")
    pen = Pen()
    pen.add("blend", 0, 4, 0)
    pen.add("ds", *tests(front=(1, 1, 4, 8)))
    pen.whole(STORED)
    yield pen.case("none-with-depth-and-stencil", "a mask of none leaves depth and stencil to be written")


def clears() -> Cases:
    """Values of clears, and what doesn't act on them."""
    for colour in ((0, 0, 0, 0), (1, 2, 3, 4), (127, 128, 129, 130), (255, 254, 253, 252), (255,) * 4):
        pen = Pen()
        pen.whole(STORED)
        pen.add("clearc", *colour)
        yield pen.case(f"colour-{'-'.join(map(str, colour))}", f"the colour {colour}")
    for depth in (0, 1, 3, 1000, 8388607, 8388608, 12345678, DEEPEST - 1, DEEPEST):
        for stencil in (0, 165):
            pen = Pen()
            pen.add("cleards", depth, stencil)
            yield pen.case(f"depth-{depth}-stencil-{stencil}", f"the depth {depth} and the stencil {stencil}")
    states: dict[str, tuple[tuple[str, tuple[int, ...]], ...]] = {
        "scissor": (("raster", (1, 0, 1)), ("scissor", (2, 2, 4, 4))),
        "write-mask": (("blend", (0, 4, 0)),),
        "no-depth-write": (("ds", tuple(tests(on=UNWRITTEN))),),
        "stencil-mask": (("ds", tuple(tests(front=FACE, masks=(255, 0)))),),
        "stencil-test": (("ds", tuple(tests(front=(1, 1, 1, 1)))),),
    }
    for name, lines in states.items():
        for word, numbers in (("clearc", (9, 8, 7, 6)), ("cleards", (500, 33))):
            pen = Pen()
            pen.whole(STORED)
            for state, values in lines:
                pen.add(state, *values)
            pen.add(word, *numbers)
            yield pen.case(
                f"{word}-under-{name}", f"{word} reaches all pixels, whatever the {name.replace('-', ' ')} is"
            )
    pen = Pen()
    pen.add("cleards", 400, 1)
    pen.whole(500)
    pen.add("cleards", 600, 2)
    pen.whole(500, GREEN)
    yield pen.case("between-draws", "each draw is tested against the clear before it")
    pen = Pen()
    pen.add("clearc", 1, 1, 1, 1)
    pen.triangles(((0, 0), (4 * SUBPIXELS, 0), (0, 4 * SUBPIXELS)), (5,), (BLUE,))
    pen.add("clearc", 2, 2, 2, 2)
    yield pen.case("colour-twice", "a clear of the colour leaves depths alone")
