"""Scripts of conformance/ on queries, predication, contexts, and lists with their state."""

from __future__ import annotations

from collections.abc import Callable, Sequence

from conformance_scripts import (
    BLUE,
    GREEN,
    GREY,
    LIST,
    RED,
    STRIP,
    UNTESTED,
    UNWRITTEN,
    WHOLE,
    Cases,
    Pen,
    places,
    tests,
)
from yuzuratchet import Scene

Lines = Sequence[tuple[str, tuple[int, ...]]]

HALF = places((-0.25, -0.25), (8.75, -0.25), (-0.25, 8.75))
"""A triangle over 36 of 64 pixels, whose edges meet no centre."""

UNCOUNTED: dict[str, Lines] = {
    "drawn": (),
    "depth-fails": (("ds", tuple(tests(func=1))),),
    "stencil-fails": (("ds", tuple(tests(front=(1, 1, 1, 1)))),),
    "no-colour-written": (("blend", (0, 4, 0)),),
    "no-depth-written": (("ds", tuple(tests(on=UNWRITTEN))),),
    "depth-test-off": (("ds", tuple(tests(on=UNTESTED, func=1))),),
    "front-culled": (("raster", (2, 0, 0)),),
    "back-culled": (("raster", (3, 0, 0)),),
    "cut-by-a-scissor": (("raster", (1, 0, 1)), ("scissor", (0, 0, 3, 2))),
    "no-vertices": (("vb", ()),),
}


def queries() -> Cases:
    """What counts, what doesn't, and queries one behind the other, within another, across another."""
    for name, lines in UNCOUNTED.items():
        pen = Pen()
        pen.add("begin", 0)
        count = pen.corners(HALF)
        for word, numbers in lines:
            pen.add(word, *numbers)
        pen.add("draw", 0 if name == "no-vertices" else count, 0)
        pen.count()
        yield pen.case(f"one-{name}", f"the count of a draw: {name.replace('-', ' ')}")
    for number in (0, 1, 31, 63):
        pen = Pen()
        pen.add("begin", number)
        pen.whole()
        pen.count(number)
        yield pen.case(f"number-{number}", f"query {number}")
    for draws in (0, 1, 2, 5):
        pen = Pen()
        pen.add("begin", 0)
        for at in range(draws):
            pen.whole(100 - at)
        pen.count()
        yield pen.case(f"of-{draws}-draws", f"{draws} draws over the whole target, each before the last")
    yield from between_queries()
    yield from overlapping()
    yield from listed_queries()


def between_queries() -> Cases:
    """Clears within a query, draws outside of it, and the same one twice."""
    for word, numbers in (("clearc", (1, 2, 3, 4)), ("cleards", (400, 0))):
        pen = Pen()
        pen.add("begin", 0)
        pen.whole(500)
        pen.add(word, *numbers)
        pen.whole(300)
        pen.count()
        yield pen.case(f"with-{word}", f"a {word} within a query counts nothing")
    pen = Pen()
    pen.whole(500)
    pen.add("begin", 0)
    pen.triangles(HALF, (400,))
    pen.add("end", 0)
    pen.whole(300)
    pen.scene.add("i", "query", 0)
    yield pen.case("draws-outside", "draws before and behind a query don't count")
    pen = Pen()
    for depth, points in ((500, WHOLE), (400, HALF)):
        pen.add("begin", 3)
        pen.triangles(points, (depth,))
        pen.add("end", 3)
    pen.scene.add("i", "query", 3)
    yield pen.case("twice", "the last begin and end of a query are what is told")
    pen = Pen()
    for query, depth in enumerate((500, 600, 400)):
        pen.add("begin", query)
        pen.whole(depth)
        pen.add("end", query)
    for query in (2, 0, 1):
        pen.scene.add("i", "query", query)
    yield pen.case("three-in-turn", "three queries one behind the other")


def overlapping() -> Cases:
    """Queries that are open at once."""
    orders = {
        "within": "b0 d b1 d e1 d e0", "across": "b0 d b1 d e0 d e1", "together": "b0 b1 d e0 e1",
        "three": "b0 b1 d b2 d e1 d e0 d e2",
    }  # fmt: skip
    for name, order in orders.items():
        pen = Pen()
        depth = 900
        for step in order.split():
            if step == "d":
                depth -= 1
                pen.whole(depth)
            else:
                pen.add("begin" if step[0] == "b" else "end", int(step[1]))
        for query in range(3 if name == "three" else 2):
            pen.scene.add("i", "query", query)
        yield pen.case(f"overlapping-{name}", f"queries open at once: {name}")


def listed_queries() -> Cases:
    """Queries of lists, which count at each execution."""
    for times in (1, 2):
        scene = Scene(8, 8)
        pen = Pen(scene=scene, actor="d0")
        pen.add("ds", *tests(func=4))
        pen.add("begin", 0)
        pen.triangles(HALF, (500,))
        pen.add("end", 0)
        pen.add("finish", 0)
        for _ in range(times):
            scene.add("i", "exec", 0, 0, 0)
        scene.add("i", "query", 0)
        yield pen.case(f"in-a-list-{times}", f"a list with a query, executed {times} times")
    scene = Scene(8, 8)
    pen = Pen(scene=scene, actor="d0")
    pen.add("ds", *tests(func=2))
    pen.add("begin", 0)
    pen.whole(500)
    pen.add("end", 0)
    pen.add("finish", 0)
    scene.add("i", "exec", 0, 0, 0)
    scene.add("i", "exec", 0, 0, 0)
    scene.add("i", "query", 0)
    yield pen.case("in-a-list-none-the-second-time", "what the second execution counts is told, which is nothing")


Drawing = Callable[[Pen], None]


def by_indices(pen: Pen) -> None:
    """Draws a triangle that covers the whole target, by indices."""
    pen.corners(WHOLE, (10,), (BLUE,))
    pen.add("ib", 0, 1, 2)
    pen.add("drawi", 3, 0, 0)


PREDICATED: dict[str, Drawing] = {
    "draw": lambda pen: pen.whole(10, GREEN),
    "clearc": lambda pen: pen.add("clearc", 1, 2, 3, 4),
    "cleards": lambda pen: pen.add("cleards", 77, 5),
    "drawi": by_indices,
}


def counted(pen: Pen, query: int, seen: bool) -> None:
    """Lets a query count pixels, or none, without writing colours or depths."""
    pen.add("ds", *tests(on=UNWRITTEN, func=8 if seen else 1))
    pen.add("blend", 0, 4, 0)
    pen.add("begin", query)
    pen.whole(500)
    pen.add("end", query)
    pen.add("ds", *tests())
    pen.add("blend", 0, 4, 15)


def predication() -> Cases:
    """Each value with each result, on draws and clears; no result; unset; of the state that lists keep."""
    for seen in (True, False):
        for value in (0, 1):
            for name, drawing in PREDICATED.items():
                pen = Pen()
                counted(pen, 0, seen)
                pen.add("flush")
                pen.add("predicate", 0, value)
                drawing(pen)
                result = "pixels" if seen else "none"
                title = f"{name} with the predicate's value {value}, where {result} {'were' if seen else 'was'} counted"
                yield pen.case(f"{name}-value-{value}-counted-{result}", title)
    for value in (0, 1):
        pen = Pen()
        pen.add("predicate", 5, value)
        pen.whole()
        yield pen.case(f"never-counted-value-{value}", "the result of a query that never began is 0")
        pen = Pen()
        counted(pen, 0, False)
        pen.add("flush")
        pen.add("predicate", 0, 0)
        pen.add("predicate")
        pen.whole(10, GREEN)
        pen.scene.add("i", "pixel", value, 0)
        yield pen.case(f"unset-{value}", "a predicate without arguments ends it")
    yield from within_predicates()
    yield from listed_predicates()


def within_predicates() -> Cases:
    """Settings, queries and other draws while a predicate leaves out."""
    pen = Pen()
    counted(pen, 0, False)
    pen.add("flush")
    pen.add("predicate", 0, 0)
    pen.add("begin", 1)
    pen.whole(10, GREEN)
    pen.add("end", 1)
    pen.scene.add("i", "query", 1)
    yield pen.case("query-of-what-is-left-out", "a query whose draws are left out counts none")
    pen = Pen()
    counted(pen, 0, False)
    pen.add("flush")
    pen.add("predicate", 0, 0)
    pen.add("blend", 0, 4, 3)
    pen.whole(10, GREEN)
    pen.add("predicate")
    pen.whole(20, BLUE)
    yield pen.case("settings-count", "settings are never left out")
    pen = Pen()
    counted(pen, 0, True)
    counted(pen, 1, False)
    pen.add("flush")
    for query, colour in ((1, RED), (0, GREEN), (1, BLUE)):
        pen.add("predicate", query, 0)
        pen.whole(50 - 10 * query, colour)
    yield pen.case("by-two-queries", "each draw by the predicate before it")


def listed_predicates() -> Cases:
    """Lists inherit no predicate, keep it by `finish`, and take the result when they are executed."""
    pen = Pen()
    counted(pen, 0, False)
    pen.add("flush")
    pen.add("predicate", 0, 0)
    other = pen.of("d0")
    other.whole(10, GREEN)
    other.add("finish", 0)
    pen.scene.add("i", "exec", 0, 0, 1)
    pen.whole(5, BLUE)
    yield pen.case("list-inherits-none", "a list has no predicate of the immediate context, which keeps its own")
    for keep in (0, 1):
        pen = Pen()
        counted(pen, 0, False)
        pen.add("flush")
        other = pen.of("d0")
        other.add("predicate", 0, 0)
        other.add("finish", keep)
        other.add("raster", 1, 0, 0)
        other.add("topology", LIST)
        other.whole(10, GREEN)
        other.add("finish", 0)
        pen.scene.add("i", "exec", 0, 1, 0)
        yield pen.case(f"kept-by-finish-{keep}", f"finish {keep} with a predicate")
    pen = Pen()
    other = pen.of("d0")
    other.add("predicate", 0, 0)
    other.whole(10, GREEN)
    other.add("finish", 0)
    pen.scene.add("i", "exec", 0, 0, 0)
    pen = Pen(scene=pen.scene)
    counted(pen, 0, True)
    pen.add("cleards", 200, 0)
    pen.scene.add("i", "exec", 0, 0, 0)
    yield pen.case("taken-at-execution", "a list that is left out once, and drawn once the query counted")


def contexts() -> Cases:
    """Each deferred context, several that record in turn, and orders of execution."""
    for number in range(8):
        pen = Pen(actor=f"d{number}")
        pen.whole(colour=(20 * number, 10, 200, 255))
        pen.add("finish", 0)
        pen.scene.add("i", "exec", number, 0, 0)
        yield pen.case(f"context-{number}", f"a list of d{number}")
    for count in (2, 3, 8):
        for backwards in (0, 1):
            yield from recorded_in_turn(count, bool(backwards))
    pen = Pen()
    other = pen.of("d1")
    other.whole(5, GREEN)
    other.add("clearc", 1, 1, 1, 1)
    other.add("finish", 0)
    pen.whole(9)
    yield pen.case("never-executed", "a list that nobody executes draws nothing")
    pen = Pen()
    other = pen.of("d1")
    other.add("raster", 2, 1, 1)
    other.add("blend", 0, 4, 0)
    other.add("ds", *tests(func=1))
    pen.whole(9)
    yield pen.case("settings-apart", "settings of a deferred context aren't the immediate context's")
    pen = Pen()
    pen.add("raster", 1, 0, 1)
    pen.add("blend", 0, 4, 1)
    other = pen.of("d2")
    other.whole(9, GREEN)
    other.add("finish", 0)
    pen.scene.add("i", "exec", 2, 0, 1)
    yield pen.case("nothing-inherited", "settings of the immediate context aren't a list's")


def recorded_in_turn(count: int, backwards: bool) -> Cases:
    """Lists of so many contexts, recorded line by line in turn."""
    scene = Scene(8, 8)
    pens = [Pen(scene=scene, actor=f"d{at}") for at in range(count)]
    for at, pen in enumerate(pens):
        left = 8 * at // count - 0.25
        pen.corners(
            places((left, -0.25), (left + 9, -0.25), (left, 8.75)), (500,), ((30 * at, 200 - 20 * at, 90, 255),)
        )
    for pen in pens:
        pen.add("ds", *tests(func=8))
    for pen in pens:
        pen.add("draw", 3, 0)
        pen.add("finish", 0)
    order = range(count)[::-1] if backwards else range(count)
    for at in order:
        scene.add("i", "exec", at, 0, 0)
    way = "last first" if backwards else "in their order"
    yield pens[0].case(f"{count}-in-turn-{int(backwards)}", f"{count} contexts record in turn, executed {way}")


STATES: dict[str, Lines] = {
    "raster": (("raster", (2, 0, 0)),),
    "scissor": (("raster", (1, 0, 1)), ("scissor", (2, 2, 6, 6))),
    "tests": (("ds", tuple(tests(func=5))),),
    "stencil": (("ds", tuple(tests(ref=9, front=(3, 3, 3, 8)))),),
    "blend": (("blend", (0, 4, 5)),),
    "logic": (("blend", (1, 10, 15)),),
}


def lists_and_state() -> Cases:
    """What `finish` and `exec` keep of each kind of state, and lists that are executed more than once."""
    for name, lines in STATES.items():
        for keep in (0, 1):
            yield from kept_by_finish(name, lines, keep)
            yield from kept_by_exec(name, lines, keep)
    for keep in (0, 1):
        pen = Pen(actor="d0")
        pen.corners(WHOLE, (500,))
        pen.add("ib", 0, 1, 2)
        pen.add("finish", 1)
        pen.add("drawi", 3, 0, 0)
        pen.add("finish", keep)
        pen.scene.add("i", "exec", 0, 0, 0)
        pen.scene.add("i", "exec", 0, 1, keep)
        yield pen.case(f"buffers-kept-{keep}", "vertices, indices and topology are kept by finish 1")
    pen = Pen()
    pen.corners(WHOLE, (500,), (BLUE,))
    other = pen.of("d0")
    other.triangles(HALF, (600,), (RED,))
    other.add("topology", STRIP)
    other.add("finish", 0)
    pen.scene.add("i", "exec", 0, 0, 1)
    pen.add("draw", 3, 0)
    yield pen.case("buffers-kept-by-exec", "the immediate context's vertices and topology are kept by exec with 1")
    yield from executed_again()


def kept_by_finish(name: str, lines: Lines, keep: int) -> Cases:
    """A list behind one that set a state."""
    pen = Pen(actor="d0")
    for word, numbers in lines:
        pen.add(word, *numbers)
    pen.add("finish", keep)
    if not keep or name == "raster":
        pen.add("topology", LIST)
    pen.whole(500, GREEN)
    pen.add("finish", 0)
    Pen(scene=pen.scene).whole(900, GREY)
    pen.scene.add("i", "exec", 0, 1, 0)
    yield pen.case(f"{name}-finish-{keep}", f"{name}, set before finish {keep}, for the next list")


def kept_by_exec(name: str, lines: Lines, keep: int) -> Cases:
    """A draw of the immediate context behind an execution."""
    pen = Pen()
    other = pen.of("d0")
    other.whole(900, GREY)
    other.add("blend", 0, 4, 2)
    other.add("finish", 0)
    for word, numbers in lines:
        pen.add(word, *numbers)
    pen.scene.add("i", "exec", 0, 0, keep)
    if not keep:
        pen.add("topology", LIST)
    pen.whole(500, GREEN)
    yield pen.case(f"{name}-exec-{keep}", f"{name}, set before exec with {keep}, for the draw behind it")


def executed_again() -> Cases:
    """Lists that are executed more than once, and in another order."""
    for times in (2, 3):
        pen = Pen(actor="d0")
        pen.add("ds", *tests(on=UNTESTED, front=(1, 1, 4, 8)))
        pen.triangles(HALF)
        pen.add("finish", 0)
        for _ in range(times):
            pen.scene.add("i", "exec", 0, 0, 0)
        yield pen.case(f"executed-{times}-times", f"a list that counts in the stencil, executed {times} times")
    for order in ("012", "210", "101"):
        pen = Pen(actor="d3")
        for colour in (RED, GREEN, BLUE):
            pen.add("raster", 1, 0, 0)
            pen.add("topology", LIST)
            pen.add("ds", *tests(on=UNTESTED))
            pen.whole(colour=colour)
            pen.add("finish", 0)
        for number in order:
            pen.scene.add("i", "exec", 3, int(number), 0)
        yield pen.case(f"order-{order}", f"three lists of one context, executed as {', '.join(order)}")
    pen = Pen(actor="d0")
    pen.add("finish", 0)
    pen.scene.add("i", "exec", 0, 0, 1)
    yield pen.case("settings-alone", "a list of settings draws nothing")
