"""Random scenes, on which the program, tools/plain_device.py and the package are held against each other.

Targets are up to 70 by 70, and now and then as long as a target may be, up to 4,096 by 3. Corners lie on centres, on
edges of pixels, at ties of 1/512 pixel, anywhere near the target, and as far outside as corners may lie. There are
five kinds of scenes:

- triangles: a hundred triangles under one state;
- states: lists, strips, indices, cull modes, scissors, depth biases, both faces of the stencil, logic operations
  under masks, queries, predicates and restore flags, and some of the lines are refused;
- large: triangles that cover all or most of the target, under all functions of depth and stencil;
- logic: such triangles and small ones under all logic operations and write masks, mostly without tests, with clears
  between them;
- meshes: lists that draw the same sixteen triangles and more again and again, under states that change, executed in
  rows with clears between them.
"""

from __future__ import annotations

import argparse
from collections.abc import Sequence
from random import Random

import package_path  # noqa: F401
from yuzuratchet import Scene
from yuzuratchet.arguments import whole_number
from yuzuratchet.limits import DEEPEST, FARTHEST, FARTHEST_PIXEL, STRIP_CUT, SUBPIXELS, TARGET_SIDE

QUERIES = range(4)


def place(chance: Random, side: int) -> int:
    kind = chance.randrange(10)
    if kind < 3:
        return SUBPIXELS * chance.randrange(-1, side + 2) + SUBPIXELS // 2
    if kind < 5:
        return SUBPIXELS * chance.randrange(-1, side + 2)
    if kind < 7:
        return 256 * chance.randrange(-256, 256 * (side + 1)) + 128
    if kind < 9:
        return chance.randrange(-SUBPIXELS * 20, SUBPIXELS * (side + 20))
    return chance.choice([-FARTHEST, FARTHEST, chance.randrange(-FARTHEST, FARTHEST + 1)])


def vertices(chance: Random, scene: Scene, count: int) -> list[int]:
    """The numbers of a `vb` line of so many vertices."""
    numbers = []
    for _ in range(count):
        depth = chance.choice([0, DEEPEST, chance.randrange(DEEPEST + 1), chance.randrange(100)])
        numbers += [place(chance, scene.width), place(chance, scene.height), depth]
        numbers += [chance.randrange(256) for _ in range(4)]
    return numbers


def bias(chance: Random) -> list[int]:
    """The bias of a `raster` line: mostly none, else small, of any size, or as great as one may be."""
    kind = chance.randrange(6)
    if kind < 3:
        return []
    most = {3: 100, 4: 2 * DEEPEST, 5: 2**31 - 1}[kind]
    value = chance.choice([-most - (kind == 5), most, chance.randrange(-most, most + 1)])
    return [value] if value else []


def add_triangles(chance: Random, scene: Scene) -> None:
    """A hundred triangles under one state."""
    scene.add("i", "raster", chance.choice([1, 3]), 0, 0, *bias(chance))
    scene.add("i", "vb", *vertices(chance, scene, 300))
    scene.add("i", "topology", 4)
    scene.add("i", "draw", 300, 0)


def depth_stencil(chance: Random) -> list[int]:
    """The fifteen numbers of `ds`: often with the stencil, seldom with the depth test off."""
    masks = [chance.choice([255, 15, chance.randrange(256)]) for _ in range(2)]
    faces = [chance.randrange(1, 9) for _ in range(8)]
    tests = [int(chance.randrange(4) != 0), chance.randrange(2), chance.randrange(1, 9), chance.randrange(2)]
    return [*tests, *masks, *faces, chance.randrange(256)]


def add_setting(chance: Random, scene: Scene, actor: str) -> None:
    """A line that sets some state; few of them are refused."""
    left, right = sorted(chance.randrange(scene.width + 1) for _ in range(2))
    top, bottom = sorted(chance.randrange(scene.height + 1) for _ in range(2))
    kind = chance.randrange(4)
    if kind == 0:
        scene.add(actor, "raster", chance.randrange(1, 4), chance.randrange(2), chance.randrange(2), *bias(chance))
    elif kind == 1:
        if chance.randrange(60) == 0:
            left, right = right, left
        scene.add(actor, "scissor", left, top, right, bottom)
    elif kind == 2:
        scene.add(actor, "ds", *depth_stencil(chance))
    else:
        mask = chance.choice([15, 15, chance.randrange(16)])
        scene.add(actor, "blend", chance.randrange(2), chance.randrange(16), mask)


def add_drawing(chance: Random, scene: Scene, actor: str) -> None:
    """Lines that draw, mostly, or clear."""
    count, topology, kind = chance.randrange(3, 12), chance.choice([4, 5]), chance.randrange(7)
    scene.add(actor, "vb", *vertices(chance, scene, count))
    scene.add(actor, "topology", topology)
    if kind < 3:
        scene.add(actor, "draw", count, 0)
    elif kind < 5:
        numbers = [chance.randrange(count) for _ in range(chance.randrange(3, 20))]
        if topology == 5:
            numbers = [STRIP_CUT if chance.randrange(6) == 0 else it for it in numbers]
        scene.add(actor, "ib", *numbers)
        scene.add(actor, "drawi", len(numbers), 0, 0)
    elif kind == 5:
        scene.add(actor, "cleards", chance.randrange(DEEPEST + 1), chance.randrange(256))
    else:
        scene.add(actor, "clearc", *(chance.randrange(256) for _ in range(4)))


class Queries:
    """The queries that a list has begun and has open, those of its predicates, and the predicate in force."""

    def __init__(self) -> None:
        self.begun: set[int] = set()
        self.opened: list[int] = []
        self.named: set[int] = set()
        self.force: int | None = None

    def begin_anew(self, restore: int) -> None:
        self.begun, self.force = set(), self.force if restore else None
        self.named = set() if self.force is None else {self.force}


class StatesScene:
    """A scene of lists, states, queries, predicates and executions, in the making."""

    def __init__(self, chance: Random, scene: Scene) -> None:
        self.chance, self.scene = chance, scene
        self.ended: list[int] = []
        self.lists = {actor: Queries() for actor in ("i", "d0", "d1", "d7")}
        self.finished: list[tuple[int, int]] = []

    def close(self, actor: str) -> None:
        """Ends the queries of a list before something runs, save now and then."""
        if self.chance.randrange(80):
            for query in self.lists[actor].opened:
                self.end(actor, query)
            self.lists[actor].opened = []

    def end(self, actor: str, query: int) -> None:
        self.scene.add(actor, "end", query)
        if actor == "i":
            self.ended.append(query)

    def add_begin(self, actor: str) -> None:
        queries, query = self.lists[actor], self.chance.choice(QUERIES)
        if query not in queries.opened and query not in queries.named:
            self.scene.add(actor, "begin", query)
            queries.opened.append(query)
            queries.begun.add(query)

    def add_predicate(self, actor: str) -> None:
        """A predicate by a query that the list has not begun, or none."""
        queries = self.lists[actor]
        free = [query for query in QUERIES if query not in queries.begun]
        if not free or self.chance.randrange(4) == 0:
            queries.force = None
            self.scene.add(actor, "predicate")
            return
        queries.force = self.chance.choice(free)
        queries.named.add(queries.force)
        self.scene.add(actor, "predicate", queries.force, self.chance.randrange(2))

    def add_finish(self, actor: str) -> None:
        self.close(actor)
        restore = self.chance.randrange(2)
        self.finished.append((int(actor[1:]), self.scene.finished[actor]))
        self.scene.add(actor, "finish", restore)
        self.lists[actor].begin_anew(restore)

    def add_executions(self) -> int:
        """An execution, or some that stand behind one another; gives whether the last one restores the state."""
        restore = 1
        for _ in range(self.chance.choice([1, 1, 2, 4, 9])):
            restore = int(self.chance.randrange(3) > 0)
            self.scene.add("i", "exec", *self.chance.choice(self.finished), restore)
            self.lists["i"].begin_anew(restore)
        return restore

    def add_run(self, kind: int) -> None:
        """An execution, a flush or a question."""
        restore = 1
        if self.finished and kind < 2:
            restore = self.add_executions()
        elif kind == 2:
            self.scene.add("i", "flush")
        elif kind == 3 and self.ended:
            self.scene.add("i", "query", self.chance.choice(self.ended))
        else:
            return
        self.lists["i"].begin_anew(restore)

    def add_round(self) -> None:
        chance, actor = self.chance, self.chance.choice(["i", "i", "d0", "d1", "d7"])
        queries = self.lists[actor]
        add_setting(chance, self.scene, actor)
        if chance.randrange(3) == 0:
            self.add_begin(actor)
        if chance.randrange(4) == 0:
            self.add_predicate(actor)
        add_drawing(chance, self.scene, actor)
        if queries.opened and chance.randrange(2):
            self.end(actor, queries.opened.pop(chance.randrange(len(queries.opened))))
        if actor != "i" and chance.randrange(2):
            self.add_finish(actor)
        kind = chance.randrange(8)
        if kind < 4:
            self.close("i")
            self.add_run(kind)

    def fill(self) -> None:
        for _ in range(40):
            self.add_round()
        self.close("i")


def far_corners(chance: Random) -> list[int]:
    """The corners of a triangle that goes far beyond the target, each with a depth of its own."""
    corners = []
    for x, y in ((-1, -1), (2, -1), (-1, 2)):
        far = [chance.randrange(1, FARTHEST_PIXEL // 2) * SUBPIXELS + chance.randrange(SUBPIXELS) for _ in range(2)]
        depth = chance.choice([chance.randrange(DEEPEST + 1), chance.randrange(100), 8_000_000 + chance.randrange(5)])
        corners += [max(x * far[0], -FARTHEST), max(y * far[1], -FARTHEST), depth]
        corners += [chance.randrange(256) for _ in range(4)]
    return corners


def add_large(chance: Random, scene: Scene) -> None:
    """Triangles that go far beyond the target, each under tests of its own, with biases and counts."""
    scene.add("i", "topology", 4)
    for number in range(12):
        scene.add("i", "raster", chance.choice([1, 1, 2, 3]), chance.randrange(2), 0, *bias(chance))
        scene.add("i", "ds", *depth_stencil(chance))
        scene.add("i", "vb", *far_corners(chance))
        scene.add("i", "begin", number % len(QUERIES))
        scene.add("i", "draw", 3, 0)
        scene.add("i", "end", number % len(QUERIES))
    for query in QUERIES:
        scene.add("i", "query", query)


def add_logic(chance: Random, scene: Scene) -> None:
    """Triangles under logic operations, of which many cover all of the target and few are tested, and clears of
    colours."""
    scene.add("i", "topology", 4)
    scene.add("i", "raster", 1, 0, 0)
    for _ in range(16):
        kind = chance.randrange(8)
        if kind == 0:
            scene.add("i", "clearc", *(chance.randrange(256) for _ in range(4)))
            continue
        scene.add("i", "ds", *(depth_stencil(chance) if kind == 1 else [0, 0, 8, 0, 255, 255, *[1, 1, 1, 8] * 2, 0]))
        operation = chance.choice([chance.randrange(16), 5, 10])
        scene.add("i", "blend", int(chance.randrange(6) != 0), operation, chance.choice([15, 15, chance.randrange(16)]))
        scene.add("i", "vb", *(vertices(chance, scene, 3) if kind < 4 else far_corners(chance)))
        scene.add("i", "draw", 3, 0)


def add_meshes(chance: Random, scene: Scene) -> None:
    """Lists that draw the same vertices again under states that change, now and then with one vertex that is another,
    executed in rows with clears between them."""
    lists = []
    for actor in (0, 1):
        context, count = f"d{actor}", chance.randrange(48, 75)
        numbers = vertices(chance, scene, count)
        scene.add(context, "topology", chance.choice([4, 4, 5]))
        for number in range(3):
            if number == 0 or chance.randrange(3) == 0:
                at = 7 * chance.randrange(count)
                numbers[at : at + 7] = vertices(chance, scene, 1)
                scene.add(context, "vb", *numbers)
            for _ in range(chance.randrange(2)):
                add_setting(chance, scene, context)
            scene.add(context, "draw", count, 0)
            scene.add(context, "finish", 1)
            lists.append((actor, number))
    for _ in range(4):
        if chance.randrange(2):
            scene.add("i", "cleards", chance.randrange(DEEPEST + 1), chance.randrange(256))
        for _ in range(chance.choice([1, 3, 5])):
            scene.add("i", "exec", *chance.choice(lists), chance.randrange(2))


def target(chance: Random) -> list[int]:
    """A width and a height: mostly small, now and then one long side."""
    sides = [chance.randrange(1, 71), chance.randrange(1, 71)]
    if chance.randrange(20) == 0:
        sides = [chance.choice([TARGET_SIDE, chance.randrange(1, TARGET_SIDE + 1)]), chance.randrange(1, 4)]
        chance.shuffle(sides)
    return sides


KINDS = ("triangles", "states", "large", "logic", "meshes")


def random_scene(chance: Random, number: int, asked: int = 20, kinds: Sequence[str] = KINDS[:2]) -> Scene:
    """A scene of the kind whose turn it is, by its number, with so many questions for pixels."""
    scene = Scene(*target(chance), strict=False)
    kind = kinds[number % len(kinds)]
    if kind == "states":
        StatesScene(chance, scene).fill()
    elif kind == "large":
        add_large(chance, scene)
    elif kind == "logic":
        add_logic(chance, scene)
    elif kind == "meshes":
        add_meshes(chance, scene)
    else:
        add_triangles(chance, scene)
    for _ in range(asked):
        scene.immediate.pixel(chance.randrange(scene.width), chance.randrange(scene.height))
    return scene


def parser_of_pixels(about: str | None) -> argparse.ArgumentParser:
    """What reads the words of a tool that looks at pixels of random scenes: how many, and a seed."""
    parser = argparse.ArgumentParser(description=about, formatter_class=argparse.RawDescriptionHelpFormatter)
    parser.add_argument(
        "pixels", metavar="PIXELS", nargs="?", type=whole_number(1), default=100, help="how many at least (100)"
    )
    parser.add_argument("seed", metavar="SEED", nargs="?", type=int, default=1, help="of the random numbers (1)")
    return parser
