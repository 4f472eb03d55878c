"""Random scripts of the features that a device has, small enough to be looked at."""

from __future__ import annotations

from contextlib import suppress
from random import Random
from typing import Callable, Final

from .errors import CallRefused
from .features import Feature
from .limits import DEEPEST, SUBPIXELS
from .scene import Scene
from .words import IMMEDIATE

Features = frozenset[Feature]

DEPTHS: Final = (0, 1000, 1001, 8_000_000, DEEPEST)
"""Few, so that depths are often the same."""

STENCILS: Final = (0, 1, 7, 128, 255)
COLOURS: Final = ((200, 40, 30, 255), (30, 180, 60, 255), (40, 60, 220, 128), (85, 170, 15, 240))
QUERIES: Final = (0, 1)
ROUNDS: Final = 14

PROBES: Final = {
    Feature.LOGIC: ("i blend 1 10 15",),
    Feature.QUERIES: ("i begin 0", "i draw 3 0", "i end 0", "i query 0"),
    Feature.OVERLAPPING: ("i begin 0", "i begin 1", "i draw 3 0", "i end 1", "i end 0"),
    Feature.PREDICATES: ("i predicate 0 0", "i draw 3 0", "i predicate 0 1"),
    Feature.BIAS: ("i raster 1 0 0 5",),
    Feature.CONTEXTS: ("d0 clearc 1 2 3 4", "d0 finish 0", "i exec d0 0 1"),
}
"""Lines that need a feature, by which an adapter is asked whether it has it."""


def probe(feature: Feature) -> bytes:
    """A script that needs a feature."""
    corners = " ".join(f"{x} {y} 0 1 2 3 4" for x, y in ((0, 0), (262144, 0), (0, 262144)))
    lines = ("target 4 4", f"i vb {corners}", "i topology 4", *PROBES[feature], "i draw 3 0")
    return "".join(f"{line}\n" for line in lines).encode("ascii")


class RandomScript:
    """A scene in the making; what the device would refuse is left out."""

    def __init__(self, chance: Random, features: Features) -> None:
        self.chance, self.features = chance, features
        self.scene = Scene(chance.randrange(1, 17), chance.randrange(1, 17))
        self.actors = [IMMEDIATE]
        if Feature.CONTEXTS in features and chance.randrange(2):
            self.actors += ["d0", "d1"]
        self.ended: list[int] = []

    def made(self) -> Scene:
        """The scene, filled."""
        for actor in self.actors:
            self.add(actor, "raster", 1, 0, 0)
            self.add(actor, "topology", 4)
        steps = self.steps()
        for _ in range(ROUNDS):
            actor = self.chance.choice(self.actors)
            self.chance.choice(steps)(actor)
            self.add_draw(actor)
        for query in QUERIES:
            self.add(IMMEDIATE, "end", query)
        for query in sorted(set(self.ended)):
            self.add(IMMEDIATE, "query", query)
        return self.scene

    def steps(self) -> list[Callable[[str], None]]:
        """What may stand before a draw."""
        of_feature: dict[Feature, Callable[[str], None]] = {
            Feature.CLEARS: self.add_clear,
            Feature.QUERIES: self.add_query,
            Feature.PREDICATES: self.add_predicate,
            Feature.CONTEXTS: self.add_list,
        }
        always = [
            self.add_raster,
            self.add_tests,
            self.add_tests,
            self.add_blend,
            self.add_topology,
        ]
        return always + [step for feature, step in of_feature.items() if feature in self.features]

    def has(self, feature: Feature, one_in: int = 2) -> bool:
        """Whether a feature is to be used, where the device has it."""
        return feature in self.features and self.chance.randrange(one_in) == 0

    def add(self, actor: str, word: str, *numbers: int) -> bool:
        """Adds a line unless the device would refuse it, and tells whether it did."""
        with suppress(CallRefused):
            self.scene.add(actor, word, *numbers)
            return True
        return False

    def add_raster(self, actor: str) -> None:
        """Culling, front, scissor, bias."""
        chance = self.chance
        cut = int(self.has(Feature.SCISSOR))
        bias = [chance.choice([-1000, -1, 1, 500])] if self.has(Feature.BIAS, 3) else []
        self.add(actor, "raster", chance.choice([1, 1, 2, 3]), chance.randrange(2), cut, *bias)
        if cut:
            across = sorted(chance.randrange(self.scene.width + 1) for _ in range(2))
            down = sorted(chance.randrange(self.scene.height + 1) for _ in range(2))
            self.add(actor, "scissor", across[0], down[0], across[1], down[1])

    def add_tests(self, actor: str) -> None:
        """Tests of depth, and of the stencil."""
        chance = self.chance
        has_stencil = self.has(Feature.STENCIL)
        faces = [1, 1, 1, 8, 1, 1, 1, 8]
        masks = [255, 255]
        if has_stencil:
            faces = [chance.randrange(1, 9) for _ in range(8)]
            masks = [chance.choice([255, 255, 15, 170]) for _ in range(2)]
        depth = [int(chance.randrange(6) > 0), int(chance.randrange(6) > 0), chance.randrange(2, 9)]
        self.add(actor, "ds", *depth, int(has_stencil), *masks, *faces, chance.choice(STENCILS))

    def add_blend(self, actor: str) -> None:
        """A write mask, and a logic operation."""
        chance = self.chance
        mask = chance.choice([15, 15, 15, chance.randrange(16)])
        self.add(actor, "blend", int(self.has(Feature.LOGIC)), chance.randrange(16), mask)

    def add_topology(self, actor: str) -> None:
        """A list or a strip."""
        self.add(actor, "topology", self.chance.choice([4, 5]))

    def add_clear(self, actor: str) -> None:
        """A clear of colours, or of depths and stencils."""
        if self.chance.randrange(2):
            self.add(actor, "clearc", *self.chance.choice(COLOURS))
        else:
            self.add(actor, "cleards", self.chance.choice(DEPTHS), self.chance.choice(STENCILS))

    def add_query(self, actor: str) -> None:
        """The begin of a query, or its end."""
        opened = self.scene_open(actor)
        if not opened or (len(opened) < 2 and self.has(Feature.OVERLAPPING)):
            self.add(actor, "begin", self.chance.choice(QUERIES))
        else:
            self.end(actor, self.chance.choice(opened))

    def scene_open(self, actor: str) -> list[int]:
        """The queries that a context has open."""
        opened: list[int] = []
        for line in self.scene.lines:
            if line.actor == actor and line.word == "begin":
                opened.append(line.arguments[0])
            elif line.actor == actor and line.word == "end":
                opened.remove(line.arguments[0])
        return opened

    def end(self, actor: str, query: int) -> None:
        """Ends a query."""
        if self.add(actor, "end", query) and actor == IMMEDIATE:
            self.ended.append(query)

    def close(self, actor: str) -> None:
        """Ends the queries of a context."""
        for query in self.scene_open(actor):
            self.end(actor, query)

    def add_predicate(self, actor: str) -> None:
        """A predicate, or none."""
        if actor == IMMEDIATE:
            self.close(actor)
            self.add(actor, "flush")
        if self.chance.randrange(3):
            self.add(actor, "predicate", self.chance.choice(QUERIES), self.chance.randrange(2))
        else:
            self.add(actor, "predicate")

    def add_list(self, actor: str) -> None:
        """The end of a list, and its execution."""
        if actor == IMMEDIATE:
            return
        self.close(actor)
        self.close(IMMEDIATE)
        keep = self.chance.randrange(2)
        number = sum(it.actor == actor and it.word == "finish" for it in self.scene.lines)
        if self.add(actor, "finish", keep):
            restore = self.chance.randrange(2)
            self.add(IMMEDIATE, "exec", int(actor[1:]), number, restore)
            for left, kept in ((actor, keep), (IMMEDIATE, restore)):
                if not kept:
                    self.add(left, "topology", 4)

    def add_draw(self, actor: str) -> None:
        """A draw of some vertices, or by indices."""
        chance, count = self.chance, self.chance.choice([3, 3, 3, 4, 6])
        numbers: list[int] = []
        depth = chance.choice(DEPTHS)
        for _ in range(count):
            if self.has(Feature.SLOPES):
                depth = chance.choice(DEPTHS)
            colour = chance.choice(COLOURS)
            numbers += [self.place(self.scene.width), self.place(self.scene.height), depth, *colour]
        self.add(actor, "vb", *numbers)
        if chance.randrange(4):
            self.add(actor, "draw", count, 0)
            return
        self.add(actor, "ib", *(chance.randrange(count) for _ in range(6)))
        self.add(actor, "drawi", 6, 0, 0)

    def place(self, side: int) -> int:
        """A corner's place along a side: on a centre, on an edge of pixels, on the grid, or far off."""
        kind, at = self.chance.randrange(5), self.chance.randrange(-1, side + 2)
        if kind < 2:
            return SUBPIXELS * at + SUBPIXELS // 2
        if kind < 3:
            return SUBPIXELS * at
        if kind < 4:
            return 256 * self.chance.randrange(-256, 256 * (side + 1))
        return SUBPIXELS * self.chance.choice([-40, -20, side + 20, side + 40])


def random_script(seed: str, features: Features) -> Scene:
    """The scene of a seed."""
    return RandomScript(Random(seed), features).made()
