"""Calls that the device refuses, as lines that are put between those of a scene.

Most of the groups below end with lines that are refused; those before them make it so. All stay away from the queries
that tools/random_scenes.py asks for, and end the queries that they begin. A line may be refused for another reason than
its group is there for, or be taken: the device says which.
"""

from __future__ import annotations

from collections.abc import Callable, Sequence
from random import Random

import package_path  # noqa: F401
from random_scenes import QUERIES
from yuzuratchet import Scene
from yuzuratchet.limits import BUFFER_LENGTH, DEEPEST, FARTHEST, LIST_ISSUES, TARGET_SIDE
from yuzuratchet.limits import QUERIES as QUERY_COUNT
from yuzuratchet.line import Line
from yuzuratchet.words import DEFERRED, IMMEDIATE

Call = tuple[str, tuple[int, ...]]
Group = Sequence[Call]
# a context that no scene executes a list of, so that what fills a list leaves no trace in a picture
ASIDE = "d6"
GREATEST, LEAST_SIGNED, GREATEST_SIGNED = 2**32 - 1, -(2**31), 2**31 - 1
CORNER = (0, 0, 0, 255, 255, 255, 255)


def own_query(chance: Random) -> int:
    """A query that the scene doesn't use."""
    return chance.randrange(len(QUERIES), QUERY_COUNT)


def far_vertices(chance: Random, scene: Scene) -> Group:
    """Three vertices, of which one lies too far away or too deep."""
    place, out = chance.randrange(3), chance.choice([FARTHEST + 1, -FARTHEST - 1, GREATEST_SIGNED, LEAST_SIGNED])
    numbers = list(3 * CORNER)
    numbers[7 * chance.randrange(3) + place] = chance.choice([DEEPEST + 1, GREATEST]) if place == 2 else out
    return [("vb", tuple(numbers))]


def deep_clear(chance: Random, scene: Scene) -> Group:
    return [("cleards", (chance.choice([DEEPEST + 1, GREATEST]), chance.randrange(256)))]


def draw_past(chance: Random, scene: Scene) -> Group:
    """Draws past the end of the vertices or of the indices, or before a topology is set."""
    count, start = chance.choice([(BUFFER_LENGTH + 1, 0), (3, GREATEST), (GREATEST, GREATEST), (1, BUFFER_LENGTH)])
    return [("draw", (count, start)), ("drawi", (count, start, 0))]


def draw_without_vertices(chance: Random, scene: Scene) -> Group:
    """Draws by indices that are none of a vertex, with the base added."""
    return [("drawi", (1 + chance.randrange(3), 0, chance.choice([LEAST_SIGNED, GREATEST_SIGNED, -1, BUFFER_LENGTH])))]


def turned_scissor(chance: Random, scene: Scene) -> Group:
    sides = [(5, 0, 4, 9), (0, 9, 4, 8), (0, 0, TARGET_SIDE + 1, 1), (0, 0, 1, GREATEST)]
    return [("scissor", chance.choice(sides))]


def numbers_of_queries(chance: Random, scene: Scene) -> Group:
    number = chance.choice([QUERY_COUNT, GREATEST])
    return [("begin", (number,)), ("end", (number,)), ("predicate", (number, chance.randrange(2)))]


def end_unopened(chance: Random, scene: Scene) -> Group:
    return [("end", (own_query(chance),))]


def begin_twice(chance: Random, scene: Scene) -> Group:
    query = own_query(chance)
    return [("begin", (query,)), ("begin", (query,)), ("end", (query,))]


def own_predicate(chance: Random, scene: Scene) -> Group:
    query = own_query(chance)
    return [("begin", (query,)), ("end", (query,)), ("predicate", (query, chance.randrange(2)))]


def run_within(chance: Random, scene: Scene) -> Group:
    """What runs something, while a query is open."""
    query = own_query(chance)
    calls: Group = [("flush", ()), ("query", (0,)), ("pixel", (0, 0)), ("exec", (chance.randrange(8), 0, 1))]
    return [("begin", (query,)), *chance.sample(calls, 2), ("end", (query,))]


def finish_within(chance: Random, scene: Scene) -> Group:
    query = own_query(chance)
    return [("begin", (query,)), ("finish", (chance.randrange(2),)), ("end", (query,))]


def questions(chance: Random, scene: Scene) -> Group:
    """Questions for what isn't there."""
    outside = chance.choice([(scene.width, 0), (0, scene.height), (GREATEST, GREATEST)])
    return [("pixel", outside), ("query", (QUERY_COUNT,)), ("query", (QUERY_COUNT - 1,))]


def long_buffer(chance: Random, scene: Scene) -> Group:
    if chance.randrange(4):
        return [("ib", (BUFFER_LENGTH + 1) * (0,))]
    return [("vb", (BUFFER_LENGTH + 1) * CORNER)]


def many_issues(chance: Random, scene: Scene) -> Group:
    begin, end = ("begin", (QUERY_COUNT - 1,)), ("end", (QUERY_COUNT - 1,))
    return [*(LIST_ISSUES * [begin, end]), begin]


def many_triangles(chance: Random, scene: Scene) -> Group:
    """More triangles than a list takes, in two draws."""
    draws: Group = 2 * [("drawi", (BUFFER_LENGTH, 0, 0))]
    return [("vb", CORNER), ("topology", (5,)), ("ib", BUFFER_LENGTH * (0,)), *draws]


Makes = Callable[[Random, Scene], Group]
OF_ALL: Sequence[Makes] = (
    *(far_vertices, deep_clear, draw_past, draw_without_vertices, turned_scissor),
    *(numbers_of_queries, end_unopened, begin_twice, own_predicate),
)
OF_IMMEDIATE: Sequence[Makes] = (run_within, questions)
OF_DEFERRED: Sequence[Makes] = (finish_within,)
# these take long to write down
SELDOM: Sequence[Makes] = (long_buffer, many_issues, many_triangles)
HOW_SELDOM = 300
# those that draw most of what random scenes draw stand here more often
ACTORS = (*4 * (IMMEDIATE,), *DEFERRED, "d0", "d1", "d7")


def group(chance: Random, scene: Scene) -> list[Line]:
    """A group of lines of one context, of which most end with some that are refused."""
    groups = SELDOM if chance.randrange(HOW_SELDOM) == 0 else (*OF_ALL, *OF_IMMEDIATE, *OF_DEFERRED)
    makes = chance.choice(groups)
    actor = chance.choice(ACTORS)
    if makes in (many_issues, many_triangles):
        actor = ASIDE
    elif makes in OF_IMMEDIATE:
        actor = IMMEDIATE
    elif makes in OF_DEFERRED:
        actor = chance.choice(DEFERRED)
    return [Line(actor, word, numbers) for word, numbers in makes(chance, scene)]


def disturbed(chance: Random, scene: Scene, groups: int) -> list[Line]:
    """The lines of a scene, with so many groups between them at random places."""
    places = sorted(chance.randrange(len(scene.lines) + 1) for _ in range(groups))
    found: list[Line] = []
    begun = 0
    for place in places:
        found += [*scene.lines[begun:place], *group(chance, scene)]
        begun = place
    return [*found, *scene.lines[begun:]]
