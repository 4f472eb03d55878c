"""Which features of a device a script needs, that not every device has."""

from __future__ import annotations

from enum import Enum
from typing import Iterable

from .line import Line


class Feature(Enum):
    """Something that an interface or a driver may lack, or do another way."""

    LOGIC = "logic operations"
    QUERIES = "queries"
    OVERLAPPING = "overlapping queries"
    PREDICATES = "predicates"
    BIAS = "depth bias"
    CONTEXTS = "deferred contexts"
    CLEARS = "clears"
    STENCIL = "stencil"
    SCISSOR = "scissor"
    SLOPES = "sloped depths"


def features_of(lines: Iterable[Line]) -> frozenset[Feature]:
    """The features that the lines of a script need."""
    found: set[Feature] = set()
    opened: dict[str, set[int]] = {}
    for line in lines:
        found |= _features_of_line(line)
        queries = opened.setdefault(line.actor, set())
        if line.word == "begin":
            queries.add(line.arguments[0])
        elif line.word == "end":
            queries.discard(line.arguments[0])
        if len(queries) > 1:
            found.add(Feature.OVERLAPPING)
    return frozenset(found)


def _features_of_line(line: Line) -> set[Feature]:
    numbers = line.arguments
    needs = {
        Feature.LOGIC: line.word == "blend" and numbers[0] == 1,
        Feature.QUERIES: line.word == "begin",
        Feature.PREDICATES: line.word == "predicate" and len(numbers) > 0,
        Feature.BIAS: line.word == "raster" and len(numbers) > 3,
        Feature.SCISSOR: line.word == "raster" and numbers[2] == 1,
        Feature.CONTEXTS: line.actor != "i",
        Feature.CLEARS: line.word.startswith("clear"),
        Feature.STENCIL: line.word == "ds" and numbers[3] == 1,
        Feature.SLOPES: line.word == "vb" and len(set(numbers[2::7])) > 1,
    }
    return {feature for feature, is_needed in needs.items() if is_needed}
