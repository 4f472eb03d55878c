"""The table of words and the messages are those of docs/SCRIPT.md."""

from __future__ import annotations

import re
from dataclasses import asdict

import pytest
from conftest import TOP

from yuzuratchet.errors import ArgumentError
from yuzuratchet.limits import DEFERRED_CONTEXTS, LIMITS
from yuzuratchet.messages import FAULTS, REFUSALS, Message, message_of
from yuzuratchet.words import ACTORS, DEFERRED, TARGET, WORDS

PAGE = (TOP / "docs" / "SCRIPT.md").read_text(encoding="utf-8")
CALLS = (TOP / "docs" / "API.md").read_text(encoding="utf-8")
HEADER = (TOP / "library" / "yuzuratchet_device.h").read_text(encoding="ascii")
DEVICE_JS = (TOP / "web" / "engine" / "device.js").read_text(encoding="utf-8")


def rows(section: str, page: str = PAGE) -> list[list[str]]:
    """The rows of the first table of a section, without its head."""
    text = re.split(r"^##+ ", page.split(f"\n## {section}\n", 1)[1], flags=re.M)[0]
    lines = text.partition("\n|")[2].partition("\n\n")[0].splitlines()
    return [[cell.strip() for cell in line.strip("|").split("|")] for line in lines[2:]]


def test_the_page_has_the_words_and_their_actors() -> None:
    page = {}
    for names, immediate, deferred, _ in rows("Words"):
        for name in re.findall(r"`(\w+)`", names):
            page[name] = (immediate == "✓", deferred == "✓")
    assert page.pop("target") == (False, False)
    assert page == {name: (word.immediate, word.deferred) for name, word in WORDS.items()}


def test_the_names_of_calls_are_those_of_the_header() -> None:
    named = {name for row in rows("Names", CALLS) for name in re.findall(r"`([.\w]+)`", row[1])}
    kinds = ("yz_device", "yz_context")
    named = {name.replace("..", kind) for name in named for kind in kinds}
    declared = set(re.findall(r"\b(yz_\w+)\(", HEADER))
    assert named == {it for it in declared if not re.search("_destroy|^yz_result_", it)}


def test_the_names_of_calls_are_those_of_the_package() -> None:
    calls = pytest.importorskip("yuzuratchet.calls")
    kinds = (calls.LiveDeferredContext, calls.LiveImmediateContext)
    own = {"Device", "deferred", *(name for it in (calls.Device, *kinds) for name in dir(it))}
    for _, _, names, word in rows("Names", CALLS):
        for name in re.findall(r"`(\w+)`", names):
            assert name in own, name
            spelled = re.sub(r"_(\w)", lambda found: found[1].upper(), name)
            assert re.search(rf"\b{spelled}\b", DEVICE_JS) or name == "image", spelled
        assert set(re.findall(r"`(\w+)`", word)) <= {*WORDS, TARGET.name, *DEFERRED}, word


def test_each_word_has_a_call() -> None:
    named = {word for row in rows("Names", CALLS) for word in re.findall(r"`(\w+)`", row[3])}
    assert named >= {*WORDS, TARGET.name}


@pytest.mark.parametrize("name", [*WORDS, "target"])
def test_the_page_has_the_ranges(name: str) -> None:
    word = WORDS.get(name, TARGET)
    row = next(row for row in rows("Words") if f"`{name}`" in row[0])
    for argument in word.arguments:
        bounds = argument.range.replace("d0 to d7", "`d0` to `d7`")
        assert bounds in row[3], (argument, row[3])


@pytest.mark.parametrize(
    ("section", "messages"), [("Faults of a script", FAULTS), ("Refusals", REFUSALS)]
)
def test_the_page_has_the_messages(section: str, messages: dict[int, Message]) -> None:
    page = {int(number): {"when": when, "advice": advice} for number, when, advice in rows(section)}
    assert page == {number: asdict(message) for number, message in messages.items()}


@pytest.mark.parametrize(
    ("of", "names"),
    [
        ("a side of the target", ["target_side"]),
        ("x and y of a vertex", ["farthest", "farthest", "farthest_pixel"]),
        ("a depth", ["deepest"]),
        ("a scissor rectangle", ["target_side"]),
        ("a buffer", ["buffer_length", "buffer_length"]),
        ("a list, and the pending commands", ["list_commands", "list_triangles", "list_issues"]),
        ("queries", ["queries"]),
        ("deferred contexts", ["deferred_contexts"]),
    ],
)
def test_the_page_has_the_limits(of: str, names: list[str]) -> None:
    limit = dict(rows("Limits"))[of]
    assert [int(it) for it in re.findall(r"\d+", limit) if int(it) > 1][: len(names)] == [
        LIMITS[name] for name in names
    ]


def test_the_advice_counts_the_arguments() -> None:
    counts = {"seven": 7, "three": 3, "fifteen": 15}
    for word, count in re.findall(r"`(\w+)` (?:takes )?(\w+)", FAULTS[105].advice):
        if count in counts:
            assert len(WORDS[word].arguments) - (word == "raster") == counts[count]


def test_a_number_without_a_meaning() -> None:
    assert "no meaning" in message_of(55).when


def test_actors() -> None:
    assert len(DEFERRED) == DEFERRED_CONTEXTS == 8
    assert ACTORS == ("i", "d0", "d1", "d2", "d3", "d4", "d5", "d6", "d7")


@pytest.mark.parametrize(
    ("word", "values", "argument"),
    [
        ("draw", (3,), "draw"),
        ("draw", (-1, 0), "count"),
        ("draw", (3, 4_294_967_296), "start"),
        ("vb", (1, 2, 3), "vb"),
        ("vb", (0, 0, 0, 1, 2, 3, 4) + (0, 0, 0, 1, 256, 3, 4), "green"),
        ("ib", (65_536,), "index"),
        ("predicate", (1,), "predicate"),
        ("predicate", (1, 2), "value"),
        ("ds", (1, 1, 9) + (0,) * 12, "depth_func"),
        ("exec", (8, 0, 0), "context"),
    ],
)
def test_what_no_script_can_spell(word: str, values: tuple[int, ...], argument: str) -> None:
    with pytest.raises(ArgumentError) as raised:
        WORDS[word].check(values)
    assert raised.value.argument == argument
