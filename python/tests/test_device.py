"""device.json says what the device's own sources say: gfxspec, scenetext, the C header, and the states of the package.

The sources are read as text, by the names of their definitions, wherever in the crates these stand.
"""

from __future__ import annotations

import functools
import re
from enum import IntEnum, IntFlag
from pathlib import Path

import plain_device
import pytest
from conftest import TOP

from yuzuratchet import states
from yuzuratchet.device import DEVICE

CRATES = TOP / "crates"
LIMITS, KINDS, WORDS = DEVICE["limits"], DEVICE["kinds"], DEVICE["words"]


@functools.cache
def sources(crates: str, suffix: str) -> str:
    """The texts of some crates: their code, or their definitions."""
    paths = (
        path for name in crates.split() for path in sorted((CRATES / name).rglob(f"*{suffix}"))
    )
    return "\n".join(path.read_text(encoding="utf-8") for path in paths if "out" not in path.parts)


def definitions(crates: str) -> str:
    """The definitions of some crates, each with its equations on lines of their own."""
    return re.sub(r"\n {2,}", " ", sources(crates, ".antt"))


def equations(name: str, crates: str) -> list[tuple[str, str]]:
    """The equations of a definition: what stands left and right of their signs."""
    found = re.findall(rf"^{name}((?: [^\n=]*)?) = ([^\n]*)$", definitions(crates), re.M)
    assert found, f"no crate of {crates} defines {name}"
    return [(left.strip(), right.strip()) for left, right in found]


def table(name: str, crates: str) -> dict[str, str]:
    """A definition by cases: {constructor: value}, without the names of modules."""
    return {left.split()[0].split(".")[-1]: right for left, right in equations(name, crates)}


def numbers(name: str) -> dict[str, int]:
    return {case: int(value) for case, value in table(name, "gfxspec scenetext").items()}


def constants() -> dict[str, int]:
    """The constants of gfxspec that are numbers."""
    found = re.findall(r"^pub const (\w+): \w+ = ([0-9_]+);", sources("gfxspec", ".rt"), re.M)
    return {name: int(value) for name, value in found}


def camel(name: str) -> str:
    """A name as it is compared: FRONT_FACE and FrontFace are one."""
    return name.replace("_", "").lower()


def test_the_limits_are_those_of_gfxspec() -> None:
    said = constants()
    assert {name: LIMITS[name] for name in ("target_side", "farthest_pixel")} == {
        "target_side": said["SIDE_LIMIT"],
        "farthest_pixel": said["COORDINATE_LIMIT"] // LIMITS["subpixels"],
    }
    assert LIMITS["farthest"] == said["COORDINATE_LIMIT"]
    assert LIMITS["farthest"] == LIMITS["farthest_pixel"] * LIMITS["subpixels"]
    assert LIMITS["deepest"] == said["DEPTH_MAX"]
    assert LIMITS["buffer_length"] == said["BUFFER_LIMIT"]
    assert LIMITS["list_commands"] == LIMITS["list_triangles"] == said["LIST_LIMIT"]
    assert (LIMITS["queries"], LIMITS["list_issues"]) == (said["QUERY_LIMIT"], said["ISSUE_LIMIT"])
    assert (LIMITS["workers"], LIMITS["strip_cut"]) == (said["WORKER_LIMIT"], said["STRIP_CUT"])
    assert LIMITS["deferred_contexts"] == len(DEVICE["actors"]["deferred"])


def test_a_pixel_has_the_parts_that_snapping_takes() -> None:
    text = (CRATES / "gfxspec" / "specs" / "Snapping.antt").read_text(encoding="utf-8")
    assert "1/65,536" in text and LIMITS["subpixels"] == 65_536


@pytest.mark.parametrize(
    ("kind", "definition"),
    [
        ("topology", "topology_number"),
        ("cull_mode", "cull_number"),
        ("comparison", "compare_number"),
        ("stencil_op", "stencil_op_number"),
        ("logic_op", "logic_op_number"),
    ],
)
def test_the_names_of_numbers_are_those_of_gfxspec(kind: str, definition: str) -> None:
    said = {camel(name): number for name, number in numbers(definition).items()}
    assert {camel(name): number for name, number in KINDS[kind]["names"].items()} == said
    assert (KINDS[kind]["least"], KINDS[kind]["most"]) == (min(said.values()), max(said.values()))


def test_the_refusals_are_those_of_gfxspec() -> None:
    said = numbers("error_number")
    assert {row["name"]: int(number) for number, row in DEVICE["refusals"].items()} == said


def test_the_faults_are_those_of_scenetext() -> None:
    said = numbers("number_of_fault")
    assert {row["name"]: int(number) for number, row in DEVICE["faults"].items()} == said


# ---- words


def spelled() -> dict[str, str]:
    """The words by their constructors."""
    return {case: value.split('"')[1] for case, value in table("name", "scenetext").items()}


def test_the_words_are_those_of_scenetext() -> None:
    assert sorted(["target", *spelled().values()]) == sorted(WORDS)


def test_the_actors_of_words_are_those_of_scenetext() -> None:
    said = {
        "true": ["immediate", "deferred"],
        "immediate": ["immediate"],
        "not immediate": ["deferred"],
    }
    serves = table("serves", "scenetext")
    for case, word in spelled().items():
        assert WORDS[word]["of"] == said[serves.get(case, serves["command"])], word


Range = tuple[int, int]


def ranges() -> dict[str, Range]:
    """The ranges of scenetext by their names."""
    row = r"pub const (\w+): Range = Range \{\s*low: (\d+),\s*high: (\d+),?\s*\};"
    return {
        name: (int(low), int(high))
        for name, low, high in re.findall(row, sources("scenetext", ".rt"))
    }


def ranges_of(case: str) -> list[Range]:
    """The ranges of a word's natural numbers, in order."""
    ((_, face),) = equations("face_ranges", "scenetext")
    text = table("ranges", "scenetext")[case].replace("face_ranges", face)
    return [ranges()[name] for name in re.findall(r"\b[A-Z][A-Z0-9_]+\b", text)]


def natural(word: str) -> list[Range]:
    """The same as device.json has it: no contexts, and no numbers with a sign."""
    kinds = [KINDS[kind] for kind in WORDS[word]["arguments"].values()]
    return [
        (it["least"], it["most"]) for it in kinds if it["least"] >= 0 and "is_context" not in it
    ]


def test_the_ranges_of_words_are_those_of_scenetext() -> None:
    for case, word in spelled().items():
        assert natural(word) == ranges_of(case), word
    target = re.findall(r"\bU32\b", dict(equations("target_shape", "scenetext"))[""])
    assert natural("target") == [ranges()[name] for name in target]


def elements(text: str) -> list[str]:
    """The elements of a list that is written with ∷ and ends with []."""
    found, depth = [""], 0
    for sign in text:
        depth += (sign == "(") - (sign == ")")
        if sign == "∷" and depth == 0:
            found.append("")
        else:
            found[-1] += sign
    return [it.strip() for it in found[:-1]]


def test_how_many_arguments_words_have() -> None:
    shape = table("shape", "scenetext")
    for case, word in spelled().items():
        kind, options = shape.get(case, shape["command"]).split(" ", 1)
        row = WORDS[word]
        assert (kind == "Groups") == row.get("repeats", False), word
        if kind == "OneOf":
            said = [
                len(ranges_of(case)) * ("ranges" in option)
                + len(re.findall(r"i32s|NonZero|Context", option))
                for option in elements(options.removeprefix("(").removesuffix(")"))
            ]
            assert row.get("counts", [len(row["arguments"])]) == said, word


def test_the_order_of_refusals_in_the_page() -> None:
    """What docs/SCRIPT.md says: "`draw` is tested for 7, 5, 13, 1", is what gfxspec has."""
    page = (TOP / "docs" / "SCRIPT.md").read_text(encoding="utf-8")
    text = re.search(r"Where several rows apply to a line, (.*?)\.\n", page, re.S)
    assert text
    said = {
        word: [int(number) for number in found.split(", ")]
        for words, found in re.findall(
            r"((?:`\w+`|, | and )+) (?:is tested )?for ([0-9]+(?:, [0-9]+)*)",
            text[1].replace("\n", " "),
        )
        for word in re.findall(r"`(\w+)`", words)
    }
    constructors = {
        "draw": "Draw",
        "drawi": "DrawIndexed",
        "vb": "SetVertices",
        "ib": "SetIndices",
        "scissor": "SetScissor",
        "cleards": "ClearDepthStencil",
        "begin": "Begin",
        "predicate": "SetPredication",
        "end": "End",
    }
    rows = {
        left.split("(", 1)[1].split()[0].rstrip(")"): right
        for left, right in equations("command_rows", "gfxspec")
        if "(" in left
    }
    known = numbers("error_number")
    for word, case in constructors.items():
        names = re.findall(r"\((\w+),|\b(too_long)\b", rows[case])
        told = [known["ListTooLong"] if long else known[name] for name, long in names]
        assert said[word] == [*told, known["OutOfMemory"]], word
    assert (said["finish"], said["flush"], said["exec"]) == ([12, 1], [9, 1], [9, 1])
    assert (said["query"], said["pixel"]) == ([11, 9, 17, 1], [15, 9, 1])


# ---- what stands beside it in the package and in C


@pytest.mark.parametrize(
    ("kind", "enumeration"),
    [
        ("topology", states.PrimitiveTopology),
        ("cull_mode", states.CullMode),
        ("comparison", states.ComparisonFunc),
        ("stencil_op", states.StencilOp),
        ("logic_op", states.LogicOp),
        ("write_mask", states.ColorWriteEnable),
    ],
)
def test_the_enumerations_of_the_package(
    kind: str, enumeration: type[IntEnum] | type[IntFlag]
) -> None:
    assert {name: int(it) for name, it in enumeration.__members__.items()} == KINDS[kind]["names"]


def test_the_default_state() -> None:
    said = {
        "raster": states.RasterizerState().numbers(),
        "scissor": (0, 0, 0, 0),
        "ds": (*states.DepthStencilState().numbers(), 0),
        "blend": states.BlendState().numbers(),
        **dict.fromkeys(("predicate", "vb", "ib"), ()),
    }
    assert DEVICE["default_state"] == [
        " ".join(map(str, (word, *row))) for word, row in said.items()
    ]
    # (a topology once set can't be unset by a line)
    assert {word for word in WORDS if WORDS[word]["does"] == "sets"} == {*said, "topology"}


def record(name: str) -> dict[str, str]:
    """The fields of a record that gfxspec defines."""
    (_, text), *_ = equations(name, "gfxspec")
    return {
        key: value.split(".")[-1] for key, value in re.findall(r"(\w+) = (?:pos )?([\w.]+);?", text)
    }


def number(value: str, kinds: str) -> str:
    known = {"false": 0, "true": 1}
    for kind in kinds.split():
        known |= {camel(name): it for name, it in KINDS[kind]["names"].items()}
    return str(known.get(camel(value), value))


def test_the_default_state_is_that_of_gfxspec() -> None:
    face = [number(it, "stencil_op comparison") for it in record("default_face").values()]
    depth_stencil: list[str] = []
    for value in record("default_depth_stencil").values():
        depth_stencil += face if value == "default_face" else [number(value, "comparison")]
    raster = [number(it, "cull_mode") for it in record("default_raster").values()]
    said = {
        "raster": raster[:3],
        "scissor": list(record("default_scissor").values()),
        "ds": [*depth_stencil, record("defaults")["reference"]],
        "blend": [number(it, "logic_op") for it in record("default_blend").values()],
    }
    assert raster[3] == "0"
    assert DEVICE["default_state"][:4] == [" ".join((word, *row)) for word, row in said.items()]


def header() -> str:
    return (TOP / "library" / "yuzuratchet.h").read_text(encoding="ascii")


def test_the_statuses_are_those_of_the_header() -> None:
    said = {
        name.lower(): int(value)
        for name, value in re.findall(r"^ {4}YUZURATCHET_(\w+) = (\d+)", header(), re.M)
    }
    statuses = DEVICE["library"]["statuses"]
    assert {name: it["number"] for name, it in statuses.items()} == said
    assert len({it["text"] for it in statuses.values()}) == len(said)


@pytest.mark.parametrize("name", ["report", "event", "history_report"])
def test_structs_are_those_of_the_header(name: str) -> None:
    struct = header().split(f"struct yuzuratchet_{name} {{", 1)[1].split("};", 1)[0]
    places, at = {}, 0
    for bits, fields in re.findall(r"uint(\d+)_t ([^;]+);", struct):
        for field, count in re.findall(r"(\w+)(?:\[(\d+)\])?", fields):
            places[field] = at
            at += int(bits) // 8 * int(count or 1)
    assert DEVICE["library"][name] == {"size": at, **places}


def test_the_longest_answer_line() -> None:
    side, deepest = LIMITS["target_side"] - 1, LIMITS["deepest"]
    lines = (
        f"pixel {side} {side} 255 255 255 255 {deepest} 255\n",
        f"query 63 {2**64 - 1}\n",
        f"refused {2**64 - 1} 107\n",
    )
    assert DEVICE["answers"]["longest_line"] == max(map(len, lines))


def test_the_page_repeats_no_limit() -> None:
    known = {it for it in LIMITS.values() if it > 64} - {65_536, 65_535}
    paths = [path for path in (TOP / "web").rglob("*.js") if not {"out", "tests"} & {*path.parts}]
    assert paths
    for path in paths:
        found = {int(it) for it in re.findall(r"(?<![\w.])\d+(?![\w.])", uncommented(path))}
        assert not found & known, f"{path.name} repeats {sorted(found & known)}"


def uncommented(path: Path) -> str:
    return re.sub(r"/\*.*?\*/|//[^\n]*", "", path.read_text(encoding="utf-8"), flags=re.S)


def test_what_words_do() -> None:
    said = {
        "target": "begins",
        "finish": "finishes",
        "exec": "executes",
        "flush": "runs",
        "query": "asks",
        "pixel": "asks",
    }
    said |= dict.fromkeys(("begin", "end"), "counts")
    said |= dict.fromkeys(("draw", "drawi", "clearc", "cleards"), "draws")
    said |= dict.fromkeys((line.split()[0] for line in DEVICE["default_state"]), "sets") | {
        "topology": "sets"
    }
    assert {word: row["does"] for word, row in WORDS.items()} == said


def test_kinds_of_numbers() -> None:
    """What of the kinds no range of scenetext says."""
    assert KINDS["coordinate"]["unit"] == ["subpixels", "pixels"]
    assert KINDS["depth"]["unit"] == ["deepest", "of the depth"]
    contexts = range(KINDS["context"]["least"], KINDS["context"]["most"] + 1)
    assert [f"d{at}" for at in contexts] == DEVICE["actors"]["deferred"] and KINDS["context"][
        "is_context"
    ]
    assert KINDS["bias"] == {**KINDS["signed"], "but_zero": True}


def test_the_sizes_of_an_image() -> None:
    page = (TOP / "docs" / "SCRIPT.md").read_text(encoding="utf-8")
    image = DEVICE["image"]
    assert f"{image['header_size']} + {image['pixel_size']} * width * height bytes" in page
    assert (
        len(plain_device.evaluate(b"target 3 2\n")[1])
        == image["header_size"] + 6 * image["pixel_size"]
    )
