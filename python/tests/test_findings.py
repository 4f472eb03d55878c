"""All findings at once, warnings, and their forms for machines."""

from __future__ import annotations

import io
import json
from pathlib import Path
from typing import Any

import pytest
from conftest import DATA, TOP, gallery_names

from yuzuratchet import Scene
from yuzuratchet.check import all_located, check_all, check_script, report, report_all
from yuzuratchet.cli import main
from yuzuratchet.findings import Text
from yuzuratchet.lint import RULES, warnings_of
from yuzuratchet.reader import parse
from yuzuratchet.shapes import draw_triangles, rectangle
from yuzuratchet.suite import Expected
from yuzuratchet.survey import all_findings

VB = "vb 0 0 0 1 1 1 1 65536 0 0 1 1 1 1 0 65536 0 1 1 1 1"


def numbers(*lines: str) -> list[tuple[int, int]]:
    """Lines and numbers of what is found in a script on a target of 4 by 4."""
    text = "".join(f"{line}\n" for line in ("target 4 4", *lines)).encode()
    return [(it.line, it.number) for it in all_findings(Text(text))]


# ---- all at once


def test_all_faults_are_told() -> None:
    found = numbers(
        "i drow 3 0", "i topology 4", "i draw 3", "i draw 3 x", "", "x flush", "i exec d0 0 0"
    )
    assert found == [(2, 104), (4, 105), (5, 106), (6, 101), (7, 103), (8, 107)]
    # a fault hides each refusal
    assert numbers("i draw 3 0", "i clearc 1") == [(3, 105)]
    text = b"traget 4 4\ni clearc 1\n"
    assert [(it.line, it.number) for it in all_findings(Text(text))] == [(1, 102), (2, 105)]


def test_lists_behind_a_faulty_finish_are_not_told() -> None:
    capital = f"{'d0'.upper()} finish 0"
    for line in ("d0 finish", "d0 finish 2", capital, "d0  finish 0", "d0 finish 0 # done"):
        assert len(numbers(line, "i exec d0 0 0", "i exec d1 3 0")) == 1
    assert numbers("d0 finish 0", "i exec d0 1 0", "i exec d1 0 0") == [(3, 107), (4, 107)]


def test_refusals_that_stand_alone_are_told() -> None:
    found = numbers(
        "i scissor 3 0 1 4",
        "i pixel 9 0",
        "i end 3",
        "i draw 3 0",
        "i query 5",
        "d0 draw 3 0",
    )
    assert found == [(2, 8), (3, 15), (4, 10), (5, 7), (6, 17), (7, 7)]


@pytest.mark.parametrize(
    "lines",
    [
        # vertices, indices, a topology that were refused
        (f"i {VB.replace('65536', '999999999', 1)}", "i topology 4", "i draw 3 0"),
        ("i vb 0 0 99999999 1 1 1 1", "i topology 4", "i ib 0", "i drawi 1 0 0"),
        # queries
        ("i begin 64", "i flush"),
        ("i predicate 0 1", "i begin 0", "i end 0", "i query 0"),
        ("i begin 0", "i begin 0", "i end 0"),
        # what is open where something runs is taken as ended, and so is the query
        ("i begin 0", "i flush", "i end 0", "i flush", "i pixel 0 0", "i query 0"),
        ("i begin 0", "i pixel 0 0", "i begin 0", "i end 0"),
        ("d0 begin 0", "d0 finish 0", "i exec d0 0 0", "i query 0"),
    ],
)
def test_what_follows_from_a_refusal_is_not_told(lines: tuple[str, ...]) -> None:
    assert len(numbers(*lines)) == 1


def test_what_is_set_anew_is_known_again() -> None:
    wrong = "i vb 0 0 99999999 1 1 1 1"
    assert numbers(wrong, "i topology 4", f"i {VB}", "i draw 4 0") == [(2, 3), (5, 5)]
    # with 0 an execution unsets it
    found = numbers(wrong, "d0 finish 0", "i exec d0 0 0", "i topology 4", "i draw 3 0")
    assert found == [(2, 3), (6, 5)]
    # of another context it was known all along
    assert numbers(wrong, "d0 topology 4", "d0 draw 3 0") == [(2, 3), (4, 5)]


def test_a_full_list_is_told_once() -> None:
    clears = ["i clearc 1 2 3 4"] * 65_540
    assert numbers(*clears) == [(65_538, 13)]
    found = numbers(*clears, "i flush", *clears)
    assert [number for _, number in found] == [13, 13]
    begins = [line for _ in range(66) for line in ("i begin 0", "i end 0")]
    assert numbers(*begins) == [(2 + 2 * 64, 14)]


def test_sides_that_are_refused_hide_nothing() -> None:
    text = b"target 4 9999\ni pixel 4 5000\ni draw 3 0\n"
    found = [(it.line, it.number, it.start) for it in all_findings(Text(text))]
    assert found == [(1, 2, 9), (2, 15, 8), (3, 7, 2)]


# scripts of the gallery in which several lines are to blame
SEVERAL = {
    "begun-twice": 2,
    "query-64-while-open": 2,
    "query-while-open": 2,
    "pixel-outside-while-open": 2,
    "end-of-another": 2,
    "two-contexts": 2,
    "two-contexts-turned": 2,
    "three-contexts": 3,
    "immediate-before-a-list": 2,
    "immediate-before-a-later-list": 2,
}


def test_the_first_is_the_programs(expected: dict[str, Expected]) -> None:
    several = {}
    for name in gallery_names():
        answers = expected[name].answers.splitlines()
        told = answers[-1].split() if answers and answers[-1].startswith("refused") else None
        if name.startswith(("large", "width-")):
            continue
        found = all_findings(Text((DATA / name).read_bytes()))
        first = [(it.line, it.number) for it in found[:1]]
        assert first == ([(int(told[1]), int(told[2]))] if told else []), name
        if len(found) > 1:
            several[Path(name).stem] = len(found)
    assert several == SEVERAL


def test_where_the_program_knows_better_its_line_stands_alone() -> None:
    text = b"target 4 4\ni draw 3 0\ni draw 3 0\n"
    assert [(it.line, it.is_located) for it in all_located(text, 2, 7)] == [(2, True), (3, True)]
    assert [(it.line, it.number, it.is_located) for it in all_located(text, 3, 1)] == [
        (3, 1, False)
    ]


# ---- hints


HINTS = [
    (
        b"target 4 4\ni flush  # now\n",
        "2:8: fault 101",
        "two spaces stand together; a script has no comments",
    ),
    (
        b"target 4 4\ni CLEARC 1 2 3 4\n",
        "2:3: fault 104",
        "'CLEARC' is no command; words are in lower case: 'clearc'",
    ),
    (
        b"target 4 4\nI flush\n",
        "2:1: fault 103",
        "'I' is no actor: a line begins with i or d0 to d7; words are in lower case: 'i'",
    ),
    (
        b"TARGET 4 4\n",
        "1:1: fault 102",
        "the first line begins with 'target', and not with 'TARGET'; words are in lower "
        "case: 'target'",
    ),
    (
        b"target 4 4\ni topology TRIANGLELIST\n",
        "2:12: fault 106",
        "'TRIANGLELIST' is no number of a script: TRIANGLELIST is 4",
    ),
    (
        b"target 4 4\ni topology D3D11_PRIMITIVE_TOPOLOGY_TRIANGLESTRIP\n",
        "2:12: fault 106",
        "'D3D11_PRIMITIVE_TOPOLOGY_TRIANGLESTRIP' is no number of a script: TRIANGLESTRIP is " "5",
    ),
    (
        b"target 4 4\ni raster D3D11_CULL_BACK 0 0\n",
        "2:10: fault 106",
        "'D3D11_CULL_BACK' is no number of a script: BACK is 3",
    ),
    (
        b"target 4 4\ni raster 3 false 0\n",
        "2:12: fault 106",
        "'false' is no number of a script: false is 0",
    ),
    (
        b"target 4 4\ni blend TRUE xor 15\n",
        "2:9: fault 106",
        "'TRUE' is no number of a script: true is 1",
    ),
    (
        b"target 4 4\ni blend 1 xor 15\n",
        "2:11: fault 106",
        "'xor' is no number of a script: XOR is 10",
    ),
    (
        b"target 4 4\ni ds 1 1 D3D11_COMPARISON_LESS_EQUAL 0 255 255 1 1 1 8 1 1 1 8 0\n",
        "2:10: fault 106",
        "'D3D11_COMPARISON_LESS_EQUAL' is no number of a script: LESS_EQUAL is 4",
    ),
    (
        b"target 4 4\ni ds 1 1 2 0 255 255 KEEP 1 1 8 1 1 1 8 0\n",
        "2:22: fault 106",
        "'KEEP' is no number of a script: KEEP is 1",
    ),
    (
        b"target 4 4\ni clearc 1,2,3,4\n",
        "2:17: fault 105",
        "clearc takes 4 arguments, and 1 stand here; one space stands between numbers, and "
        "no comma",
    ),
    (
        b"target 4 4\ni clearc 1, 2, 3, 4\n",
        "2:10: fault 106",
        "'1,' is no number of a script; one space stands between numbers, and no comma",
    ),
    (
        b"\xef\xbb\xbftarget 4 4\n",
        "1:1: fault 101",
        "the file begins with a byte-order mark; it is to be saved as UTF-8 without one",
    ),
]


@pytest.mark.parametrize(("text", "where", "why"), HINTS)
def test_hints(text: bytes, where: str, why: str, program: Path) -> None:
    finding = check_script(text, program=program)
    assert finding is not None
    assert report(finding, "x", text).splitlines()[0] == f"x:{where}: {why}"


def test_the_index_that_is_no_vertex_is_underlined(program: Path) -> None:
    text = f"target 4 4\ni {VB}\ni ib 0 1 7 2\ni flush\ni topology 4\ni drawi 4 0 0\n".encode()
    finding = check_script(text, program=program)
    assert finding is not None
    assert report(finding, "x", text).splitlines()[:6] == [
        "x:6:13: refusal 6: base: index 7 at place 2 with 0 added is no vertex: 3 are set",
        "    i drawi 4 0 0",
        "                ^",
        "  x:3:10: it stands here",
        "    i ib 0 1 7 2",
        "             ^",
    ]


def test_what_a_number_means_is_told_once(program: Path) -> None:
    text = b"target 4 4\ni draw 3 0\ni draw 3 0\n"
    told = report_all(check_all(text, program=program), "x", text).splitlines()
    assert sum("what to do" in line for line in told) == 1
    assert [line for line in told if line.startswith("x:")] == [
        "x:2:3: refusal 7: draw: no topology is set",
        "x:3:3: refusal 7: draw: no topology is set",
    ]


# ---- warnings


def warned(*lines: str) -> list[tuple[int, int, str]]:
    """Lines, columns and rules of the warnings of a script on a target of 4 by 4."""
    data = "".join(f"{line}\n" for line in ("target 4 4", *lines)).encode()
    text = Text(data)
    return [(it.line, text.column(it), it.rule) for it in warnings_of(text, *parse(data))]


def test_lists() -> None:
    assert warned("d2 clearc 1 2 3 4", "d2 flush"[:0] + "d2 clearc 1 2 3 4") == [
        (2, 1, "list-never-finished")
    ]
    found = warned("d0 finish 0", "d0 finish 0", "d1 finish 1", "i exec d0 1 0", "i exec d0 1 0")
    assert found == [(2, 4, "list-never-executed"), (4, 4, "list-never-executed")]
    assert warned("d0 clearc 1 2 3 4", "d0 finish 0", "i exec d0 0 0") == []


def test_draws_of_nothing() -> None:
    two = "vb 0 0 0 1 1 1 1 65536 0 0 1 1 1 1"
    assert warned(f"i {two}", "i topology 4", "i draw 2 0") == [(4, 8, "draw-of-no-triangle")]
    assert warned(f"i {two}", "i topology 5", "i draw 0 0") == [(4, 8, "draw-of-no-triangle")]
    strip = ("i ib 0 1 65535 0 1", "i topology 5", "i drawi 5 0 0")
    assert warned(f"i {VB}", *strip) == [(5, 9, "draw-of-no-triangle")]


def test_draws_that_are_culled() -> None:
    draw = (f"i {VB}", "i topology 4", "i draw 3 0")
    assert warned(*draw) == []
    assert warned("i raster 3 1 0", *draw) == [(5, 8, "draw-all-culled")]
    assert warned("i raster 2 0 0", *draw) == [(5, 8, "draw-all-culled")]
    assert warned("i raster 1 1 0", *draw) == []
    # of no area on the grid of 1/256 pixel: 128 of 65,536 is half of that, and goes to the even one
    flat = "i vb 0 0 0 1 1 1 1 65536 0 0 1 1 1 1 0 128 0 1 1 1 1"
    assert warned("i raster 1 0 0", flat, *draw[1:]) == [(5, 8, "draw-all-culled")]
    assert warned("i raster 1 0 0", flat.replace("128", "129"), *draw[1:]) == []
    # one of two faces the front
    both = "i ib 0 1 2 0 2 1"
    assert warned(draw[0], both, "i topology 4", "i drawi 6 0 0") == []


def test_queries() -> None:
    assert warned("i begin 3", "i end 3") == [(2, 9, "query-never-asked")]
    assert warned("i begin 3", "i end 3", "i query 3") == []
    assert warned("i begin 3", "i end 3", "i flush", "i predicate 3 0", "i clearc 1 1 1 1") == []


def test_states_that_are_set_twice() -> None:
    draw = (f"i {VB}", "i topology 4", "i draw 3 0")
    twice = ("i blend 0 4 0", "i blend 0 4 15")
    assert warned(*twice, *draw) == [(2, 3, "state-set-twice")]
    assert warned(twice[0], *draw, *twice[1:]) == []
    assert warned("i blend 0 4 0", "d0 blend 0 4 15", "d0 finish 0", "i exec d0 0 1") == []
    # a clear depends on no state but the predicate
    assert warned(twice[0], "i clearc 1 1 1 1", twice[1], *draw) == [(2, 3, "state-set-twice")]
    count = ("i begin 0", "i end 0", "i flush")
    assert warned(*count, "i predicate 0 1", "i clearc 1 1 1 1", "i predicate", "i query 0") == []
    # with 0 an execution sets the default
    assert warned("d0 finish 0", twice[0], "i exec d0 0 0", twice[1], *draw) == []
    assert warned("d0 finish 0", twice[0], "i exec d0 0 1", twice[1], *draw) == [
        (3, 3, "state-set-twice")
    ]


def test_examples_have_no_warnings() -> None:
    for path in (TOP / "python" / "examples").glob("*.txt"):
        data = path.read_bytes()
        assert warnings_of(Text(data), *parse(data)) == [], path


# ---- the command, and its forms for machines


@pytest.fixture
def scripts(tmp_path: Path) -> list[Path]:
    """One that is refused, one with a fault, one with a warning, and one that is well."""
    texts = (
        f"target 4 4\ni {VB}\ni ib 0 9\ni topology 4\ni drawi 2 0 0\ni draw 9 0\n",
        "target 4 4\ni draẃ 3 0\n",
        "target 4 4\nd0 finish 0\n",
        "target 4 4\n",
    )
    paths = [tmp_path / f"{name}.txt" for name in ("refused", "faulty", "warned", "well")]
    for path, text in zip(paths, texts):
        path.write_text(text, encoding="utf-8")
    return paths


def checked(capsys: pytest.CaptureFixture[str], program: Path, *words: object) -> tuple[int, Any]:
    status = main(["check", *map(str, words), "--program", str(program)])
    return status, json.loads(capsys.readouterr().out)


def test_json(scripts: list[Path], program: Path, capsys: pytest.CaptureFixture[str]) -> None:
    status, found = checked(capsys, program, *scripts, "--lint", "--json")
    assert status == 1 and found["version"] == 1
    files = {Path(it["file"]).stem: it for it in found["files"]}
    verdicts = {name: it["verdict"] for name, it in files.items()}
    assert verdicts == {"refused": "refusal", "faulty": "fault", "warned": "well", "well": "well"}
    first, second = files["refused"]["findings"]
    assert {key: first[key] for key in ("kind", "code", "number", "told", "line", "column", "end_column")} == {
        "kind": "refusal", "code": "refusal-6", "number": 6, "told": True, "line": 5, "column": 13, "end_column": 14,
    }  # fmt: skip
    assert first["also"] == {"line": 3, "column": 8, "end_column": 9}
    assert first["meaning"].startswith("`drawi`") and first["advice"]
    assert (second["number"], second["told"]) == (5, False)
    (fault,) = files["faulty"]["findings"]
    assert (fault["line"], fault["column"], fault["end_column"]) == (
        2,
        6,
        7,
    )  # (letters, and not bytes)
    (warning,) = files["warned"]["findings"]
    assert (warning["kind"], warning["code"], warning["told"]) == (
        "warning",
        "list-never-executed",
        False,
    )
    assert "number" not in warning and files["well"]["findings"] == []
    assert checked(capsys, program, scripts[2], "--lint", "--json")[0] == 0


def test_sarif(scripts: list[Path], program: Path, capsys: pytest.CaptureFixture[str]) -> None:
    status, log = checked(capsys, program, *scripts, "--lint", "--sarif")
    assert status == 1
    check_sarif(log)
    results = log["runs"][0]["results"]
    assert [(it["ruleId"], it["level"]) for it in results] == [
        ("refusal-6", "error"), ("refusal-5", "error"), ("fault-101", "error"), ("list-never-executed", "warning"),
    ]  # fmt: skip
    region = results[0]["locations"][0]["physicalLocation"]["region"]
    assert region == {"startLine": 5, "startColumn": 13, "endColumn": 14}
    uris = {it["locations"][0]["physicalLocation"]["artifactLocation"]["uri"] for it in results}
    assert uris == {path.as_uri() for path in scripts[:3]}
    related = results[0]["relatedLocations"][0]["physicalLocation"]["region"]
    assert related == {"startLine": 3, "startColumn": 8, "endColumn": 9}


def check_sarif(log: Any) -> None:
    """Holds a log against what SARIF 2.1.0 wants of the properties that stand in it."""
    assert log["version"] == "2.1.0" and log["$schema"].endswith("sarif-2.1.0.json")
    for run in log["runs"]:
        driver = run["tool"]["driver"]
        assert driver["name"] and run["columnKind"] in ("utf16CodeUnits", "unicodeCodePoints")
        codes = [rule["id"] for rule in driver["rules"]]
        assert len(set(codes)) == len(codes)
        for rule in driver["rules"]:
            assert rule["shortDescription"]["text"]
            assert rule["defaultConfiguration"]["level"] in ("none", "note", "warning", "error")
        for result in run["results"]:
            assert result["message"]["text"] and result["level"] in (
                "none",
                "note",
                "warning",
                "error",
            )
            assert codes[result["ruleIndex"]] == result["ruleId"]
            for location in result["locations"] + result.get("relatedLocations", []):
                physical = location["physicalLocation"]
                assert " " not in physical["artifactLocation"]["uri"]
                region = physical.get("region", {"startLine": 1, "startColumn": 1, "endColumn": 1})
                assert (
                    1 <= region["startLine"] and 1 <= region["startColumn"] <= region["endColumn"]
                )


def test_each_rule_can_be_told() -> None:
    text = b"target 4 4\ni draw 3 0\n"
    memory = all_located(text, 0, 1)[0]
    assert memory.code == "refusal-1" and memory.explained is not None
    assert set(RULES) == {rule for rule in RULES if rule.replace("-", "").isalpha()}
    from yuzuratchet.finding_formats import Checked, as_sarif

    log = as_sarif([Checked("a b.txt", Text(text), [memory])])
    check_sarif(log)
    assert "region" not in log["runs"][0]["results"][0]["locations"][0]["physicalLocation"]


def test_standard_input(
    program: Path, capsys: pytest.CaptureFixture[str], monkeypatch: pytest.MonkeyPatch
) -> None:
    monkeypatch.setattr("sys.stdin", io.TextIOWrapper(io.BytesIO(b"target 4 4\ni draw 3 0\n")))
    assert main(["check", "-", "--program", str(program)]) == 1
    assert capsys.readouterr().out.startswith("<stdin>:2:3: refusal 7: draw: no topology is set\n")


def test_many_findings_are_cut(
    tmp_path: Path, program: Path, capsys: pytest.CaptureFixture[str]
) -> None:
    path = tmp_path / "x.txt"
    path.write_text("target 4 4\n" + "nonsense\n" * 60)
    assert main(["check", str(path), "--program", str(program)]) == 1
    out = capsys.readouterr().out
    assert out.endswith(f"{path}: and 10 more\n") and out.count("fault 103") == 50


def test_warnings_are_told_and_are_no_reason(
    scripts: list[Path], program: Path, capsys: pytest.CaptureFixture[str]
) -> None:
    path = scripts[2]
    assert main(["check", str(path), "--lint", "--program", str(program)]) == 0
    assert capsys.readouterr().out == (
        f"{path}:2:4: warning list-never-executed: list 0 of d0 is never executed: it draws nothing\n"
        "    d0 finish 0\n"
        "       ^^^^^^\n"
        f"{path}: no fault, and nothing is refused, 1 warning\n"
    )


def test_labels_are_told(tmp_path: Path, program: Path, capsys: pytest.CaptureFixture[str]) -> None:
    scene = Scene(4, 4, strict=False)
    scene.label("the floor")
    draw_triangles(scene.immediate, rectangle(0, 0, 4, 4))
    scene.immediate.draw(9)
    path = tmp_path / "scene.txt"
    scene.save(path)
    words = ["check", str(path), "--program", str(program)]
    assert main(words) == 1
    assert (
        f"{path}:5:8: refusal 5: count: 9 from place 0 on pass the end of the 6 vertices that are set (in the floor)\n"
        in capsys.readouterr().out
    )
    assert main([*words, "--json"]) == 1
    assert json.loads(capsys.readouterr().out)["files"][0]["findings"][0]["label"] == "the floor"
