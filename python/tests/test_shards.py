"""`suite` by parts: each script is in one part, what is written of the parts is joined, and executors draw."""

from __future__ import annotations

from concurrent.futures import ProcessPoolExecutor, ThreadPoolExecutor
from pathlib import Path
from xml.etree import ElementTree

import pytest
from test_suite import change, suite

from yuzuratchet.cli import main
from yuzuratchet.suite import Outcome, Shard, Suite, Verdict
from yuzuratchet.suite_run import Drawing, Farm, compare_all, run_suite

NAMES = ["asked.txt", "below/plain.txt", "refused.txt"]


@pytest.mark.parametrize("of", [1, 2, 3, 7])
def test_each_script_is_in_one_part(folder: Path, of: int) -> None:
    parts = [Suite.of_folder(folder, None, Shard(it + 1, of)) for it in range(of)]
    assert sorted(name for it in parts for name in it.names()) == NAMES
    assert sorted(name for it in parts for name in it.stored()) == NAMES


def test_a_name_says_the_part() -> None:
    """By its CRC-32, which has the value of the check of every table: 0xcbf43926 for "123456789"."""
    assert [it for it in range(1, 8) if Shard(it, 7).has("123456789")] == [0xCBF43926 % 7 + 1]


@pytest.mark.parametrize("words", ["0/2", "3/2", "2", "a/b", "1/0"])
def test_what_is_no_part(folder: Path, program: Path, words: str) -> None:
    with pytest.raises(SystemExit) as raised:
        suite(folder, program, "--shard", words)
    assert raised.value.code == 2


def drawn_parts(folder: Path, program: Path, of: int) -> list[str]:
    """Draws each part, and writes XML and page of it; gives the files."""
    files = []
    for number in range(1, of + 1):
        junit, page = folder / f"{number}.xml", folder / f"{number}.html"
        words = ("--shard", f"{number}/{of}", "--junit", str(junit), "--page", str(page))
        suite(folder, program, *words)
        files += [str(junit), str(page)]
    return files


def test_parts_are_joined(folder: Path, program: Path, capsys: pytest.CaptureFixture[str]) -> None:
    change(folder, "asked.txt", "pixel 1 1", "pixel 0 1")
    files = drawn_parts(folder, program, 2)
    capsys.readouterr()
    junit, page = folder / "all.xml", folder / "all.html"
    merged = ["--junit", str(junit), "--page", str(page)]
    assert main(["suite", "--merge", *files, *merged]) == 1
    assert capsys.readouterr().out.endswith("2 of 3 scripts agree\n")
    root = ElementTree.parse(junit).getroot()
    assert [root.get(it) for it in ("tests", "failures", "errors", "skipped")] == list("3100")
    assert sorted(it.get("name") or "" for it in root.iter("testcase")) == NAMES
    text = page.read_text(encoding="utf-8")
    assert text.count("<h2>") == 1 and "asked.txt: the answers differ" in text
    assert '<p class="differs">2 of 3 scripts agree</p>' in text


def test_parts_that_agree(folder: Path, program: Path) -> None:
    files = drawn_parts(folder, program, 3)
    assert main(["suite", "--merge", *files, "--junit", str(folder / "all.xml")]) == 0


def test_a_part_that_is_missing_is_told(
    folder: Path, program: Path, capsys: pytest.CaptureFixture[str]
) -> None:
    files = drawn_parts(folder, program, 3)
    joined = ["--junit", str(folder / "all.xml")]
    assert main(["suite", "--merge", *files[2:], *joined]) == 2
    assert "missing: 1/3" in capsys.readouterr().out
    assert main(["suite", "--merge", files[0], files[0], *joined]) == 2
    assert "part 1/3 is there twice" in capsys.readouterr().err
    (folder / "other.xml").write_text("<a/>")
    assert main(["suite", "--merge", str(folder / "other.xml"), *joined]) == 2
    assert "neither XML nor a page" in capsys.readouterr().err


@pytest.mark.parametrize("words", [[], ["--merge", "a.xml"], ["x", "--merge", "a", "--junit", "b"]])
def test_a_folder_or_files(words: list[str], capsys: pytest.CaptureFixture[str]) -> None:
    assert main(["suite", *words]) == 2
    assert "yuzuratchet: " in capsys.readouterr().err


def test_threads_and_processes_draw(folder: Path, program: Path) -> None:
    change(folder, "asked.txt", "pixel 1 1", "pixel 0 1")
    for executor in (ThreadPoolExecutor(2), ProcessPoolExecutor(2)):
        with executor:
            run = run_suite(folder, executor=executor, drawing=Drawing(program, jobs=2))
        verdicts = {it.name: it.verdict for it in run.outcomes}
        assert verdicts.pop("asked.txt") is Verdict.DIFFERS
        assert set(verdicts.values()) == {Verdict.AGREES} and not run.left


def test_what_an_executor_drew_is_compared_behind_an_interrupt(folder: Path, program: Path) -> None:
    change(folder, "asked.txt", "pixel 1 1", "pixel 0 1")
    told: list[str] = []

    def interrupt(outcome: Outcome) -> None:
        told.append(outcome.name)
        raise KeyboardInterrupt

    suite = Suite.of_folder(folder)
    with ThreadPoolExecutor(3) as executor:
        run = compare_all(suite, Farm(Drawing(program), executor), interrupt)
    verdicts = {it.name: it.verdict for it in run.outcomes}
    assert run.cut is not None and told[0] in verdicts
    assert all((it is Verdict.DIFFERS) == (name == "asked.txt") for name, it in verdicts.items())


def test_the_workers_of_a_cluster_draw(folder: Path, program: Path) -> None:
    distributed = pytest.importorskip("distributed")
    cluster = distributed.LocalCluster(
        n_workers=2, threads_per_worker=1, processes=True, dashboard_address=None
    )
    with cluster, distributed.Client(cluster) as client, client.get_executor() as executor:
        run = run_suite(folder, executor=executor, drawing=Drawing(program))
    assert [it.verdict for it in run.outcomes] == [Verdict.AGREES] * 3
