"""``yuzuratchet judge --random``: random scripts, and a smallest one of each kind of difference."""

from __future__ import annotations

import argparse
from collections import Counter
from concurrent.futures import ThreadPoolExecutor
from pathlib import Path
from typing import Iterator

from ..adapters import AdapterDied, AdapterHung, NotSupported
from ..errors import ScriptRefused
from ..features import Feature
from ..judging import Judge, Judgement, Kind, Verdict
from ..progress import ProgressLine
from ..random_script import PROBES, probe, random_script
from ..shrinking import Shrinking
from .common import DIFFERENT, WELL


def judge_random(given: argparse.Namespace, judging: Judge) -> int:
    """Plays random scripts, and tells of each kind of difference the first, made as small as can be."""
    given.out.mkdir(parents=True, exist_ok=True)
    features = features_of_device(judging) - {Feature[name.upper()] for name in given.without}
    missing = sorted(it.value for it in set(Feature) - features)
    print(f"{judging.adapter.device}: random scripts without {', '.join(missing) or 'nothing'}")
    found: Counter[str] = Counter()
    for number, script, judgement in played(given, judging, features):
        if judgement.verdict is not Verdict.FAILED:
            found[judgement.verdict.value] += 1
            continue
        kind = judgement.findings[0].kind
        found[kind.value] += 1
        if found[kind.value] == 1:
            path = given.out / f"{kind.value.replace(' ', '-')}-{given.seed}-{number}.txt"
            tell_smallest(judging, script, kind, path)
    differ = sum(found[kind.value] for kind in Kind)
    parts = ", ".join(f"{count} {what}" for what, count in found.most_common())
    print(f"{given.random} random scripts by seed {given.seed}, {differ} differ: {parts}")
    return DIFFERENT if differ else WELL


def features_of_device(judging: Judge) -> frozenset[Feature]:
    """What an adapter doesn't say that its device lacks."""
    found = set(Feature)
    for feature in PROBES:
        try:
            judging.adapter.play(probe(feature))
        except NotSupported:
            found.discard(feature)
        except (AdapterDied, AdapterHung):
            pass  # (which is found out again, by a script that can be shown)
    return frozenset(found)


def played(
    given: argparse.Namespace, judging: Judge, features: frozenset[Feature]
) -> Iterator[tuple[int, bytes, Judgement]]:
    """Each random script with its number, and what was found of it."""

    def one(number: int) -> tuple[int, bytes, Judgement]:
        script = random_script(f"{given.seed}-{number}", features).script().encode("ascii")
        return number, script, judging.compare(script)

    line, pool = ProgressLine(), ThreadPoolExecutor(max_workers=given.jobs)
    try:
        for it in pool.map(one, range(given.random)):
            line.tell(f"{it[0] + 1} of {given.random} random scripts")
            yield it
    finally:
        pool.shutdown(cancel_futures=True)
        line.end()


def tell_smallest(judging: Judge, script: bytes, kind: Kind, path: Path) -> None:
    """Makes a script small that differs in a kind, stores it, and tells what it shows."""

    def shows(smaller: bytes) -> bool:
        try:
            return kind in judging.compare(smaller).kinds[:1]
        except ScriptRefused:
            return False

    smallest = Shrinking.of(script, shows).smallest()
    path.write_bytes(smallest)
    found = judging.judge(smallest)
    lines = smallest.decode("ascii").splitlines()
    print(
        f"{path}: {len(lines)} lines of {script.count(bytes([10]))}, {', '.join(it.name for it in found.findings)}"
    )
    for line in [*lines, *(it.text for it in found.findings), *found.rows.splitlines()]:
        print(f"    {line}")
