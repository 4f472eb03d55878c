#!/usr/bin/env python3
"""Writes conformance/: small scripts, each for one rule of the device, by which `yuzuratchet judge` judges others.

    tools/make_conformance.py [--check] [--program FILE] [--jobs N]

Scripts stand in a folder for each rule. `index.json` has a title for each, the chapter that the rule is from, and which
features a device needs for it; the order of its rules is that in which they lean on each other, so the first rule that
fails is the one to look at. `expected` has answers and digests of colour, depth and stencil as the device draws them,
each held against tools/plain_device.py before anything is written.

With --check nothing is written: the status is 1 where a file isn't what would be written. Then the program is wanted
no more than the plain device is.
"""

from __future__ import annotations

import argparse
import hashlib
import json
import sys
from collections.abc import Callable, Iterator
from concurrent.futures import ThreadPoolExecutor
from pathlib import Path
from typing import Any

import conformance_calls
import conformance_merger
import conformance_raster
import package_path
from conformance_scripts import Case, Cases, Rule
from plain_device import PlainSession
from yuzuratchet import YuzuratchetError
from yuzuratchet.arguments import whole_number
from yuzuratchet.ending import ended
from yuzuratchet.features import features_of
from yuzuratchet.program import find_program, run_program

try:
    import numpy as np
    from yuzuratchet.planes import Planes
    from yuzuratchet.suite import Expected, drawn_outcome, expected_text
except ModuleNotFoundError as missing:
    sys.exit(f"make_conformance.py: {missing.name} is missing (Debian: python3-numpy)")

FOLDER = package_path.TOP / "conformance"

RASTERIZER, MERGER = "Rasterizer Stage", "Output Merger Stage"
RULES: dict[Rule, Callable[[], Cases]] = {
    Rule("rasterization-rules", "which pixels a triangle covers", "Rasterization Rules"): (
        conformance_raster.rasterization_rules
    ),
    Rule("snapping", "corners go to the nearest 1/256 of a pixel", "Coordinate Snapping"): conformance_raster.snapping,
    Rule("facing-and-culling", "which triangles face the front", f"{RASTERIZER}: facing, cull modes"): (
        conformance_raster.facing
    ),
    Rule("strips-and-restart", "lists, strips, indices, cuts", "Input Assembler Stage"): conformance_raster.strips,
    Rule("scissor", "the scissor rectangle", f"{RASTERIZER}: scissor test"): conformance_raster.scissors,
    Rule("write-masks", "which channels are written", f"{MERGER}: write masks"): conformance_merger.write_masks,
    Rule("depth-functions", "depths that are compared and written", f"{MERGER}: depth test"): (
        conformance_merger.depth_functions
    ),
    Rule("depth-precision", "depths of slopes", f"{RASTERIZER}: depth"): conformance_merger.depth_precision,
    Rule("depth-bias", "a bias on depths", f"{RASTERIZER}: depth bias"): conformance_merger.depth_bias,
    Rule("stencil-operations", "what tests leave in the stencil", f"{MERGER}: stencil operations"): (
        conformance_merger.stencil_operations
    ),
    Rule("stencil-functions", "stencils that are compared", f"{MERGER}: stencil test"): (
        conformance_merger.stencil_functions
    ),
    Rule("masks-and-faces", "masks of the stencil, and its two faces", f"{MERGER}: stencil masks, two-sided stencil"): (
        conformance_merger.masks_and_faces
    ),
    Rule("logic-operations", "logic operations under masks", f"{MERGER}: logic operations"): (
        conformance_merger.logic_operations
    ),
    Rule("clears", "clears of colour, depth and stencil", "ClearRenderTargetView, ClearDepthStencilView"): (
        conformance_merger.clears
    ),
    Rule("queries", "occlusion queries", "Asynchronous Notification: occlusion queries"): conformance_calls.queries,
    Rule("predication", "draws and clears by a query's result", "SetPredication"): conformance_calls.predication,
    Rule("contexts", "deferred contexts beside the immediate one", "Immediate and Deferred Rendering"): (
        conformance_calls.contexts
    ),
    Rule("lists-and-state", "what lists keep and leave", "FinishCommandList, ExecuteCommandList"): (
        conformance_calls.lists_and_state
    ),
}


class Differs(Exception):
    """Why the suite can't be written, or isn't what would be written."""


def cases() -> Iterator[tuple[Rule, str, Case]]:
    """Every script with its rule and its name in the suite."""
    for rule, made in RULES.items():
        names = set()
        for case in made():
            if case.name in names:
                raise Differs(f"{rule.folder} has two scripts {case.name}")
            names.add(case.name)
            yield rule, f"{rule.folder}/{case.name}.txt", case


def index_text() -> str:
    """The index: the rules, and a line for each script."""
    rules = [{"folder": rule.folder, "title": rule.title, "chapter": rule.chapter} for rule in RULES]
    scripts = [
        {"script": name, "title": case.title, "needs": sorted(it.value for it in features_of(case.scene.lines))}
        for _, name, case in cases()
    ]
    parts: dict[str, list[dict[str, Any]]] = {"rules": rules, "scripts": scripts}
    lines = {part: ",\n".join(json.dumps(it) for it in items) for part, items in parts.items()}
    return "{" + ",\n".join(f'"{part}": [\n{text}\n]' for part, text in lines.items()) + "}\n"


def plain(case: Case) -> Expected:
    """What the plain device says of a script."""
    session = PlainSession(case.scene.width, case.scene.height)
    session.take_all(case.scene.lines)
    target = session.target
    shape = target.height, target.width
    depth, stencil = np.array(target.depth).reshape(shape), np.array(target.stencil, dtype=np.uint8).reshape(shape)
    digests = Planes(depth.astype(np.uint32), stencil).digests
    answers = "".join(f"{it}\n" for it in session.answers)
    return Expected(answers, hashlib.sha256(target.image()).hexdigest(), *digests)


def drawn(item: tuple[Rule, str, Case], program: Path) -> Expected:
    """What the device draws; raises where the plain device says otherwise."""
    _, name, case = item
    script = case.scene.script().encode("ascii")
    found = drawn_outcome(name, script, lambda it: run_program(it, program=program), planes=True).drawn
    if found is None or found != plain(case):
        raise Differs(f"{name}: the device and the plain device differ")
    return found


def files(expected: dict[str, Expected]) -> dict[str, str]:
    """Every file of the suite by its name."""
    found = {name: case.scene.script() for _, name, case in cases()}
    return {**found, "index.json": index_text(), "expected": expected_text(expected)}


def write(texts: dict[str, str]) -> None:
    """Writes the suite, and removes what isn't of it any more."""
    for path in [it for it in FOLDER.rglob("*") if it.is_file()]:
        if path.relative_to(FOLDER).as_posix() not in texts:
            path.unlink()
    for name, text in texts.items():
        path = FOLDER / name
        path.parent.mkdir(parents=True, exist_ok=True)
        if not path.is_file() or path.read_text(encoding="ascii") != text:
            path.write_text(text, encoding="ascii", newline="\n")


def check(texts: dict[str, str]) -> None:
    """Raises where what is there is something else."""
    there = {path.relative_to(FOLDER).as_posix(): path for path in FOLDER.rglob("*") if path.is_file()}
    wrong = sorted(set(there) ^ set(texts))
    wrong += [name for name in texts if name in there and there[name].read_text(encoding="ascii") != texts[name]]
    if wrong:
        raise Differs(f"{len(wrong)} files of conformance/ aren't what is written, as {wrong[0]}")


def parsed() -> argparse.Namespace:
    parser = argparse.ArgumentParser(description=__doc__, formatter_class=argparse.RawDescriptionHelpFormatter)
    parser.add_argument("--check", action="store_true", help="looks whether what is there is what would be written")
    parser.add_argument("--program", metavar="FILE", help="the built program, if it isn't this clone's")
    parser.add_argument("--jobs", metavar="N", type=whole_number(1), default=2, help="how many are drawn at once (2)")
    return parser.parse_args()


def main() -> None:
    given = parsed()
    try:
        every = list(cases())
        if given.check:
            expected = {name: plain(case) for _, name, case in every}
        else:
            program = find_program(given.program)
            with ThreadPoolExecutor(max_workers=given.jobs) as pool:
                found = pool.map(lambda item: drawn(item, program), every)
                expected = {name: it for (_, name, _), it in zip(every, found)}
        (check if given.check else write)(files(expected))
    except (Differs, YuzuratchetError) as error:
        sys.exit(f"make_conformance.py: {error}")
    print(f"{len(every)} scripts for {len(RULES)} rules")


if __name__ == "__main__":
    sys.exit(ended(main))
