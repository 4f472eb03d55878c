#!/usr/bin/env python3
"""Tries the edits that the gate doesn't: crates/NAME/edits/*.edit, many at once.

    tools/try_edits.py [--all] [--room FOLDER] [--keep] [NAME ..]

An edit turns the meaning of a function, and the prover must refuse that function. A function is proved from the
contracts of what it calls and never from their bodies, so edits of different functions don't disturb each other: each
round applies one edit of each function of a crate to a copy and checks the copy once. What the check says of each
edited function is read off its lines:

    search did not prove .., not proved     refused by a goal of a contract, as it must be
    an answer names what isn't there        refused, but only since a written answer names a goal that is gone
    error[borrow-..]                        refused by the borrow checker, before the prover saw it
    proved                                  NOT REFUSED: the contract lets the wrong body through
    no proof: it calls ..                   it stands on a refused function, and wasn't looked at: a later round
    nothing                                 the check stopped before it: a later round, alone at last

An edit outside of every function (a constant, a field) is tried alone, and then any refusal of the crate counts.
Before its edits each crate is tried with one that changes nothing, which must be told as proved. The last line counts
what refused the edits; one that isn't refused by a goal says little of the contract, and is named.

The copy lies in FOLDER (a new folder under /tmp without --room), and --keep leaves it there, so that the next run has
the work of this one. With --all the edits of must-fail/ are tried too. Status 0: each edit was refused; 1: one
wasn't, or couldn't be applied or judged; 2: wrong words.
"""

from __future__ import annotations

import argparse
import enum
import os
import re
import shutil
import subprocess
import sys
import tempfile
import time
from collections import Counter
from collections.abc import Callable
from typing import Optional

import package_path  # noqa: F401
from yuzuratchet.ending import ended

Texts = dict[str, str]
# a pattern of a function's name, and where its body begins and ends
Body = tuple[str, int, int]
Bodies = Callable[[str, str], list[Body]]
# patterns of names, and None for what stands in no function
Functions = set[Optional[str]]

TOP = os.path.dirname(os.path.dirname(os.path.abspath(__file__)))
PARTS = ("src", "specs", "proofs")
CLAUSE = re.compile(r"(?:requires|ensures|ghost)\*?\s*[\w-]*\s*:?\s*\Z")
LITERAL = re.compile(r'//[^\n]*|/\*.*?\*/|b?"(?:\\.|[^"\\])*"|b?\'(?:\\.[^\']*|[^\'\\])\'', re.S)
ITEM = re.compile(r"\b(fn|impl|trait|mod)\b")
# a method of a type is named by the module in which the type stands, and not by that of its impl
METHOD = r"(?:\w+::)*"
# what a check says where a proof file names what isn't there, and which file that is
GONE = re.compile(r"^(?:\./)?proofs/(\S+)/\w+\.antt:\S* error: .* has no `[^`]*` that can be named from here", re.M)
BORROW = re.compile(r"error\[borrow-")


class Refusal(enum.Enum):
    """What refused an edit."""

    GOAL = "by a goal of a contract"
    NAME = "since a written answer names a goal that is gone"
    BORROW = "by the borrow checker"


class Edit:
    """One file of edits/, with the places that it changes."""

    def __init__(self, path: str) -> None:
        self.path = path
        self.label = os.path.relpath(path, f"{TOP}/crates")
        self.pairs: list[tuple[str, str, str]] = []
        self.outcome: str | None = None
        self.refusal: Refusal | None = None
        file = old = None
        with open(path, encoding="utf-8") as lines:
            for line in lines.read().split("\n"):
                if line.startswith("file: "):
                    file = line[len("file: ") :].strip()
                elif line.startswith("old: "):
                    old = line[len("old: ") :]
                elif line.startswith("new:") and file and old:
                    self.pairs.append((file, old, line[len("new:") :].removeprefix(" ")))
                    old = None

    def applied(self, texts: Texts) -> Texts | None:
        """The changed texts by their files, or None where one of its texts doesn't stand there once."""
        changed: Texts = {}
        for file, old, new in self.pairs:
            text = changed.get(file, texts.get(file, ""))
            if text.count(old) != 1:
                return None
            changed[file] = text.replace(old, new)
        return changed or None

    def functions(self, texts: Texts, bodies: Bodies) -> Functions:
        """The functions in whose bodies it changes something, None among them for a place outside of all."""
        found = set()
        texts = dict(texts)
        for file, old, new in self.pairs:
            at = texts[file].find(old)
            inside = [name for name, start, end in bodies(file, texts[file]) if start <= at < end]
            found.add(inside[-1] if inside else None)
            texts[file] = texts[file].replace(old, new)
        return found


def blanked(text: str) -> str:
    """The text with comments and literals as spaces, so that braces and words in them aren't seen."""
    return LITERAL.sub(lambda it: re.sub(r"[^\n]", " ", it[0]), text)


def closing(text: str, start: int) -> int:
    """The place behind the brace that closes the one at start."""
    depth = 0
    for at in range(start, len(text)):
        depth += {"{": 1, "}": -1}.get(text[at], 0)
        if depth == 0:
            return at + 1
    return len(text)


def brace_behind(text: str, start: int) -> int | None:
    """The first brace or semicolon from start on that stands in no parentheses or brackets."""
    depth = 0
    for at in range(start, len(text)):
        depth += {"(": 1, "[": 1, ")": -1, "]": -1}.get(text[at], 0)
        if depth == 0 and text[at] in "{;":
            return at
    return None


def without_generics(header: str) -> str:
    """A header of an impl without its angle brackets' contents."""
    kept, depth = [], 0
    for at, letter in enumerate(header):
        if letter == "<":
            depth += 1
        elif letter == ">" and header[at - 1] != "-":
            depth -= 1
        elif depth == 0:
            kept.append(letter)
    return "".join(kept)


def impl_pattern(header: str) -> str:
    """What the names of an impl's methods begin with, as a pattern: its type, and for a trait's impl the trait behind
    it."""
    words = without_generics(header.removeprefix("impl")).split(" where ")[0]
    trait, _, subject = words.partition(" for ")
    named = re.findall(r"[A-Za-z_]\w*", subject or trait)
    base: str = named[-1] if named else r"\w+"
    if subject:
        return str(base + re.findall(r"[A-Za-z_]\w*", trait)[-1] + r"\w*")
    return METHOD + base


def pattern_of(path: list[str]) -> str:
    """The pattern of a function's name, from the names of its crate, modules and impls."""
    method = [at for at, name in enumerate(path) if name.startswith(METHOD)]
    return path[0] + "::" + "::".join(path[method[-1] :]) if method else "::".join(path)


def functions_in(text: str, path: list[str]) -> list[Body]:
    """Each function in a text as (pattern of its name, start and end of its body)."""
    text = blanked(text)
    found = []
    at = 0
    while item := ITEM.search(text, at):
        kind = item[1]
        if kind == "fn":
            name = re.match(r"\s*(\w+)", text[item.end() :])
            at = item.end()
            if not name:
                continue
            while True:
                brace = brace_behind(text, at)
                if brace is None or text[brace] == ";":
                    break
                end = closing(text, brace)
                if CLAUSE.search(text[at:brace]):
                    at = end
                    continue
                found.append((pattern_of([*path, name[1]]), brace, end))
                at = end
                break
            continue
        brace = brace_behind(text, item.end())
        if brace is None or text[brace] == ";":
            at = item.end()
            continue
        end = closing(text, brace)
        header = text[item.start() : brace].strip()
        inner = impl_pattern(header) if kind == "impl" else re.findall(r"\w+", header)[1]
        for pattern, start, stop in functions_in(text[brace + 1 : end - 1], [*path, inner]):
            found.append((pattern, start + brace + 1, stop + brace + 1))
        at = end
    return found


def bodies_of(crate: str) -> Bodies:
    """A function that gives the functions of a file of a crate, by patterns of their names as the check prints them."""

    def bodies(file: str, text: str) -> list[Body]:
        if not file.startswith("src/"):
            return []
        inner = file.removeprefix("src/").removesuffix(".rt").split("/")
        path = [crate] if inner[-1] in ("lib", "main") else [crate, *inner]
        return functions_in(text, path)

    return bodies


def sources(folder: str) -> Texts:
    texts = {}
    for part in PARTS:
        for at, _, files in os.walk(f"{folder}/{part}"):
            for name in files:
                with open(f"{at}/{name}", encoding="utf-8") as it:
                    texts[os.path.relpath(f"{at}/{name}", folder)] = it.read()
    return texts


def check(folder: str, texts: Texts) -> tuple[int, str]:
    """Checks a crate's copy with these texts in place of its own, and gives back what the check said."""
    own = {}
    for file, text in texts.items():
        with open(f"{folder}/{file}", encoding="utf-8") as it:
            own[file] = it.read()
        with open(f"{folder}/{file}", "w", encoding="utf-8") as it:
            it.write(text)
    try:
        ran = subprocess.run(
            ["rt", "check"],
            cwd=folder,
            stdin=subprocess.DEVNULL,
            stdout=subprocess.PIPE,
            stderr=subprocess.STDOUT,
            errors="replace",
        )
        return ran.returncode, ran.stdout
    finally:
        for file, text in own.items():
            with open(f"{folder}/{file}", "w", encoding="utf-8") as it:
                it.write(text)


def told_of(said: str, pattern: str) -> str:
    """What the check said of a function, by its last line: refused, proved, later or nothing."""
    lines = re.findall(rf"^(?:fn|final fn) {pattern}(?:-\d+)?: (.*)$", said, re.M)
    if any("did not prove" in it or (it.startswith("not proved") and "it calls" not in it) for it in lines):
        return "refused"
    if any("it calls" in it or "no proof" in it for it in lines):
        return "later"
    return "proved" if lines and all(it.startswith("proved") for it in lines) else "nothing"


def note_calls(said: str, calls: dict[str, set[str]]) -> None:
    """Notes what the check told of functions that stand on refused ones."""
    for name, callees in re.findall(r"^(?:fn|final fn) (\S+?)(?:-\d+)?: .*?it calls (.*?), which", said, re.M):
        calls.setdefault(name, set()).update(re.findall(r"`([^`]+)`", callees))


def stands_on(function: str, others: Functions, calls: dict[str, set[str]]) -> bool:
    """Whether a function is known to call one of the others."""
    called = {callee for name, callees in calls.items() if re.fullmatch(function, name) for callee in callees}
    return any(re.fullmatch(other, callee) for other in others if other for callee in called)


def round_of(
    edits: list[Edit], texts: Texts, bodies: Bodies, alone: bool, calls: dict[str, set[str]]
) -> tuple[list[tuple[Edit, Functions]], Texts]:
    """Edits of functions of which none is known to call another: the edits, their functions, and the texts with all
    of them."""
    chosen: list[tuple[Edit, Functions]] = []
    taken: Functions = set()
    changed = dict(texts)
    for edit in edits:
        functions = edit.functions(texts, bodies)
        if taken & functions or (None in functions and chosen):
            continue
        if any(stands_on(it, taken, calls) for it in functions if it):
            continue
        if any(stands_on(it, functions, calls) for it in taken if it):
            continue
        with_it = edit.applied(changed)
        if with_it is None:
            continue
        chosen.append((edit, functions))
        taken |= functions
        changed.update(with_it)
        if alone or None in functions:
            break
    return chosen, {file: text for file, text in changed.items() if text != texts[file]}


def refusal_of(functions: Functions, said: str) -> Refusal:
    """What refused an edit of these functions, as the check said it."""
    if BORROW.search(said):
        return Refusal.BORROW
    gone = ["::" + path.replace("/", "::") for path in GONE.findall(said)]
    known = [re.sub(r"^\w+(?=::)", "", it) for it in functions if it]
    if any(re.fullmatch(name, path) for name in known for path in gone) or (None in functions and gone):
        return Refusal.NAME
    return Refusal.GOAL


def judge(edit: Edit, functions: Functions, code: int, said: str, alone: bool) -> None:
    """Notes an edit's outcome, if the check told it, and what refused it."""
    told = {told_of(said, it) for it in functions if it}
    if None in functions:
        edit.outcome = "refused" if code == 1 else "NOT REFUSED"
    elif "refused" in told:
        edit.outcome = "refused"
    elif told == {"proved"}:
        edit.outcome = "NOT REFUSED"
    elif alone:
        seen = "later" in told or BORROW.search(said)
        edit.outcome = "refused" if code == 1 and seen else "NOT JUDGED: the check never looked at it"
    if edit.outcome == "refused":
        edit.refusal = refusal_of(functions, said)


def harmless(crate: str, folder: str, texts: Texts, bodies: Bodies) -> bool:
    """Tries an edit that changes nothing, which must be told as proved."""
    for file in sorted(texts):
        for name, start, _ in bodies(file, texts[file]):
            if "tests" in name.split("::"):
                continue
            code, said = check(folder, {file: texts[file][: start + 1] + " /* nothing */" + texts[file][start + 1 :]})
            told = told_of(said, name)
            print(f"{crate}: an edit that changes nothing, in {name}: {told}", flush=True)
            return code == 0 and told == "proved"
    return True


def counted(refusals: Counter[Refusal]) -> str:
    """How many edits were refused by what."""
    return ", ".join(f"{refusals[it]} {it.value}" for it in Refusal if refusals[it] or it is Refusal.GOAL)


def try_crate(crate: str, room: str, with_gate: bool, refusals: Counter[Refusal]) -> bool:
    """Tries a crate's edits, and adds what refused them. Whether all were refused."""
    folder = f"{room}/crates/{crate}"
    kinds = ["edits", "must-fail"] if with_gate else ["edits"]
    paths = [f"{TOP}/crates/{crate}/{kind}" for kind in kinds]
    edits = [
        Edit(f"{it}/{name}")
        for it in paths
        if os.path.isdir(it)
        for name in sorted(os.listdir(it))
        if name.endswith(".edit")
    ]
    if not edits:
        return True
    texts, bodies, began = sources(folder), bodies_of(crate), time.time()
    for edit in edits:
        if edit.applied(texts) is None:
            edit.outcome = "BAD EDIT: an old text doesn't stand in its file once"
    well = harmless(crate, folder, texts, bodies)
    rounds, alone = 0, False
    calls: dict[str, set[str]] = {}
    while left := [it for it in edits if it.outcome is None]:
        chosen, changed = round_of(left, texts, bodies, alone, calls)
        code, said = check(folder, changed)
        note_calls(said, calls)
        rounds += 1
        for edit, functions in chosen:
            judge(edit, functions, code, said, alone or len(chosen) == 1)
        alone = all(edit.outcome is None for edit, _ in chosen) or alone and len(left) > 1
        print(
            f"{crate}: round {rounds}: {sum(edit.outcome is not None for edit, _ in chosen)} of {len(chosen)} judged",
            flush=True,
        )
    for edit in edits:
        if edit.outcome != "refused":
            print(f"{edit.label}: {edit.outcome}", flush=True)
        elif edit.refusal and edit.refusal is not Refusal.GOAL:
            print(f"{edit.label}: refused {edit.refusal.value}", flush=True)
    refusals.update(edit.refusal for edit in edits if edit.refusal)
    refused = sum(edit.outcome == "refused" for edit in edits)
    print(f"{crate}: {refused} of {len(edits)} refused, {rounds} rounds, {time.time() - began:.0f} s", flush=True)
    return well and refused == len(edits)


def copied(room: str) -> None:
    """Brings the copy up to date: sources of each crate, and what its checks kept where the copy has nothing."""
    for name in ("crates.txt", "HANDLES"):
        shutil.copy(f"{TOP}/{name}", room)
    os.makedirs(f"{room}/.git", exist_ok=True)
    for crate in sorted(os.listdir(f"{TOP}/crates")):
        own, copy = f"{TOP}/crates/{crate}", f"{room}/crates/{crate}"
        for part in PARTS:
            shutil.rmtree(f"{copy}/{part}", ignore_errors=True)
            if os.path.isdir(f"{own}/{part}"):
                shutil.copytree(f"{own}/{part}", f"{copy}/{part}")
        if os.path.isdir(f"{own}/out") and not os.path.isdir(f"{copy}/out"):
            shutil.copytree(f"{own}/out", f"{copy}/out", symlinks=True)


def main() -> int:
    parser = argparse.ArgumentParser(description=__doc__, formatter_class=argparse.RawDescriptionHelpFormatter)
    parser.add_argument("names", nargs="*", metavar="NAME", help="a crate; without one, every crate that has edits")
    parser.add_argument("--all", action="store_true", help="the edits of must-fail/ too")
    parser.add_argument("--room", help="the folder of the copy")
    parser.add_argument("--keep", action="store_true", help="leave the copy there")
    given = parser.parse_args()
    crates = given.names or [
        it for it in sorted(os.listdir(f"{TOP}/crates")) if os.path.isdir(f"{TOP}/crates/{it}/edits")
    ]
    unknown = [it for it in crates if not os.path.isdir(f"{TOP}/crates/{it}")]
    if unknown:
        parser.error(f"no crate {' '.join(unknown)}")
    room = given.room or tempfile.mkdtemp(prefix="try-edits-")
    os.makedirs(room, exist_ok=True)
    copied(room)
    refusals: Counter[Refusal] = Counter()
    try:
        failed = [it for it in crates if not try_crate(it, room, given.all, refusals)]
    finally:
        if not given.keep:
            shutil.rmtree(room, ignore_errors=True)
    print(f"{f'failed: {chr(32).join(failed)}' if failed else 'all refused'}; {counted(refusals)}")
    return 1 if failed else 0


if __name__ == "__main__":
    sys.exit(ended(main))
