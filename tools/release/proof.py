"""What was proved of what a release has: PROOF.txt, and what is known of the gate."""

from __future__ import annotations

import datetime
import hashlib
import json
import pathlib
import re
from collections.abc import Mapping
from dataclasses import asdict, dataclass

import package_path
from toolchain import NotBuilt, run

TOP = package_path.TOP
RECORD = TOP / "out" / "gate.json"
PASSED = re.compile(r"[1-9][0-9]* passed, 0 failed\b.*")
STATEMENT = re.compile(r"^## The headline\n\n((?:>.*\n)+)", re.M)
CLAUSE = re.compile(r"^ensures .*R\.tells .*$", re.M)
NOT_PROVED = """\
NOT PROVED. The binaries of this release were compiled with checks, and without a proof (make_release.py --checked).
They are for trying the release itself. Nothing below is claimed of them.
"""


@dataclass(frozen=True)
class State:
    """The commit that a clone stands at, its time, the sum of its files, and whether files differ from it."""

    commit: str
    seconds: int
    tree: str
    is_changed: bool

    @classmethod
    def of_clone(cls, top: pathlib.Path = TOP) -> State:
        """How this clone stands."""
        commit, seconds, tree = _git(top, "log", "-1", "--format=%H %ct %T").split()
        return cls(commit, int(seconds), tree, bool(_git(top, "status", "--porcelain")))


def _git(top: pathlib.Path, *words: str) -> str:
    return run(["git", "-C", top, *words]).strip()


@dataclass(frozen=True)
class Gate:
    """The gate's last line, when it came, of which files, and by which toolchain."""

    line: str
    date: str
    commit: str
    tree: str
    toolchain: str


def toolchain_line() -> str:
    """The version of the toolchain and of its logic."""
    return run(["rt", "version"]).strip()


def record(line: str, state: State) -> Gate:
    """Keeps that the gate passed on this clone; raises where it didn't, or where it ran on other files."""
    if not PASSED.fullmatch(line):
        raise NotBuilt(f"the gate didn't pass: its last line is {line!r}")
    if state.is_changed:
        raise NotBuilt("the clone has changes, so it isn't known of which commit the gate has passed")
    date = datetime.datetime.now(datetime.timezone.utc).strftime("%Y-%m-%d %H:%M UTC")
    gate = Gate(line, date, state.commit, state.tree, toolchain_line())
    RECORD.parent.mkdir(exist_ok=True)
    RECORD.write_text(json.dumps(asdict(gate), indent=1) + "\n", encoding="utf-8")
    return gate


def passed(state: State) -> Gate:
    """The gate's run on the files of this commit, by this toolchain; raises where none is known."""
    if state.is_changed:
        raise NotBuilt("the clone has changes: a release is of a commit (git status lists them)")
    try:
        gate = Gate(**json.loads(RECORD.read_text(encoding="utf-8")))
    except (OSError, ValueError, TypeError):
        raise NotBuilt(f"{RECORD}, which tools/test_all.sh writes where the gate passes, isn't there") from None
    if not PASSED.fullmatch(gate.line):
        raise NotBuilt(f"{RECORD} says that the gate didn't pass: {gate.line!r}")
    if gate.tree != state.tree:
        raise NotBuilt(f"the gate passed on {gate.commit[:12]}, and this is {state.commit[:12]}: run tools/test_all.sh")
    if gate.toolchain != toolchain_line():
        raise NotBuilt(f"the gate passed by {gate.toolchain}, and this is {toolchain_line()}")
    return gate


def headline() -> tuple[str, str]:
    """The sentence and the clause of the README."""
    readme = (TOP / "README.md").read_text(encoding="utf-8")
    statement, clause = STATEMENT.search(readme), CLAUSE.search(readme)
    if not (statement and clause):
        raise NotBuilt("the README has no headline")
    return statement[1].replace("> ", "  "), clause[0]


@dataclass(frozen=True)
class Binary:
    """A file that was compiled, the path at which a package has it, and the command that makes it."""

    name: str
    data: bytes
    command: str

    @property
    def sum(self) -> str:
        """Its SHA-256."""
        return hashlib.sha256(self.data).hexdigest()


def text(version: str, state: State, gate: Gate | None, binaries: Mapping[str, Binary]) -> str:
    """PROOF.txt: of the gate's run, or of a build without a proof."""
    statement, clause = headline()
    changes = " with changes" if state.is_changed else ""
    lines = [f"Yuzuratchet {version}, commit {state.commit}{changes}\n"]
    if gate:
        lines += [f"Toolchain: {gate.toolchain}\n", f"Gate: {gate.line}\n", f"Date: {gate.date}\n"]
        lines.append("\nProved, by the gate's run on the files of this commit:\n\n")
    else:
        lines += ["Gate: not run for this release\n\n", NOT_PROVED, "\nWhat the gate proves of the sources:\n\n"]
    lines += [statement, f"\n  {clause}\n\n"]
    lines.append("  (`session` in crates/sessions/src/bytes.rt; premises and limits: README.md, docs/TRUSTED.md)\n")
    lines.append(
        "\nTrusted, and not proved: the toolchain, the C compiler, musl and jemalloc or the C library, and the C in"
        " library/.\n"
    )
    lines.append("\nBinaries, by their SHA-256, and what makes them:\n")
    for it in binaries.values():
        lines.append(f"\n{it.sum}  {it.name}\n  {it.command}\n")
    return "".join(lines)
