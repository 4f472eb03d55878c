#!/usr/bin/env python3
"""Prints the definitions on which the headline rests, in the order in which to read them.

    tools/trusted.py [--definitions] [--beside] [--check]

It begins with the contracts of `session`, `session_alone`, `draw` and `sizes`, and of the traits that they bound, and
follows each name through the imports of the specification files: to definitions, and to types and constants of the
code. What no such way reaches serves proofs alone. Each file is printed with its lines, and with how many of these
are reached.

With --definitions each definition is printed too, and each name of the toolchain's library that they use; with
--beside those of the same files that aren't reached. With --check it also fails where docs/TRUSTED.md lists other
files, or has one before another on which it stands.

Names are followed by their spelling, so a bound variable that is called as an imported definition counts as it: what
is printed may be too much, and never too little. A line of a reached file that is part of no definition ends the run.
"""

from __future__ import annotations

import argparse
import re
import sys
from collections.abc import Iterator
from dataclasses import dataclass, field
from functools import cache
from pathlib import Path

import package_path
from yuzuratchet.ending import ended

TOP = package_path.TOP
CRATES = TOP / "crates"
PAGE = TOP / "docs" / "TRUSTED.md"

ROOTS = (("sessions", "session"), ("sessions", "session_alone"), ("inmemory", "draw"), ("inmemory", "sizes"))

# a declaration of a specification: `abbrev pub NAME`, `pub record NAME`, `NAME : ..`
DECLARED = re.compile(r"^(?:(?:unfoldable|abbrev|pub|record|data) +)*([^\s:(){}=]+)(?= |$)")
KEYWORDS = re.compile(r"^(?:unfoldable|abbrev|pub|record|data) ")
# words as specifications have them, and as the code does, where more signs part them
WORD = re.compile(r"[^\s(){}\[\],;]+")
CODE_WORD = re.compile(r"\w+(?:\.\w+)*")


class NotFound(Exception):
    """A name leads nowhere: the tool has to be told how to follow it."""


@dataclass
class Declaration:
    """A definition of a specification, or an item of the code: its text, and where it begins."""

    name: str
    path: Path
    line: int
    lines: list[str] = field(default_factory=list)
    is_code: bool = False

    @property
    def text(self) -> str:
        """The text without comments, and without what the code derives."""
        return "\n".join(re.sub(r"(?:^| )(?:--|//).*|^ *#\[.*\]$", "", line) for line in self.lines)

    @property
    def length(self) -> int:
        return len([line for line in self.lines if line.strip()])


@dataclass
class Source:
    """A file: its declarations, and what it imports: {name: (module, name there)}, where a module has no name there."""

    path: Path
    declarations: dict[str, Declaration] = field(default_factory=dict)
    imports: dict[str, tuple[str, str]] = field(default_factory=dict)


def imported(path: str, names: str) -> Iterator[tuple[str, tuple[str, str]]]:
    """What `use PATH.{NAMES}` brings."""
    for name in filter(None, (it.strip() for it in names.split(","))):
        there, _, here = name.partition(" as ")
        yield (here or there).strip(), (path, there.strip())


def read_imports(text: str) -> dict[str, tuple[str, str]]:
    """The imports of a text, `use ..` or `ghost use ..`."""
    found: dict[str, tuple[str, str]] = {}
    for path, names in re.findall(r"\buse ([\w.]+)\.\{([^}]*)\}", text):
        found.update(imported(path, names))
    for path, name in re.findall(r"\buse ([\w.]+) as (\w+)", text):
        found[name] = (path, "")
    return found


@cache
def specification(path: Path) -> Source:
    """A specification file. What a `data` constructs stands for it."""
    source, current, inside = Source(path), None, ""
    for number, line in enumerate(path.read_text(encoding="utf-8").split("\n"), 1):
        if not line.strip() or line.lstrip().startswith("--"):
            continue
        if line.startswith(("use ", "module ")):
            brought = read_imports(line) if line.startswith("use ") else {}
            if not brought and line.startswith("use "):
                raise NotFound(f"{named(path)}:{number}: this import isn't understood")
            source.imports.update(brought)
            inside, current = line if line.startswith("module ") else inside, None
            continue
        inside = inside if line[0].isspace() else ""
        name = name_declared(line, 2 if inside else 0)
        if name and name not in source.declarations:
            current = source.declarations[name] = Declaration(name, path, number, [inside] if inside else [])
        if current is None:
            raise NotFound(f"{named(path)}:{number}: this line is part of no definition")
        current.lines.append(line)
        constructor = re.match(r" {2,4}([^\s:()]+) : ", line)
        if constructor and re.search(r"\bdata\b", current.lines[bool(inside)]):
            source.declarations.setdefault(constructor[1], current)
    return source


def name_declared(line: str, shift: int) -> str | None:
    """The name of the definition that a line begins, if it begins one."""
    begins = line[shift:] if line.startswith(" " * shift) else ""
    name = DECLARED.match(begins) if begins and not begins[0].isspace() else None
    is_new = name and (KEYWORDS.match(begins) or begins.startswith(f"{name[1]} : "))
    return name[1] if name and is_new else None


# ---- the code


def item_of(path: Path, pattern: str) -> Declaration | None:
    """An item of a file of the code: from the line that begins with a pattern to the one that ends it."""
    lines = path.read_text(encoding="utf-8").split("\n")
    for at, line in enumerate(lines):
        if re.match(pattern, line):
            end = at
            if not re.search(r"[;}]\s*$", line):
                end = next(to for to in range(at + 1, len(lines)) if re.match(r"[})]", lines[to]))
            return Declaration(pattern, path, at + 1, lines[at : end + 1], True)
    return None


def code_files(crate: str) -> list[Path]:
    return sorted((CRATES / crate / "src").rglob("*.rt"))


@cache
def code_type(crate: str, name: str) -> Declaration:
    """A struct, an enum or a trait of a crate, wherever it stands."""
    for path in code_files(crate):
        found = item_of(path, rf"(?:pub(?:\(crate\))? )?(?:struct|enum|trait) {name}\b")
        if found:
            found.name = name
            model = item_of(path, rf"impl.* Model for {name}\b")
            found.lines += model.lines if model else []
            return found
    raise NotFound(f"crate {crate} has no type {name}")


@cache
def code_constant(crate: str, name: str) -> Declaration:
    for path in code_files(crate):
        found = item_of(path, rf"(?:pub(?:\(crate\))? )?const {name}\b")
        if found:
            found.name = name
            return found
    raise NotFound(f"crate {crate} has no constant {name}")


def code_item(crate: str, name: str) -> Declaration | None:
    """What the code imports by this name: a type or a constant, else nothing that a contract sees."""
    for found in (code_type, code_constant):
        try:
            return found(crate, name)
        except NotFound:
            pass
    return None


@cache
def contract(crate: str, name: str) -> Declaration:
    """The signature of a function, with its clauses."""
    for path in code_files(crate):
        lines = path.read_text(encoding="utf-8").split("\n")
        for at, line in enumerate(lines):
            if re.match(rf"pub fn {name}\b", line):
                end = next(to for to in range(at, len(lines)) if lines[to] == "{")
                return Declaration(name, path, at + 1, lines[at:end], True)
    raise NotFound(f"crate {crate} has no function {name}")


@cache
def code_imports(path: Path) -> dict[str, tuple[str, str]]:
    """What a file of the code imports for contracts, and the types of other crates that it names."""
    text = path.read_text(encoding="utf-8")
    found = read_imports(text)
    crate = path.relative_to(CRATES).parts[0]
    for root, names in re.findall(r"^use (\w+)(?:::\w+)*::\{?([\w, ]+)\}?;", text, re.M):
        of = crate if root == "crate" else root
        if (CRATES / of).is_dir():
            found.update((name.strip(), (f"code:{of}", name.strip())) for name in names.split(","))
    for name in re.findall(r"^(?:pub )?(?:struct|enum|trait) (\w+)", text, re.M):
        found[name] = (f"code:{crate}", name)
    return found


# ---- following names


def declared(crate: str, rest: list[str], name: str) -> Declaration | None:
    """What `Rattle.CRATE.specs.declared..` names: a type of the code, one of its variants, or a constant."""
    if rest[-1] == "TheConstants":
        return code_constant(crate, name) if name else None
    kind = rest[-2] if rest[-1].startswith("The") else rest[-1]
    return code_type(crate, kind)


def resolved(module: str, name: str) -> Declaration | str | None:
    """What a name of a module is: a declaration of this repository, or the text of one that the toolchain has."""
    if module.startswith("code:"):
        return code_item(module.removeprefix("code:"), name)
    head, crate, *rest = [*module.split("."), "", ""]
    rest = [it for it in rest if it]
    if head != "Rattle" or not (CRATES / crate).is_dir():
        return f"{module}.{name}" if name else None
    if rest[0] != "specs":
        raise NotFound(f"{module} is no specification")
    if rest[1] == "declared":
        return declared(crate, rest[2:], name)
    path = (CRATES / crate / "specs").joinpath(*rest[1:]).with_suffix(".antt")
    if not path.is_file():
        raise NotFound(f"{module} isn't there")
    if not name:
        return None
    found = specification(path).declarations.get(name)
    if found is None:
        raise NotFound(f"{path.relative_to(TOP)} has no {name}")
    return found


def names_of(declaration: Declaration) -> Iterator[tuple[str, str]]:
    """The words of a declaration, each with what stands behind its first point."""
    text = declaration.text
    for word in [*WORD.findall(text), *(CODE_WORD.findall(text) if declaration.is_code else [])]:
        name, _, rest = word.partition(".")
        yield name, rest.split(".")[0]


def is_used(name: str, words: set[str]) -> bool:
    """Whether a name stands in a text; of an operator each part that it has."""
    return name in words or ("◌" in name and all(part in words for part in name.split("◌") if part))


def used(declaration: Declaration) -> Iterator[Declaration | str]:
    """What a declaration names."""
    source = None if declaration.is_code else specification(declaration.path)
    imports = source.imports if source else code_imports(declaration.path)
    pairs = set(names_of(declaration))
    words = {name for name, _ in pairs}
    for name, (module, there) in imports.items():
        if there and is_used(name, words):
            found = resolved(module, there)
        elif not there and name in words:
            yield from filter(None, (resolved(module, behind) for alias, behind in pairs if alias == name))
            continue
        else:
            continue
        if found:
            yield found
    if source:
        own = {id(it): it for name, it in source.declarations.items() if is_used(name, words)}
        yield from own.values()


class Reached:
    """All that the roots reach: declarations in the order in which to read them, and names of the toolchain."""

    def __init__(self) -> None:
        self.declarations: list[Declaration] = []
        self.outside: set[str] = set()
        self._seen: set[int] = set()
        for crate, name in ROOTS:
            self._follow(contract(crate, name))

    def _follow(self, declaration: Declaration) -> None:
        if id(declaration) in self._seen:
            return
        self._seen.add(id(declaration))
        for found in used(declaration):
            if isinstance(found, str):
                self.outside.add(found)
            else:
                self._follow(found)
        self.declarations.append(declaration)

    def files(self, wanted: list[Path]) -> list[Path]:
        """The specification files, each behind those that it stands on; where that leaves a choice, as is wanted."""
        paths = list(dict.fromkeys(it.path for it in self.declarations if not it.is_code))
        left = sorted(paths, key=lambda path: wanted.index(path) if path in wanted else len(wanted))
        order: list[Path] = []
        while left:
            order.append(next(path for path in left if self.below(path) <= {*order}))
            left.remove(order[-1])
        return order

    def below(self, path: Path) -> set[Path]:
        """The specification files that the reached definitions of a file name."""
        found = [found for it in self.of(path) for found in used(it)]
        return {it.path for it in found if isinstance(it, Declaration) and not it.is_code} - {path}

    def of(self, path: Path) -> list[Declaration]:
        """What is reached of a file, in its order."""
        return sorted((it for it in self.declarations if it.path == path), key=lambda it: it.line)

    def beside(self, path: Path) -> list[Declaration]:
        """What isn't reached of a specification file."""
        unique = {id(it): it for it in specification(path).declarations.values()}
        return [it for it in unique.values() if it not in self.declarations]


# ---- what is told


def named(path: Path) -> str:
    return str(path.relative_to(TOP))


def lines_of(path: Path) -> int:
    return len(path.read_text(encoding="utf-8").split("\n")) - 1


def print_files(reached: Reached, files: list[Path], with_definitions: bool, with_others: bool) -> None:
    width = max(len(named(path)) for path in files)
    print(f"{'file':{width}}  lines  reached")
    for path in files:
        taken = reached.of(path)
        print(f"{named(path):{width}}  {lines_of(path):5}  {sum(it.length for it in taken):7}")
        if with_definitions:
            print("".join(f"    {it.name} ({it.line})\n" for it in taken), end="")
        if with_others:
            print("".join(f"    not reached: {it.name} ({it.line})\n" for it in reached.beside(path)), end="")
    code = [it for it in reached.declarations if it.is_code]
    print(f"\n{len(files)} files of specs/ with {sum(map(lines_of, files))} lines, ", end="")
    print(f"of which {sum(it.length for path in files for it in reached.of(path))} are reached.")
    print(f"Of the code: {', '.join(f'{it.name} ({named(it.path)})' for it in code)}.")
    modules = sorted({name.rpartition(".")[0] for name in reached.outside})
    print(f"Of the toolchain: {len(reached.outside)} names of {', '.join(modules)}.")
    if with_definitions:
        print("".join(f"    {name}\n" for name in sorted(reached.outside)), end="")


def listed() -> list[Path]:
    """The specification files that the page links to, in its order."""
    links = re.findall(r"\]\((\.\./crates/[^)]+\.antt)\)", PAGE.read_text(encoding="utf-8"))
    return list(dict.fromkeys((PAGE.parent / link).resolve() for link in links))


def complaints(files: list[Path], page: list[Path]) -> list[str]:
    """In what the page is another than what is reached."""
    found = [f"{named(path)} is reached, and {named(PAGE)} doesn't list it" for path in files if path not in page]
    found += [f"{named(PAGE)} lists {named(path)}, which isn't reached" for path in page if path not in files]
    if not found and files != page:
        late, early = next((a, b) for a, b in zip(files, page) if a != b)
        found.append(f"{named(PAGE)} has {named(early)} before {named(late)}, on which it stands")
    return found


def main() -> int:
    parser = argparse.ArgumentParser(description=__doc__, formatter_class=argparse.RawDescriptionHelpFormatter)
    parser.add_argument("--definitions", action="store_true", help="print what is reached of each file")
    parser.add_argument("--beside", action="store_true", help="print what isn't reached of these files")
    parser.add_argument("--check", action="store_true", help="fail where docs/TRUSTED.md lists other files")
    given = parser.parse_args()
    try:
        page = listed()
        reached = Reached()
        files = reached.files(page)
        wrong = complaints(files, page) if given.check else []
    except (NotFound, OSError) as error:
        sys.exit(f"trusted.py: {error}")
    print_files(reached, files, given.definitions, given.beside)
    for text in wrong:
        print(f"trusted.py: {text}", file=sys.stderr)
    return 1 if wrong else 0


if __name__ == "__main__":
    sys.exit(ended(main))
