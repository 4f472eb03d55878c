"""Manual pages and completions for shells."""

from __future__ import annotations

import os
import re

import package_path
from release import tree as trees
from release.tree import File
from toolchain import run
from yuzuratchet.limits import WORKERS

PROGRAM_PAGE = package_path.TOP / "library" / "program" / "tiledraw.1"
PARSER = ("yuzuratchet.cli", "parser")
ABOUT = "draws, checks and explains scripts of a software graphics device"
# what `tiledraw` takes, for bash
PROGRAM_COMPLETION = """\
# completion of tiledraw
_tiledraw() {{
    local word=${{COMP_WORDS[COMP_CWORD]}}
    if [ "${{COMP_WORDS[COMP_CWORD - 1]}}" = --workers ]; then
        mapfile -t COMPREPLY < <(compgen -W "{workers}" -- "$word")
    else
        mapfile -t COMPREPLY < <(compgen -W "--workers --help" -f -- "$word")
    fi
}}
complete -o filenames -F _tiledraw tiledraw
"""


def _run(seconds: int, *words: str) -> str:
    sources = str(package_path.TOP / "python" / "src")
    fixed = {"PYTHONPATH": sources, "SOURCE_DATE_EPOCH": str(seconds), "COLUMNS": "80", "LC_ALL": "C", "TZ": "UTC"}
    return run(words, env={**os.environ, **fixed, "PYTHONDONTWRITEBYTECODE": "1"})


def command_page(seconds: int) -> str:
    """yuzuratchet.1, made of the command's own help."""
    module, function = PARSER
    words = ("--module", module, "--function", function, "--project-name", "yuzuratchet")
    page = _run(seconds, "argparse-manpage", *words)
    page = re.sub(r"^\.SH NAME\nyuzuratchet\n", f".SH NAME\nyuzuratchet \\\\- {ABOUT}\n", page, count=1, flags=re.M)
    return re.sub(r"^(usage: .*(?:\n .*)*)\n\n", r".nf\n\1\n.fi\n\n", page, flags=re.M)


def files(seconds: int) -> dict[str, File]:
    """Pages and completions by their places below a prefix."""
    parser = ".".join(PARSER)
    workers = " ".join(map(str, range(WORKERS + 1)))
    return {
        "share/man/man1/tiledraw.1": File(PROGRAM_PAGE.read_bytes()),
        "share/man/man1/yuzuratchet.1": trees.text(command_page(seconds)),
        "share/bash-completion/completions/yuzuratchet": trees.text(_run(seconds, "shtab", "--shell=bash", parser)),
        "share/zsh/site-functions/_yuzuratchet": trees.text(_run(seconds, "shtab", "--shell=zsh", parser)),
        "share/bash-completion/completions/tiledraw": trees.text(PROGRAM_COMPLETION.format(workers=workers)),
    }
