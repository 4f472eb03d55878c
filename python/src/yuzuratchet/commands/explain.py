"""``yuzuratchet explain``."""

from __future__ import annotations

import argparse
import json
from pathlib import Path
from typing import Any

from ..arguments import whole_number
from ..errors import ScriptFault, ScriptRefused
from ..progress import ProgressLine
from .common import STANDARD, WELL, add_command, how, read_bytes, refused, shown_name


def add(commands: Any) -> None:
    """Adds ``explain``."""
    about = "Tells why a pixel is what it is: the lines and triangles that touched it, in order."
    found = add_command(commands, "explain", about)
    found.epilog = "A line '4 by 259' is line 4, of a list that line 259 executed."
    found.add_argument("script", metavar="SCRIPT", type=Path, help="a script; - is standard input")
    found.add_argument("x", metavar="X", type=whole_number(0))
    found.add_argument("y", metavar="Y", type=whole_number(0))
    at = "tells of the lines up to this one, which is counted from 1"
    found.add_argument("--at", metavar="LINE", type=whole_number(1), help=at)
    changes = "tells of those steps alone that changed the pixel"
    found.add_argument("--changes", action="store_true", help=changes)
    found.add_argument("--json", action="store_true", help="tells it as JSON")
    found.set_defaults(run=explain)


def explain(given: argparse.Namespace) -> int:
    """Explains a pixel."""
    from ..explain import explain as explained
    from ..excerpt import up_to
    from ..explanation import as_json, changing, heading, table
    from ..labels import Labels
    from ..reader import read_script

    text, name, line = read_bytes(given.script), shown_name(given.script), ProgressLine(every=3)
    labels = Labels() if given.script == STANDARD else Labels.read(given.script, text)
    try:
        scene = read_script(up_to(text, given.at) if given.at else text)
        found = explained(scene, given.x, given.y, told=line.tell, **how(given))
    except (ScriptFault, ScriptRefused) as error:
        raise refused(given.script, error.line, error.number) from error
    finally:
        line.clear()
    if given.changes:
        found = changing(found)
    if given.json:
        print(json.dumps(as_json(found, labels), indent=2))
    else:
        print(f"{name}: {heading(found)}\n\n{table(found, labels)}")
    return WELL
