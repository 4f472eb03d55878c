"""Puts the package of python/src on the path, so that a tool runs without installing it."""

import pathlib
import sys

TOP = pathlib.Path(__file__).resolve().parent.parent

sys.path.insert(0, str(TOP / "python" / "src"))
