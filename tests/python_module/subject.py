"""The module under test, loaded from this tree, with the library that MORGANA_LIBRARY names, else
the one that was built.
"""

import os
import pathlib
import sys

ROOT = pathlib.Path(__file__).resolve().parents[2]
FOLDER = ROOT / "python"
BUILT = ROOT / "target/lib/libmorgana.so"
LIBRARY = os.path.abspath(os.environ.get("MORGANA_LIBRARY") or BUILT)

os.environ["MORGANA_LIBRARY"] = LIBRARY
sys.path.insert(0, str(FOLDER))

import morgana  # noqa: E402

if pathlib.Path(morgana.__file__).parent != FOLDER:
    raise ImportError(f"wanted the module of {FOLDER}, got {morgana.__file__}")
