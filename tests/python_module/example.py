"""examples/python/compare.py, run as a program on files."""

import os
import pathlib
import subprocess
import sys
import tempfile

from . import samples
from .subject import FOLDER, ROOT

PROGRAM = ROOT / "examples/python/compare.py"
FILES = {
    "old": samples.OLD,
    "new": samples.NEW,
    "wrong": samples.WRONG,
    "cut": samples.CUT,
    "empty": b"",
    "long": samples.LONGEST + b"\6",
    "shortest": samples.SHORTEST,
    "greatest": samples.GREATEST,
    "tall": samples.TALL,
    "wide": samples.WIDE,
    "displaced": samples.DISPLACED,
}
BOUND = "keys that differ would pass with probability at most"
NONE = "A 0 B 0 C 0"


def same(bound, kept):
    """What is printed of keys that are the same: the bound, and which of them is the shorter, with its bytes."""
    return f"same\n{BOUND} {bound}\nkeep the {kept} bytes\n"


def differing(row, column, first, second):
    """What is printed of keys that differ in a cell."""
    return f"different\nrow {row}, column {column}\nfirst {first}\nsecond {second}\n"


CASES = (
    ("old new", 0, same("4.4e-19", "second, 28")),
    ("new old", 0, same("4.4e-19", "first, 28")),
    ("greatest greatest", 0, same("1.4e-17", "first, 28")),
    ("shortest shortest", 0, same("0", "first, 7")),
    ("old wrong", 1, differing(0, 1, "A 10 B 14 C 0", "A 10 B 15 C 0")),
    ("wrong old", 1, differing(0, 1, "A 10 B 15 C 0", "A 10 B 14 C 0")),
    ("cut new", 2, "refused 2 at 30: record missing or cut off; first key\n"),
    ("old cut", 2, "refused 2 at 30: record missing or cut off; second key\n"),
    ("empty cut", 2, "refused 2 at 0: record missing or cut off; first key\n"),
    ("old long", 2, "refused 1 at 65536: key over 65,536 bytes; second key\n"),
    ("old tall", 0, same("6.6e-19", "second, 28")),
    ("wide old", 0, same("8.7e-19", "first, 42")),
    ("wide tall", 0, same("1.1e-18", "second, 28")),
    ("tall new", 0, same("6.6e-19", "first, 28")),
    ("displaced old", 1, differing(0, 1, NONE, "A 10 B 14 C 0")),
    ("old displaced", 1, differing(0, 1, "A 10 B 14 C 0", NONE)),
    ("shortest old", 1, differing(0, 1, NONE, "A 10 B 14 C 0")),
    ("greatest shortest", 1, differing(2**30 - 1, 2**30 - 1, "A 1 B 2 C 3", NONE)),
    ("tall cut", 2, "refused 2 at 30: record missing or cut off; second key\n"),
    ("old absent", 3, ""),
    ("folder old", 3, ""),
    ("old", 3, ""),
    ("old new wrong", 3, ""),
    ("", 3, ""),
)


def run(folder, arguments, output=subprocess.PIPE, **variables):
    """Runs the program in a folder, without standard output where that is None: its status, and
    what it prints and says.
    """
    command = [sys.executable, "-B", str(PROGRAM), *arguments]
    if output is None:
        command = ["sh", "-c", 'exec "$@" >&-', "sh", *command]
    # Output is kept until the end, as it is where the environment does not say otherwise.
    environment = {**os.environ, "PYTHONPATH": str(FOLDER), "PYTHONUNBUFFERED": "", **variables}
    done = subprocess.run(
        command, cwd=folder, env=environment,
        stdout=output, stderr=subprocess.PIPE, text=True, timeout=60, check=False,
    )
    return done.returncode, done.stdout, done.stderr


def hold_failure(hold, about, ran):
    """The program ended with 3, and said why in one line."""
    status, _, errors = ran
    hold.equal(f"{about}: the status", 3, status)
    hold.equal(f"{about}: lines in {errors!r}", 1, len(errors.splitlines()))


def hold_all(hold):
    """Runs the program on files that are keys, are none, and are not there."""
    with tempfile.TemporaryDirectory() as name:
        folder = pathlib.Path(name)
        (folder / "folder").mkdir()
        for file, data in FILES.items():
            (folder / file).write_bytes(data)
        for arguments, status, printed in CASES:
            ran = run(folder, arguments.split())
            hold.equal(f"compare.py {arguments}", (status, printed), ran[:2])
            if status == 3:
                hold_failure(hold, f"compare.py {arguments}", ran)
            else:
                hold.equal(f"compare.py {arguments}: errors", "", ran[2])
        with open("/dev/full", "w", encoding="utf-8") as full:
            hold_failure(hold, "no room", run(folder, ["old", "new"], full))
        hold_failure(hold, "no output", run(folder, ["old", "new"], None))
        hold_failure(hold, "no library", run(folder, ["old", "new"], MORGANA_LIBRARY="absent"))
