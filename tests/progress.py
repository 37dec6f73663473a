"""The line of progress of morgana: in a run of more than a second it is shown on standard error where that is a terminal,
taken away before the answer, and shown nowhere else.

    python3 -B -m tests.progress target/host/release/morgana
"""

import os
import pty
import re
import subprocess
import sys
import tempfile
from struct import pack

# The most seconds that a run may take.
SECONDS = 60


def keys():
    """Two keys of the same matrices that take some time to compare: 3,000 cells, in one array and in two."""
    cells = pack("<B5I", 4, 5, 7, 1, 2, 3) * 3000
    flat = bytes([1, 30, 30, 2, 30, 30]) + cells + b"\6"
    call = pack("<BH2I", 5, 0, 0, 0)
    return flat, bytes([1, 30, 30, 2, 3, 3]) + cells + bytes([3, 30, 30]) + call + b"\6"


def read_all(descriptor):
    """What is written to a terminal until it is closed."""
    found = b""
    while True:
        try:
            part = os.read(descriptor, 65536)
        except OSError:
            return found
        if not part:
            return found
        found += part


def run(program, folder, points, terminal, keys=("first", "second")):
    """What a comparison at so many points writes to standard output and to standard error."""
    command = [program, "compare", *keys, "--quiet", "--points", str(points)]
    if not terminal:
        done = subprocess.run(command, cwd=folder, capture_output=True, timeout=SECONDS, check=True)
        return done.stdout, done.stderr
    reader, writer = pty.openpty()
    process = subprocess.Popen(command, cwd=folder, stdout=subprocess.PIPE, stderr=writer)
    os.close(writer)
    errors = read_all(reader)
    os.close(reader)
    out, _ = process.communicate(timeout=SECONDS)
    return out, errors


def faults(program):
    """What is wrong with the line of progress, in words."""
    points = 20000
    with tempfile.TemporaryDirectory() as folder:
        for name, key in zip(("first", "second"), keys()):
            with open(os.path.join(folder, name), "wb") as file:
                file.write(key)
        out, errors = run(program, folder, points, True)
        while b"point" not in errors and points < 1000000:
            points *= 4
            out, errors = run(program, folder, points, True)
        line = rb"\rpoint [1-9]\d* of %d\x1b\[K" % points
        if not re.fullmatch(rb"(%s)+\r\x1b\[K" % line, errors):
            yield f"a terminal gets {errors[:300]!r}"
        if not out.startswith(b"same\n"):
            yield f"the answer is {out[:300]!r}"
        if run(program, folder, 3, True)[1]:
            yield "a short run shows progress"
        with open(os.path.join(folder, "list"), "w", encoding="utf-8") as file:
            file.write("first first\nfirst second\nfirst first\n")
        _, errors = run(program, folder, points, True, ["--pairs", "list"])
        line = rb"\rpair 2 of 3, point [1-9]\d* of %d\x1b\[K" % points
        if not re.fullmatch(rb"(%s)+\r\x1b\[K" % line, errors):
            yield f"of several pairs a terminal gets {errors[:300]!r}"
        if run(program, folder, points, False) != (out, b""):
            yield "progress is shown where there is no terminal"


def main():
    """Looks for faults and says how it went."""
    found = list(faults(os.path.abspath(sys.argv[1])))
    for fault in found:
        print(f"the line of progress is wrong: {fault}")
    if not found:
        print("the line of progress is shown on a terminal, and there alone")
    return 1 if found else 0


if __name__ == "__main__":
    sys.exit(main())
