"""The programs under examples/: built as their head comments say, but against target/, and run on the same pairs of files.

    python3 -B -m tests.examples

Each ends with the status that is wanted, and what it prints begins with the wanted line. Prints one line and ends with status 0,
or prints the first difference and ends with status 1.
"""

import os
import subprocess
import sys
import tempfile

OLD = bytes.fromhex(
    "010101 020001 04 00000000 01000000 05000000 07000000 00000000"
    "030101 05 0000 00000000 00000000 05 0000 00000000 00000000 06"
)
NEW = bytes.fromhex("010101 020101 04 00000000 01000000 0a000000 0e000000 00000000 06")
FILES = {
    "old": OLD,
    "new": NEW,
    "wrong": NEW.replace(b"\x0e", b"\x0f"),
    "cut": OLD[:40],
    "empty": b"",
    "zero": bytes.fromhex("010000 020000 06"),
    # The circuit of new with more rows, with more columns, and with more rows and in the second of them.
    "tall": bytes.fromhex("010201 020201 04 00000000 01000000 0a000000 0e000000 00000000 06"),
    "wide": bytes.fromhex("010103 020101 04 00000000 01000000 0a000000 0e000000 00000000")
    + bytes.fromhex("030103 05 0000 00000000 00000000 06"),
    "displaced": bytes.fromhex("010201 020201 04 02000000 01000000 0a000000 0e000000 00000000 06"),
    "long": bytes(70000),
}

# The arguments, the status, and how the output begins.
RUNS = [
    (["old", "new"], 0, "same"),
    (["old", "old"], 0, "same"),
    (["zero", "zero"], 0, "same"),
    (["old", "wrong"], 1, "different"),
    (["cut", "wrong"], 2, "refused 2 at 30"),
    (["old", "cut"], 2, "refused 2 at 30"),
    (["cut", "empty"], 2, "refused 2 at 30"),
    (["old", "empty"], 2, "refused 2 at 0"),
    (["old", "zero"], 1, "different"),
    (["zero", "old"], 1, "different"),
    (["old", "tall"], 0, "same"),
    (["wide", "old"], 0, "same"),
    (["tall", "wide"], 0, "same"),
    (["wide", "tall"], 0, "same"),
    (["old", "displaced"], 1, "different"),
    (["displaced", "wide"], 1, "different"),
    (["tall", "cut"], 2, "refused 2 at 30"),
    (["cut", "tall"], 2, "refused 2 at 30"),
    (["long", "old"], 2, "refused 1 at 65536"),
    (["old", "absent"], 3, ""),
    (["absent", "old"], 3, ""),
    (["old", "."], 3, ""),
    (["old"], 3, ""),
    ([], 3, ""),
]


# The sampler of the example in C, tried by itself: numbers below p, and each of 31 bits as often 1 as 0. Of 3,000 bits, further from
# half than 300 is less likely than 1 in 10^25.
SAMPLER = """
#define main example_main
#include "../../examples/c/compare.c"
#undef main
int main(void)
{
    static uint32_t numbers[3000];
    draw(numbers, 3000);
    for (int bit = 0; bit < 31; bit++) {
        int ones = 0;
        for (int i = 0; i < 3000; i++) {
            if (numbers[i] >= MORGANA_P || (i > 1 && numbers[i] == numbers[i - 1] && numbers[i] == numbers[i - 2]))
                return 1;
            ones += numbers[i] >> bit & 1;
        }
        if (ones < 1200 || ones > 1800)
            return 1;
    }
    return 0;
}
"""

# A library whose version is another one, for the example in C.
OTHER_VERSION = """
#include <morgana.h>
uint32_t morgana_other(void) { return MORGANA_VERSION + 1000; }
"""


# What would have cargo link another archive, or build elsewhere.
ELSEWHERE = ("MORGANA_ARCHIVE", "CARGO_TARGET_DIR", "CARGO_BUILD_TARGET", "CARGO_BUILD_TARGET_DIR")


class Failed(Exception):
    """An example is not as wanted."""


def built(*command, folder="."):
    """Runs a command that builds an example, into target/."""
    usual = {name: value for name, value in os.environ.items() if name not in ELSEWHERE}
    done = subprocess.run(command, cwd=folder, env=usual, capture_output=True, text=True, timeout=600)
    if done.returncode != 0:
        raise Failed(f"{command} ends with {done.returncode}\n{done.stderr}")


def programs(folder):
    """The command of each example, built."""
    program = os.path.join(folder, "compare-c")
    strict = ["-std=gnu11", "-Wall", "-Wextra", "-Wpedantic", "-Werror"]
    sources = ["-Ihost/include", "examples/c/compare.c", "target/staticlib/libmorgana.a"]
    built("cc", *strict, *sources, "-o", program)
    built("cargo", "fmt", "--check", folder="examples/rust")
    built("cargo", "build", "--release", "--locked", "--offline", "--quiet", folder="examples/rust")
    return {
        "C": [program],
        "Rust": [os.path.abspath("target/host/release/compare")],
        "Python": [sys.executable, "-B", os.path.abspath("examples/python/compare.py")],
    }


def compiled(folder, name, source, *flags):
    """Compiles a source of C with the example's folders, and runs the program: its status."""
    path = os.path.join(folder, name)
    with open(f"{path}.c", "w", encoding="utf-8") as file:
        file.write(source)
    sources = ["-Ihost/include", "-iquote", "examples/c/", f"{path}.c", *flags, "target/staticlib/libmorgana.a"]
    built("cc", "-std=gnu11", *sources, "-o", path)
    old, new = os.path.join(folder, "old"), os.path.join(folder, "new")
    return subprocess.run([path, old, new], capture_output=True, timeout=60).returncode


def check_c(folder):
    """The example in C draws well, and looks at the library's version."""
    sampler = SAMPLER.replace("../../examples/c/compare.c", os.path.abspath("examples/c/compare.c"))
    if compiled(folder, "sampler", sampler) != 0:
        raise Failed("C: the sampler does not draw every number below p alike")
    renamed = ["-Dmorgana_version=morgana_other", "examples/c/compare.c"]
    if compiled(folder, "other", OTHER_VERSION, *renamed) != 3:
        raise Failed("C: a library of another version is used")


def check(folder, language, command):
    """Runs an example on every pair of files."""
    library = {"MORGANA_LIBRARY": os.path.abspath("target/lib/libmorgana.so"), "PYTHONPATH": os.path.abspath("python")}
    common = {"cwd": folder, "env": {**os.environ, **library}, "text": True, "timeout": 60}
    for arguments, status, start in RUNS:
        done = subprocess.run([*command, *arguments], capture_output=True, **common)
        said = (done.returncode, done.stdout.startswith(start), bool(done.stdout), bool(done.stderr))
        if said != (status, True, status != 3, status == 3):
            raise Failed(f"{language} {arguments}: wanted {status} {start!r}, got {done}")
    # With stdbuf what C prints is written line by line, as to a terminal.
    for arguments in (["old", "new"], ["old", "wrong"], ["old", "cut"]):
        for line_by_line in ([], ["stdbuf", "-oL"]):
            run = [*line_by_line, *command, *arguments]
            with open("/dev/full", "w") as full:
                done = subprocess.run(run, stdout=full, stderr=subprocess.PIPE, **common)
            if done.returncode != 3:
                raise Failed(f"{language} {run} cannot print, and ends with {done.returncode}")


def main():
    """Builds and runs the examples and says how it went."""
    try:
        with tempfile.TemporaryDirectory() as folder:
            for name, key in FILES.items():
                with open(os.path.join(folder, name), "wb") as file:
                    file.write(key)
            commands = programs(folder)
            check_c(folder)
            for language, command in commands.items():
                check(folder, language, command)
    except Failed as failure:
        print(f"an example fails: {failure}")
        return 1
    print(f"the examples in {', '.join(commands)} answer {len(RUNS)} pairs of files alike")
    return 0


if __name__ == "__main__":
    sys.exit(main())
