"""What is installed below a prefix, used."""

import os
import re
import shutil

from .commands import ROOT, hold, printed, run
from .places import soname_of

EXAMPLE = "examples/c/compare.c"
CALLS = ["version", "check", "cell", "move", "price"]
CALLS += ["evaluate", "evaluate_quadratic", "compare", "compare_quadratic", "locate", "shorter"]

OLD = bytes.fromhex(
    "010101 020001 04 00000000 01000000 05000000 07000000 00000000"
    "030101 05 0000 00000000 00000000 05 0000 00000000 00000000 06"
)
NEW = bytes.fromhex("010101 020101 04 00000000 01000000 0a000000 0e000000 00000000 06")
WRONG = NEW.replace(b"\x0e", b"\x0f")
KEYS = {"old": OLD, "new": NEW, "wrong": WRONG, "cut": OLD[:40], "long": bytes(65537)}
COUNTS = "arrays 2 cells 1 calls 2 rows 1 columns 1"
VALUES = "a 2147483567 b 2147483535 c 0 factors 3"

# Two keys by name, what the example prints for them, and its status.
COMPARED = [
    ("old", "new", "same\nkeep the second, 28 bytes\n", 0),
    ("old", "wrong", "different\nat row 0, column 1\nfirst A 10 B 14 C 0\nsecond A 10 B 15 C 0\n", 1),
    ("cut", "new", "refused 2 at 30; first key\n", 2),
    ("old", "cut", "refused 2 at 30; second key\n", 2),
    ("long", "new", "refused 1 at 65536; first key\n", 2),
    ("old", "none", "", 3),
]

ANSWERED = """
import sys
sys.path.insert(0, sys.argv[1])
import morgana
with open(sys.argv[2], "rb") as file:
    key = file.read()
for answer in (morgana.check(key), morgana.evaluate(key, [3], [4])):
    for name, number in vars(answer).items():
        print(name, number)
with open("/proc/self/maps") as maps:
    print(*sorted({line.split()[-1] for line in maps if "libmorgana" in line}))
"""


def written_keys(folder):
    """Writes the keys into a folder and gives their paths by name; that of "none" is of no file."""
    for name, key in KEYS.items():
        with open(os.path.join(folder, name), "wb") as file:
            file.write(key)
    return {name: os.path.join(folder, name) for name in [*KEYS, "none"]}


def package_flags(prefix):
    """What the pkg-config file gives: version, Cflags, Libs and the folder of the libraries."""
    folder = f"{prefix}/lib/pkgconfig"
    if not shutil.which("pkg-config"):
        return read_flags(f"{folder}/morgana.pc")
    asked = ["--modversion", "--cflags", "--libs", "--variable=libdir"]
    answers = [printed("pkg-config", each, "morgana", PKG_CONFIG_PATH=folder) for each in asked]
    return [answer.strip() for answer in answers]


def read_flags(path):
    """The same, without pkg-config."""
    with open(path) as file:
        lines = [line.strip() for line in file]
    variables = {}
    for name, value in (line.split("=", 1) for line in lines if re.match(r"\w+=", line)):
        variables[name] = expanded(value, variables)
    fields = dict(line.split(": ", 1) for line in lines if re.match(r"\w+: ", line))
    flags = [expanded(fields[name], variables) for name in ("Version", "Cflags", "Libs")]
    return [*flags, variables["libdir"]]


def expanded(text, variables):
    """The text with the values of variables in it."""
    return re.sub(r"\$\{(\w+)\}", lambda match: variables[match[1]], text)


def hold_package(prefix, version):
    """The pkg-config file gives the version and the folders, read in either way."""
    wanted = [version, f"-I{prefix}/include", f"-L{prefix}/lib -lmorgana", f"{prefix}/lib"]
    read = read_flags(f"{prefix}/lib/pkgconfig/morgana.pc")
    hold("morgana.pc, read without pkg-config", wanted, read)
    hold("morgana.pc", wanted, package_flags(prefix))


def hold_library(prefix, version):
    """The shared library has its soname, and shows programs the calls of the header alone."""
    library = f"{prefix}/lib/libmorgana.so.{version}"
    hold("soname", [soname_of(version)], dynamic(library, "soname"))
    lines = printed("readelf", "--wide", "--dyn-syms", library).splitlines()
    rows = [line.split() for line in lines if re.match(r" *\d+: ", line)]
    shown = [row[7] for row in rows if len(row) > 7 and row[6] not in ("UND", "ABS")]
    node = "MORGANA_" + soname_of(version).removeprefix("libmorgana.so.")
    hold("symbols shown", sorted(f"morgana_{name}@@{node}" for name in CALLS), sorted(shown))
    said = printed("readelf", "--wide", "--dynamic", library)
    hold("what it needs", ["libc.so.6"], re.findall(r"\(NEEDED\).*\[(.*)\]", said))
    hold("bound when it is loaded", True, "BIND_NOW" in said or "NOW" in said.split("FLAGS_1")[-1])


def dynamic(path, what):
    """The names that a library or a program has in its dynamic section for what is given."""
    said = printed("readelf", "--wide", "--dynamic", path)
    return re.findall(rf"{what}: \[(libmorgana.*)\]", said)


def compiled(program, *flags):
    """Compiles the example with the flags."""
    printed("cc", "-Wall", "-Wextra", "-Wpedantic", "-Werror", EXAMPLE, "-o", program, *flags)
    return program


def hold_example(program, keys, **variables):
    """The example answers for each two keys what it must."""
    for first, second, wanted, status in COMPARED:
        ended = run(program, keys[first], keys[second], **variables)
        hold(f"{program} {first} {second}", (status, wanted), (ended.status, ended.output))


def hold_c(prefix, folder, version, keys):
    """The example does its work with each library, compiled by the flags of the pkg-config file."""
    _, cflags, libs, libdir = package_flags(prefix)
    shared = compiled(f"{folder}/shared", *cflags.split(), *libs.split())
    hold("what the example needs", [soname_of(version)], dynamic(shared, "Shared library"))
    hold_example(shared, keys, LD_LIBRARY_PATH=libdir)
    static = compiled(f"{folder}/static", *cflags.split(), f"{libdir}/libmorgana.a")
    hold("what the static example needs", [], dynamic(static, "Shared library"))
    hold_example(static, keys)


def hold_readme(prefix, folder, keys):
    """The command with which README.md compiles the example makes a program that does its work."""
    if not shutil.which("pkg-config"):
        return
    with open(f"{ROOT}/README.md", encoding="utf-8") as file:
        commands = re.findall(r"^    \$ (cc .*) -o compare$", file.read(), re.MULTILINE)
    hold("commands of README.md that compile the example", 1, len(commands))
    program = f"{folder}/readme"
    printed("sh", "-c", f"{commands[0]} -o {program}", PKG_CONFIG_PATH=f"{prefix}/lib/pkgconfig")
    hold_example(program, keys, LD_LIBRARY_PATH=f"{prefix}/lib")


def hold_python(prefix, python, version, keys):
    """The module answers for a key in a fresh interpreter, by the library that is installed with it."""
    got = printed("python3", "-I", "-c", ANSWERED, f"{prefix}/{python}", keys["old"])
    library = f"{prefix}/lib/libmorgana.so.{version}"
    hold("check and evaluate in Python", [*COUNTS.split(), *VALUES.split(), library], got.split())


def hold_programs(prefix, version, keys):
    """The programs answer for a key."""
    said = printed(f"{prefix}/bin/morgana", "check", keys["old"])
    hold("morgana check", f"key 53 bytes {COUNTS}\n", said)
    hold("morgana --version", f"morgana {version}\n", printed(f"{prefix}/bin/morgana", "--version"))
    point = bytes.fromhex("01 01 03000000 04000000")
    said = printed(f"{prefix}/bin/keysheet", data=point + OLD)
    hold("keysheet", f"key 53 bytes {COUNTS}\n0 20 28 0\n1 2147483567 2147483535 0\n", said)
