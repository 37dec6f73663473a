"""Which library is loaded on import, and which are refused."""

import os
import pathlib
import re
import subprocess
import sys
import tempfile

from .subject import FOLDER, LIBRARY, morgana

MODULE = (FOLDER / "morgana.py").read_text(encoding="utf-8")
VERSION = morgana.__version__
SONAME = "libmorgana.so." + VERSION.rpartition(".")[0]
USE = "import morgana; print(morgana.version(), morgana.check(b'\\1\\0\\0\\2\\0\\0\\6').arrays)"
USED = f"{morgana.version()} 1\n"
VARIABLES = ("MORGANA_LIBRARY", "LD_LIBRARY_PATH", "PYTHONPATH")


def imported(module_folder, working_folder, **variables):
    """Imports the module of a folder in a Python of its own: its status, what it prints, and its
    last line of errors.
    """
    kept = {name: value for name, value in os.environ.items() if name not in VARIABLES}
    environment = {**kept, "PYTHONPATH": str(module_folder), **variables}
    done = subprocess.run(
        [sys.executable, "-B", "-c", USE], cwd=working_folder, env=environment,
        capture_output=True, text=True, timeout=60, check=False,
    )
    return done.returncode, done.stdout, (done.stderr.splitlines() or [""])[-1]


def altered(folder, name, value):
    """A copy of the module in a folder of its own, with a line changed as `make install` does."""
    text, count = re.subn(rf'^{name} = ".*"$', f'{name} = "{value}"', MODULE, flags=re.MULTILINE)
    if count != 1:
        raise ValueError(f"wanted one line {name} = \"...\", got {count}")
    folder.mkdir()
    (folder / "morgana.py").write_text(text, encoding="utf-8")
    return folder


def compiled(path, source):
    """A library made of a line of C."""
    command = ["cc", "-shared", "-fPIC", "-x", "c", "-", "-o", str(path)]
    subprocess.run(command, input=source, text=True, timeout=60, check=True)
    return str(path)


def hold_found(hold, folder):
    """The variable, a path, comes before the folder, and the folder before the loader."""
    (folder / SONAME).symlink_to(os.path.realpath(LIBRARY))
    (folder / "other.so").symlink_to(os.path.realpath(LIBRARY))
    installed = altered(folder / "installed", "FOLDER", folder)
    astray = altered(folder / "astray", "FOLDER", folder / "absent")
    used = (0, USED, "")
    hold.equal("a path", used, imported(FOLDER, folder, MORGANA_LIBRARY=LIBRARY))
    hold.equal("a file here", used, imported(FOLDER, folder, MORGANA_LIBRARY="other.so"))
    hold.equal("the loader", used, imported(FOLDER, "/", LD_LIBRARY_PATH=str(folder)))
    empty = imported(FOLDER, "/", LD_LIBRARY_PATH=str(folder), MORGANA_LIBRARY="")
    hold.equal("an empty variable", used, empty)
    hold.equal("the folder", used, imported(installed, "/"))
    hold.equal("the variable first", used, imported(astray, folder, MORGANA_LIBRARY=LIBRARY))
    status, _, error = imported(astray, folder, LD_LIBRARY_PATH=str(folder))
    hold.equal("the folder before the loader", 1, status)
    hold_tried(hold, error, folder / "absent" / SONAME)


def hold_tried(hold, error, *parts):
    """The line is an ImportError that says each of these."""
    for part in ("ImportError: ", *map(str, parts)):
        hold.equal(f"{part} in {error}", True, part in error)


def hold_refused(hold, folder):
    """A library that is absent, is none, is another, or has another version is refused by name."""
    absent = folder / "absent.so"
    text = folder / "text.so"
    text.write_text("no library")
    other = compiled(folder / "others.so", "int other(void) { return 0; }")
    cases = [(path, ()) for path in (absent, text, folder, other)]
    minor = morgana.version() // 1_000
    for number in (1_000 * minor - 1, 1_000 * (minor + 1), 1_000_000 + 1_000 * minor, 0):
        source = f"unsigned morgana_version(void) {{ return {number}; }}"
        version = f"{number // 1_000_000}.{number // 1_000 % 1_000}.{number % 1_000}"
        cases.append((compiled(folder / f"{number}.so", source), (VERSION, version)))
    for patch in (0, 1, 999):
        # Another patch version is taken; it is refused for what it has not.
        source = f"unsigned morgana_version(void) {{ return {1_000 * minor + patch}; }}"
        cases.append((compiled(folder / f"bare{patch}.so", source), ("morgana_check",)))
    for path, parts in cases:
        status, printed, error = imported(FOLDER, "/", MORGANA_LIBRARY=str(path))
        hold.equal(f"{path} loaded", (1, ""), (status, printed))
        hold_tried(hold, error, path, *parts)
    unknown = altered(folder / "unknown", "__version__", "0.999.1")
    hold_tried(hold, imported(unknown, "/")[2], "libmorgana.so.0.999")


def hold_versions(hold):
    """The version of the module, as text and as the library's number."""
    major, minor, patch = map(int, morgana.__version__.split("."))
    hold.equal("the version", 1_000_000 * major + 1_000 * minor + patch, morgana.version())
    hold.equal("the folder", "", morgana.FOLDER)


def hold_all(hold):
    """Everything of this file."""
    hold_versions(hold)
    for part in (hold_found, hold_refused):
        with tempfile.TemporaryDirectory() as folder:
            part(hold, pathlib.Path(folder))
