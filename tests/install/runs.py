"""The installations: below a prefix, into a stage, and those that are refused."""

import os
import tempfile

from .commands import ROOT, Failed, hold, printed, run
from .places import PYTHON, closed_folders, files_of, files_with, unlike_sources, wanted_files
from .uses import hold_c, hold_library, hold_package, hold_programs, hold_python, hold_readme, written_keys


# The files that a Python module has, with what Python has compiled from it.
MODULE = ("morgana.py", "__pycache__/morgana.cpython-31.opt-1.pyc")


def command(target, variables):
    """The command that makes a target with variables."""
    given = [f"{name}={value}" for name, value in variables.items()]
    return ["make", "--no-print-directory", target, *given]


def make(target, **variables):
    """Makes a target with variables, which must end with status 0."""
    printed(*command(target, variables))


def make_refused(target, wanted, **variables):
    """Makes a target with variables, which must fail and say what is wanted."""
    ended = run(*command(target, variables))
    if ended.status == 0 or wanted not in ended.errors:
        raise Failed(f"make {target} {variables}\nwanted: {wanted}\ngot: {ended}")


def hold_prefix(folder, version):
    """An installation below a prefix serves, and its removal leaves what is not of it. What stood in the
    place of a file is replaced, and not written to.
    """
    prefix, kept = f"{folder}/prefix", f"{folder}/kept"
    os.makedirs(f"{prefix}/bin")
    with open(kept, "w"):
        pass
    os.symlink(kept, f"{prefix}/bin/morgana")
    make("install", PREFIX=f"{prefix}/")
    hold("bytes of what a link led to", 0, os.path.getsize(kept))
    make("install", PREFIX=prefix)
    hold("files below PREFIX", wanted_files(version), files_of(prefix))
    hold("files that are not their sources", [], unlike_sources(prefix, version))
    hold("folders that are closed", [], closed_folders(prefix))
    keys = written_keys(folder)
    hold_package(prefix, version)
    hold_library(prefix, version)
    hold_c(prefix, folder, version, keys)
    hold_readme(prefix, folder, keys)
    hold_python(prefix, PYTHON, version, keys)
    hold_programs(prefix, version, keys)
    with open(f"{prefix}/lib/libmorgana.so.other", "w"):
        pass
    make("uninstall", PREFIX=prefix)
    hold("files left below PREFIX", ["lib/libmorgana.so.other"], [*files_of(prefix)])
    make("uninstall", PREFIX=prefix)


def hold_stage(folder, version):
    """An installation into a stage is as one below the prefix, and no file knows of the stage."""
    prefix, stage, python = f"{folder}/apart", f"{folder}/a stage", f"{folder}/apart/modules"
    given = {"PREFIX": prefix, "DESTDIR": stage, "PYTHONDIR": python}
    make("install", **given)
    hold("files below DESTDIR", wanted_files(version, "modules"), files_of(stage + prefix))
    hold("files beside them", len(wanted_files(version)), len(files_of(stage)))
    hold("files that have DESTDIR in them", [], files_with(stage, stage))
    hold("PREFIX is there", False, os.path.exists(prefix))
    hold_line(f"{stage}{prefix}/lib/pkgconfig/morgana.pc", f"prefix={prefix}\n")
    hold_line(f"{stage}{python}/morgana.py", f'FOLDER = "{prefix}/lib"\n')
    make("uninstall", **given)
    hold("files left below DESTDIR", {}, files_of(stage))


def hold_unprinted(folder, version):
    """An installation whose output cannot be written, or is closed, is whole all the same."""
    prefix = f"{folder}/unprinted"
    with open("/dev/full", "w") as full:
        ended = run(*command("install", {"PREFIX": prefix}), stdout=full)
    hold("what is said of it", True, ended.status != 0 and "it is done, but" in ended.errors)
    hold("files below PREFIX", wanted_files(version), files_of(prefix))
    closed = run("sh", "-c", "tools/install --remove >&- && tools/install >&-", PREFIX=prefix)
    hold("status and errors where the output is closed", (0, ""), (closed.status, closed.errors))
    hold("files below PREFIX", wanted_files(version), files_of(prefix))


def hold_line(path, wanted):
    """A file has a line once."""
    with open(path) as file:
        hold(f"{path}: how often {wanted!r}", 1, list(file).count(wanted))


def hold_refusals(folder):
    """Where it cannot be installed, this is said, and nothing is left behind. DESTDIR keeps a faulty
    installation in the folder."""
    blocked = f"{folder}/blocked"
    with open(blocked, "w"):
        pass
    stage = {"DESTDIR": f"{folder}/refused"}
    for target in ("install", "uninstall"):
        for prefix in ("", "here", "./here"):
            make_refused(target, "PREFIX must be an absolute path", PREFIX=prefix, **stage)
        make_refused(target, "PREFIX must have only", PREFIX="/two words", **stage)
        given = {"PREFIX": "/here", "PYTHONDIR": "there"}
        make_refused(target, "PYTHONDIR must be an absolute path", **given, **stage)
        relative = os.path.relpath(stage["DESTDIR"], ROOT)
        make_refused(target, "DESTDIR must be an absolute path", PREFIX="/here", DESTDIR=relative)
    make_refused("install", "Not a directory", PREFIX=blocked)
    os.makedirs(f"{folder}/taken/bin/morgana")
    make_refused("install", "Is a directory", PREFIX=f"{folder}/taken")
    make_refused("install", "PREFIX is written in capitals", prefix=f"{folder}/small", **stage)
    hold("files after what is refused", ["blocked"], [*files_of(folder)])


def hold_halves(folder):
    """A file that cannot be installed stops it, and one that cannot be removed does not stop the rest. A
    module that another python3 was given goes too, and another module of its name stays.
    """
    prefix = f"{folder}/half"
    os.makedirs(f"{prefix}/lib/libmorgana.so/held")
    make_refused("install", "6 files are in their places", PREFIX=prefix)
    hold("files of the half", 6, len(files_of(prefix)))
    other = "lib/python3.{}/site-packages"
    written_module(f"{prefix}/{other.format(1)}", f'\nFOLDER = "{prefix}/lib"\n')
    foreign = [PYTHON, other.format(2)]
    for place in foreign:
        written_module(f"{prefix}/{place}", "another module\n")
    make_refused("uninstall", "libmorgana.so", PREFIX=prefix)
    left = [f"{place}/{name}" for place in foreign for name in MODULE]
    hold("files left of the half", sorted(left), sorted(files_of(prefix)))


def written_module(folder, text):
    """Writes a text as the files of a Python module."""
    os.makedirs(f"{folder}/__pycache__")
    for name in MODULE:
        with open(f"{folder}/{name}", "w") as file:
            file.write(text)


def hold_all():
    """Runs every installation and gives the number of files that each has.

    The stage comes first: an installation that ignores PREFIX fails there, and not on the machine.
    """
    version = printed("tools/version").strip()
    with tempfile.TemporaryDirectory() as folder:
        hold_stage(folder, version)
        hold_refusals(folder)
        hold_halves(folder)
        hold_unprinted(folder, version)
        hold_prefix(folder, version)
    return len(wanted_files(version))
