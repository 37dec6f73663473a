"""The files that an installation must have, and those that it has."""

import filecmp
import os
import stat
import sys

from .commands import ROOT

PROGRAM, DATA = "-rwxr-xr-x", "-rw-r--r--"
PYTHON = f"lib/python{sys.version_info.major}.{sys.version_info.minor}/site-packages"


def soname_of(version):
    """The soname of the shared library: it has the major and the minor version."""
    return "libmorgana.so." + ".".join(version.split(".")[:2])


def wanted_files(version, python=PYTHON):
    """The files that an installation has below its prefix: modes, and where links lead to."""
    library = f"libmorgana.so.{version}"
    soname = soname_of(version)
    return {
        "bin/keysheet": PROGRAM,
        "bin/morgana": PROGRAM,
        "include/morgana.h": DATA,
        "lib/libmorgana.a": DATA,
        "lib/libmorgana.so": soname,
        f"lib/{soname}": library,
        f"lib/{library}": PROGRAM,
        "lib/pkgconfig/morgana.pc": DATA,
        f"{python}/morgana.py": DATA,
        "share/doc/morgana/FORMAT.md": DATA,
        "share/doc/morgana/JSON.md": DATA,
        "share/doc/morgana/TRUST.md": DATA,
        "share/man/man1/morgana.1": DATA,
    }


def unlike_sources(prefix, version):
    """The files below a prefix that are not byte for byte what they are made from."""
    sources = {
        "bin/keysheet": "target/bin/keysheet",
        "bin/morgana": "target/host/release/morgana",
        "include/morgana.h": "host/include/morgana.h",
        "lib/libmorgana.a": "target/staticlib/libmorgana.a",
        f"lib/libmorgana.so.{version}": f"target/lib/libmorgana.so.{version}",
        "share/doc/morgana/FORMAT.md": "docs/FORMAT.md",
        "share/doc/morgana/JSON.md": "docs/JSON.md",
        "share/doc/morgana/TRUST.md": "docs/TRUST.md",
        "share/man/man1/morgana.1": "docs/morgana.1",
    }
    whole = {"shallow": False}
    return [name for name, source in sources.items() if not filecmp.cmp(f"{prefix}/{name}", f"{ROOT}/{source}", **whole)]


def paths(folder):
    """The paths of all files and links in a folder, and those of all folders in it."""
    files, folders = [], []
    for place, below, names in os.walk(folder):
        linked = [name for name in below if os.path.islink(os.path.join(place, name))]
        files += [os.path.join(place, name) for name in names + linked]
        folders.append(place)
    return files, folders


def files_of(folder):
    """The files in a folder, as `wanted_files` gives them."""

    def shown(path):
        mode = os.lstat(path).st_mode
        return os.readlink(path) if stat.S_ISLNK(mode) else stat.filemode(mode)

    return {os.path.relpath(path, folder): shown(path) for path in paths(folder)[0]}


def closed_folders(folder):
    """The folders in a folder that not everybody can enter and list."""
    return [path for path in paths(folder)[1] if stat.S_IMODE(os.stat(path).st_mode) != 0o755]


def files_with(text, folder):
    """The files in a folder that have the text in them."""

    def has_it(path):
        with open(path, "rb") as file:
            return text.encode() in file.read()

    return [path for path in paths(folder)[0] if has_it(path)]
