"""Commands that are run, and failures."""

import os
import subprocess
from typing import NamedTuple

ROOT = os.path.dirname(os.path.dirname(os.path.dirname(os.path.abspath(__file__))))
SECONDS = 600

# What would lead a command to another installation, or make to other folders.
UNSET = (
    ["MAKEFLAGS", "MFLAGS", "MAKELEVEL", "MAKEOVERRIDES", "PREFIX", "DESTDIR", "PYTHONDIR"]
    + ["LD_LIBRARY_PATH", "MORGANA_LIBRARY", "CPATH", "C_INCLUDE_PATH", "LIBRARY_PATH"]
    + ["PKG_CONFIG_PATH", "PKG_CONFIG_LIBDIR", "PKG_CONFIG_SYSROOT_DIR"]
)


class Failed(Exception):
    """Something is not as wanted."""


class Ended(NamedTuple):
    """How a command ended, and what it printed."""

    status: int
    output: str
    errors: str


def hold(what, wanted, got):
    """Raises Failed if something is not what is wanted."""
    if got != wanted:
        raise Failed(f"{what}\nwanted: {wanted!r}\ngot: {got!r}")


def run(*arguments, data=b"", stdout=subprocess.PIPE, **variables):
    """Runs a command on the data, with the environment variables given beside the usual ones."""
    usual = {name: value for name, value in os.environ.items() if name not in UNSET}
    ended = subprocess.run(
        arguments,
        cwd=ROOT,
        env=usual | {"LC_ALL": "C"} | variables,
        input=data,
        stdout=stdout,
        stderr=subprocess.PIPE,
        timeout=SECONDS,
        umask=0o077,  # Nothing that is installed may depend on it.
    )
    return Ended(ended.returncode, (ended.stdout or b"").decode(), ended.stderr.decode())


def printed(*arguments, data=b"", **variables):
    """What a command prints. Raises Failed if it does not end with status 0."""
    ended = run(*arguments, data=data, **variables)
    if ended.status != 0:
        raise Failed(f"{arguments}\nwanted: status 0\ngot: {ended.status}\n{ended.errors}")
    return ended.output
