"""The manual page beside the help text: both name the same commands, options, statuses and limits, and the same version."""

import re
import subprocess

from .figures import text_of
from .sessions import Failed


def plain(page):
    """The text of a manual page without its marks."""
    lines = [line for line in page.splitlines() if not line.startswith(".TH")]
    text = "\n".join(re.sub(r"^\.\w+ ?", "", line).strip('"') for line in lines)
    return re.sub(r"\\f[BRI]", "", text).replace("\\-", "-")


def options(text):
    """The options that a text names."""
    return set(re.findall(r"--[a-z]+", text))


def commands(text):
    """The commands that a text names."""
    return set(re.findall(r"morgana ([a-z]+) (?:KEY|OLD|--pairs)", text))


def statuses(text):
    """The exit statuses that a text explains."""
    text = text[text.lower().index("\nexit status") :].replace(", ", "\n")
    return set(re.findall(r"^ *([0-9])\b", text, re.MULTILINE))


def numbers(text):
    """The numbers that a text names."""
    return set(re.findall(r"\d+", text))


def check(program):
    """Compares the manual page with what the program says of itself."""
    said = {}
    for option in ("--help", "--version"):
        done = subprocess.run([program, option], capture_output=True, text=True, check=True, timeout=60)
        said[option] = done.stdout
    page = text_of("docs/morgana.1")
    for name, of in (("options", options), ("commands", commands), ("statuses", statuses)):
        helped, told = of(said["--help"]), of(plain(page))
        if not helped or helped != told:
            raise Failed(f"docs/morgana.1 has the {name} {sorted(told)}, and --help {sorted(helped)}")
    if not numbers(plain(page)) <= numbers(said["--help"]):
        raise Failed(f"docs/morgana.1 has other numbers than --help: {numbers(plain(page)) - numbers(said['--help'])}")
    version = said["--version"].strip()
    if f'"{version}"' not in page.splitlines()[0]:
        raise Failed(f"docs/morgana.1 is not of {version}")
    for line in said["--help"].splitlines():
        if len(line) > 80:
            raise Failed(f"a line of --help is longer than 80 columns: {line}")
