"""The commands in a document: each is run, and what it prints is compared with what the document shows.

A command stands in an indented block behind `$ `, with the lines of its here-document, and what it prints stands behind
it. The commands of a document run one after the other in one shell, in a folder that has nothing but links to the
repository's folders. Numbers that rest on random points are not compared, only where they stand. Of the commands that run tests
only the status is looked at, and they run fewer cases.
"""

import os
import re
import subprocess
import tempfile

INDENT = "    "
SECONDS = 120

# What builds everything (tools/test has done it), and what needs the library to be installed (tests/install runs it then).
ELSEWHERE = re.compile(r"make |cc ")

# What runs tests, and its number of cases.
TESTS = re.compile(r"\(cd host |python3 -B -m tests\.")
CASES = re.compile(r"\b\d{5}\b")

# What draws points, and how the lines begin whose numbers rest on them.
DRAWS = re.compile(r"morgana (evaluate|compare)")
DRAWN = re.compile(r"(rows|columns|A|\d+)( |$)")


class Failed(Exception):
    """A document does not show what a command prints."""


def commands(text):
    """The commands of a document, each with the line it stands on and the lines that it prints."""
    found = []
    inside = None
    for number, line in enumerate(text.splitlines(), 1):
        if not line.startswith(INDENT):
            inside = None
            continue
        line = line.removeprefix(INDENT)
        if line.startswith("$ "):
            inside = (number, [line.removeprefix("$ ")], [])
            found.append(inside)
        elif inside and "<<END" in inside[1][0] and "END" not in inside[1]:
            inside[1].append(line)
        elif inside:
            inside[2].append(line)
    return [(number, "\n".join(lines), printed) for number, lines, printed in found]


def run(folder, path, texts):
    """What each of some commands prints, in one shell in a folder."""
    script = "".join(f"{quick(text)}\nprintf '\\0'\n" for text in texts)
    done = subprocess.run(
        ["bash", "-c", script],
        cwd=folder,
        env={**os.environ, "PATH": path + os.pathsep + os.environ["PATH"]},
        stdin=subprocess.DEVNULL,
        stdout=subprocess.PIPE,
        stderr=subprocess.STDOUT,
        timeout=SECONDS,
    )
    return done.stdout.decode().split("\0")[:-1]


def quick(command):
    """A command as it is run: one that runs tests takes few cases, and prints where it fails."""
    if not TESTS.match(command):
        return command
    return f"{CASES.sub('4000', command)} > tests.out 2>&1 || {{ cat tests.out; echo failed; }}"


def comparable(command, lines):
    """Lines with the numbers that rest on random points taken out."""
    if not DRAWS.search(command) or "--point " in command:
        return lines
    return [re.sub(r"\d{4,}", "#", line) if DRAWN.match(line) else line for line in lines]


def check(folder, path, names):
    """Runs the commands of some documents in a folder, and answers how many there were."""
    listed = []
    for name in names:
        with open(name, encoding="utf-8") as file:
            listed += [(name, *command) for command in commands(file.read())]
    listed = [entry for entry in listed if not ELSEWHERE.match(entry[2])]
    printed = run(folder, path, [text for _, _, text, _ in listed])
    if len(printed) != len(listed):
        raise Failed(f"{names}: {len(listed)} commands, and {len(printed)} came to an end")
    for (name, number, text, wanted), got in zip(listed, printed):
        got = got.splitlines()
        if comparable(text, got) != comparable(text, wanted):
            shown = "\n".join(got)
            raise Failed(f"{name} line {number}: {text}\nprints\n{shown}\nand the document shows\n" + "\n".join(wanted))
    return len(listed)


def check_all(path):
    """Runs the commands of every document; docs/JSON.md goes on with README.md's files."""
    count = 0
    for names in (["README.md", "docs/JSON.md"], ["docs/FORMAT.md"], ["docs/TRUST.md"]):
        with tempfile.TemporaryDirectory() as folder:
            for name in ("crates", "examples", "host", "python", "target", "tests"):
                os.symlink(os.path.abspath(name), os.path.join(folder, name))
            count += check(folder, path, names)
    return count
