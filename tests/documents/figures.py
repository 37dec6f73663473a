"""The numbers that the documents name, counted again."""

import glob
import re

from .sessions import Failed


def text_of(name):
    """The text of a file."""
    with open(name, encoding="utf-8") as file:
        return file.read()


def want(name, text, pattern, number):
    """Wants a document to name a number where a pattern says."""
    found = re.findall(pattern, " ".join(text.split()))
    if not found or any(int(entry.replace(",", "")) != number for entry in found):
        raise Failed(f"{name} names {found} for {pattern!r}, and it is {number}")


def gate():
    """What the gate's last line says: a crate and a faulty edit count one each."""
    crates = [line for line in text_of("crates.txt").splitlines() if line and not line.startswith("#")]
    edits = glob.glob("crates/*/must-fail/*.edit")
    readme = text_of("README.md")
    want("README.md", readme, r"(\d+) faulty edits", len(edits))
    want("README.md", readme, r"(\d+) passed, 0 failed", len(crates) + len(edits))
    guards = text_of("docs/DECISIONS.md").split("## What each faulty edit guards")[1].split("\n## ")[0]
    named = set()
    for crate, names in re.findall(r"^\| (\w+) \| (?:★ )?([\w, ]+) \|", guards, re.MULTILINE):
        named |= {f"crates/{crate}/must-fail/{name}.edit" for name in names.split(", ")}
    named.discard("crates/crate/must-fail/edit.edit")
    if named != set(edits):
        raise Failed(f"docs/DECISIONS.md says too much or too little of the faulty edits: {sorted(named ^ set(edits))}")
    return len(edits)


def names():
    """Every name in back quotes in docs/TRUST.md stands in the crates or in the header."""
    sources = glob.glob("crates/**/*.antt", recursive=True) + glob.glob("crates/**/*.rt", recursive=True)
    known = set(re.findall(r"[\w'-]+", "\n".join(map(text_of, sources + ["host/include/morgana.h"]))))
    # Commands, and words of the languages.
    others = {"make", "test", "rt", "version", "main", "memset", "memcpy", "getrandom", "secrets", "cc", "rustc"}
    used = {word for name in re.findall(r"`([^`]+)`", text_of("docs/TRUST.md")) for word in re.findall(r"[\w'-]+", name)}
    if used - known - others:
        raise Failed(f"docs/TRUST.md names what is not there: {sorted(used - known - others)}")


def claim():
    """README.md has demand 3 in the words that stand in quotation marks beside its definition."""
    spec = text_of("crates/comparison/specs/AgreementBound.antt")
    comments = re.findall(r"(?:^ *--.*\n)+", spec, re.MULTILINE)
    comments = [" ".join(re.sub(r"^ *-- ?", "", comment, flags=re.MULTILINE).split()) for comment in comments]
    quoted = [match[1] for match in map(re.compile(r'"(.*?[,.])"(:|$)').match, comments) if match]
    shown = [line.removeprefix("> ") for line in text_of("README.md").splitlines() if line.startswith("> ")]
    if " ".join(quoted) != " ".join(shown):
        raise Failed(f"README.md quotes demand 3 as\n{' '.join(shown)}\nand it is\n{' '.join(quoted)}")
