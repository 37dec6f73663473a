"""The definitions that must be believed: those that the contracts of the C interface cite, and what they unfold to.

A name is followed from the contracts to the file that defines it, and from there to the names in its definition. The files that
are reached must be those that docs/TRUST.md lists, with their lines, each behind those that it uses.
"""

import os
import re

from .figures import text_of, want
from .sessions import Failed

CONTRACTS = "crates/morgana/src/lib.rt"
TRUST = "docs/TRUST.md"

# `use Rattle.CRATE.specs.FILE.{NAMES}`, of this repository's crates.
USE = re.compile(r"^(?:ghost )?use Rattle\.(\w+)\.specs\.([\w.]+?)\.\{([^}]*)\};?$", re.MULTILINE)
ANY_USE = re.compile(r"^use [^\n{]+\.\{[^}]*\}$", re.MULTILINE)

# The first word of a definition behind what may stand before it.
DEFINED = re.compile(r"(?:(?:abbrev|unfoldable|pub|data|record)\s+)*(\S+)")


def uses(text):
    """The names that a text takes from definitions, each with its crate and file."""
    found = {}
    for crate, file, names in USE.findall(text):
        if not os.path.isdir(f"crates/{crate}"):
            continue
        found |= {name.split(" as ")[-1].strip(): (crate, file, name.split(" as ")[0].strip()) for name in names.split(",")}
    return found


def blocks(text):
    """The definitions of a file: their names and texts, comments and uses left out."""
    found = {}
    text = re.sub(r"--.*", "", ANY_USE.sub("", text))
    for line in filter(str.strip, text.splitlines()):
        if not line.startswith(" "):
            name = DEFINED.match(line)[1]
        found.setdefault(name, []).append(line)
    return {name: "\n".join(lines) for name, lines in found.items()}


def mentions(text, name):
    """Whether a name stands in a text as a word of its own."""
    return re.search(rf"(?<![\w'-]){re.escape(name)}(?![\w'-])", text)


def is_definition(entry):
    """Whether a name is defined in a file, and not declared in the code."""
    return not entry[1].startswith("declared")


def reached():
    """The crate and file of every definition that the contracts unfold to, with the other files that those definitions use."""
    seen, todo, found = set(), list(filter(is_definition, uses(text_of(CONTRACTS)).values())), {}
    while todo:
        crate, file, name = entry = todo.pop()
        if entry in seen:
            continue
        seen.add(entry)
        text = text_of(f"crates/{crate}/specs/{file}.antt")
        defined = blocks(text)
        # A constructor or a field is defined by what it stands in.
        own = [name] if name in defined else [other for other in defined if mentions(defined[other], name)]
        for other in own:
            todo += [(crate, file, near) for near in defined if near != other and mentions(defined[other], near)]
            far = [use for word, use in uses(text).items() if is_definition(use) and mentions(defined[other], word)]
            todo += far
            found.setdefault((crate, file), set()).update(use[:2] for use in far)
    return found


def listed():
    """The crate, the file and the lines of each definition that docs/TRUST.md lists, a sum as None and its number."""
    for first, lines in re.findall(r"^\| (\S.*?) \| (\d+) \|", text_of(TRUST), re.MULTILINE):
        if first.startswith("**"):
            yield None, first, int(lines)
        else:
            crate, names = first.split("/")
            yield crate, names.split(", "), int(lines)


def lines_of(crate, names):
    """The lines of some files of definitions."""
    return sum(text_of(f"crates/{crate}/specs/{name}.antt").count("\n") for name in names)


def check():
    """Compares docs/TRUST.md with the definitions, and answers how many files it lists."""
    text = text_of(TRUST)
    part, total, files, used = 0, 0, set(), reached()
    for crate, names, lines in listed():
        count = part if crate is None else lines_of(crate, names)
        if count != lines:
            raise Failed(f"{TRUST} gives {crate or ''} {names} {lines} lines, and there are {count}")
        if crate is None:
            part = 0
        elif crate == "report":
            want(TRUST, text, r"and (\d+) for keysheet", count)
        else:
            part, total = part + count, total + count
            files |= {(crate, name) for name in names}
            later = {use for name in names for use in used.get((crate, name), ())} - files
            if later:
                raise Failed(f"{TRUST} lists {crate} {names} before {sorted(later)}, which it uses")
    want(TRUST, text, r"These are ([\d,]+) lines in", total)
    want(TRUST, text, r"lines in (\d+) files", len(files))
    if files != set(used):
        raise Failed(f"{TRUST} lists too much or too little: {sorted(files ^ set(used))}")
    return len(files)
