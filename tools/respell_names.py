#!/usr/bin/env python3
"""Brings the repository's own definitions and lemmas to today's spelling, behind port.py: words in snake case.

usage: tools/respell_names.py [TOP]

Three kinds of names are turned, in specs/, in proofs/, in the clauses of src/ and in the must-fail edits:
a definition or lemma in camel case with a small first letter (`sumBelow` becomes `sum_below`); a name with dashes that a
definition or a record of specs/ has (`well-formed` becomes `well_formed`), but for the laws that are named after two operations;
and the two lemmas whose names would fall together with a definition's new name. Names of src/ are in snake case already, and
strings and comments have none of these names but where they speak of a definition.
"""

import os
import re
import sys

WORD = re.compile(r"[A-Za-z_\U0001d4d0-\U0001d503][A-Za-z0-9_'\u00b7-]*")
DEFINED = re.compile(r"(?m)^\s*(?:(?:pub|abbrev|unfoldable) )*([^\s(){}:,]+) : ")
CAMEL = re.compile(r"[a-z][A-Za-z0-9_'-]*[A-Z]")
# laws named after two operations keep their dash, as the library's do
LAWS = {"add-nought", "mul-add", "mul-unit", "sub-add"}
# lemmas that would have a definition's new name
APART = {"answer_at": "answer-at_point", "not_first": "not_first-past"}


def texts(top, endings):
    for folder, below, names in os.walk(os.path.join(top, "crates")):
        below[:] = sorted(d for d in below if d != "out")
        for name in sorted(names):
            if name.endswith(endings):
                yield os.path.join(folder, name)


def read(path):
    with open(path, encoding="utf-8") as f:
        return f.read()


def snake(name):
    return re.sub(r"([a-z0-9])([A-Z])(?=[a-z0-9_'-]|$)", lambda m: m[1] + "_" + m[2].lower(), name)


def renamings(top):
    """Each old name with its new one."""
    new = dict(APART)
    for path in texts(top, (".antt", ".rt")):
        text = read(path)
        for word in WORD.findall(text):
            if CAMEL.match(word):
                new[word] = snake(word)
        if f"{os.sep}specs{os.sep}" in path:
            for name in DEFINED.findall(text):
                if "-" in name and name not in LAWS:
                    new[name] = name.replace("-", "_")
    return new


def main(top):
    new = renamings(top)
    for path in texts(top, (".antt", ".rt", ".edit")):
        old = read(path)
        text = WORD.sub(lambda m: new.get(m[0], m[0]), old)
        if text != old:
            with open(path, "w", encoding="utf-8") as f:
                f.write(text)
    for name in sorted(new):
        print(name, new[name])


if __name__ == "__main__":
    main(sys.argv[1] if len(sys.argv) > 1 else ".")
