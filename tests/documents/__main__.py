"""Compares the documents with what they speak of: runs the commands in README.md and in docs/, compiles README.md's samples,
follows the definitions that docs/TRUST.md lists, counts what README.md and docs/DECISIONS.md count, and compares the manual page
with the help text. Prints one line and ends with status 0, or prints the first difference and ends with status 1.
"""

import os
import sys

from . import definitions, figures, manual, samples, sessions

TOOL = "target/host/release/morgana"
KEYSHEET = "target/bin/keysheet"


def main():
    """Runs every check and says how it went."""
    path = os.pathsep.join(os.path.dirname(os.path.abspath(program)) for program in (TOOL, KEYSHEET))
    try:
        manual.check(os.path.abspath(TOOL))
        edits, files = figures.gate(), definitions.check()
        figures.claim()
        figures.names()
        samples.check()
        commands = sessions.check_all(path)
    except sessions.Failed as failure:
        print(f"the documents are not true: {failure}")
        return 1
    print(f"the documents are true: {commands} commands, {edits} faulty edits, {files} files of definitions, the manual page")
    return 0


if __name__ == "__main__":
    sys.exit(main())
