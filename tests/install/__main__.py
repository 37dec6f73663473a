"""Installs into temporary folders, uses what is installed, and removes it again.

What is missing in target/ is built first. Prints one line and ends with status 0, or prints what
was wanted and got and ends with status 1.
"""

import sys

from .commands import Failed
from .runs import hold_all


def main():
    """Tries every installation and says how it went."""
    try:
        count = hold_all()
    except (Failed, OSError) as failure:
        print(f"install fails: {failure}")
        return 1
    print(f"what is installed is {count} files, serves C, Python and the shell, and goes again")
    return 0


if __name__ == "__main__":
    sys.exit(main())
