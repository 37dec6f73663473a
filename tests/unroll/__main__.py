"""Evaluates a small key by unrolling it. Reads keysheet's input on standard input and prints what keysheet prints.

Each array's matrices are written out in full by their definition, and each is evaluated as the sum over all its rows
and all its columns of matrix(row, column) times eq([row]; rows) times eq([column]; columns).

A key of more than 262,144 places (those of all its arrays' matrices, and for each call those of the called one) is
not unrolled: nothing is printed but a message on standard error, and the exit status is 3. A refusal is printed for a
key of any size. The exit status is 0 for every input that is answered.
"""

import argparse
import sys

from .calls import TooManyPlaces
from .keysheet import INPUT_LIMIT, printed


def main():
    """Answers standard input on standard output."""
    argparse.ArgumentParser(
        prog="python3 -B -m tests.unroll",
        description=__doc__,
        formatter_class=argparse.RawDescriptionHelpFormatter,
    ).parse_args()
    try:
        answer = printed(sys.stdin.buffer.read(INPUT_LIMIT + 1))
    except TooManyPlaces as reason:
        print(f"unroll: {reason}", file=sys.stderr)
        return 3
    sys.stdout.buffer.write(answer)
    return 0


if __name__ == "__main__":
    sys.exit(main())
