"""Tests the program keysheet against tests/unroll: both answer the same inputs, and what they print is compared byte for byte.

The inputs are the edges that the request names, inputs written in pieces and read from a file, and inputs drawn at
random, whole and damaged. Each number of refusal that keysheet can give, and the acceptance of a key, must have
occurred often enough. Prints one line with the counts and ends with status 0, or prints the first input for which the
program prints something else and ends with status 1.
"""

import argparse
import os
import sys

from .runs import REFUSALS, Failed, hold_all


def main():
    """Tests the program against tests/unroll and says how it went."""
    parser = argparse.ArgumentParser(
        prog="python3 -B -m tests.keysheet",
        description=__doc__,
        formatter_class=argparse.RawDescriptionHelpFormatter,
    )
    parser.add_argument("program", help="the path of keysheet")
    parser.add_argument("--cases", type=int, default=4000, help="how many inputs are drawn at random (4000)")
    parser.add_argument("--seed", default="1", help="the seed of what is drawn (1)")
    arguments = parser.parse_args()
    try:
        counts = hold_all(os.path.abspath(arguments.program), arguments.seed, arguments.cases)
    except (Failed, OSError) as failure:
        print(f"keysheet fails: {failure}")
        return 1
    refusals = ", ".join(f"{number}: {counts[number]}" for number in REFUSALS)
    print(f"keysheet prints what is unrolled: {counts.total()} inputs; accepted: {counts['key']}; refused {refusals}")
    return 0


if __name__ == "__main__":
    sys.exit(main())
