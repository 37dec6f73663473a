"""Compares two circuit keys, of any shapes, at one random point over p*p.

    python3 compare.py OLD NEW

Prints `same`, with a bound on how likely keys that differ would pass and the
shorter key, which is the one to keep, or `different`, with a cell in which they
do, or the refusal. The status is 0 for same, 1 for different, 2 for a refusal,
and 3 for anything else.
"""

import decimal
import sys

try:
    import morgana
except ImportError as error:
    # Python's own status for an error is 1, which stands for different here.
    print(error, file=sys.stderr)
    sys.exit(3)

UPWARDS = decimal.Context(prec=2, rounding=decimal.ROUND_CEILING)


def read(path):
    """The key in a file, or as much of it as shows that it is too long."""
    with open(path, "rb") as file:
        return file.read(morgana.KEY_LIMIT + 1)


def checked(key, which):
    """The counts of the first key or of the second."""
    try:
        return morgana.check(key)
    except morgana.Refused as refusal:
        # Check has one key and names none.
        raise morgana.Refused(refusal.number, refusal.place, which) from None


def differing_cell(old, new, rows, columns):
    """A cell in which two keys differ that are different at a point over p*p.

    A coordinate u + v*i is u + v*t at t = i, where the keys' difference is not
    zero. In t it is a polynomial of degree m at most, so that it has no more
    than m zeros, and one of t = 0, 1, .., m gives a point over p for locate.
    """
    for t in range(len(rows + columns) // 2 + 1):
        sides = (zip(side[::2], side[1::2]) for side in (rows, columns))
        point = ([(u + v * t) % morgana.P for u, v in side] for side in sides)
        cell = morgana.locate(old, new, *point)
        if cell is not None:
            return cell


def compare(old, new):
    """Prints what is found of two keys, and returns the status."""
    bits = checked(old, 1).larger_shape(checked(new, 2))
    rows, columns = morgana.random_point(*bits, quadratic=True)
    # Over p, at the u of the point: where that shows a difference, it is empty.
    kept = morgana.shorter(old, new, rows[::2], columns[::2])
    if not kept or not morgana.compare_quadratic(old, new, rows, columns).same:
        cell = differing_cell(old, new, rows, columns)
        print("different")
        print(f"row {cell.row}, column {cell.column}")
        for name, values in (("first", cell.first), ("second", cell.second)):
            print(f"{name} A {values.a} B {values.b} C {values.c}")
        return 1
    bound = morgana.likelihood(sum(bits), quadratic=True)
    number = UPWARDS.divide(bound.numerator, bound.denominator)
    print("same")
    print(f"keys that differ would pass with probability at most {number:g}")
    print(f"keep the {'first' if kept is old else 'second'}, {len(kept)} bytes")
    return 0


def main(paths):
    """Compares the keys in two files, and returns the status."""
    if len(paths) != 2:
        print("usage: compare.py OLD NEW", file=sys.stderr)
        return 3
    try:
        return compare(*map(read, paths))
    except morgana.Refused as refusal:
        print(refusal)
        return 2


if __name__ == "__main__":
    try:
        status = main(sys.argv[1:])
        # An answer that cannot be written is none: closing shows that.
        sys.stdout.close()
    except Exception as error:
        print(error, file=sys.stderr)
        status = 3
    sys.exit(status)
