"""The shorter of two keys that have the same numbers at a point."""

from .calls import compare_on
from .keys import Refused


def shorter_on(first, second, rows, columns, sheet):
    """The shorter of two keys, itself, and of two of one length the first, where their matrices have the same numbers at a
    point, and else, or where compare_on refuses, the empty beginning of the first. And the sheet afterwards.
    """
    try:
        same, _, after = compare_on(first, second, rows, columns, sheet)
    except Refused:
        return first[:0], sheet
    return min(first, second, key=len) if same else first[:0], after
