"""What shorter answers, in words: which of two keys is handed back, by what compare says of them at a point."""

from .calls import compare


def handed_back(key, length):
    """The key that is handed back, 1 or 2, and its length, as the program prints them; 0 and 0 for the empty beginning of the
    first.
    """
    return f"key {key} length {length}"


def shorter(first, second, rows, columns, sheet, known=None):
    """What asking for the shorter of two keys at a point answers, and the sheet afterwards; `known` as for compare."""
    said, word, places = compare(first, second, rows, columns, sheet, known).partition(" sheet")
    answer = handed_back(0, 0)
    if said.startswith("same "):
        lengths = len(first), len(second)
        answer = handed_back(2, lengths[1]) if lengths[1] < lengths[0] else handed_back(1, lengths[0])
    return answer + word + places
