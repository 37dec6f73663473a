"""How many factors the weights of a key's records have: one for each coordinate of a weight (02, E4)."""


def weighed(array, fields, arrays):
    """The coordinates, by their numbers on each side, of the weight of an array's cell or call: those of all the array's bits
    for a cell, and for a call those behind the called array's.
    """
    first = (0, 0) if array.name == "sparse" else arrays[fields[0]].bits
    return [range(K, k) for K, k in zip(first, array.bits, strict=True)]


def factors(arrays):
    """The count of factors of a key with these arrays: over all cells and calls of all arrays, called or not."""
    entries = ((array, fields) for array in arrays for fields in array.entries)
    return sum(len(side) for array, fields in entries for side in weighed(array, fields, arrays))
