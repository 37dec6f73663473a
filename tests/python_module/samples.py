"""Keys whose numbers README.md gives, and others that the edges need."""

from tests.model.words import key

# One cell, called twice; at rows 3 and columns 4 its arrays are TRIPLES, at PARTS they are SIXES.
OLD = key("head 1 1, sparse 0 1, cell 0 1 5 7 0, recursive 1 1, 2 times call 0 0 0, end")
TRIPLES = [20, 28, 0, 2147483567, 2147483535, 0]
SIXES = [20, 25, 28, 35, 0, 0, 20, 2147483467, 28, 2147483395, 0, 0]
PARTS = [3, 2], [4, 5]

# The same in edition 2, with factors 1, and the same circuit by one call with factor 2.
_FRONT = "scaled_head 1 1, sparse 0 1, cell 0 1 5 7 0, recursive 1 1"
SCALED = key(f"{_FRONT}, 2 times scaled_call 0 0 0 1, end")
DOUBLED = key(f"{_FRONT}, scaled_call 0 0 0 2, end")

# The same circuit in one array, and another; 28 bytes each.
NEW = key("head 1 1, sparse 1 1, cell 0 1 10 14 0, end")
WRONG = key("head 1 1, sparse 1 1, cell 0 1 10 15 0, end")

# The circuit of OLD in larger shapes: with more rows, with more columns and with more of both, called at position 0; and the
# last called at row position 1.
TALL = key("head 2 1, sparse 2 1, cell 0 1 10 14 0, end")
WIDE = key("head 1 3, sparse 1 1, cell 0 1 10 14 0, recursive 1 3, call 0 0 0, end")
LARGER = key("scaled_head 2 3, sparse 1 1, cell 0 1 5 7 0, recursive 2 3, scaled_call 0 0 0 2, end")
DISPLACED = key("scaled_head 2 3, sparse 1 1, cell 0 1 5 7 0, recursive 2 3, scaled_call 0 1 0 2, end")

# The first 40 bytes of OLD: the record at 30 is cut off.
CUT = OLD[:40]

# The shortest key: no bits, one array without cells.
SHORTEST = key("head 0 0, sparse 0 0, end")

# A cell at the last place of the greatest matrices.
GREATEST = key(f"head 30 30, sparse 30 30, cell {2**30 - 1} {2**30 - 1} 1 2 3, end")

# An array that reads those of another from the sheet 5,900 times: A is 5,900 times the coordinate.
MOST_CALLS = key("head 1 0, sparse 1 0, cell 1 0 1 2 3, recursive 1 0, 5900 times call 0 0 0, end")

# As many arrays as a key may have, and as many bytes: 844 arrays, the first of 3,000 cells.
MOST_ARRAYS = key("head 0 0, 1023 times sparse 0 0, sparse 0 0, cell 0 0 1 2 3, end")
LONGEST = key("head 0 0, sparse 0 0, 3000 times cell 0 0 1 2 3, 843 times sparse 0 0, end")
