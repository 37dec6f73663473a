"""The cases of compare for keys of unequal shapes, over either field: 02, E7.

shared       points over a field, and what compare says by the matrices that are filled with zeros
comparisons  what compare answers: every two small shapes, and keys that have grown
distant      shapes that are too far apart to fill, with closed forms
refusals     how many coordinates a point has, which is at fault, and how long a sheet is
counts       compare at every point of a list of values, by closed forms
sweep        drawn pairs, and all cases in their order
"""
