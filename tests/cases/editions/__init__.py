"""The cases of edition 2 and of the move: 02, E9.

shared       cases of edition 1 that are told once more in edition 2
rules        check: factors at their edges, and calls and heads of the other edition
evaluations  what evaluate and cell answer where calls have factors
comparisons  what compare answers of keys of either edition and of one of each
moves        a key moved into the other edition, and what refuses the move
quadratic    the cases over p²
sweep        all cases over p in their order, and drawn keys through the move
"""
