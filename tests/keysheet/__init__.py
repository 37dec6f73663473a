"""The program keysheet, tested against tests/unroll. __main__ takes the program's path, and says how it went.

runs       every case, run: what keysheet prints, and what is unrolled
feeds      the ways to run the program on an input
inputs     inputs and their bytes, and cases: inputs with what is printed for them
edges      the edges that the request names
key_edges  those of keys
edition_edges
           those of edition 2
drawn      whole inputs, drawn at random
damage     drawn inputs at a limit, out of order, of both editions at once, or damaged
"""
