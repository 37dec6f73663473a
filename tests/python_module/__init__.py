"""The Python module python/morgana.py, tested against tests/model, at its edges, and against what it repeats
of other files. __main__ says how it went.

subject    the module, loaded from this tree
holding    what is wanted, compared with what is got
forms      keys, points and sheets in the forms that a caller may have them in
drawn      drawn keys, points, sheets and rates, answered by the module and by tests/model
samples    keys whose numbers README.md gives, and others that the edges need
keys       the edges of keys
points     those of coordinates, rows and columns
sheets     those of sheets
moves      those of keys moved into the other edition
shapes     those of two keys of different shapes
locations  those of a cell in which two keys differ
towers     a cell in which keys differ that nobody unrolls
location_refusals
           what refuses to locate a difference
shorters   those of the shorter of two keys
shorter_sheets
           what the shorter of two keys leaves on a sheet, and what makes it neither
drawn_shorters
           drawn pairs, of which the module and tests/model hand back the shorter
factors    those of the count of factors
prices     those of the price of a key
rates      those of the rates of a price, and what refuses them
answers    what answers and refusals are, and how the module describes itself
chances    random points, and the likelihood that keys that differ pass
threads    calls in several threads at once
loading    which library is loaded, and which are refused
example    examples/python/compare.py, run as a program
agreement  what the module repeats of the header, of the Rust package and of crates/refusal
"""
