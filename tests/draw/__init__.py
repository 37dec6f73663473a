"""What the sweeps are made of: numbers, the same ones everywhere, and keys of few arrays and of both editions, whole and
damaged.

numbers  numbers, factors, and points, rates, places and sheets of numbers
keys     keys of few arrays, and keys of many calls
changes  keys made of another: damaged ones, one that is nearly the same, ones of the same circuit, larger ones, and ones with
         cells added
"""
