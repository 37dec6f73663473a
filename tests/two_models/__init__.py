"""The two models in Python, tests/model and tests/unroll, compared with each other. __main__ says how it went.

holding    what both answer, compared
drawn      drawn keys, points and sheets, answered by both
pairs      drawn pairs of keys of any shapes, compared by both
locations  drawn pairs of keys, in which both locate a difference
shorters   drawn pairs of keys, of which both hand back the shorter
moves      drawn keys and buffers, moved by both
prices     drawn keys and rates, priced by both
"""
