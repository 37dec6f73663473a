"""The cases of evaluate and compare at points of two numbers a coordinate: 02, E2.

shared       the two calls, elements, and points of two numbers a coordinate
evaluations  what evaluate answers
refusals     what refuses evaluate, and in which order
comparisons  what compare answers, and what refuses it
sweep        drawn keys through both calls, and all cases in their order
"""
