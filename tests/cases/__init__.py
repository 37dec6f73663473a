"""What the test programs crates/cases, crates/cases_quadratic and crates/products are run on, and what they must print.
__main__ writes the files stdin and stdout of each, or says whether they are up to date.

programs             all cases of each program, and its files
collection           the cases as they are collected: what a program reads of each, and the line that it must print
keys                 the keys in words that several of the following are about
arithmetic           the field's sum, difference and product
records              taking a record from bytes, and putting one into a buffer
rules                check, at the edges of each rule
checks               check: those, and whole keys, several faults, cut keys and drawn ones
evaluations          what evaluate and cell answer
refusals             what refuses evaluate and cell, and in which order
comparisons          what compare answers
comparison_refusals  what refuses compare, and in which order
locations            what locate answers
location_refusals    what refuses locate, and in which order
shorters             which key shorter hands back
prices               what a key costs, and what refuses its price
counts               compare at every point of a list of values, by closed forms
towers               keys too large to unroll, with their closed forms
editions             the cases of edition 2, and of the move
factors              the count of factors that evaluate, cell and compare answer
grown                the cases of compare for keys of unequal shapes, over either field
quadratic            the cases over p², of crates/cases_quadratic
products             the cases of crates/products
"""
