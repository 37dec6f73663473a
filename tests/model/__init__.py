"""What the calls answer, worked out from 01-scope.md and 02-change-requests.md alone: the layout, the rules and the
refusals, and nothing of the Rattle code. Answers are lines as the test programs print them. Evaluations are worked out on
the dense form, which is unrolled place by place.

fields   the numbers: p, the field of p elements and that of p² elements
records  the records of a key, and their bytes
keys     when a key is accepted: the rules of its records
editions a key moved into the other edition
dense    weights, the dense form of each array, and its value at a point
factors  how many factors the weights of a key's records have
pairs    two keys of any shapes: the coordinates that each does not use, and what they multiply its values by
words    keys, numbers and answers in words
calls    what each call answers
locate   a cell in which two keys differ
shorter  the shorter of two keys
price    the price of a key
"""
