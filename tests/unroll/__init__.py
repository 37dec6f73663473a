"""What evaluate, compare, locate, shorter, price and the move answer, and what keysheet prints, by matrices that are written
out in full: a model apart from tests/model, of which it uses nothing. __main__ reads keysheet's input and prints what keysheet
prints.

fields    the field of p elements and that of p² elements
keys      records and keys: reading them, and the rules
dense     the dense matrices of a key's arrays, and their values at a point
factors   how many factors the weights of a key's records have
calls     a key evaluated, two keys compared, and the sheet afterwards
locate    a cell in which two keys differ, and the sheet afterwards
shorter   the shorter of two keys, and the sheet afterwards
price     the price of a key
editions  a key written again in the other edition
keysheet  what keysheet prints
"""
