"""What each call answers, in words: its refusals in the documents' order, and what it gives where nothing is refused."""

import itertools

from .dense import bits_of, dense, triples
from .editions import moved
from .factors import factors
from .fields import P, PRIME
from .keys import read
from .pairs import most_bits, multiplied, pair_factors, unused
from .records import Refusal, encode, record_at
from .words import accepted, counted, outcome, refused, words


def arithmetic(operation, a, b):
    """What the sum, the difference or the product of two numbers answers."""
    for place, operand in enumerate((a, b)):
        if operand >= P:
            return refused(34, place)
    return str({"sum": a + b, "difference": a - b, "product": a * b}[operation] % P)


def take(data, at):
    """What taking the record at an offset answers."""
    try:
        name, fields, place = record_at(data, at)
    except Refusal as refusal:
        return refused(*refusal.args)
    return f"{words(name, fields)} next {place}"


def put(kind, fields, data, at):
    """What putting a record at an offset of a buffer answers, and the buffer's bytes afterwards."""
    record = encode(kind, fields)
    if at > len(data):
        return refused(33, len(data)), data
    if len(record) > len(data) - at:
        return refused(32, len(record)), data
    return f"next {at + len(record)}", data[:at] + record + data[at + len(record) :]


def move(data, buffer):
    """What moving a key into a buffer answers, and the buffer's bytes afterwards."""
    try:
        copy = moved(data)
    except Refusal as refusal:
        return refused(*refusal.args), buffer
    if len(copy) > len(buffer):
        return refused(32, len(copy)), buffer
    return f"length {len(copy)}", copy + buffer[len(copy) :]


def entry_count(name, arrays):
    """How many entries the arrays of one kind have."""
    return sum(len(array.entries) for array in arrays if array.name == name)


def check(data):
    """What checking a key answers."""
    try:
        head, arrays = read(data)
    except Refusal as refusal:
        return refused(*refusal.args)
    return accepted(len(arrays), entry_count("sparse", arrays), entry_count("recursive", arrays), *head)


def hold_point(bits, rows, columns, field=PRIME):
    """Refuses what is no point of so many row and column coordinates."""
    for number, count, numbers in zip((21, 22), field.counts(bits), (rows, columns)):
        if len(numbers) != count:
            raise Refusal(number, len(numbers))
    for index, r in enumerate([*rows, *columns]):
        if r >= P:
            raise Refusal(23, index)


def hold_place(head, row, column):
    """Refuses a row or a column outside an array of the head's bits."""
    for place, (number, bits) in enumerate(zip((row, column), head)):
        if number >= 2**bits:
            raise Refusal(24, place)


def hold_sheet(arrays, sheet, field=PRIME):
    """Refuses a sheet that has no place for the numbers of each array's A, B and C."""
    needed = 3 * field.size * len(arrays)
    if len(sheet) < needed:
        raise Refusal(31, needed)


def written(known, sheet):
    """The sheet with the numbers of each array's A, B and C at its beginning."""
    numbers = list(itertools.chain(*known))
    return [*numbers, *sheet[len(numbers) :]]


def valued(values, count, known, sheet):
    """The outcome where A, B and C are answered with the count of factors, and known for each array."""
    return outcome(counted(" ".join(map(str, values)), count), written(known, sheet))


def answered(data, hold, sheet, give, field=PRIME):
    """The outcome of a call on a key: its first refusal, `hold` being what judges the head behind the key's own rules, or
    the values and each array's A, B and C that `give` makes of the head and the arrays, and the count of factors.
    """
    try:
        head, arrays = read(data)
        hold(head)
        hold_sheet(arrays, sheet, field)
    except Refusal as refusal:
        return outcome(refused(*refusal.args), sheet)
    values, known = give(head, arrays)
    return valued(values, factors(arrays), known, sheet)


def evaluate(data, rows, columns, sheet, known=None, field=PRIME):
    """What evaluating a key at a point answers, and the sheet afterwards; `known` is each array's A, B and C where the
    key is too large to unroll.
    """

    def give(_, arrays):
        each = known or triples(arrays, dense(arrays), rows, columns, field)
        return each[-1], each

    return answered(data, lambda head: hold_point(head, rows, columns, field), sheet, give, field)


def cell(data, row, column, sheet, known=None):
    """What the cell of a key at a row and a column answers, and the sheet afterwards; `known` as for evaluate."""

    def give(head, arrays):
        if known:
            return known[-1], known
        forms = dense(arrays)
        each = triples(arrays, forms, bits_of(row, head[0]), bits_of(column, head[1]))
        return forms[-1].get((row, column), (0, 0, 0)), each

    return answered(data, lambda head: hold_place(head, row, column), sheet, give)


def named(which, judged, *of):
    """What a judgement gives; where it refuses, the refusal also names the key that it is about."""
    try:
        return judged(*of)
    except Refusal as refusal:
        raise Refusal(*refusal.args, which) from refusal


def read_pair(first, second, rows, columns, sheet, field=PRIME):
    """The heads' bits and the arrays of two keys that are compared at a point on a sheet."""
    heads, keys = zip(named("first", read, first), named("second", read, second))
    named("neither", hold_point, most_bits(*heads), rows, columns, field)
    named("neither", hold_sheet, max(keys, key=len), sheet, field)
    return heads, keys


def verdict(heads, known, rows, columns, field=PRIME):
    """What compare says of two keys, by the bits of their heads and each array's A, B and C."""
    one, other = (multiplied(each[-1], left, rows, columns, field) for each, left in zip(known, unused(heads)))
    return "same" if one == other else "different"


def compare(first, second, rows, columns, sheet, known=None, field=PRIME):
    """What comparing two keys at a point answers, and the sheet afterwards; `known` as for evaluate, of each key."""
    try:
        heads, keys = read_pair(first, second, rows, columns, sheet, field)
    except Refusal as refusal:
        *cause, which = refusal.args
        return outcome(f"{which} {refused(*cause)}", sheet)
    one, other = known or [triples(arrays, dense(arrays), rows, columns, field) for arrays in keys]
    answer = counted(verdict(heads, (one, other), rows, columns, field), pair_factors(heads, keys))
    return outcome(answer, written(other, written(one, sheet)))
