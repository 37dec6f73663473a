"""The cases of crates/cases and crates/cases_quadratic as they are collected: what a program reads of each, and the line
that it must print.
"""

import itertools
import re
import struct

from tests.draw.numbers import numbered
from tests.model.calls import arithmetic, cell, check, compare, evaluate, move, put, take, written
from tests.model.fields import PRIME
from tests.model.keys import read
from tests.model.locate import locate
from tests.model.price import price, priced
from tests.model.records import LAYOUT, Refusal
from tests.model.shorter import handed_back, shorter
from tests.model.words import agreed, key, listed, outcome, words

OPERATIONS = {
    "sum": 1,
    "difference": 2,
    "product": 3,
    "take": 4,
    "put": 5,
    "check": 6,
    "evaluate": 7,
    "cell": 8,
    "compare": 9,
    "count": 10,
    "evaluate_quadratic": 11,
    "compare_quadratic": 12,
    "move": 13,
    "locate": 14,
    "shorter": 15,
    "price": 16,
}

# The program reads fewer zeros than this, and fewer bytes of data.
TOO_LONG = 131_072


def array_count(data):
    """The number of a key's arrays, 1 where it is not accepted."""
    try:
        return len(read(data)[1])
    except Refusal:
        return 1


def lent(field, *keys):
    """A sheet with two places more than the arrays of each key need."""
    return numbered(3 * field.size * max(map(array_count, keys)) + 2)


def zeros_of(data):
    """How many of the first bytes are 0."""
    return len(data) - len(data.lstrip(b"\0"))


def laid(first, second):
    """Bytes that hold two keys, and where each begins and ends in them: equal keys once, and of others the one with more
    bytes 0 in front before the other.
    """
    if first == second:
        return first, (0, len(first)), (0, len(first))
    if zeros_of(first) < zeros_of(second):
        data, behind, front = laid(second, first)
        return data, front, behind
    return first + second, (0, len(first)), (len(first), len(first + second))


def settled(wanted, sheet):
    """The outcome that is worded, a refusal or each array's A, B and C, without its count of factors, or None where none is."""
    if wanted is None:
        return None
    if isinstance(wanted, str):
        return outcome(wanted, sheet)
    return outcome(" ".join(map(str, wanted[-1])), written(wanted, sheet))


def uncounted(answer):
    """An answer in words without its count of factors, and the count, or None where there is none."""
    said, *count = re.split(r" factors (\d+)", answer)
    return (said + count[1], int(count[0])) if count else (said, None)


class Cases:
    """The cases so far: the line that the program must print for each, with what it reads of the case."""

    def __init__(self):
        self.inputs = {}

    def add(self, name, wanted, operation, x=0, y=0, kind=0, fields=(), zeros=0, data=b"", numbers=()):
        """One case, with the numbers of its header in the program's order; a case that is there already is left out."""
        if max(zeros, len(data)) >= TOO_LONG:
            raise ValueError(f"the program does not read so much: {name}")
        text = f"{name} | wanted {wanted} | got ".encode()
        five = [*fields, 0, 0, 0, 0, 0][:5]
        header = struct.pack("<BHQQB5III", OPERATIONS[operation], len(text), x, y, kind, *five, zeros, len(data))
        behind = struct.pack(f"<{len(numbers)}I", *numbers)
        self.inputs.setdefault(text + wanted.encode() + b"\n", header + text + data + behind)

    def arithmetic(self, operation, a, b, wanted=None):
        """A call of the field; `wanted` where 01 words the answer."""
        answer = agreed(wanted, arithmetic(operation, a, b))
        self.add(f"{operation} {a} {b}", answer, operation, x=a, y=b)

    def take(self, data, at, wanted=None, zeros=0):
        """A take at an offset; the slice is `zeros` bytes 0 and then `data`."""
        answer = agreed(wanted, take(bytes(zeros) + data, at))
        front = f"{zeros} zeros and " if zeros else ""
        self.add(f"take {front}{data.hex() or 'nothing'} at {at}", answer, "take", x=at, zeros=zeros, data=data)

    def put(self, kind, fields, data, at, wanted=None, zeros=0):
        """A put at an offset; the buffer is `zeros` bytes 0 and then `data`, which alone is printed."""
        answer, after = put(kind, fields, bytes(zeros) + data, at)
        agreed(wanted, answer)
        front = f"{zeros} zeros and " if zeros else ""
        text = f"put {words(LAYOUT[kind][0], fields)} into {front}{data.hex() or 'nothing'} at {at}"
        wanted_text = f"{answer} buffer {after[zeros:].hex()}"
        self.add(text, wanted_text, "put", x=at, kind=kind, fields=fields, zeros=zeros, data=data)

    def check(self, text, wanted=None):
        """A check of a key in words."""
        data = key(text)
        answer = agreed(wanted, check(data))
        self.add_keyed("check", text, data, "", answer)

    def evaluate(self, text, rows, columns, wanted=None, sheet=None, unroll=True, name=None, factors=None, field=PRIME):
        """An evaluation of a key in words. `wanted` is the refusal or each array's A, B and C, where they are known
        without the model; a key that is too large to unroll needs them. A `name` stands for a key that is long in words.
        `factors` is the count of factors, where it is known without the model.
        """
        data = key(text)
        sheet = lent(field, data) if sheet is None else sheet
        answer = evaluate(data, rows, columns, sheet, None if unroll else wanted, field)
        said, count = uncounted(answer)
        agreed(settled(wanted, sheet), said)
        agreed(factors, count)
        behind = f" at rows {listed(rows)} columns {listed(columns)} on sheet {listed(sheet)}"
        fields = (len(rows), len(columns), len(sheet))
        call = f"evaluate{field.suffix}"
        self.add_keyed(call, name or text, data, behind, answer, fields, [*rows, *columns, *sheet])

    def cell(self, text, row, column, wanted=None, sheet=None, unroll=True, name=None, factors=None):
        """A cell of a key in words; the rest is as for evaluate."""
        data = key(text)
        sheet = lent(PRIME, data) if sheet is None else sheet
        answer = cell(data, row, column, sheet, None if unroll else wanted)
        said, count = uncounted(answer)
        agreed(settled(wanted, sheet), said)
        agreed(factors, count)
        behind = f" at row {row} column {column} on sheet {listed(sheet)}"
        self.add_keyed("cell", name or text, data, behind, answer, (row, column, len(sheet)), sheet)

    def compare(
        self, first, second, rows, columns, wanted=None, sheet=None, known=None, unroll=True, factors=None, field=PRIME
    ):
        """A comparison of two keys in words. `wanted` is what is said, or which key is refused and how, where 01 words it,
        with the sheet afterwards or without; `known` is each array's A, B and C of the two keys, which keys that are too
        large to unroll need; `factors` is the count of factors of both, as for evaluate.
        """
        keys = key(first), key(second)
        sheet = lent(field, *keys) if sheet is None else sheet
        answer = compare(*keys, rows, columns, sheet, None if unroll else known, field)
        said, count = uncounted(answer)
        agreed(wanted, said if wanted and " sheet" in wanted else said.partition(" sheet")[0])
        agreed(factors, count)
        agreed(known and compare(*keys, rows, columns, sheet, known, field), answer)
        behind = f" at rows {listed(rows)} columns {listed(columns)} on sheet {listed(sheet)}"
        counts = (len(rows), len(columns), len(sheet))
        call = f"compare{field.suffix}"
        self.add_pair(call, (first, second), keys, behind, answer, counts, [*rows, *columns, *sheet])

    def locate(self, first, second, rows, columns, wanted=None, sheet=None, known=None):
        """A difference of two keys in words, located at a point. `wanted` is what is said, or which key is refused and how,
        where it is known without the model, with the sheet afterwards or without; `known` is both, of keys that are too large
        to unroll.
        """
        keys = key(first), key(second)
        sheet = lent(PRIME, *keys) if sheet is None else sheet
        answer = known or locate(*keys, rows, columns, sheet)
        agreed(wanted, answer if wanted and " sheet" in wanted else answer.partition(" sheet")[0])
        behind = f" at rows {listed(rows)} columns {listed(columns)} on sheet {listed(sheet)}"
        counts = (len(rows), len(columns), len(sheet))
        self.add_pair("locate", (first, second), keys, behind, answer, counts, [*rows, *columns, *sheet])

    def shorter(self, first, second, rows, columns, wanted=None, sheet=None, known=None):
        """The shorter of two keys in words, asked for at a point. `wanted` is the key that is handed back, 1 or 2, or 0 for the
        empty beginning of the first, where it is known without the model; `known` as for compare.
        """
        keys = key(first), key(second)
        sheet = lent(PRIME, *keys) if sheet is None else sheet
        answer = shorter(*keys, rows, columns, sheet, known)
        if wanted is not None:
            agreed(handed_back(wanted, len((b"", *keys)[wanted])), answer.partition(" sheet")[0])
        behind = f" at rows {listed(rows)} columns {listed(columns)} on sheet {listed(sheet)}"
        counts = (len(rows), len(columns), len(sheet))
        self.add_pair("shorter", (first, second), keys, behind, answer, counts, [*rows, *columns, *sheet])

    def count(self, first, second, bits, values, said, name):
        """Comparisons of two keys in words at every point of so many row and column coordinates that are among the values,
        which have a name; `said` gives the letter of each. Answers how many are the same.
        """
        letters = "".join(map(said, itertools.product(values, repeat=sum(bits))))
        wanted = f"{letters} same {letters.count('S')} different {letters.count('D')}"
        behind = f" at {bits[0]} rows and {bits[1]} columns among {name}"
        counts = (*bits, len(values))
        self.add_pair("count", (first, second), (key(first), key(second)), behind, wanted, counts, values)
        return letters.count("S")

    def move(self, text, length, wanted=None, shown=0):
        """A move of a key in words into a buffer of so many bytes aa, of which those from an offset on are printed. `wanted`
        is the refusal or the copy in words, where they are known without the model.
        """
        data, buffer = key(text), b"\xaa" * length
        answer, after = move(data, buffer)
        if wanted is not None:
            refusal = wanted.startswith("refused")
            copy = b"" if refusal else key(wanted)
            agreed(wanted if refusal else f"length {len(copy)}", answer)
            agreed(copy + buffer[len(copy) :], after)
        behind = f" into {length} bytes aa" + (f", shown from {shown}" if shown else "")
        self.add_keyed("move", text, data, behind, f"{answer} buffer {after[shown:].hex()}", (length, shown))

    def price(self, text, rates, wanted=None):
        """The price of a key in words at rates per cell, per call and per factor. `wanted` is the refusal or the pence, where
        they are known without the model.
        """
        data = key(text)
        answer = agreed(priced(wanted) if isinstance(wanted, int) else wanted, price(data, rates))
        self.add_keyed("price", text, data, f" at rates {listed(rates)}", answer, rates)

    def add_pair(self, operation, texts, keys, behind, wanted, counts, numbers):
        """One case of two keys."""
        data, (x, y), place = laid(*keys)
        text = " with ".join(text or "nothing" for text in texts)
        self.add_keyed(operation, text, data, behind, wanted, (*counts, *place), numbers, x, y)

    def add_keyed(self, operation, text, data, behind, wanted, fields=(), numbers=(), x=0, y=0):
        """One case of a key, or of two; its first bytes, as far as they are 0, are the case's zeros."""
        zeros = zeros_of(data)
        name = f"{operation} {text or 'nothing'}{behind}"
        self.add(name, wanted, operation, x, y, fields=fields, zeros=zeros, data=data[zeros:], numbers=numbers)
