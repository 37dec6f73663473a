"""Whole inputs of keysheet, drawn at random, half of them of each edition."""

from .inputs import END, PRIME, Input, call, cell, head, recursive, scaled_call, scaled_head, sparse


def draw_number(random):
    """A field number, often one of those at the borders of the field."""
    return random.choice([0, 1, PRIME - 1, random.randrange(PRIME), random.randrange(PRIME)])


def draw_below(random, limit):
    """A whole number below the limit, often the first or the last."""
    return random.choice([0, limit - 1, random.randrange(limit)])


def draw_factor(random):
    """The factor of a call."""
    return random.choice([0, 1, 1, 2, PRIME - 1, random.randrange(PRIME)])


def draw_edition(random):
    """What makes the head and what makes a call of one of the editions; a call's factor is drawn."""
    if random.random() < 0.5:
        return head, call
    return scaled_head, lambda *fields: scaled_call(*(*fields, 0, 0)[:3], draw_factor(random))


def draw_point(random, row_bits, column_bits):
    """The row and the column coordinates of a point."""
    rows = [draw_number(random) for _ in range(row_bits)]
    return rows, [draw_number(random) for _ in range(column_bits)]


def draw_cells(random, row_bits, column_bits):
    """The cells of a sparse array, some at the place of the cell before."""
    cells = []
    for _ in range(random.choice([0, 1, 1, 2, 3, 6])):
        place = draw_below(random, 2**row_bits), draw_below(random, 2**column_bits)
        if cells and random.random() < 0.3:
            place = cells[-1].fields[:2]
        cells.append(cell(*place, *(draw_number(random) for _ in range(3))))
    return cells


def draw_calls(random, make_call, row_bits, column_bits, shapes):
    """The calls of a recursive array, often of the newest of the earlier arrays, whose shapes are given."""
    fitting = [i for i, (rows, columns) in enumerate(shapes) if rows <= row_bits and columns <= column_bits]
    calls = []
    for _ in range(random.choice([0, 1, 2, 2, 3, 5]) if fitting else 0):
        called = fitting[-1] if random.random() < 0.5 else random.choice(fitting)
        rows, columns = shapes[called]
        positions = draw_below(random, 2 ** (row_bits - rows)), draw_below(random, 2 ** (column_bits - columns))
        calls.append(make_call(called, *positions))
        if random.random() < 0.2:
            calls.append(calls[-1])
    return calls


def draw_shapes(random, row_bits, column_bits):
    """The shapes of a key's arrays, the last the key's own, in half of the keys none smaller than the one before."""
    count = random.choice([0, 1, 2, 3, 5, 8])
    rows = [random.randint(0, row_bits) for _ in range(count)]
    columns = [random.randint(0, column_bits) for _ in range(count)]
    if random.random() < 0.5:
        rows.sort()
        columns.sort()
    return [*zip(rows, columns), (row_bits, column_bits)]


def draw_records(random, row_bits, column_bits):
    """The records of a whole key with the head's bits given."""
    make_head, make_call = draw_edition(random)
    records = [make_head(row_bits, column_bits)]
    shapes = draw_shapes(random, row_bits, column_bits)
    for i, shape in enumerate(shapes):
        if random.random() < (0.8 if i == 0 else 0.3):
            records += [sparse(*shape), *draw_cells(random, *shape)]
        else:
            records += [recursive(*shape), *draw_calls(random, make_call, *shape, shapes[:i])]
    return [*records, END]


def draw_input(random):
    """A whole input, of at most eight coordinates."""
    row_bits = random.choice([0, 1, 1, 2, 3, 3, 5, 8])
    column_bits = random.randint(0, min(4, 8 - row_bits))
    if random.random() < 0.5:
        row_bits, column_bits = column_bits, row_bits
    rows, columns = draw_point(random, row_bits, column_bits)
    return Input(rows, columns, draw_records(random, row_bits, column_bits))


def many_arrays(random, count):
    """An input whose key has the number of arrays, each of one row bit."""
    make_head, make_call = draw_edition(random)
    records = [make_head(1, 0)]
    for i in range(count):
        if i == 0 or random.random() < 0.3:
            records += [sparse(1, 0), cell(random.randint(0, 1), 0, draw_number(random))]
        else:
            records += [recursive(1, 0), make_call(i - 1), make_call(random.randrange(i))]
    return Input([draw_number(random)], [], [*records, END])


def filled(random, size):
    """An input of exactly the number of bytes: many cells of one array, some empty arrays, a last array of calls. Where calls
    of 15 bytes cannot fill it, it is of edition 1.
    """
    row_bits, column_bits = random.choice([(0, 0), (2, 1), (1, 3)])
    rows, columns = draw_point(random, row_bits, column_bits)
    frame = Input(rows, columns, [head(0, 0), sparse(0, 0), recursive(0, 0), END])
    rest = size - len(frame.written())
    make_head, make_call = draw_edition(random) if rest % 3 == 0 else (head, call)
    length = len(make_call(0).written())
    calls = next(count for count in (3, 4, 5) if (rest - length * count) % 3 == 0)
    cells, remainder = divmod(rest - length * calls, 21)
    records = [make_head(row_bits, column_bits), sparse(row_bits, column_bits)]
    for _ in range(cells):
        place = random.randrange(2**row_bits), random.randrange(2**column_bits)
        records.append(cell(*place, *(draw_number(random) for _ in range(3))))
    records += [sparse(0, column_bits)] * (remainder // 3)
    records += [recursive(row_bits, column_bits), *[make_call(0)] * calls, END]
    return Input(rows, columns, records)
