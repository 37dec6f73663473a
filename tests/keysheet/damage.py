"""Inputs of keysheet with a field at its limit, with records out of order or of the other edition, or with damaged bytes."""

from .drawn import draw_input, filled, many_arrays
from .inputs import PRIME, Record, head, scaled_head


def limits(records):
    """The fields of a whole key with the numbers at which each may be refused: (index of record, field, number)."""
    shapes = []
    opening = 0
    for i, record in enumerate(records):
        if record.kind in (1, 7):
            yield from [(i, 0, 31), (i, 1, 31)]
        elif record.kind in (2, 3):
            opening = i
            shapes.append(record.fields)
            yield from [(i, axis, records[0].fields[axis] + 1) for axis in (0, 1)]
        elif record.kind == 4:
            yield from [(i, axis, 2 ** shapes[-1][axis]) for axis in (0, 1)]
            yield from [(i, field, PRIME) for field in (2, 3, 4)]
        elif record.kind in (5, 8):
            yield from [(i, 3, PRIME)] if record.kind == 8 else []
            called = shapes[record.fields[0]]
            yield (i, 0, len(shapes) - 1)
            yield from [(i, 1 + axis, 2 ** (shapes[-1][axis] - called[axis])) for axis in (0, 1)]
            yield from [(opening, axis, called[axis] - 1) for axis in (0, 1) if called[axis] > 0]
    yield from [(opening, axis, shapes[-1][axis] - 1) for axis in (0, 1) if shapes[-1][axis] > 0]


def at_a_limit(random, whole):
    """The input with one field of its key at its limit, one below it, or far above it."""
    index, field, limit = random.choice(list(limits(whole.records)))
    number = random.choice([limit, limit, limit, max(limit - 1, 0), limit + 1, 2**32 - 1])
    records = list(whole.records)
    records[index] = records[index].with_field(field, number)
    return whole._replace(records=records)


def point_at_a_limit(random, whole):
    """The input with a coordinate too many or too few, or with one or more coordinates near or above p."""
    axis = random.choice(["rows", "columns"])
    coordinates = list(getattr(whole, axis))
    if random.random() < 0.5 or not coordinates:
        coordinates = random.choice([coordinates[:-1], [*coordinates, 5], [*coordinates, PRIME], [5] * 31])
    else:
        for _ in range(random.choice([1, 1, 2])):
            coordinates[random.randrange(len(coordinates))] = random.choice([PRIME - 1, PRIME, 2**32 - 1])
    return whole._replace(**{axis: coordinates})


def shuffled(random, whole):
    """The input with a record of its key removed, doubled, changed for another, or put at another's place."""
    records = list(whole.records)
    i, j = random.randrange(len(records)), random.randrange(len(records))
    damage = random.choice(["remove", "double", "swap", "move"])
    if damage == "remove":
        del records[i]
    elif damage == "double":
        records.insert(i, records[i])
    elif damage == "swap":
        records[i], records[j] = records[j], records[i]
    else:
        records.insert(j, records.pop(i))
    return whole._replace(records=records)


def mixed(random, whole):
    """The input with a call of its key in the other edition, or with a second head of either."""
    records = list(whole.records)
    calls = [i for i, record in enumerate(records) if record.kind in (5, 8)]
    if calls and random.random() < 0.6:
        i = random.choice(calls)
        kind, fields = records[i]
        factor = random.choice([1, PRIME - 1, PRIME])
        records[i] = Record(8, (*fields, factor)) if kind == 5 else Record(5, fields[:3])
    else:
        bits = random.choice([records[0].fields, (0, 0), (31, 31)])
        records.insert(random.randint(1, len(records)), random.choice([head, scaled_head])(*bits))
    return whole._replace(records=records)


def damaged(random, data):
    """The bytes of an input, not none, with one byte changed, or cut, or with bytes appended."""
    place = random.randrange(len(data))
    damage = random.choice(["flip", "byte", "cut", "append"])
    if damage == "flip":
        return data[:place] + bytes([data[place] ^ 1 << random.randrange(8)]) + data[place + 1 :]
    if damage == "byte":
        return data[:place] + bytes([random.choice([0, 1, 2, 3, 4, 5, 6, 7, 8, 9, 255])]) + data[place + 1 :]
    if damage == "cut":
        return data[:place]
    return data + random.randbytes(random.choice([1, 1, 2, 30]))


def any_input(random):
    """The bytes of an input: a whole one, one at a limit or one with damage, small ones for the most part."""
    chance = random.random()
    if chance < 0.01:
        return many_arrays(random, random.choice([1024, 1025, 1025, 1025])).written()
    if chance < 0.02:
        return filled(random, random.choice([65536, 65537])).written()
    drawn = draw_input(random)
    if chance < 0.4:
        return drawn.written()
    if chance < 0.65:
        return at_a_limit(random, drawn).written()
    if chance < 0.75:
        return point_at_a_limit(random, drawn).written()
    if chance < 0.82:
        return shuffled(random, drawn).written()
    if chance < 0.85:
        return mixed(random, drawn).written()
    if chance < 0.9:
        return shuffled(random, at_a_limit(random, drawn)).written()
    return damaged(random, drawn.written())
