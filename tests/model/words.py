"""Keys, numbers and answers in words, as the test programs print them."""

import itertools

from .records import KINDS, encode, records_in


def refused(number, place):
    """A refusal as the program prints it."""
    return f"refused {number} at {place}"


def accepted(arrays, cells, calls, rows, columns):
    """The counts of an accepted key, n and n', as the program prints them."""
    return f"arrays {arrays} cells {cells} calls {calls} rows {rows} columns {columns}"


def counted(answer, factors):
    """An answer in words and its count of factors, as the program prints them."""
    return f"{answer} factors {factors}"


def outcome(answer, sheet):
    """An answer in words and the sheet's places, as the program prints them."""
    return " ".join([answer, "sheet", *map(str, sheet)])


def agreed(wanted, answer):
    """The answer worked out by the model, which must be the one that is worded, where one is."""
    if wanted not in (None, answer):
        raise ValueError(f"worded {wanted!r}, worked out {answer!r}")
    return answer


def listed(numbers):
    """Numbers in words, as '1 5 times 0', or 'none'."""
    runs = ((x, len(list(same))) for x, same in itertools.groupby(numbers))
    items = ([f"{count} times {x}"] if count > 3 else [str(x)] * count for x, count in runs)
    return " ".join(itertools.chain(*items)) or "none"


def words(name, fields):
    """A record in words, as 'call 0 1 2'."""
    return " ".join([name, *map(str, fields)])


def key(text):
    """The bytes of a key in words, as 'head 1 1, 2 times sparse 1 1, end'; 'bytes 0a06' need be no record."""
    return b"".join(part(item.split(" ")) for item in text.split(", ") if item)


def part(item):
    """The bytes of one item of a key's words."""
    if item[0].isdigit():
        return int(item[0]) * part(item[2:])
    if item[0] == "bytes":
        return bytes.fromhex(item[1])
    return encode(KINDS[item[0]], tuple(map(int, item[1:])))


def joined(*items):
    """The words of a key from those of its parts, of which any may be empty."""
    return ", ".join(item for item in items if item)


def times(count, item):
    """The words for so many of an item."""
    return item if count == 1 else f"{count} times {item}"


def byte_words(data):
    """The words for bytes, as 'bytes 0a06'."""
    return f"bytes {data.hex()}" if data else ""


def key_words(data):
    """The words of a key that is given by its bytes, which are left as they are where no record can be taken."""
    records, rest = records_in(data)
    return joined(*itertools.starmap(words, records), byte_words(rest))
