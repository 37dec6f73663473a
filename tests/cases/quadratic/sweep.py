"""Drawn keys through both calls over p², and all cases over p² in their order."""

from tests.draw.changes import damaged, in_other_edition, nearly, rewritten
from tests.draw.keys import drawn_key, encoded
from tests.draw.numbers import drawn_edges, numbered, spoiled
from tests.model.fields import QUADRATIC
from tests.model.words import key_words

from ..keys import pair
from .comparisons import compare_orders, compared_sheets, key_faults, root_cases, same_cases, unused_root_cases
from .evaluations import greatest_cases, old_point_cases, product_cases, tower_cases, weight_cases
from .refusals import count_cases, evaluate_orders, number_cases, sheet_cases
from .shared import Quadratics, point_of


def sweep(cases, draw):
    """Drawn keys of both editions, whole and damaged, and against the same circuit written in another way and in the other
    edition.
    """
    for i in range(16):
        records = drawn_key(draw, 5, 1)
        text, bits = key_words(encoded(records)), records[0][1]
        cases.evaluate(text, *point_of(draw, bits))
        cases.evaluate(text, *drawn_edges(draw, QUADRATIC.counts(bits)))
        other = key_words(encoded(rewritten(draw, records)))
        cases.compare(*pair(i % 2, text, other), *point_of(draw, bits), "same")
        moved = key_words(encoded(in_other_edition(records)))
        cases.compare(*pair(i % 2, moved, other), *point_of(draw, bits), "same")
        cases.compare(text, key_words(encoded(nearly(draw, records))), *point_of(draw, bits))
        for data in damaged(draw, records):
            rows, columns = (spoiled(draw, side) for side in point_of(draw, bits))
            sheet = numbered(6 + draw.below(6 * len(records)))
            cases.evaluate(key_words(data), rows, columns, sheet=sheet)
            cases.compare(*pair(i % 2, text, key_words(data)), rows, columns, sheet=sheet)


def quadratic_cases(cases, draw):
    """02, E2: what is answered, every place of the sheet, and every refusal."""
    quadratics = Quadratics(cases)
    product_cases(quadratics)
    old_point_cases(quadratics, draw)
    greatest_cases(quadratics)
    weight_cases(quadratics, draw)
    tower_cases(quadratics, draw)
    count_cases(quadratics, draw)
    number_cases(quadratics, draw)
    sheet_cases(quadratics)
    evaluate_orders(quadratics)
    same_cases(quadratics, draw)
    root_cases(quadratics)
    unused_root_cases(quadratics)
    compared_sheets(quadratics)
    compare_orders(quadratics)
    key_faults(quadratics)
    sweep(quadratics, draw)
