"""All cases of edition 2 and of the move over p, in their order, and drawn keys through the move."""

from tests.draw.changes import damaged, in_other_edition
from tests.draw.keys import drawn_key, encoded
from tests.model.words import key_words

from .. import checks, comparison_refusals, comparisons, evaluations, refusals, rules
from .comparisons import comparison_cases
from .evaluations import evaluation_cases
from .moves import move_cases
from .rules import rule_cases
from .shared import InEditionTwo


def in_edition_two(cases, draw):
    """The cases of 01 whose keys have calls, in edition 2."""
    rules.check_calls(cases)
    rules.check_call_faults(cases)
    checks.check_first_faults(cases)
    checks.check_accepted(cases)
    checks.check_cut(cases)
    evaluations.starred_cases(cases)
    evaluations.sum_cases(cases)
    evaluations.shape_cases(cases, draw)
    evaluations.point_cases(cases, draw)
    evaluations.pattern_cases(cases, draw)
    evaluations.position_cases(cases, draw)
    refusals.edge_cases(cases, draw)
    refusals.key_faults(cases)
    refusals.evaluate_orders(cases)
    refusals.cell_orders(cases)
    comparisons.same_cases(cases, draw)
    comparisons.no_point_cases(cases)
    comparisons.tower_cases(cases, draw)
    comparison_refusals.key_fault_cases(cases)
    comparison_refusals.sheet_cases(cases)


def sweep(cases, draw):
    """Drawn keys of both editions, whole and damaged, moved into buffers of about their length."""
    for i in range(60):
        records = drawn_key(draw, 4, 1)
        records = in_other_edition(records) if i % 2 else records
        for data in (encoded(records), *damaged(draw, records)):
            text = key_words(data)
            cases.move(text, len(data) + draw.below(40))
            cases.move(text, max(0, len(data) - 20 + draw.below(40)))


def edition_cases(cases, draw):
    """02, E9: the rules, what is answered, and the move."""
    rule_cases(cases)
    evaluation_cases(cases, draw)
    comparison_cases(cases, draw)
    move_cases(cases)
    in_edition_two(InEditionTwo(cases), draw)
    sweep(cases, draw)
