"""What answers and refusals are, and how the module describes itself."""

import copy
import dataclasses
import doctest
import inspect
import pickle
import pydoc
import types

from . import samples
from .subject import morgana

P = morgana.P
COUNTS = {"arrays": 2, "cells": 1, "calls": 2, "rows": 1, "columns": 1}
EXAMPLES = 32


def hold_answers(hold):
    """Answers are equal where their fields are, counts of factors apart, are not changed, and are made by keyword."""
    counts = morgana.check(samples.OLD)
    hold.equal("the counts", COUNTS, dataclasses.asdict(counts))
    values = morgana.evaluate_quadratic(samples.OLD, *samples.PARTS)
    hold.equal("A, B and C", samples.SIXES[6:], [*values.a, *values.b, *values.c])
    hold.equal("u and v of A", (20, 2147483467), (values.a.u, values.a.v))
    hold.equal("its fields", ["a", "b", "c", "factors"], [*dataclasses.asdict(values)])
    hold.equal("the type of A", morgana.Quadratic, type(values.a))
    compared = morgana.compare(samples.OLD, samples.WRONG, [3], [4])
    hold.equal("what is found", {"same": False, "factors": 5}, dataclasses.asdict(compared))
    named = (counts, "arrays"), (values, "a"), (compared, "same")
    for answer, field in (*named, (values, "factors"), (compared, "factors")):
        fields = {each.name: getattr(answer, each.name) for each in dataclasses.fields(answer)}
        hold.equal("an equal answer", type(answer)(**fields), answer)
        other = type(answer)(**{**fields, field: 7})
        hold.equal("another answer", field != "factors", other != answer)
        hold.equal("a pickled answer", answer, pickle.loads(pickle.dumps(answer)))
        hold.equal("its hash", hash(type(answer)(**fields)), hash(answer))
        hold.raises("a field set", dataclasses.FrozenInstanceError, setattr, answer, field, 1)
        hold.raises("made by place", TypeError, type(answer), *fields.values())
        hold.equal("no tuple", False, isinstance(answer, tuple))


def hold_truth(hold):
    """What compare answers has no truth value, same or different."""
    for second, same in ((samples.NEW, True), (samples.WRONG, False)):
        compared = morgana.compare(samples.OLD, second, [3], [4])
        hold.true("same", compared.same is same)
        error = hold.raises("a truth value", TypeError, bool, compared)
        hold.true("what to use", "use .same" in str(error))


def hold_refusals(hold):
    """A refusal has a number, a place, a key where it names one, and a sentence; it prints them."""
    cases = (
        (morgana.check, (samples.CUT,), "refused 2 at 30: record missing or cut off"),
        (morgana.cell, (samples.OLD, 2, 0), "refused 24 at 0: row outside the last array"),
        (morgana.cell, (samples.OLD, 0, 2), "refused 24 at 1: column outside the last array"),
        (morgana.evaluate, (samples.OLD, [3], [P]), "refused 23 at 1: coordinate p or more"),
        (morgana.price, (samples.OLD, 0, 1_000_001, P), "refused 62 at 1: a rate over 1,000,000"),
    )
    for call, arguments, text in cases:
        hold.equal("a refusal", text, str(hold.raises(text, morgana.Refused, call, *arguments)))
    for call in (morgana.compare, morgana.locate, morgana.compare_quadratic):
        first = hold.refused("first", 2, 30, call, samples.CUT, samples.CUT, [], [], key=1)
        hold.equal("first", "refused 2 at 30: record missing or cut off; first key", str(first))
        second = hold.refused("second", 2, 30, call, samples.OLD, samples.CUT, [], [], key=2)
        hold.equal("second", "refused 2 at 30: record missing or cut off; second key", str(second))
        neither = hold.refused("neither", 21, 0, call, samples.OLD, samples.SHORTEST, [], [])
        sentence = "row count not n (N for two keys, twice that over p²)"
        hold.equal("neither", f"refused 21 at 0: {sentence}", str(neither))
        hold.equal("its sentence", sentence, neither.sentence)
        hold.true("its number", neither.number is morgana.Number.ROW_COUNT_WRONG)


def hold_copies(hold):
    """A refusal is the same when it is copied, and when it comes from another process."""
    for number in morgana.Number:
        for key in (None, 1, 2):
            refusal = morgana.Refused(number, 12, key)
            for other in (copy.copy(refusal), pickle.loads(pickle.dumps(refusal))):
                fields = other.number, other.place, other.key, other.args, str(other)
                hold.equal("a copy", (number, 12, key, (number, 12, key), str(refusal)), fields)
    for number in (0, 14, 35):
        hold.raises("no number of a refusal", ValueError, morgana.Refused, number, 0)


def hold_descriptions(hold):
    """Each public name is in __all__ and, unless it is a constant, described; the examples hold."""
    public = {
        name for name, thing in vars(morgana).items()
        if not name.startswith("_") and not isinstance(thing, types.ModuleType)
    }
    hold.equal("__all__", sorted(public), sorted(morgana.__all__))
    page = pydoc.plain(pydoc.render_doc(morgana))
    for name in morgana.__all__:
        hold.true(f"{name} in the help", f"    {name}" in page or f"class {name}(" in page)
        thing = getattr(morgana, name)
        if callable(thing):
            hold.true(f"the description of {name}", inspect.getdoc(thing))
    result = doctest.testmod(morgana)
    hold.equal("examples that fail", 0, result.failed)
    hold.equal("examples", EXAMPLES, result.attempted)


def hold_all(hold):
    """Everything of this file."""
    hold_answers(hold)
    hold_truth(hold)
    hold_refusals(hold)
    hold_copies(hold)
    hold_descriptions(hold)
