"""All cases of each test program, and the files that they are written to."""

import pathlib
import struct

from tests.draw.numbers import Draw

from .arithmetic import field_cases
from .checks import check_cases
from .collection import Cases
from .comparison_refusals import comparison_refusals
from .comparisons import comparison_cases
from .counts import count_cases
from .editions.quadratic import edition_cases as quadratic_edition_cases
from .editions.sweep import edition_cases
from .evaluations import evaluation_cases
from .factors import factor_cases, quadratic_factor_cases
from .grown.sweep import grown_cases, quadratic_grown_cases
from .locations import location_cases
from .quadratic.sweep import quadratic_cases
from .records import put_cases, take_cases
from .refusals import refusal_cases
from .shorters import shorter_cases

CRATES = pathlib.Path(__file__).resolve().parents[2] / "crates"


def public_cases():
    """All cases of the public calls."""
    cases, draw = Cases(), Draw()
    field_cases(cases, draw)
    take_cases(cases, draw)
    put_cases(cases, draw)
    check_cases(cases, draw)
    evaluation_cases(cases, draw)
    refusal_cases(cases, draw)
    comparison_cases(cases, draw)
    comparison_refusals(cases, draw)
    count_cases(cases, draw)
    edition_cases(cases, draw)
    factor_cases(cases, draw)
    grown_cases(cases, draw)
    location_cases(cases, draw)
    shorter_cases(cases, draw)
    return cases


def cases_over_p_squared():
    """All cases of the public calls over p², with numbers drawn apart from those of the other programs."""
    cases, draw = Cases(), Draw()
    quadratic_cases(cases, draw)
    quadratic_edition_cases(cases, draw)
    quadratic_factor_cases(cases, draw)
    quadratic_grown_cases(cases, draw)
    return cases


def files_of(folder, inputs):
    """What a program is run on and what it must print, by file."""
    return {
        folder / "stdin": struct.pack("<I", len(inputs)) + b"".join(inputs.values()),
        folder / "stdout": b"".join(inputs),
    }
