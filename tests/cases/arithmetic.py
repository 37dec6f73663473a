"""The cases of the field's sum, difference and product: 01, 'The field'."""

from tests.model.fields import P, TOP
from tests.model.words import refused


def field_cases(cases, draw):
    """01, 'The field', and number 34: the edges that are not starred, and a sweep."""
    for a, b in ((P, 0), (P, P), (TOP, TOP), (P, TOP)):
        for operation in ("sum", "difference", "product"):
            cases.arithmetic(operation, a, b, refused(34, 0))
    for a, b in ((0, P), (P - 1, P), (0, TOP), (P - 1, P + 1)):
        for operation in ("sum", "difference", "product"):
            cases.arithmetic(operation, a, b, refused(34, 1))
    cases.arithmetic("sum", P - 1, P - 1, str(P - 2))
    cases.arithmetic("sum", 2**30, 2**30 - 1, "0")
    cases.arithmetic("difference", 0, P - 1, "1")
    cases.arithmetic("difference", P - 1, P - 1, "0")
    cases.arithmetic("product", 2, 2**30, "1")
    cases.arithmetic("product", P - 1, 1, str(P - 1))
    edges = (0, 1, 2, 2**16 - 1, 2**16, 46340, 46341, P // 2, P // 2 + 1, P - 2, P - 1)
    for operation in ("sum", "difference", "product"):
        for a in edges:
            for b in edges:
                cases.arithmetic(operation, a, b)
        for _ in range(60):
            cases.arithmetic(operation, draw.below(P), draw.below(P))
