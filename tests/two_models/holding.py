"""What both models answer, compared."""


class Failed(Exception):
    """The two differ, or some outcome did not occur."""


def hold(call, got, wanted, about):
    """Raises Failed where the two answers differ."""
    if got != wanted:
        raise Failed(f"{call} {about}\nmodel: {got}\nunrolled: {wanted}")


def hold_outcomes(call, outcomes, counts, least=1):
    """Raises Failed where some of the outcomes of a call did not occur so often."""
    missing = [each for each in outcomes if counts[each] < least]
    if missing:
        raise Failed(f"{call}: these outcomes did not occur {least} times: {missing}")
