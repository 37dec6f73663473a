"""The rates of a price: what they may be, what refuses them, and the replies of the library."""

import itertools

from tests.cases.keys import FAULTY
from tests.cases.prices import whole_pence
from tests.model.words import key

from . import forms, samples
from .factors import replied
from .points import HUGE, NEGATIVE, NO_INTEGERS
from .subject import morgana

MOST = morgana.MOST_RATE
RATES = 150, 75, 3
OVER = (MOST + 1, 2 * MOST, 2**31 - 1, 2**31, 2**32 - 1, *HUGE, forms.Whole(2**40))


def with_rate(place, rate):
    """Rates that pass, but for this one at its place."""
    return [*RATES[:place], rate, *RATES[place + 1 :]]


def hold_forms(hold):
    """Rates are integers of any type, by place or by name, and a key is the same in each form."""
    wholes = [*map(forms.Whole, RATES)]
    for form in forms.KEYS:
        hold.equal(f"the price of {form}", 3, morgana.price(form(samples.OLD), *RATES))
        hold.equal("integers of another type", 3, morgana.price(form(samples.OLD), *wholes))
    fifty = key("head 0 0, sparse 0 0, 50 times cell 0 0 1 2 3, end")
    hold.equal("bools", [0, 1], [morgana.price(fifty, rate, False, False) for rate in (False, True)])
    hold.equal("by name", 3, morgana.price(per_factor=3, per_call=75, per_cell=150, key=samples.OLD))


def hold_types(hold):
    """What is no integer raises TypeError, and a negative one ValueError, at each place and whatever the key is; all three
    rates must be given.
    """
    for data, place in itertools.product((samples.OLD, samples.CUT), range(3)):
        for thing in NO_INTEGERS:
            hold.raises(f"a rate {thing!r}", TypeError, morgana.price, data, *with_rate(place, thing))
        for number in NEGATIVE:
            hold.raises("a negative rate", ValueError, morgana.price, data, *with_rate(place, number))
    for count in range(3):
        hold.raises(f"{count} rates", TypeError, morgana.price, samples.OLD, *RATES[:count])
    hold.raises("a fourth", TypeError, morgana.price, samples.OLD, *RATES, 0)


def hold_over(hold):
    """A rate over the limit is refused at its place, however great it is, and of several the first, also where the key has
    nothing that it is for; the limit itself passes.
    """
    for data, counts in ((samples.OLD, (1, 2, 3)), (samples.DOUBLED, (1, 1, 2)), (samples.SHORTEST, (0, 0, 0))):
        for place, rate in itertools.product(range(3), OVER):
            hold.refused("a rate", 62, place, morgana.price, data, *with_rate(place, rate))
        for rates in itertools.product((0, MOST, MOST + 1, 2**32), repeat=3):
            over = [place for place, rate in enumerate(rates) if rate > MOST]
            if over:
                hold.refused(f"the first of {rates}", 62, over[0], morgana.price, data, *rates)
            else:
                hold.equal(f"the price at {rates}", whole_pence(counts, rates), morgana.price(data, *rates))


def hold_order(hold):
    """What refuses the key comes first, in both editions."""
    scaled = key("scaled_head 1 0, sparse 0 0, recursive 1 0, call 0 0 0, end")
    cases = *((key(text), number, place) for number, (text, place) in FAULTY.items()), (scaled, 4, 9), (b"", 2, 0)
    for (data, number, place), rate in itertools.product(cases, (0, MOST, MOST + 1, 2**64)):
        hold.refused(f"a key with rates {rate}", number, place, morgana.price, data, rate, rate, rate)
        hold.refused("the last rate", number, place, morgana.price, data, 1, 1, rate)


def hold_replies(hold):
    """The reply's fields stand where the header says; of a refused call all are 0 but for the number and the place."""
    hold.laid_out(morgana._PriceReply, 24, {"number": 0, "place": 8, "pence": 16})
    for arguments, wanted in (
        ((samples.CUT, *RATES), (2, 30, 0)),
        ((samples.CUT, *with_rate(0, MOST + 1)), (2, 30, 0)),
        ((samples.OLD, *with_rate(2, MOST + 1)), (62, 2, 0)),
        ((samples.OLD, *RATES), (0, 0, 3)),
    ):
        reply = replied(morgana.price, arguments)
        hold.equal("the reply", wanted, (reply.number, reply.place, reply.pence))


def hold_all(hold):
    """Everything of this file."""
    hold_forms(hold)
    hold_types(hold)
    hold_over(hold)
    hold_order(hold)
    hold_replies(hold)
