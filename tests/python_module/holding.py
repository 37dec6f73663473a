"""What is wanted, compared with what is got."""

import ctypes
import dataclasses

from .subject import morgana

SHOWN = 1000


class Failed(Exception):
    """Something else than what is wanted was got."""


def shown(thing):
    """The thing in words, with its middle left out if it is long."""
    try:
        text = thing if isinstance(thing, str) else repr(thing)
    except ValueError:  # Python prints no number of over 4,300 digits.
        text = f"{type(thing)} of too many digits"
    return text if len(text) <= SHOWN else f"{text[: SHOWN // 2]} ... {text[-SHOWN // 2 :]}"


def whole(thing):
    """The thing; an answer with all its fields, also those by which answers are not compared."""
    answer = dataclasses.is_dataclass(thing) and not isinstance(thing, type)
    return (type(thing), dataclasses.asdict(thing)) if answer else thing


def hold_equal(about, wanted, got):
    """Raises Failed where what is got is not what is wanted."""
    if whole(wanted) != whole(got):
        raise Failed(f"{shown(about)}\nwanted: {shown(wanted)}\ngot: {shown(got)}")


class Hold:
    """Compares one thing after the other, and counts them."""

    def __init__(self):
        self.count = 0

    def equal(self, about, wanted, got):
        """What is got equals what is wanted."""
        self.count += 1
        hold_equal(about, wanted, got)

    def true(self, about, condition):
        """The condition holds."""
        self.equal(about, True, bool(condition))

    def raises(self, about, kind, call, *arguments):
        """The call raises an exception of exactly this kind, which is returned."""
        try:
            got = call(*arguments)
        except Exception as error:
            self.equal(about, kind, type(error))
            return error
        raise Failed(f"{shown(about)}\nwanted: {kind}\ngot: {shown(got)}")

    def laid_out(self, reply, size, offsets):
        """A reply has this size, and its fields stand at these offsets."""
        self.equal("the size of a reply", size, ctypes.sizeof(reply))
        self.equal("its fields", offsets, {name: getattr(reply, name).offset for name, _ in reply._fields_})

    def refused(self, about, number, place, call, *arguments, key=None):
        """The call is refused so, and the refusal is returned."""
        refusal = self.raises(about, morgana.Refused, call, *arguments)
        self.equal(about, (number, place, key), (refusal.number, refusal.place, refusal.key))
        return refusal
