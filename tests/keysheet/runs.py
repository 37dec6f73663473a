"""Every case, run: what keysheet prints is compared with what is unrolled."""

import subprocess
from collections import Counter
from random import Random

from tests.unroll.keysheet import printed

from .damage import any_input
from .drawn import filled, many_arrays
from .edges import SAMPLE, edges
from .feeds import FEEDS, SECONDS
from .inputs import Case, refused

REFUSALS = [*range(2, 14), 21, 22, 23, 41, 42]
OUTCOMES = ["key", *REFUSALS]
SHOWN = 600


class Failed(Exception):
    """The program fails the test."""


def fed_cases(random):
    """Cases whose input is written in pieces, with pauses, or read from a file."""
    whole = filled(random, 65536).written()
    for feed in ("pieces", "file"):
        yield Case(SAMPLE, "key 53 bytes arrays 2 ", feed)
        yield Case(whole, "key ", feed)
        yield Case(whole + b"\6", refused(42, 65536), feed)
        yield Case(whole[:-1], "refused 2 at ", feed)
        yield Case(many_arrays(random, 1024).written(), "key ", feed)
        for length in (0, 1, 2, 9, 10):
            yield Case(SAMPLE[:length], "refused ", feed)
        for _ in range(10):
            yield Case(any_input(random), "", feed)
    yield Case(SAMPLE, "key 53 bytes arrays 2 ", "bytes")


def cases(seed, count):
    """The edges, the cases that are fed in other ways, and the given number of drawn inputs, each from its own seed."""
    yield from edges()
    yield from fed_cases(Random(seed))
    for i in range(count):
        yield Case(any_input(Random(f"{seed} {i}")))


def shown(data, text):
    """The text of the data, with its middle left out if it is long."""
    if len(text) > SHOWN:
        text = f"{text[: SHOWN // 2]} ... {text[-SHOWN // 2 :]}"
    return f"({len(data)} bytes) {text}"


def hold(program, case):
    """Runs one case. Returns what is printed, or raises Failed with both answers."""
    wanted = printed(case.data)
    if not wanted.startswith(case.stated.encode()):
        raise Failed(f"stated: {case.stated!r}\nunrolled: {shown(wanted, repr(wanted))}")
    try:
        status, got = FEEDS[case.feed](program, case.data)
    except subprocess.TimeoutExpired:
        raise Failed(f"no end within {SECONDS} seconds") from None
    if got != wanted:
        raise Failed(f"wanted: {shown(wanted, repr(wanted))}\ngot: {shown(got, repr(got))}")
    if status != 0:
        raise Failed(f"the program ended with status {status}")
    return wanted


def outcome(answer):
    """The number of the refusal that is printed, or "key" for an accepted key."""
    first, second = answer.split()[:2]
    return int(second) if first == b"refused" else "key"


def hold_counts(counts, count):
    """Raises Failed if some outcome occurred too seldom for the number of drawn inputs."""
    least = 3 + count // 400
    seldom = [f"{each}: {counts[each]}" for each in OUTCOMES if counts[each] < least]
    if seldom:
        raise Failed(f"each outcome must occur {least} times at least; too seldom: {', '.join(seldom)}")


def hold_all(program, seed, count):
    """Runs all cases and returns the counts of their outcomes."""
    counts = Counter()
    for number, case in enumerate(cases(seed, count)):
        try:
            counts[outcome(hold(program, case))] += 1
        except Failed as failure:
            text = f"seed {seed}, case {number}, input by {case.feed}: {shown(case.data, case.data.hex())}"
            raise Failed(f"{text}\n{failure}") from None
    hold_counts(counts, count)
    return counts
