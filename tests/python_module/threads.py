"""Calls in several threads at once, on sheets of their own and on the module's."""

import array
import concurrent.futures
import ctypes
import threading

from . import samples
from .holding import hold_equal
from .subject import morgana

THREADS = 8
ROUNDS = 50


def answered(number):
    """What the calls of one thread answer and leave on its sheet, at a point of its own."""
    sheet = array.array("I", [number]) * morgana.SHEET_QUADRATIC
    calls = (
        (morgana.compare, (samples.LONGEST, samples.MOST_ARRAYS, [], [])),
        (morgana.evaluate, (samples.GREATEST, [number] * 30, [number] * 30)),
        (morgana.locate, (samples.GREATEST, samples.OLD, [number] * 30, [number] * 30)),
        (morgana.shorter, (samples.OLD, samples.TALL, [number] * 2, [number])),
        (morgana.evaluate_quadratic, (samples.OLD, [number, 2], [4, 5])),
        (morgana.compare_quadratic, (samples.LONGEST, samples.LONGEST, [], [])),
    )
    got = [(call(*arguments, sheet), sheet.tobytes()) for call, arguments in calls]
    key, row = samples.MOST_CALLS, [number, 0]
    values = morgana.evaluate(key, row[:1], []), morgana.evaluate_quadratic(key, row, [])
    return [*got, *values, morgana.price(key, number, 100 * number, 3)]


def repeated(number, wanted, barrier):
    """Compares a thread's calls with what they answer alone, all threads starting together."""
    barrier.wait()
    for _ in range(ROUNDS):
        hold_equal(f"thread {number}", wanted, answered(number))
    return number


def hold_all(hold):
    """Compares the answers of several threads at once with those of one thread alone."""
    # A PyDLL, which has the same calls, lets no other thread run during one.
    hold.equal("the type of the library", ctypes.CDLL, type(morgana._library))
    alone = [answered(number) for number in range(THREADS)]
    barrier = threading.Barrier(THREADS)
    with concurrent.futures.ThreadPoolExecutor(THREADS) as pool:
        running = [pool.submit(repeated, *each, barrier) for each in enumerate(alone)]
        hold.equal("threads", list(range(THREADS)), [each.result() for each in running])
    hold.equal("other answers in each", THREADS, len({str(answers) for answers in alone}))
