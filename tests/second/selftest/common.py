"""What the self-tests are written with."""

from .. import desk
from ..answers import Refusal

CHECKS = []


def check(function):
    """A check of the self-test: it fails by an exception."""
    CHECKS.append(function)
    return function


def answer_of(function, *arguments):
    """0 with the result, or the refusal's number and place."""
    try:
        return 0, function(*arguments)
    except Refusal as refusal:
        return refusal.number, refusal.place


def same(one, other, *about):
    """Two values that must be equal."""
    if one != other:
        raise AssertionError(f"{one!r} is not {other!r} {about!r}"[:600])


def says(line, answer, at=None):
    """A line and what the desk must print."""
    same((at or desk.Desk()).answer(line.encode("ascii")), answer, line[:80])
