"""This program held to the standards, to the examples of the rules, and to itself (R18.7)."""

# each adds its checks
from . import (comparing, crossing, floating, mistyping, rounds, sets, sharing,  # noqa: F401
               standards)
from .common import CHECKS


def main():
    """Run every check; the number of failures decides the exit code."""
    failed = 0
    for function in CHECKS:
        try:
            function()
            print(f"ok      {function.__name__}")
        except Exception as error:  # any exception is a failure of that check
            failed += 1
            print(f"FAILED  {function.__name__}: {type(error).__name__}: {error}")
    print(f"{len(CHECKS)} checks, {failed} failed")
    return 1 if failed or not CHECKS else 0
