"""The stored runs of `press` (R15.4, R15.5)."""

import random

from second.press import MOST
from runs import Run


def stored_press(rng, ship, large):
    """Each form (R15.4) and each refusal (R15.5), pages at the edges of R7.2 and R7.4."""
    for name, length in (("one_byte", 1), ("one_full_page", 480), ("two_pages", 481)):
        yield Run(name, "press", (), rng.randbytes(length))
    yield Run("twelve_pages", "press", (), ship.ciphertext)
    yield Run("ninety_six_pages", "press", (), large.ciphertext)
    yield Run("nothing_to_print", "press", (), b"")
    for kind, regular in (("", False), ("_in_a_file", True)):
        yield Run("one_byte_too_many" + kind, "press", (), bytes(MOST + 1), regular=regular)
        yield Run("far_too_many_bytes" + kind, "press", (), bytes(70000), regular=regular)
    yield from stored_typed(ship, large)
    yield from stored_sizes(random.Random(20261116), ship)
    yield from stored_words(ship)


def stored_typed(ship, large):
    """`press typed` and `press typed K` (R15.4), and what is no K (R15.5)."""
    for name, words in (("all", ""), ("first", "0"), ("last", "11"), ("with_leading_zeros", "007"), ("not_below_the_total", "12"),
                        ("of_2_to_the_64", str(2**64)), ("of_40_digits", "4" * 40), ("minus", "-1"), ("letter", "x"), ("digit_and_letter", "1x"),
                        ("plus", "+1"), ("two_places", "1 2"), ("twice", "typed")):
        yield Run(f"typed_{name}", "press", ("typed", *words.split()), ship.ciphertext)
    yield Run("typed_empty_place", "press", ("typed", ""), ship.ciphertext)
    for digits in (4096, 4097):  # R15.5
        yield Run(f"typed_of_{digits}_digits", "press", ("typed", "7".zfill(digits)), ship.ciphertext)
    yield Run("typed_all_of_ninety_six", "press", ("typed",), large.ciphertext)
    yield Run("typed_nothing", "press", ("typed",), b"")
    yield Run("typed_too_many_bytes", "press", ("typed",), bytes(MOST + 1))
    yield Run("typed_place_of_nothing", "press", ("typed", "0"), b"")
    yield Run("typed_place_of_too_many_bytes", "press", ("typed", "96"), bytes(MOST + 1))


def stored_sizes(rng, ship):
    """`press --size N` (R15.4): the size at its edges, in every place, and what is no size."""
    for size, length in ((1, 1), (1, 96), (2, 191), (100, 9600), (480, 5700), (479, 5700)):
        yield Run(f"size_{size}_of_{length}_bytes", "press", ("--size", str(size)), rng.randbytes(length))
    for size, length in ((1, 97), (59, 5700), (479, 45985)):
        yield Run(f"size_{size}_too_small", "press", ("--size", str(size)), bytes(length))
        yield Run(f"size_{size}_too_small_in_a_file", "press", ("typed", "0", "--size", str(size)), bytes(length), regular=True)
    for number, words in enumerate(("typed --size 60", "--size 60 typed", "typed 94 --size 60", "typed --size 60 94", "--size 60 typed 94",
                                    "--size 060 typed 95", "--size 480 typed 0")):
        yield Run(f"size_in_place_{number}", "press", tuple(words.split()), ship.ciphertext)
    yield Run("size_and_nothing", "press", ("--size", "7"), b"")
    for name, words in (("0", "--size 0"), ("481", "--size 481"), ("2_to_the_64", f"--size {2**64}"), ("minus", "--size -1"), ("letter", "typed --size x 0"),
                        ("lacking", "typed --size"), ("help", "--size --help"), ("twice", "--size 7 --size 7"), ("joined", "--size=7")):
        yield Run(f"size_wrong_{name}", "press", tuple(words.split()), ship.ciphertext)
    yield Run("size_wrong_empty", "press", ("--size", ""), ship.ciphertext)
    for digits in (4096, 4097):  # R15.5
        yield Run(f"size_of_{digits}_digits", "press", ("--size", "480".zfill(digits)), ship.ciphertext)


def stored_words(ship):
    """Words that `press` takes alone, and wrong ones: each is told (R15.5)."""
    for name, word in (("unknown_word", "print"), ("empty_word", ""), ("word_in_capitals", "TYPED"), ("word_cut_short", "type"),
                       ("longer_word", "typed0"), ("dash", "-"), ("two_dashes", "--"), ("short_option", "-h"), ("late_status", "--status-3"),
                       ("help", "--help"), ("version", "--version"), ("word_of_64_bytes", "w" * 64), ("word_of_65_bytes", "w" * 65),
                       ("word_with_spaces_and_tilde", " ~ "), ("word_with_controls", "\x1b[2J\x7f\t"), ("word_beyond_ascii", "caf\udce9")):
        yield Run(name, "press", (word,), ship.ciphertext)
    for name, words in (("help_and_more", "--help typed"), ("help_behind", "typed 0 --help"), ("version_behind", "--size 7 --version"),
                        ("help_twice", "--help --help"), ("wrong_before_help", "print --help"), ("two_wrong_words", "typed x -y")):
        yield Run(name, "press", tuple(words.split()), ship.ciphertext)
    yield Run("unknown_word_and_nothing", "press", ("print",), b"")
    yield Run("unknown_word_and_too_many_bytes", "press", ("print",), bytes(MOST + 1))
