"""`press`, which prints a document in the harbour: R15.4 and R15.5 of docs/RULES.md."""

import os
import re
from itertools import chain

from .answers import INDEX_TOTAL, OUT_OF_RANGE, TOO_LARGE, Refusal, refuse_if
from .forms import base64_write
from .frames import MOST_DATA, MOST_PAGES, page_write
from .sums import doc_id
from .typing_lines import write_typed

MOST = MOST_PAGES * MOST_DATA  # R3.8
FRAME_ROOM = 512
GROUP = 6  # characters, R15.4
DECIMAL = re.compile(r"[0-9]{1,4096}")  # R15.5


def ended(lines):
    """Lines as they are printed."""
    return b"".join(line + b"\n" for line in lines)


def shown(word):
    """What is not printable ASCII as `?` (R15.9)."""
    return bytes(byte if 0x20 <= byte < 0x7F else ord("?") for byte in word)


class WrongWord(Exception):
    """A word of a command that is wrong, and what would be right (R15.5, R15.11)."""

    def __init__(self, word, right):
        super().__init__(word, right)
        self.word, self.right = os.fsencode(word), right

    def line(self):
        """As it is told: no more than 64 bytes of it."""
        cut = b"..." if len(self.word) > 64 else b""
        return b"wrong word '%s%s': %s\n" % (shown(self.word[:64]), cut, self.right.encode("ascii"))


def press(ciphertext, arguments=(), regular=False):
    """What `press` prints, what it tells a person, and its status (R15.5).

    What it tells is a predicate for `--help`, whose words nobody need compare. The input is regular
    where it is a file, so that the program can see how large it is.
    """
    if arguments == ("--help",):
        return b"", helps, 0
    if arguments == ("--version",):
        return b"", b"press 1: Ethernity paper format, version 1\n", 0
    try:
        form, number, size = order_of(arguments)
        return ended(sheet(ciphertext, form, number, size)), b"", 0
    except WrongWord as wrong:
        return b"", wrong.line(), 2
    except Refusal as refusal:
        told = reason(refusal.number, size, len(ciphertext) if regular else None)
        return b"", ended([b"refused %d: %s" % (refusal.number, told)]), 1


def helps(told):
    """Whether this names every word of the command, and speaks of the status."""
    return all(word in told for word in (b"typed K", b"--size N", b"--version", b"status"))


def reason(number, size, length):
    """The sentence beside a refusal (R15.5); the length is None where nobody knows it."""
    if number == TOO_LARGE:
        given = b"" if length is None else b"%d bytes were given, and " % length
        return (b"too large: %s96 pages of %d bytes hold %d: split the ciphertext, and print each part "
                b"as a document of its own" % (given, size, size * MOST_PAGES))
    return {OUT_OF_RANGE: b"nothing was read: give the ciphertext on standard input",
            INDEX_TOTAL: b"no such page: the document has fewer pages, and the first is page 0"}[number]


def order_of(arguments):
    """The form, the page and the size that the words ask for; or the first wrong word (R15.5)."""
    plain, size, words = [], None, iter(arguments)
    for word in words:
        if word == "--size":
            size = size_of(size, next(words, None))
        elif word in ("--help", "--version"):
            raise WrongWord(word, "it stands alone")
        elif word.startswith("-") or not plain and word != "typed":
            raise WrongWord(word, "press takes typed, typed K, --size N, --help or --version")
        elif len(plain) == 1 and not DECIMAL.fullmatch(word):
            raise WrongWord(word, "behind typed belongs the number of a page, from 0 on, or nothing")
        elif len(plain) == 2:
            raise WrongWord(word, "behind the page belongs --size N, or nothing")
        else:
            plain.append(word)
    return plain[0] if plain else "scans", int(plain[1]) if plain[1:] else None, size or MOST_DATA


def size_of(before, word):
    """The number behind `--size`, which is said once (R15.4)."""
    if before is not None:
        raise WrongWord("--size", "the size is said once")
    if word is None:
        raise WrongWord("--size", "behind it belongs a number from 1 to 480")
    if not DECIMAL.fullmatch(word) or not 1 <= int(word) <= MOST_DATA:
        raise WrongWord(word, "behind --size belongs a number from 1 to 480")
    return int(word)


def sheet(ciphertext, form, number, size):
    """The printed lines (R15.4), or what R7.4 refuses."""
    pages = pages_of(ciphertext, size)
    if form == "scans":
        return [id_line(ciphertext), *map(base64_write, pages)]
    if number is None:
        lines = chain.from_iterable(typed(pages, k) for k in range(len(pages)))
        return [id_line(ciphertext), *lines]
    refuse_if(number >= len(pages), INDEX_TOTAL)
    return typed(pages, number)


def pages_of(ciphertext, size):
    """The frames of a document in pages of a size (R15.4): 19 for no bytes, 9 for many (R7.4)."""
    page_write(ciphertext, size, 0, FRAME_ROOM)
    places = range(-(-len(ciphertext) // size))
    return [page_write(ciphertext, size, k, FRAME_ROOM) for k in places]


def id_line(ciphertext):
    """The document's id in hex."""
    return doc_id(ciphertext).hex().encode("ascii")


def typed(pages, number):
    """A page's place, counted from 0, and its typed lines (R15.4)."""
    lines = write_typed(pages[number]).split(b"\n")
    return [b"page %d of %d" % (number, len(pages)), *map(grouped, lines)]


def grouped(line):
    """A line in groups with a space between them (R15.4)."""
    return b" ".join(line[at:at + GROUP] for at in range(0, len(line), GROUP))
