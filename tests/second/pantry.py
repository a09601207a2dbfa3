"""`pantry`, which gives a document back on the island: R15.6 to R15.13 of docs/RULES.md."""

import os
from collections import Counter, namedtuple

from . import collection
from .answers import (MISSING, NO_ROOM, NOT_WELL_FORMED, OTHER_DOCUMENT, OUT_OF_RANGE,
                      PAGE_DISPUTED, TOTALS_DISAGREE, WRONG_ID, Refusal)
from .collection import ABSENT, DISPUTED, Collection
from .forms import base64_read
from .frames import MAIN, frame_read
from .pier import LONGEST, lines_of
from .press import MOST, WrongWord, ended, shown

NEW = ".pantry-new"  # R15.7
LONGEST_WORD = 4095  # R15.11

# What a run prints, what it tells a person (for `--help` a predicate), its status, and what each
# file then holds, by its name.
Done = namedtuple("Done", "printed told status files")

# What a line behind the first can come to (R15.9).
TAKEN, SEEN, OTHER, UNREADABLE, TOO_LONG = KINDS = (
    b"taken", b"seen before", b"of another document", b"unreadable", b"too long")

# What each refusal is told with (R15.9), but for 12 and 19.
REASONS = {
    NO_ROOM: b"the file named above cannot be read or written: mend that, and run pantry again on "
             b"the same scans",
    NOT_WELL_FORMED: b"the kept file is damaged, or no collection, and stays as it is: move it "
                     b"away, and scan every page again",
    TOTALS_DISAGREE: b"the pages name different totals, so some are of another print: scan into a "
                     b"new collection without those",
    PAGE_DISPUTED: b"a disputed page was read in two versions: scan every page into a new "
                   b"collection, and these with care",
    MISSING: b"not complete: scan the pages that are missing",
    WRONG_ID: b"every page is here, but they are not the document of this id: compare the id, and "
              b"scan into a new collection",
}

COMPLETE = b"complete: every page is here, and together they are the document"
NO_FILE = b"the name is too long, ends with .pantry-new, or is a link that leads in a circle"
NEW_NAME = "so ends the name of a file that is not finished"
SAME_FILE = "the ciphertext cannot go where the pages are kept"


class Told(Refusal):
    """A refusal with words of its own, and perhaps a line before it."""

    def __init__(self, number, words, *before):
        super().__init__(number)
        self.lines = [*before, refused(number, words)]


def refused(number, words):
    """The line of a refusal (R15.9)."""
    return b"refused %d: %s" % (number, words)


def pantry(given, words=(), files=None, faults=None, launched=True):
    """What `pantry` does with an input and with files, which are given by their names.

    In `faults` are the names that cannot be used as a file, each with what is told of it. Without
    its launcher `pantry` does the same (R15.13), but for the new file of another run, and for what
    the launcher knows of a FILE.
    """
    there, faults = dict(files or {}), faults or {}
    if words == ("--help",):
        return Done(b"", helps, 0, there)
    if words == ("--version",):
        return Done(b"", b"pantry 1: Ethernity paper format, version 1\n", 0, there)
    try:
        kept, to = order_of(words)
        if launched:
            judge_file(kept, to, faults)
    except WrongWord as wrong:
        return Done(b"", wrong.line(), 2, there)
    return run(given, kept, to, Files(there, faults, launched))


def helps(told):
    """Whether this names every word of the command, and speaks of the status."""
    return all(word in told for word in (b"KEPT", b"--to FILE", b"--version", b"status"))


# The words.


def order_of(words):
    """The names KEPT and FILE, None for one that is not said; or the first wrong word (R15.11)."""
    kept, to, rest = None, None, iter(words)
    for word in rest:
        if word == "--to":
            if to is not None:
                raise WrongWord(word, "the ciphertext goes to one file")
            to = name_behind(next(rest, None))
        elif kept is not None and judged(word):
            raise WrongWord(word, "there is one kept file, and it was named before")
        else:
            kept = judged(word)
        if to is not None and to == kept:
            raise WrongWord(to, SAME_FILE)
    return kept, to


def name_behind(word):
    """The word behind `--to`, as the name of a file."""
    if word is None:
        raise WrongWord("--to", "behind it belongs the name of a file")
    if word == "--to":
        raise WrongWord(word, "the ciphertext goes to one file")
    return judged(word)


def judged(word):
    """A word that can be the name of a file."""
    if not 1 <= len(os.fsencode(word)) <= LONGEST_WORD:
        raise WrongWord(word, "a file's name has 1 to 4,095 bytes")
    if word in ("--help", "--version"):
        raise WrongWord(word, "it stands alone")
    if word.startswith("-"):
        raise WrongWord(word, "pantry takes KEPT, --to FILE, --help or --version; a file of such a "
                              "name is ./ and the name")
    if word.endswith(NEW):
        raise WrongWord(word, NEW_NAME)
    return word


def judge_file(kept, to, faults):
    """What the launcher finds wrong with a FILE: it is KEPT, or there and no file (R15.13)."""
    if to and kept and os.path.normpath(to) == os.path.normpath(kept):
        raise WrongWord(to, SAME_FILE)
    if to in faults and faults[to].endswith(b": Is a directory"):
        raise WrongWord(to, "the ciphertext goes into a regular file")


# The files.


class Files:
    """The files of a run (R15.7): what is put in a place is there whole, or 11 is told."""

    def __init__(self, there, faults, launched):
        self.there, self.faults, self.launched = there, faults, launched

    def claim(self, name):
        """The new file beside this one: a launcher takes over what was left there (R15.13)."""
        fault = no_text(name) or self.faults.get(name)
        if fault:
            raise Told(NO_ROOM, REASONS[NO_ROOM], fault)
        new = name + NEW
        if new in self.there and not self.launched:
            raise Told(NO_ROOM, REASONS[NO_ROOM], shown(os.fsencode(new)) + b" is there: another pantry "
                       b"is at work, or one was killed; where none is, remove it")

    def put(self, name, contents):
        """The file then holds this."""
        self.claim(name)
        self.there[name] = contents

    def left(self, *names):
        """All files at the end of a run: under a launcher nothing new is left."""
        gone = [str(name) + NEW for name in names] if self.launched else []
        return {name: held for name, held in self.there.items() if name not in gone}


def no_text(name):
    """What is told of a name that is not UTF-8 (decision 104), and nothing of any other."""
    told = os.fsencode(name)
    try:
        told.decode("utf-8")
    except UnicodeDecodeError:
        return shown(told) + b": invalid filename"
    return b""


# The run.


def run(given, kept, to, files):
    """What comes of an input with these files (R15.6, R15.9, R15.12)."""
    told, printed, status = [], b"", 1
    try:
        printed = given_out(given, kept, to, files, told)
        told.append(COMPLETE)
        status = 0
    except Told as refusal:
        told += refusal.lines
    except Refusal as refusal:
        told.append(refused(refusal.number, REASONS[refusal.number]))
    return Done(printed, ended(told), status, files.left(kept, to))


def given_out(given, kept, to, files, told):
    """What is printed: the ciphertext, or nothing where it went to a FILE (R15.6)."""
    ident, scans = opened(lines_of(given))
    saved = collection.save(set_of_pages(ident, scans))
    if kept is not None:
        saved = keep(saved, kept, files, told)
    told += standing(saved, counted(ident, scans))
    ciphertext = collection.finish(saved, MOST)
    if to is None:
        return ciphertext
    files.put(to, ciphertext)
    return b""


def keep(saved, name, files, told):
    """This collection joined with that of the kept file, which then holds it (R15.7)."""
    files.claim(name)
    before = files.there.get(name)
    joined = saved if before is None else joined_with(saved, before)
    if joined == before:
        told.append(b"nothing new: the kept file had every page that was scanned")
    else:
        files.put(name, joined)
    return joined


def joined_with(saved, before):
    """The join, 13 before 12 (R9.6); 12 is told with both ids (R15.9)."""
    try:
        return collection.join(saved, before)
    except Refusal as refusal:
        if refusal.number != OTHER_DOCUMENT:
            raise
        ids = [collection.read(one).id.hex().encode("ascii") for one in (before, saved)]
        raise Told(OTHER_DOCUMENT, b"the kept file is of document %s, and this input of %s: name "
                                   b"another file" % tuple(ids)) from refusal


# The lines of the input.


def opened(lines):
    """The document id of the first line, and the other lines; or what is wrong with it (R15.10)."""
    if not lines:
        raise Told(OUT_OF_RANGE, b"the input is empty: the first line is the document's id, and "
                                 b"each further one a scan")
    first, *scans = lines
    wrong = fault_of(first)
    if wrong:
        raise Told(OUT_OF_RANGE, b"the first line " + wrong)
    return bytes.fromhex(first.decode("ascii")), scans


def fault_of(first):
    """What is wrong with a first line, by its first byte that is no digit; or nothing (R15.10)."""
    strange = first[:LONGEST + 1].translate(None, delete=b"0123456789abcdef")[:1]
    if not strange:
        return b"is not 16 digits long: it must be the document's id" if len(first) != 16 else None
    if strange == b"\r":
        return b"has a carriage return: the document's id ends with a line feed alone"
    if b"\x09" <= strange <= b"\x20":
        return b"has a blank: the document's id is 16 digits and nothing else"
    if strange in b"ABCDEF":
        return b"has a capital letter: the document's id is in small letters"
    if strange > b"\x7f":
        return (b"has a sign beyond ASCII, perhaps a byte order mark in front: it must be the "
                b"document's id alone")
    return b"is not the document's id, which is 16 digits of 0 to 9 and a to f"


def set_of_pages(ident, scans):
    """The collection of a SET of good pages (R9.2): no look at order or repeats (R1.4)."""
    book = Collection(ident, frozenset(), frozenset())
    frames = filter(None, map(scanned, scans))
    return with_pages(book, [frame for frame in frames if is_page_of(book, frame)])


def with_pages(book, pages):
    """A collection to which pages were added (R9.4)."""
    return Collection(book.id, book.totals.union(page.total for page in pages),
                      book.pages.union((page.index, page.data) for page in pages))


def is_page_of(book, frame):
    """Whether a frame is a page of this document; an offer answers another with 12 (R9.3)."""
    return frame.type == MAIN and frame.id == book.id


def scanned(line):
    """The frame of a scan; None for a bad scan or too long a line (R15.2)."""
    if len(line) > LONGEST:
        return None
    try:
        return frame_read(base64_read(line))
    except Refusal:
        return None


def counted(ident, scans):
    """How many lines came to what, to the collection of the lines before each (R15.9)."""
    book, counts = Collection(ident, frozenset(), frozenset()), Counter()
    for line in scans:
        frame = scanned(line)
        if frame is None:
            counts[TOO_LONG if len(line) > LONGEST else UNREADABLE] += 1
        elif not is_page_of(book, frame):
            counts[OTHER] += 1
        else:
            before, book = book, with_pages(book, [frame])
            counts[TAKEN if changed(before, book, frame.index) else SEEN] += 1
    return counts


def changed(before, after, index):
    """Whether a page of this index made another file: only the head or its block can differ."""
    return any(one(before) != one(after) for one in
               (collection.head_of, lambda book: collection.page_of(book, index)))


def standing(saved, counts):
    """Where a collection stands, and what the lines came to (R15.9)."""
    book = collection.read(saved)
    yield collection.status(saved).encode("ascii")
    for name, state in ((b"missing:", ABSENT), (b"disputed:", DISPUTED)):
        pages = collection.indices_in(book, state)
        if pages:
            yield b" ".join([name, *(b"%d" % page for page in pages)])
    yield b"lines: " + b", ".join(b"%s %d" % (kind, counts[kind]) for kind in KINDS)
