"""A run of one of the programs, what the second program says of it, and documents."""

import functools
import os
from collections import namedtuple

from second.forms import base64_read, base64_write
from second.frames import KEY, MAIN, Frame, frame_write, page_write
from second.pantry import NO_FILE, Done, pantry
from second.pier import printed
from second.press import WrongWord, press, shown
from second.sums import doc_id
from second.typist import typist

KEPT, FILE = "kept", "file"

# A program with its words and its input, and the files that are there before it, as pairs of a name
# and what it holds. The input is a regular file, or else a pipe. Without its launcher a program has
# no status (R15.13), and ends with 0.
Run = namedtuple("Run", "name program words given files regular launched", defaults=((), False, True))

# Names that no file can have, and what is told of each (R15.7): in a folder that is not there, a
# folder, and too long with what the new file has behind it, as a name and as a path.
NOWHERE = (*(os.path.join("no-such-folder", name) for name in (KEPT, FILE)), "\x1b[2Jno\udce9/kept")
LONG, LONGER = "w" * 245, "./" * 2046 + "www"
FAULTS = {name: shown(os.fsencode(name)) + b": " + words for name, words in (
    *((name, b"its folder is not there: make it, or name another file") for name in NOWHERE),
    (".", b"Is a directory"),
    (LONG, b"File name too long"),
    (LONGER, NO_FILE))}


@functools.lru_cache(maxsize=64)
def due(run):
    """What the second program says of a run."""
    if run.program == "pantry":
        done = pantry(run.given, run.words, dict(run.files), FAULTS, run.launched)
    elif run.program == "press":
        done = Done(*press(run.given, run.words, run.regular), dict(run.files))
    elif run.program == "typist":
        done = Done(*typist(run.given, run.words), dict(run.files))
    else:
        done = Done(*pier(run.given, run.words), dict(run.files))
    return done if run.launched else done._replace(status=0)


def pier(given, words):
    """What `bin/pier` prints, what it tells a person, and its status (R15.13)."""
    if words == ("--help",):
        return b"", helps, 0
    if words == ("--version",):
        return b"", b"pier 1: Ethernity paper format, version 1\n", 0
    if words:
        right = "pier takes one word at most: --help or --version" if words[1:] else "pier takes --help or --version, and scans on standard input"
        return b"", WrongWord(words[0], right).line(), 2
    line = printed(given)
    return line, b"", 0 if b" missing 0 disputed 0 " in line else 1


def helps(told):
    """Whether this says what `pier` reads, and speaks of its other word and of the status."""
    return all(word in told for word in (b"pier < SCANS", b"--version", b"status"))


# Documents, and what comes among their scans.


def session(ident, scans, last_feed=True):
    """The input of `pier` and `pantry` (R15.1)."""
    return b"\n".join([ident.hex().encode("ascii"), *scans]) + b"\n" * last_feed


class Document:
    """A document with its scans."""

    def __init__(self, rng, length, size=480, ident=None):
        self.rng, self.ciphertext = rng, rng.randbytes(length)
        self.id = ident or doc_id(self.ciphertext)
        self.total = -(-length // size)
        if ident or size != 480:
            parts = [self.ciphertext[at:at + size] for at in range(0, length, size)]
            self.scans = [self.scan(k, self.total, part) for k, part in enumerate(parts)]
        else:
            self.scans = [base64_write(page_write(self.ciphertext, size, k, 512)) for k in range(self.total)]

    def scan(self, index, total, data, kind=MAIN, ident=None):
        """Any frame of this document as a scan."""
        return base64_write(frame_write(Frame(kind, ident or self.id, index, total, data)))

    def given(self, scans=None):
        """An input with these scans, or with all."""
        return session(self.id, self.scans if scans is None else scans)

    def saved(self, scans=None):
        """The kept file after these scans, or after all."""
        return pantry(self.given(scans), (KEPT,)).files[KEPT]

    def damaged(self):
        """A scan that no reader accepts."""
        scan = bytearray(self.rng.choice(self.scans))
        scan[self.rng.randrange(len(scan))] = self.rng.choice(b"=.-\x00\xff\r")
        return bytes(scan).replace(b"\r", b"=")

    def blurred(self):
        """A scan with one bit of its frame turned: the checksum finds it (R6.5)."""
        frame = bytearray(base64_read(self.rng.choice(self.scans)))
        frame[self.rng.randrange(len(frame))] ^= 1 << self.rng.randrange(8)
        return base64_write(bytes(frame))

    def noise(self):
        """A line that is passed over (R15.2): a bad scan, no good page, too long a line."""
        kinds = (self.damaged, self.blurred, lambda: b"", lambda: b"QVA", lambda: self.rng.choice(self.scans)[:-1],
                 lambda: self.rng.choice(self.scans) + b" " * 1024,
                 lambda: self.scan(0, self.total, b"stranger", ident=self.rng.randbytes(8)),
                 lambda: Document(self.rng, self.rng.randrange(1, 2000)).scans[0],
                 lambda: self.scan(0, 1, b"no main frame", kind=KEY))
        return self.rng.choice(kinds)()

    def desk(self, pages):
        """These pages as a clerk scans them: in any order, some twice, with noise among them."""
        repeats = self.rng.choices(pages, k=self.rng.randrange(1 + len(pages) // 3)) if pages else []
        scans = [self.spaced(scan) for scan in (*pages, *repeats)]
        scans += [self.noise() for _ in range(self.rng.randrange(6))]
        self.rng.shuffle(scans)
        return scans

    def spaced(self, scan):
        """A scan, here and there with a space that the reader skips."""
        if self.rng.random() < 0.9:
            return scan
        at = self.rng.randrange(len(scan) + 1)
        return scan[:at] + self.rng.choice((b" ", b"\t", b"\r", b"\r\x0b\x0c ")) + scan[at:]

    def parted(self, parts):
        """All scans, in so many heaps; a heap may be empty."""
        heaps = [[] for _ in range(parts)]
        for scan in self.scans:
            self.rng.choice(heaps).append(scan)
        return heaps
