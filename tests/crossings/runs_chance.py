"""Documents by chance, each with runs that print it and runs that bring it back."""

from second.press import MOST
from runs import FILE, KEPT, Document, Run, due, session


def lengths(rng):
    """Both ends, then in turn one at the edge of a page and one by chance; all edges in a round."""
    yield from (1, MOST, MOST - 1, 2)
    edges = [length for full in range(480, MOST + 1, 480) for length in (full - 1, full, full + 1) if length <= MOST]
    while True:
        rng.shuffle(edges)
        for length in edges:
            yield length
            yield rng.randrange(1, MOST + 1)


def chance(rng):
    """Runs by chance without end: of each document one of `press`, and then some of `pantry`."""
    kinds = (whole, resumed, lacking, sized, put, quarrel, typing, misnamed)
    for number, length in enumerate(lengths(rng)):
        document = Document(rng, length)
        yield [Run(f"document {number}", "press", (), document.ciphertext), *kinds[number % len(kinds)](rng, document)]


def whole(rng, document):
    """All pages: the input must come back (R1.6)."""
    yield Run("whole", "pantry", (), session(document.id, document.desk(document.scans), rng.random() < 0.8))


def sized(rng, document):
    """Pages of any size, the least too small now and then (R7.4); what is printed comes back."""
    least = -(-len(document.ciphertext) // 96)
    size = rng.choice((max(1, least - 1), least, rng.randrange(least, 481), rng.randrange(least, 481)))
    form = rng.choice(((), ("typed",), ("typed", str(rng.randrange(98)))))
    yield Run("sized form", "press", (*form, "--size", str(size)), document.ciphertext, regular=rng.random() < 0.5)
    pressing = Run("sized", "press", ("--size", str(size)), document.ciphertext)
    yield pressing
    first, *scans = due(pressing).printed.split(b"\n")
    if scans:
        rng.shuffle(scans)
        yield Run("whole", "pantry", (), b"\n".join([first, *scans]))


def lacking(rng, document):
    """Some pages left out (R9.10)."""
    out = set(rng.sample(range(document.total), min(document.total, rng.randrange(1, 4))))
    pages = [scan for k, scan in enumerate(document.scans) if k not in out]
    yield Run("lacking", "pantry", (), document.given(document.desk(pages)))


def resumed(rng, document):
    """A session in several runs over a kept file (R1.5, R15.7)."""
    files = ()
    for number, heap in enumerate(document.parted(rng.randrange(2, 4))):
        run = Run(f"part {number}", "pantry", (KEPT,), document.given(document.desk(heap)), files)
        yield run
        files = tuple(due(run).files.items())


def put(rng, document):
    """The same, and at the end the ciphertext is in a FILE (R15.6)."""
    words = rng.choice((("--to", FILE, KEPT), (KEPT, "--to", FILE)))
    files = ((FILE, rng.randbytes(rng.randrange(1000))),) if rng.random() < 0.5 else ()
    for number, heap in enumerate(document.parted(2)):
        run = Run(f"put {number}", "pantry", words, document.given(document.desk(heap)), files)
        yield run
        files = tuple(due(run).files.items())


def quarrel(rng, document):
    """Two versions of a page, another total, or both (R9.4), which a kept file does not forget."""
    index = rng.randrange(document.total)
    wrong = [document.scan(index, document.total, rng.randbytes(rng.randrange(481)))]
    if rng.random() < 0.4:
        wrong.append(document.scan(0, rng.randrange(1, 97), b"other"))
    pages = rng.sample(document.scans, rng.randrange(document.total + 1))
    one = Run("quarrel", "pantry", (KEPT,), document.given(document.desk(pages + wrong)))
    yield one
    yield Run("after it", "pantry", (KEPT,), document.given(document.desk(document.scans)), tuple(due(one).files.items()))


def typing(rng, document):
    """The typed forms, and a kept file that is damaged or not this document's."""
    yield Run("typed", "press", ("typed",), document.ciphertext)
    yield Run("typed page", "press", ("typed", str(rng.randrange(document.total + 2))), document.ciphertext)
    kept = bytearray(document.saved())
    kept[rng.randrange(len(kept))] ^= 1 << rng.randrange(8)
    yield Run("damaged", "pantry", (KEPT,), document.given(), ((KEPT, bytes(kept)),))


def misnamed(rng, document):
    """A first line with a byte too many, one too few or another in its place (R15.10)."""
    given, at = document.given(document.desk(document.scans)), rng.randrange(16)
    byte = bytes([rng.choice((*range(10), *range(11, 256)))])
    for name, first in (("longer", given[:at] + byte), ("shorter", given[:at]), ("other", given[:at] + byte)):
        yield Run(f"first line {name}", "pantry", (KEPT,), first + given[at + (name != "longer"):])
