"""The scenes of tests/faults: what `pantry` finds, what it leaves, and what is wrong with a run."""

import os
from collections import namedtuple
from typing import NamedTuple, Tuple

from second.collection import finish
from second.frames import MOST_DATA, MOST_PAGES
from second.pier import collected

KEPT, FILE, THERE = "kept", "file", "there"
NEW = ".pantry-new"  # R15.7
LETTER = b"what stood in the file before\n" * 1000
MODE = 0o640  # of every file that is there before

# A document: its scans as an input, the first half of them, the others, and what is kept of them.
Document = namedtuple("Document", "ciphertext every first second whole half")

Outcome = namedtuple("Outcome", "status out err")


class Scene(NamedTuple):
    """A run. What a folder holds before it, after it when nothing fails, and after one more run, on
    every scan: by name bytes, or as a string where a link leads. So too what it prints, whether all
    pages are there then, and whether a killed run has left its new files before."""

    name: str
    document: Document
    words: Tuple[str, ...]
    scans: bytes
    old: dict
    new: dict
    last: dict
    out: bytes
    complete: bool
    strays: bool

    def real(self, name):
        """The file that a name means (R15.7)."""
        return self.old[name] if isinstance(self.old.get(name), str) else name

    def lay(self, folder):
        """Makes the folder as it is before."""
        os.makedirs(os.path.join(folder, THERE))
        strays = {self.real(name) + NEW: LETTER * 2 for name in (KEPT, FILE)} if self.strays else {}
        for name, held in {**self.old, **strays}.items():
            path = os.path.join(folder, name)
            if isinstance(held, str):
                os.symlink(held, path)
                continue
            with open(path, "wb") as file:
                file.write(held)
            os.chmod(path, MODE)


def document_of(ciphertext, lines):
    """A document, of which `press` has printed these lines; the second program says what is kept of
    it."""
    ident, *pages = lines
    half = len(pages) // 2
    every, first, second = (b"\n".join((ident, *part, b"")) for part in (pages, pages[:half], pages[half:]))
    assert finish(collected(every), MOST_PAGES * MOST_DATA) == ciphertext, "the second program has another ciphertext"
    return Document(ciphertext, every, first, second, collected(every), collected(first))


def scene(name, document, scans, kept, new, file=None, to=True, linked=False, strays=False):
    """The scene in which KEPT becomes `new`, and FILE holds this before; None is no file. The
    ciphertext goes to FILE or else to standard output."""
    at_kept, at_file = (os.path.join(THERE, at) if linked else at for at in (KEPT, FILE))
    links = {KEPT: at_kept, FILE: at_file} if linked else {}
    old = {**links, **{at: held for at, held in ((at_kept, kept), (at_file, file)) if held is not None}}
    last = {**links, at_kept: document.whole, **({at_file: document.ciphertext} if to else {})}
    complete = new == document.whole
    words, out = ((KEPT, "--to", FILE), b"") if to else ((KEPT,), document.ciphertext)
    return Scene(name, document, words, scans, old, last if complete else {**old, at_kept: new}, last, out, complete, strays)


def scenes(document):
    """Every scene of a document."""
    _, every, first, second, whole, half = document
    yield scene("made in part", document, first, None, half)
    yield scene("made whole, over strays", document, every, None, whole, strays=True)
    yield scene("resumed", document, second, half, whole, LETTER)
    yield scene("resumed, to standard output", document, second, half, whole, to=False)
    yield scene("resumed, by links", document, second, half, whole, LETTER, linked=True)
    yield scene("nothing new", document, second, whole, whole, LETTER)
    yield scene("nothing new, to standard output", document, second, whole, whole, to=False)


def left_in(folder):
    """What a folder holds, as a scene says it."""
    paths = [os.path.join(at, name) for at, _, names in os.walk(folder) for name in names]
    return {os.path.relpath(path, folder): os.readlink(path) if os.path.islink(path) else read(path) for path in paths}


def read(path):
    """A file's whole contents."""
    with open(path, "rb") as file:
        return file.read()


# What must hold after a fault.


def wrong_files(due, left):
    """What is left that is neither the old nor the new (R15.7). The two new files may be there: the
    next run takes them over (R15.13)."""
    known = {**due.old, **due.new}
    for name in known:
        if left.get(name) not in (due.old.get(name), due.new.get(name)):
            yield f"{name} is neither the old nor the new, but {shown(left.get(name))}"
    stray = set(left) - set(known) - {due.real(name) + NEW for name in (KEPT, FILE)}
    if stray:
        yield f"{sorted(stray)} is left"


def shown(held):
    """A file in few words."""
    if isinstance(held, bytes):
        return f"{len(held)} bytes, {held[:20]!r} .."
    return "gone" if held is None else f"a link to {held}"


def wrong_modes(due, folder):
    """Files that were there and have another mode now (R15.13)."""
    for name in (KEPT, FILE):
        path = os.path.join(folder, due.real(name))
        if due.real(name) in due.old and os.path.exists(path) and os.stat(path).st_mode & 0o777 != MODE:
            yield f"the mode of {name} is {os.stat(path).st_mode & 0o777:o}"


def is_whole(due, done, left):
    """Whether all that is due is there: KEPT, and the ciphertext where it belongs."""
    return due.complete and done.out == due.out and all(left.get(name) == held for name, held in due.new.items())


def wrong_words(due, done, left):
    """What a run says, by status and words, that is not so (R15.6, R15.7, R15.9, R15.12)."""
    if done.status == 0 and not is_whole(due, done, left):
        yield "the status is 0, and not all is whole"
    if done.status > 1:
        yield f"the status is {done.status}"
    if says_complete(done) and not is_whole(due, done, left):
        yield "it says complete, and not all is whole"
    if not due.out.startswith(done.out):
        yield f"it prints something else than the ciphertext: {done.out[:20]!r} .."
    kept, file = due.real(KEPT), due.real(FILE)
    given = done.out or left.get(file) != due.old.get(file)
    if given and left.get(kept) != due.new[kept]:
        yield "something is given out that is not kept"


def wrong_unread(due, done, left):
    """What is wrong where the input could not be read to its end (R15.8)."""
    if done.status == 0 or done.out or any(left.get(name) != due.old.get(name) for name in {**due.old, **due.new}):
        yield "its input was not read to the end, and it has kept or given out something"


def wrong_unprinted(due, _, left):
    """What is wrong where standard output could not be written (R15.12)."""
    kept = due.real(KEPT)
    if left.get(kept) != due.new[kept]:
        yield "what was scanned is not kept"


def says_complete(done):
    """Whether a run says that the ciphertext is where it belongs (R15.9)."""
    return any(line.startswith(b"complete: ") for line in done.err.split(b"\n"))


def is_silent(due, done, plain):
    """Whether a run failed and says no more than one without a fault, or nothing at all where that
    one refuses too."""
    said = set(done.err.split(b"\n")) - (set(plain.err.split(b"\n")) if due.complete else {b""})
    return done.status != 0 and not said


def wrong_last(due, done, left):
    """What is wrong with the run that comes after the fault."""
    if done.status != 0 or done.out != due.out:
        yield f"the next run ends with {done.status}, prints {len(done.out)} bytes and says {done.err!r}"
    for name in sorted({*left, *due.last}):
        if left.get(name) != due.last.get(name):
            yield f"after the next run {name} is {shown(left.get(name))}"
