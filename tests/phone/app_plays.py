"""What tests/phone/app plays with the app, in a folder; every run is held to what is due."""

import os
import random
import re
import shutil
import signal
import subprocess
import threading
from itertools import chain

from app_due import (FILE, KEPT, NEW, TYPE_AGAIN, TYPED, WORDS, Done, bad_lines, collected,
                     document, due, line_of, typed_of)
from faults_scenes import read
from second.forms import base64_read
from second.frames import KEY
from second.sums import doc_id
from second.typing_lines import check_of, write_typed

LONGEST = 60  # seconds, for what takes a part of one


class Stage:
    """A folder in which an app plays, how often it ran, and what was wrong."""

    def __init__(self, app, folder):
        self.app, self.folder, self.runs, self.wrong = app, folder, 0, []

    def lay(self, **files):
        """The folder then has these files alone."""
        shutil.rmtree(self.folder, ignore_errors=True)
        os.mkdir(self.folder)
        for name, held in files.items():
            with open(os.path.join(self.folder, name), "wb") as file:
                file.write(held)

    def left(self, *within):
        """All files of the folder, or of one within it."""
        folder = os.path.join(self.folder, *within)
        paths = {name: os.path.join(folder, name) for name in os.listdir(folder)}
        return {name: read(path) for name, path in paths.items() if os.path.isfile(path)}

    def started(self, words, **more):
        """The app, with a folder of its own and these words."""
        return subprocess.Popen([*self.app.command, *words], cwd=self.folder, stdin=subprocess.PIPE,
                                stdout=subprocess.PIPE, stderr=subprocess.PIPE, **more)

    def run(self, words, lines, end=b"\n", **more):
        """A run to its end."""
        self.runs += 1
        process = self.started(words, **more)
        watch = threading.Timer(LONGEST, process.kill)  # an app that does not end
        watch.start()
        out, err = process.communicate(b"\n".join(lines) + end * bool(lines))
        ended(watch)
        return Done(process.returncode, out, err, self.left())

    def expect(self, what, done, wanted):
        """Notes in which part a run is not as it must be."""
        for part, is_so, must in zip(Done._fields, done, wanted):
            if is_so != must:
                self.wrong.append(f"{self.app.name}: {what}: {part} is {brief(is_so)}, and must be {brief(must)}")

    def play(self, what, ident, lines, others=(), **more):
        """A run on the files that are there, held to what is due."""
        wanted = due(self.left(), ident, lines, others)
        self.expect(what, self.run([ident.hex(), KEPT, FILE, *others], lines, **more), wanted)
        return wanted


def ended(watch):
    """The timer is no longer needed, and its thread is gone: the next process may be started."""
    watch.cancel()
    watch.join()


def brief(value):
    """A value in few words; of files what they hold."""
    if isinstance(value, dict):
        return {name: f"{len(held)} bytes, {doc_id(held).hex()}" for name, held in sorted(value.items())}
    return repr(value)[-300:]


# Plays.


def whole(stage):
    """Whole documents, each in one run, and one of no bytes."""
    for paper in (document(1), document(1, 480), document(12), document(96, 480)):
        stage.lay(file=b"an older file, which is longer\n" * 3000)
        stage.play("whole", paper.id, random.Random(1).sample(paper.lines, len(paper.lines)), end=b"")
    stage.lay()
    stage.play("no bytes", doc_id(b""), [line_of(doc_id(b""), 0, 1, b"")])


def dropped(stage):
    """The input ends in the middle, at times with nothing new, and goes on in the next run."""
    paper = document(12)
    stage.lay(file=b"older", **{NEW: b"left by a killed run\n" * 5000})
    first, *others = paper.lines  # the first is saved over what was left, and seen before the next
    for lines in ([], [first], others[6:], others[8:], [], others[:5], others[5:6], []):
        stage.play("dropped", paper.id, lines)


def killed(stage):
    """The app is killed while it waits for more lines, and goes on in the next run."""
    paper = document(12)
    stage.lay()
    for lines in (paper.lines[3:7], paper.lines[:2] + paper.lines[8:]):
        wanted = due(stage.left(), paper.id, lines)
        stage.runs += 1
        process = stage.started([paper.id.hex(), KEPT, FILE])
        watch = threading.Timer(LONGEST, process.kill)  # an app that does not answer
        watch.start()
        process.stdin.write(b"".join(line + b"\n" for line in lines))
        process.stdin.flush()
        out = b"".join(process.stdout.readline() for _ in lines)
        process.send_signal(signal.SIGKILL)
        process.communicate()
        ended(watch)
        told = b"".join(wanted.out.splitlines(keepends=True)[:-1])  # the last comes at the end
        done = Done(process.returncode, out, b"", stage.left())
        stage.expect("killed", done, wanted._replace(status=-signal.SIGKILL, out=told))
    stage.play("after it was killed", paper.id, [paper.lines[2], paper.lines[7]])


def bad(stage):
    """Repeats, bad scans and strangers between good pages, and lines at the limit."""
    paper = document(12)
    stage.lay()
    told = stage.play("bad alone", paper.id, list(bad_lines(paper))).out
    numbers = {int(number) for number in re.findall(rb"not read \((\d+)\)", told)}
    assert numbers == set(range(1, 12)), f"the bad scans are told by {sorted(numbers)} alone"
    mixed = [line for pair in zip(bad_lines(paper), paper.lines[:10] * 3) for line in pair]
    stage.play("bad between", paper.id, [*mixed, *mixed])
    for length in (1024, 1025):
        limit = [paper.lines[10].ljust(length), paper.lines[11].rjust(length)]
        stage.lay()
        stage.play("at the limit", paper.id, limit)
        stage.play("at the limit and the end", paper.id, [*limit, paper.lines[0].ljust(length)], end=b"")
    stage.play("cut by hand", paper.id, [b" \t".join((paper.lines[11][:99], paper.lines[11][99:])) + b"\r"])


def typed(stage):
    """Whole pages are typed, in groups too, among scans; and so are pages that cannot be taken."""
    paper, stranger = document(12), document(3)
    stage.lay()
    near = (b"typed ", b" typed", b"typedy", b"type", b"Typed", b"typed\0", b"typed\r")
    stage.play("not the word", paper.id, [*near, paper.lines[0]])
    stage.play("typed alone", paper.id, [*chain(*((*typed_of(page), b"") for page in paper.lines))])
    stage.lay()
    groups = [b" ".join(line[at:at + 6] for at in range(0, 42, 6)) for line in typed_of(paper.lines[2])[1:]]
    among = [*paper.lines[:2], TYPED, *groups, b"", b"", *paper.lines[3:11], *typed_of(paper.lines[2]), b""]
    stage.play("typed among scans", paper.id, among)
    stage.play("typed at the end", paper.id, typed_of(paper.lines[11]), end=b"")
    raw = base64_read(paper.lines[0])
    frames = [raw[:-1] + bytes([raw[-1] ^ 1]), raw[:-25], b"", bytes(500)]
    pages = [stranger.lines[0], line_of(paper.id, 0, 1, b"shard", KEY), line_of(paper.id, 0, 12, b"another")]
    sheets = [*([TYPED, *write_typed(frame).split(b"\n")] for frame in frames), *map(typed_of, pages)]
    stage.play("typed and not held", paper.id, [*chain(*((*sheet, b"") for sheet in sheets))])


def slips(line, number):
    """A line of a sheet as it must not be typed."""
    yield line[:1] + line  # one character twice
    yield line[1:] if len(line) == 42 else line[-2:]
    yield from (line[:7] + other + line[8:] for other in (b"0", b"v", b"Y", b"\r", b"\0", b"\xc3"))
    yield from (line.ljust(1025), line * 200, b" ", b"--", TYPED, b"quit")
    yield line[:-1] + (b"b" if line[-1:] == b"y" else b"y")
    at = next(at for at in range(40) if line[at:at + 1] != line[at + 1:at + 2])
    yield line[:at] + line[at + 1:at + 2] + line[at:at + 1] + line[at + 2:]
    yield line[:-2] + check_of(number + 1, line[:-2])  # the line of another place


def mistyped(stage):
    """Every line of a page is mistyped in every way before it is right; so are some others."""
    paper = document(12)
    word, *sheet = typed_of(paper.lines[4])
    lines = [line for number, right in enumerate(sheet, start=1) for line in (*slips(right, number), right.ljust(1024))]
    stage.lay()
    told = stage.play("mistyped", paper.id, [word, *lines, sheet[0], b"", *paper.lines[:4]]).out.decode()
    numbers = {why: set(re.findall(rf"^line (\d+) {re.escape(why)}$", told, re.M)) for why in TYPE_AGAIN.values()}
    assert all(len(found) >= 20 for found in numbers.values()), f"lines are told as {numbers}"
    assert "page 4 of 12 is held" in told and "line 21 " in told, "the page that is typed again is not held"
    word, *short = typed_of(paper.lines[11])
    stage.play("behind a short line", paper.id, [word, *short, short[0], sheet[1], b"", *paper.lines[5:11]])


def half_typed(stage):
    """The input ends within a page that is typed, at a line's end or not: nothing of it is kept."""
    paper = document(12)
    sheet = typed_of(paper.lines[4])
    stage.lay()
    for length in (1, 2, 20):
        for end in (b"", b"\n"):
            stage.play("half typed", paper.id, sheet[:length], end=end)
    stage.play("cut within a line", paper.id, [*sheet[:7], sheet[7][:11]], end=b"")
    stage.play("scans from then on", paper.id, [*sheet[:5], b"", *paper.lines[:3]])
    stage.play("scans within it", paper.id, [*sheet[:5], *paper.lines[5:7], *sheet[5:], b"", paper.lines[7]])


def versions(stage):
    """A page in two versions, and two totals: both stay."""
    paper = document(12)
    again, more = line_of(paper.id, 4, 12, b"another"), line_of(paper.id, 1, 13, b"one more")
    for first in ([again], [more], [more, again]):
        stage.lay()
        stage.play("two versions", paper.id, [*paper.lines[:6], *first, *paper.lines[3:]])
        stage.play("still", paper.id, [again, *paper.lines])
        stage.play("in the end", paper.id, [])


def other_ciphertext(stage):
    """All pages are there, but they are another document than the id's."""
    paper = document(12)
    stage.lay()
    stage.play("forged", paper.id, [line_of(paper.id, 0, 12, b"forged"), *paper.lines[1:]])
    stage.play("still forged", paper.id, [])


def piers(stage):
    """Others are joined, where they bring no dispute that was not there."""
    paper = document(12)
    again, more = line_of(paper.id, 4, 12, b"another"), line_of(paper.id, 1, 13, b"one more")
    files = {name: collected(paper.id, lines) for name, lines in {
        "none": [], "even": paper.lines[::2], "odd": paper.lines[1::2], "disputed": [*paper.lines[:5], again],
        "differs": [again], "totals": [more], "disagree": [more, paper.lines[0]]}.items()}
    for kept in ("nowhere", "none", "even", "odd", "disputed", "disagree", "differs"):
        for others in (("odd", "even"), ("disputed",), ("differs", "even"), ("even", "totals", "odd"),
                       ("disagree", "none")):
            stage.lay(**files, **({KEPT: files[kept]} if kept in files else {}))
            stage.play(f"piers {others}", paper.id, [], others)
            stage.play("and a scan", paper.id, paper.lines[:1], others[:1])


def refused(stage):
    """KEPT, or an OTHER, is no collection of this document: then no file changes."""
    paper, stranger = document(12), document(3)
    good = collected(paper.id, paper.lines[:7])
    flips = [good[:at] + bytes([good[at] ^ 1]) + good[at + 1:] for at in (0, 4, 12, 511, 600, 20000, len(good) - 1)]
    for held in (*flips, b"", good[:-1], good + b"\0", good[:512], collected(stranger.id, stranger.lines)):
        stage.lay(kept=held, other=good)
        stage.play("no KEPT", paper.id, paper.lines, ("other",))
        stage.lay(kept=good, other=held)
        stage.play("no OTHER", paper.id, paper.lines, ("other",))
    stage.play("OTHER is not there", paper.id, paper.lines, ("nowhere",))
    os.mkdir(os.path.join(stage.folder, "folder"))
    for name in ("folder", "kept/kept", "k" * 5000):  # none can be read, but none is told as absent
        wanted = Done(2, b"", f"{name}: no collection, or damaged\n".encode(), stage.left())
        stage.expect(name[:9], stage.run([paper.id.hex(), name, FILE], paper.lines), wanted)


def words(stage):
    """Wrong words, and names in other folders."""
    paper = document(3)
    stage.lay()
    ident = paper.id.hex()
    ids = (ident[:15], ident + "0", ident + " ", ident[:15] + "g", "A" * 16, "0x" + ident[2:], "")
    wanted = Done(2, b"", f"phone: {WORDS}\n".encode(), {})
    for wrong in ((), (ident,), (ident, KEPT), (ident, KEPT, KEPT), *((one, KEPT, FILE) for one in ids)):
        stage.expect(f"words {wrong}", stage.run(wrong, paper.lines), wanted)
    os.mkdir(os.path.join(stage.folder, "deep"))
    wanted = due({}, paper.id, paper.lines)
    for kept in ("deep/kept", os.path.join(stage.folder, "deep", "kept2"), "./deep//kept3"):
        done = stage.run([ident, kept, "deep/file"], paper.lines)
        deep = stage.left("deep")
        files = {KEPT: deep.get(os.path.basename(kept), b""), FILE: deep.get(FILE, b"")}
        stage.expect(kept, done._replace(files={**done.files, **files}), wanted)


def by_chance(stage):
    """Sessions of scans and others by chance."""
    rng, paper = random.Random(20261117), document(9)
    odd = [*bad_lines(paper), line_of(paper.id, 4, 9, b"another"), *(paper.lines[:1] * 5)]
    words = {line: [*typed_of(line), b""] for line in paper.lines}
    for _ in range(12):
        scans = [rng.sample(paper.lines, 4) + rng.sample(odd, 2) for _ in range(2)]
        names = ["one", "other"]
        stage.lay(**{name: collected(paper.id, lines) for name, lines in zip(names, scans)})
        for _ in range(3):
            lines = rng.sample(paper.lines, rng.randrange(6)) + rng.sample(odd, rng.randrange(4))
            rng.shuffle(lines)
            given = (words[line] if line in words and rng.random() < 0.3 else [line] for line in lines)
            stage.play("by chance", paper.id, [*chain(*given)], rng.sample(names, rng.randrange(3)))


PLAYS = (whole, dropped, killed, bad, typed, mistyped, half_typed, versions, other_ciphertext, piers, refused, words,
         by_chance)
