"""Files that are links, that have a mode, or that several runs want at once (R15.7, R15.13).

Each run comes as the row of the table that it counts in, and what is wrong with it.
"""

import os
import random
import select
import shutil
import subprocess
import tempfile
import time

from second.pantry import NEW, NEW_NAME, NO_FILE, SAME_FILE, Done, pantry
from second.press import WrongWord
from programs import PATIENCE, Programs, differences, finished, held, place, write
from runs import FILE, KEPT, Document, Run, due

# How a word leads to a file: links by their names, the word, and the file's name. WHOLE stands for
# the folder of the run.
WAYS = (("a link", {"link": "it"}, "link", "it"), ("a link to a link", {"link": "second", "second": "it"}, "link", "it"),
        ("a link into a folder", {"link": "deep/it"}, "link", "deep/it"), ("a link from a folder", {"deep/link": "../it"}, "deep/link", "it"),
        ("links through a folder", {"link": "deep/second", "deep/second": "third", "deep/third": "../it"}, "link", "it"),
        ("a link with a whole path", {"link": "WHOLE/it"}, "link", "it"), ("the longest path", {}, "./" * 2041 + "it", "it"))


def beside(programs):
    """All of them."""
    note = Document(random.Random(20261119), 1200)
    yield from links(programs, note)
    yield from links_astray(programs, note)
    yield planted(programs, note)
    yield from wrong_links(programs, note)
    yield from modes(programs, note)
    yield from at_once(programs, note)
    yield from killed(programs, note)


def row(answer, how, faults):
    """A row of the table, and what is wrong."""
    return ("pantry", answer), [f"pantry, {how}: {fault}" for fault in faults]


# Links.


def linked(programs, run, names):
    """What a run does where there are also links.

    All that they lead to is in the folder of the run: a fault must not cost a file of the system.
    """
    with place((*run.files, ("deep/other", b""))) as folder, tempfile.TemporaryFile() as file:
        os.mkfifo(os.path.join(folder, "deep", "pipe"))
        for link, to in names.items():
            os.symlink(to.replace("WHOLE", folder), os.path.join(folder, link))
        got = programs.done(run, folder, file)
        if isinstance(got, str):
            return got
        left = {name: what.replace(folder, "WHOLE") if isinstance(what, str) else what for name, what in got.files.items() if name != "deep/other"}
        return got._replace(files=left)


def links(programs, note):
    """A link stays, and the file that it leads to is made or replaced (R15.7)."""
    half, rest = note.saved(note.scans[:2]), note.given(note.scans[2:])
    uses = (("KEPT", ("{}",), rest, half), ("KEPT that is not there", ("{}",), rest, None), ("KEPT with nothing new", ("{}",), note.given([]), half),
            ("FILE", ("--to", "{}"), note.given(), b"old"), ("FILE that is not there", ("--to", "{}"), note.given(), None))
    for way, names, word, target in WAYS:
        for how, words, given, before in uses:
            files = ((target, before),) if before is not None else ()
            plain = due(Run("plain", "pantry", tuple(w.format(target) for w in words), given, files))
            run = Run("linked", "pantry", tuple(w.format(word) for w in words), given, files)
            wanted = plain._replace(files={**plain.files, **names})
            yield row("over links", f"{way} as {how}", differences(wanted, linked(programs, run, names)))


def links_astray(programs, note):
    """Links that lead nowhere are 11, and what is wrong is told (R15.7)."""
    circle = b"link: " + NO_FILE
    for names, fault in (({"link": "second", "second": "link"}, circle), ({"link": "link"}, circle),
                         ({"link": "nowhere/it"}, b"nowhere/it: its folder is not there: make it, or name another file")):
        for words in (("link",), ("--to", "link")):
            run = Run("astray", "pantry", words, note.given())
            wanted = pantry(run.given, words, {}, {"link": fault})._replace(files=names)
            yield row("links that lead nowhere", f"{names} as {words}", differences(wanted, linked(programs, run, names)))


def planted(programs, note):
    """A link in the place of the new file goes, and what it led to stays as it was (R15.13)."""
    run = Run("planted", "pantry", (KEPT,), note.given(), (("other", b"as it was"),))
    return row("over links", "a link as the new file", differences(due(run), linked(programs, run, {KEPT + NEW: "other"})))


def wrong_links(programs, note):
    """A FILE that is KEPT, or no regular file, behind its link: a wrong word (R15.13)."""
    half, irregular = note.saved(note.scans[:2]), "the ciphertext goes into a regular file"
    for words, names, right in (((KEPT, "--to", "link"), {"link": KEPT}, SAME_FILE), (("link", "--to", KEPT), {"link": KEPT}, SAME_FILE),
                                (("link", "--to", "second"), {"link": KEPT, "second": "deep/../link"}, SAME_FILE),
                                (("link",), {"link": "deep/it" + NEW}, NEW_NAME), (("--to", "link"), {"link": "it" + NEW}, NEW_NAME),
                                (("--to", "link"), {"link": "deep"}, irregular), (("--to", "link"), {"link": "deep/pipe"}, irregular)):
        run = Run("wrong", "pantry", words, note.given(), ((KEPT, half),))
        wanted = Done(b"", WrongWord(words[-1], right).line(), 2, {KEPT: half, **names})
        yield row("a wrong word behind a link", f"{names} as {words}", differences(wanted, linked(programs, run, names)))


# Modes.


def modes(programs, note):
    """A file that is replaced keeps its mode and, where we may give it another, its owner."""
    half = note.saved(note.scans[:2])
    for mode in (0o600, 0o640, 0o664, 0o604):
        for name in (KEPT, "a b\n"):
            yield kept_mode(programs, mode, Run("KEPT", "pantry", (name,), note.given(note.scans[2:]), ((name, half),)))
        yield kept_mode(programs, mode, Run("FILE", "pantry", ("--to", FILE), note.given(), ((FILE, b"old"),)))


def kept_mode(programs, mode, run):
    """One run over a file of this mode."""
    owner = 65534 if os.geteuid() == 0 else os.geteuid()
    with place(run.files) as folder, tempfile.TemporaryFile() as file:
        path = os.path.join(folder, run.files[0][0])
        os.chown(path, owner, -1)
        os.chmod(path, mode)
        inode = os.stat(path).st_ino
        faults = list(differences(due(run), programs.done(run, folder, file)))
        now = os.stat(path)
    if (now.st_mode & 0o7777, now.st_uid) != (mode, owner):
        faults.append(f"it was of mode {mode:o} and owner {owner}, and is of {now.st_mode & 0o7777:o} and {now.st_uid}")
    if now.st_ino == inode:
        faults.append("it was written over, and not replaced")
    return row("a file with its mode", f"{run.name} of mode {mode:o}", faults)


# Runs at once.


def at_once(programs, note):
    """Three runs, of which each waits for the one before it, and says so (R15.13)."""
    one, two, three = note.scans
    for words, parts in (((KEPT,), ([one], [two], [three])), (("--to", FILE), (note.scans, [one], note.scans[::-1])),
                         ((KEPT, "--to", FILE), ([one, two], [three], [])), ((KEPT,), ([], [], note.scans))):
        runs, files = [], ()
        for number, scans in enumerate(parts):
            runs.append(Run(f"run {number}", "pantry", words, note.given(scans), files))
            files = tuple(due(runs[-1]).files.items())
        with place(()) as folder:
            yield row("three at once", f"three with the words {words}", waited(programs, folder, words[-1] if words[0] != KEPT else KEPT, runs))


def waited(programs, folder, name, runs):
    """What is wrong with runs of which each has to wait for the one before it."""
    before, new = None, os.path.join(folder, name + NEW)
    for run in runs:
        process = programs.start(run, folder, stdin=subprocess.PIPE)
        process.stdin.write(run.given)
        process.stdin.flush()
        if before:
            yield from waits_for(process, name)
            yield from ended_as_due(folder, *before)
        if not comes(lambda: os.path.exists(new)):
            yield f"{run.name}: {name + NEW} is not there while it is at work"
        before = run, process
    yield from ended_as_due(folder, *before)
    if held(folder) != due(runs[-1]).files:
        yield f"afterwards there is {sorted(held(folder))}, and not all that is due"


def waits_for(process, name):
    """What is wrong with a run that has to wait: the line that says so is read off."""
    told = b""
    while not told.endswith(b"\n") and select.select([process.stderr], [], [], PATIENCE)[0]:
        told += os.read(process.stderr.fileno(), 1000) or b" and ends\n"
    if told != b"another pantry is at work on %s: this one goes on when that has ended\n" % os.fsencode(name):
        yield f"it tells {told!r}, and not that it waits"


def ended_as_due(folder, run, process):
    """What is wrong with a run that is at work, before its input ends and once it has ended."""
    before = {name: what for name, what in held(folder).items() if not name.endswith(NEW)}
    if process.poll() is not None or before != dict(run.files):
        yield f"{run.name}: it did not wait for the end of its input, or for another run: {sorted(before)}"
    ended = finished(process)
    got = ended if isinstance(ended, str) else due(run)._replace(printed=ended[0], told=ended[1], status=process.returncode)
    yield from (f"{run.name}: {fault}" for fault in differences(due(run), got))


def comes(true):
    """Whether something comes true in time."""
    end = time.monotonic() + PATIENCE
    while not true():
        if time.monotonic() > end:
            return False
        time.sleep(0.01)
    return True


def killed(programs, note):
    """A program that is killed before it told a status: 1 (R15.13), and nothing new is left."""
    half = note.saved(note.scans[:2])
    with tempfile.TemporaryDirectory(prefix="crossings-") as folder:
        for name in ("press", "pier", "pantry"):
            shutil.copy(os.path.join(programs.folder, name), folder)
            write(os.path.join(folder, "programs", name), b"#!/bin/sh\necho a part\nkill -9 $$\n")
            os.chmod(os.path.join(folder, "programs", name), 0o755)
        shutil.copy(os.path.join(programs.folder, "programs", "common.bash"), os.path.join(folder, "programs"))
        for run in (Run("killed", "press", (), b"x"), Run("killed", "pier", (), b"x"),
                    Run("killed", "pantry", (KEPT, "--to", FILE), b"x", ((KEPT, half), (FILE, b"old")))):
            wanted = due(run)._replace(printed=None, told=None, status=1, files=dict(run.files))
            yield (run.program, "killed"), [f"{run.program}, killed: {fault}" for fault in differences(wanted, Programs(folder).run(run))]
