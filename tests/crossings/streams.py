"""Runs whose input or output fails (R15.5, R15.8, R15.12), and runs at a terminal.

Each comes as the row of the table that it counts in, and what is wrong with it.
"""

import os
import random

from unreadable import unreadable
from programs import differences
from runs import Document, Run, due

# Runs on input that cannot be read to its end: each form of output, and each file to make and to
# change.
UNREAD = ("twelve_pages", "typed_all", "typed_first", "in_order", "lacking_three", "kept_absent_and_complete", "kept_resumed",
          "to_resumed_and_complete_over_a_file", "pier: complete", "full_page", "line_7_mistyped")

# Runs whose output cannot be written, of which the last print nothing, so that it does not matter.
UNWRITTEN = ("twelve_pages", "typed_all", "typed_first", "in_order", "kept_absent_and_complete", "kept_resumed", "pier: complete", "pier: missing",
             "nothing_to_print", "unknown_word", "help", "lacking_three", "kept_absent", "to_complete", "words_help", "words_to_alone", "pier: words", "full_page",
             "line_7_mistyped")


def streams(programs, runs):
    """All of them, of the runs that are named above."""
    for check, names in ((unread, UNREAD), (unwritten, UNWRITTEN)):
        for name in names:
            for run in chosen(runs, name):
                yield from check(programs, run)
    yield from typed_in(programs)


def chosen(runs, name):
    """The runs of this name, under their launchers."""
    found = [run for run in runs if run.name == name and run.launched]
    if not found:
        raise KeyError(name)
    return found


def unread(programs, run):
    """An input that cannot be read to its end (R15.8), though all that is needed can be."""
    for kind, given in unreadable(run.given):
        wanted = due(run)._replace(printed=b"", told=unreadable_told, status=1, files=dict(run.files))
        yield found(run, f"{kind} as its input", "nothing, since its input cannot be read", wanted, programs.run(run, **given))


def unreadable_told(told):
    """Whether this is one line about the input."""
    return told.startswith(b"standard input: ") and told.count(b"\n") == 1


def unwritable():
    """Outputs that take nothing: a name, how Popen is told, and the system's words."""
    with open("/dev/full", "wb") as full:
        yield "a full disk", {"stdout": full}, b"No space left on device"
    near, far = os.pipe()
    os.close(near)
    yield "a closed pipe", {"stdout": far}, b"Broken pipe"
    os.close(far)
    yield "nothing open", {"stdout": None, "preexec_fn": lambda: os.close(1)}, b"Bad file descriptor"


def unwritten(programs, run):
    """An output that cannot be written: it is told, and the status is 1 (R15.5, R15.12)."""
    for kind, given, words in unwritable():
        wanted = due(run)._replace(printed=None)
        if due(run).printed:
            before = [line for line in wanted.told.splitlines(True) if not line.startswith(b"complete: ")]
            words = b"it cannot be written" if run.program == "pier" else words
            wanted = wanted._replace(told=b"".join([*before, b"standard output: " + words + b"\n"]), status=1)
        got = programs.run(run, **given)
        yield found(run, f"{kind} as its output", "no output, since it cannot be written", wanted, got)


def typed_in(programs):
    """Runs at a terminal, which are told first what is waited for (R15.5, R15.11)."""
    slip = Document(random.Random(20261120), 20)
    for run in (Run("typed in", "press", (), b"a ciphertext of one line\n"), Run("typed in", "pantry", (), slip.given()), Run("typed in", "pier", (), slip.given()),
                Run("a wrong word", "press", ("-x",), b""), Run("a wrong word", "pantry", ("-x",), b""), Run("a wrong word", "pier", ("-x",), b""),
                Run("a wrong word", "typist", ("-x",), b"")):
        near, far = os.openpty()
        os.write(near, run.given + b"\x04")
        wanted = due(run)
        got = programs.run(run, stdin=far)
        os.close(far)
        os.close(near)
        yield found(run, "a terminal as its input", "as it is due, at a terminal", wanted if run.words else wanted._replace(told=waiting(run)), got)


def waiting(run):
    """Whether what is told begins with what is waited for, and how it ends."""
    def waits(told):
        line, _, rest = told.partition(b"\n")
        return line.startswith(run.program.encode("ascii") + b" waits for ") and b"Ctrl-D" in line and rest == due(run).told
    return waits


def found(run, how, answer, wanted, got):
    """A row of the table, and what is wrong."""
    return (run.program, answer), [f"{run.program} ({run.name}), {how}: {fault}" for fault in differences(wanted, got)]
