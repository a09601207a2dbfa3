"""Runs that are compared and not stored: of `pier`, without a launcher, over what one has left."""

import random

from second.pantry import NEW
from runs import FILE, KEPT, Document, Run

# Of the stored runs those that are also run without a launcher: each answer of each program.
BARE = {"typist": ("full_page", "line_7_mistyped", "nothing", "one_byte_too_many", "unknown_word", "help", "version"),
        "press": ("twelve_pages", "typed_last", "nothing_to_print", "unknown_word", "help", "version", "size_wrong_0"),
        "pantry": ("in_order", "lacking_ninety_five", "two_versions_and_lacking", "totals_disagree", "id_of_another_ciphertext", "empty", "lines_of_all_kinds",
                   "kept_absent_and_complete", "kept_resumed", "kept_resumed_and_nothing_new", "kept_damaged_head", "kept_of_another_document",
                   "kept_in_no_folder", "kept_is_a_folder", "kept_of_a_long_name", "to_complete", "to_complete_over_a_file", "to_not_complete_beside_a_file",
                   "to_resumed_and_complete_over_a_file", "to_in_no_folder_and_kept", "to_kept", "words_help", "words_version", "words_to_alone",
                   "words_two_kept")}

# Names that a shell could take for something else, and a word that is a name all the same.
NAMES = ("a b", " ", "*", "~", "$(touch made)", "`touch made`", "'", '"', "\\", "a\nb", "line feed\n", "caf\udce9", "\u20ac", "\x1b[2J\x7f\t", "help", "#",
         "a;b", "&", "kept.pantry")


def more(stored):
    """All of them, beside the stored runs."""
    yield from bare(list(stored))
    note = Document(random.Random(20261118), 1200)
    yield from of_pier(note)
    yield from left_over(note)
    yield from named(note)
    yield from first_bytes(note)


def bare(stored):
    """Runs without a launcher: no status, and all else the same (R15.13)."""
    for program, names in BARE.items():
        there = {run.name: run for run in stored if run.program == program}
        yield from (there[name]._replace(launched=False) for name in names)


def of_pier(note):
    """`bin/pier` (R15.13): each line that `pier` prints (R9.12, R15.1), and its words."""
    def run(name, words=(), given=b"", launched=True):
        return Run(f"pier: {name}", "pier", words, given, (), False, launched)

    other = note.scan(1, 3, b"other")
    for name, scans in (("complete", note.scans), ("missing", note.scans[1:]), ("disputed", [*note.scans, other]), ("both", [*note.scans[1:], other]),
                        ("disagree", [*note.scans, note.scan(1, 4, b"")]), ("nothing", [])):
        for launched in (True, False):
            yield run(name, given=note.given(scans), launched=launched)
    for launched in (True, False):
        yield run("no id", given=note.given()[1:], launched=launched)
        yield run("no line", launched=launched)
    for words in (("--help",), ("--version",), ("-h",), ("",), ("kept",), ("--help", "--help"), ("--version", "kept"), ("\x1b[2J\x7f\t caf\udce9",)):
        yield run("words", words, note.given())


def left_over(note):
    """What a killed run has left: a launcher takes it over, and without one it is 11 (R15.7)."""
    half, left = note.saved(note.scans[:2]), b"half of a file"
    rest, nothing = note.given(note.scans[2:]), note.given([])
    for launched in (True, False):
        def run(name, words, given, *files, launched=launched):
            return Run(f"left over: {name}", "pantry", words, given, files, False, launched)

        yield run("beside KEPT", (KEPT,), rest, (KEPT, half), (KEPT + NEW, left))
        yield run("beside no KEPT", (KEPT,), rest, (KEPT + NEW, left))
        yield run("nothing new", (KEPT,), nothing, (KEPT, half), (KEPT + NEW, left))
        yield run("a damaged KEPT", (KEPT,), rest, (KEPT, half[:-1]), (KEPT + NEW, left))
        yield run("beside FILE", ("--to", FILE), note.given(), (FILE, b"old"), (FILE + NEW, left))
        yield run("beside FILE, and KEPT is written", (KEPT, "--to", FILE), rest, (KEPT, half), (FILE + NEW, left))
        yield run("beside both", (KEPT, "--to", FILE), rest, (KEPT, half), (KEPT + NEW, left), (FILE + NEW, left))
        yield run("beside another file", (KEPT,), rest, (KEPT, half), (FILE + NEW, left))
        yield run("a wrong word", (KEPT, "-x"), rest, (KEPT, half), (KEPT + NEW, left))
    yield Run("left over: no id", "pantry", (KEPT,), b"", ((KEPT, half), (KEPT + NEW, left)))
    yield Run("left over: not complete", "pantry", ("--to", FILE), nothing, ((FILE, b"old"), (FILE + NEW, left)))
    yield Run("left over: no id", "pantry", (KEPT,), b"", ((KEPT, half), (KEPT + NEW, left)), launched=False)


def named(note):
    """KEPT and FILE of every kind of name (R15.11)."""
    for name in (*NAMES, "w" * 244):
        yield Run("named", "pantry", (name, "--to", "for " + name[:200]), note.given())


def first_bytes(note):
    """Every byte in the place of a digit of the first line (R15.10)."""
    given = note.given([])
    for byte in (*range(10), *range(11, 256)):
        yield Run(f"byte {byte:02x}", "pantry", (), given[:7] + bytes([byte]) + given[8:], launched=False)
