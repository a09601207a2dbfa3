"""The stored runs of `pantry` (R15.6 to R15.12)."""

import random

from second.frames import AUTH, KEY
from second.pantry import NEW
from second.sums import doc_id
from runs import FILE, KEPT, LONG, LONGER, NOWHERE, Document, Run, session

OLDER = b"an older document\n"


def stored_pantry(rng, ship, large):
    """All of them."""
    note = Document(random.Random(20261117), 1200)
    yield from stored_answers(rng, ship, large)
    yield from stored_first(note)
    yield from stored_lines(ship)
    yield from stored_kept(rng, ship)
    yield from stored_to(note)
    yield from stored_words(note)


def stored_answers(rng, ship, large):
    """Each answer without a file (R15.6), and with it what is told (R15.9)."""
    def run(name, *given, **more):
        return Run(name, "pantry", (), session(*given, **more))

    yield run("in_order", ship.id, ship.scans)
    yield run("shuffled_with_repeats_and_noise", ship.id, ship.desk(ship.scans) + [ship.noise() for _ in range(20)])
    yield run("no_line_feed_at_the_end", ship.id, ship.scans, last_feed=False)
    yield run("ninety_six_pages", large.id, large.scans[::-1])
    yield run("one_byte", *(lambda d: (d.id, d.scans))(Document(rng, 1)))
    yield run("pages_of_one_byte", *(lambda d: (d.id, d.scans))(Document(rng, 96, 1)))
    yield run("complete_and_of_no_bytes", doc_id(b""), [ship.scan(0, 1, b"", ident=doc_id(b""))])
    last = ship.ciphertext[-420:]
    yield run("a_page_of_no_bytes_is_there", doc_id(last), [ship.scan(k, 2, d, ident=doc_id(last)) for k, d in enumerate((b"", last))])
    yield run("lacking_three", ship.id, ship.scans[:4] + ship.scans[7:])
    yield run("lacking_the_first", ship.id, ship.scans[1:])
    yield run("lacking_the_last", ship.id, ship.scans[:-1])
    yield run("lacking_ninety_five", large.id, large.scans[40:41])
    yield run("page_in_two_versions", ship.id, [*ship.scans, ship.scan(5, 12, b"other")])
    yield run("two_versions_and_lacking", ship.id, [*ship.scans[2:], ship.scan(5, 12, b"other"), ship.scan(9, 12, b"")])
    yield run("all_ninety_six_in_two_versions", large.id, [*large.scans, *(large.scan(k, 96, b"other") for k in range(96))])
    yield run("totals_disagree", ship.id, [*ship.scans, ship.scan(0, 13, b"other")])
    yield run("id_of_another_ciphertext", bytes(8), Document(rng, 5700, ident=bytes(8)).scans)
    yield run("id_alone", ship.id, [])
    yield run("scans_of_another_document", bytes(8), ship.scans)


def stored_first(ship):
    """First lines that are no id, each with what is wrong with it (R15.10)."""
    whole, ident = ship.given(), ship.id.hex().encode("ascii")
    behind = whole[16:]
    yield Run("no_id", "pantry", (), whole[17:])
    for name, first in (("in_capitals", ident.upper()), ("of_15_digits", ident[1:]), ("of_17_digits", b"0" + ident), ("with_carriage_return", ident + b"\r")):
        yield Run(f"id_{name}", "pantry", (), first + behind)
    yield Run("empty", "pantry", (), b"")
    yield Run("one_line_feed", "pantry", (), b"\n")
    for name, first in (
            ("behind_a_blank", b" " + ident), ("behind_a_tab", b"\t" + ident), ("with_a_blank_inside", ident[:8] + b" " + ident[8:]),
            ("before_a_blank", ident + b" "), ("of_15_digits_and_a_blank", ident[1:] + b" "), ("of_15_digits_and_carriage_return", ident[1:] + b"\r"),
            ("with_one_capital", b"0" * 15 + b"A"), ("with_the_letter_g", b"0" * 15 + b"g"), ("with_the_capital_g", b"0" * 15 + b"G"),
            ("with_0x", b"0x" + ident), ("behind_a_byte_order_mark", b"\xef\xbb\xbf" + ident), ("with_a_zero_byte", b"\0" + ident),
            ("with_a_delete", ident[:-1] + b"\x7f"), ("with_two_faults", b"0G 0"), ("with_three_faults", b"0 A\r"),
            ("of_1024_digits", b"0" * 1024), ("of_1025_digits", b"0" * 1025), ("of_70000_digits", b"0" * 70000),
            ("of_1024_digits_and_carriage_return", b"0" * 1024 + b"\r"), ("of_1025_digits_and_carriage_return", b"0" * 1025 + b"\r"), ("behind_a_blank_and_long", b" " + b"0" * 2000)):
        yield Run(f"id_{name}", "pantry", (), first + behind)
    yield Run("id_of_15_digits_without_line_feed", "pantry", (), ident[1:])


def stored_lines(ship):
    """What the lines behind the first come to (R15.9): each kind alone, and all at once."""
    first, second = ship.scans[:2]
    seen = [first, first, first[:9] + b" " + first[9:] + b"\r"]
    other = [ship.scan(0, 12, b"stranger", ident=bytes(8)), ship.scan(0, 1, b"key", kind=KEY), ship.scan(0, 1, b"auth", kind=AUTH)]
    unreadable = [b"", b" ", b"QVA", first[:-1], first + b"=", b"-" + first, ship.scan(0, 97, b"x"), ship.scan(12, 12, b"x"), ship.scan(0, 12, bytes(481)),
                  ship.scan(1, 2, b"x", kind=KEY), (first[:40] + b"A" + first[41:] if first[40:41] != b"A" else first[:40] + b"B" + first[41:])]
    long = [first + b" " * (1025 - len(first)), b"A" * 70000]
    for name, scans in (("taken", ship.scans[:3]), ("seen_before", seen), ("of_another_document", other), ("unreadable", unreadable), ("too_long", long),
                        ("of_all_kinds", [*long, *other, second, *unreadable, *seen, second, *other[:2]]),
                        ("of_1024_bytes", [first + b" " * (1024 - len(first)), second]),
                        ("of_three_versions", [ship.scan(3, 12, data) for data in (b"one", b"two", b"three", b"one")]),
                        ("of_three_totals", [first, ship.scan(1, 13, b""), second, ship.scan(1, 14, b""), first]),
                        ("in_great_numbers", [*[b""] * 1000, *[first] * 101, *[b"A" * 1025] * 10, *[other[0]] * 99])):
        yield Run(f"lines_{name}", "pantry", (), ship.given(scans))
    yield Run("lines_of_a_kept_file", "pantry", (KEPT,), ship.given([first, second, second, first]), ((KEPT, ship.saved(ship.scans[:5])),))
    yield Run("lines_beside_a_kept_file", "pantry", (KEPT,), ship.given([*unreadable, *long, *other]), ((KEPT, ship.saved(ship.scans[:5])),))


def stored_kept(rng, ship):
    """`pantry KEPT` (R15.7): absent, resumed, damaged, another document's, unusable."""
    def run(name, scans, before=None, given=None, file=KEPT):
        return Run(f"kept_{name}", "pantry", (file,), ship.given(scans) if given is None else given, ((KEPT, before),) if before is not None else ())

    half, rest = ship.scans[:5], ship.scans[5:]
    before = ship.saved(half)
    stranger = Document(rng, 900).saved([])
    yield run("absent", half)
    yield run("absent_and_complete", ship.scans)
    yield run("absent_and_nothing_scanned", [])
    yield run("resumed", rest, before)
    yield run("resumed_with_repeats", ship.desk(ship.scans), before)
    yield run("resumed_and_still_lacking", rest[:4], before)
    yield run("resumed_and_nothing_scanned", [], before)
    yield run("resumed_and_nothing_new", half[::-1], before)
    yield run("complete_before", [], ship.saved())
    yield run("complete_before_and_nothing_new", ship.scans, ship.saved())
    yield run("empty_collection", rest, ship.saved([]))
    yield run("page_in_two_versions", [ship.scan(2, 12, b"other")], before)
    yield run("disputed_before", ship.scans, ship.saved([*half, ship.scan(2, 12, b"other")]))
    yield run("totals_disagree", [ship.scan(2, 13, b"other")], before)
    yield run("disagreeing_before", ship.scans, ship.saved([*half, ship.scan(2, 13, b"other")]))
    wrong = Document(rng, 900, ident=bytes(8))
    yield run("id_of_another_ciphertext", [], wrong.saved(wrong.scans[:1]), wrong.given(wrong.scans[1:]))
    for name, at in (("head", 3), ("page_3", 4 * 512 + 100), ("page_95", 97 * 512 - 1)):
        yield run(f"damaged_{name}", rest, before[:at] + bytes([before[at] ^ 1]) + before[at + 1:])
    for name, contents in (("empty_file", b""), ("too_short", before[:-1]), ("too_long", before + b"\0"), ("something_else", b"pages 12\n")):
        yield run(name, rest, contents)
    yield run("of_another_document", rest, stranger)
    yield run("of_another_document_and_damaged", rest, stranger[:-1] + b"!")
    for name, contents in (("absent", None), ("there", before), ("damaged", before[:-1] + b"!")):
        yield run(f"{name}_and_no_id", [], contents, b"\n".join(ship.scans))
    for name, file in (("in_no_folder", NOWHERE[0]), ("in_no_folder_of_odd_name", NOWHERE[2]), ("of_a_new_files_name", KEPT + NEW), ("is_a_folder", "."), ("without_a_name", ""), ("of_a_long_name", LONG), ("of_a_longer_name", LONGER)):
        yield run(name, ship.scans, file=file)
        yield run(f"{name}_and_no_id", [], given=b"", file=file)
    yield Run("kept_twice", "pantry", (KEPT, KEPT), ship.given(rest), ((KEPT, before),))


def stored_to(note):
    """`pantry --to FILE` (R15.6, R15.7): FILE made, replaced, left as it was, unusable."""
    def run(name, words, scans=None, **before):
        return Run(f"to_{name}", "pantry", tuple(words.split(" ")), note.given(scans), tuple(before.items()))

    half, old, other = note.saved(note.scans[:2]), {FILE: OLDER}, note.scan(1, 3, b"other")
    yield run("complete", "--to file")
    yield run("complete_over_a_file", "--to file", **old)
    yield run("not_complete", "--to file", note.scans[1:])
    yield run("not_complete_beside_a_file", "--to file", note.scans[1:], **old)
    yield run("disputed_beside_a_file", "--to file", [*note.scans, other], **old)
    yield run("disagreeing_beside_a_file", "--to file", [*note.scans, note.scan(1, 4, b"")], **old)
    yield run("nothing_scanned", "--to file", [], **old)
    yield run("kept_and_complete", "kept --to file")
    yield run("resumed_and_complete", "kept --to file", note.scans[2:], kept=half)
    yield run("resumed_and_complete_over_a_file", "--to file kept", note.scans[2:], kept=half, **old)
    yield run("resumed_and_not_complete", "--to file kept", [other], kept=half, **old)
    yield run("complete_before_and_nothing_new", "kept --to file", [], kept=note.saved())
    yield run("damaged_beside_a_file", "kept --to file", kept=half[:-1] + b"!", **old)
    yield run("in_no_folder", f"--to {NOWHERE[1]}")
    yield run("in_no_folder_and_not_complete", f"--to {NOWHERE[1]}", note.scans[1:])
    yield run("in_no_folder_and_kept", f"kept --to {NOWHERE[1]}", note.scans[2:], kept=half)
    yield run("kept_in_no_folder", f"{NOWHERE[0]} --to file", **old)
    yield run("of_a_long_name", f"--to {LONG}")
    yield run("of_a_longer_name", f"--to {LONGER}")
    yield run("of_a_new_files_name", f"--to {FILE + NEW}")
    for name, words in (("kept_is_the_new_file", (FILE + NEW, "--to", FILE)), ("that_is_the_new_file_of_kept", (FILE, "--to", FILE + NEW))):
        yield Run(f"to_{name}", "pantry", words, note.given(), ((FILE + NEW, half), (FILE, OLDER)))
    yield run("a_folder", "--to .")
    yield run("a_folder_and_kept", "kept --to .", kept=half)
    for name, words in (("kept", "kept --to kept"), ("kept_named_behind", "--to kept kept"), ("kept_by_another_name", "kept --to ./kept"),
                        ("kept_named_behind_by_another_name", "--to kept .//kept")):
        yield run(name, words, note.scans[2:], kept=half)
    yield run("kept_that_is_absent", "./kept --to kept")
    yield Run("to_and_of_no_bytes", "pantry", ("--to", FILE), session(doc_id(b""), [note.scan(0, 1, b"", ident=doc_id(b""))]), ((FILE, OLDER),))
    wrong = Document(note.rng, 900, ident=bytes(8))
    yield Run("to_and_id_of_another_ciphertext", "pantry", ("--to", FILE), wrong.given(), ((FILE, OLDER),))
    yield Run("to_and_no_id", "pantry", (KEPT, "--to", FILE), note.given()[1:], ((KEPT, half), (FILE, OLDER)))
    yield Run("to_and_kept_of_another_document", "pantry", (KEPT, "--to", FILE), wrong.given(), ((KEPT, half), (FILE, OLDER)))


def stored_words(note):
    """Words that `pantry` takes alone, and wrong ones (R15.11); no file is touched."""
    def run(name, *words):
        return Run(f"words_{name}", "pantry", words, note.given(), ((KEPT, b"as it was"), (FILE, OLDER)))

    for name, words in (
            ("dash", "-"), ("two_dashes", "--"), ("short_option", "-h"), ("late_status", "--status-3"), ("unknown", "--keep"), ("joined", "--to=file"),
            ("help", "--help"), ("version", "--version"), ("help_in_capitals", "--HELP"), ("help_twice", "--help --help"), ("help_and_kept", "--help kept"),
            ("help_behind", "kept --help"), ("version_behind", "--to file --version"), ("version_and_help", "--version --help"),
            ("to_alone", "--to"), ("to_behind", "kept --to"), ("to_to", "--to --to file"), ("to_twice", "--to file --to other"), ("one_file_and_another", "kept --to kept other"), ("one_file_and_dash", "--to kept kept -x"),
            ("to_and_to_alone", "--to file --to"), ("to_help", "--to --help"), ("to_dash", "--to -file"), ("unknown_and_to", "-x --to"),
            ("two_kept", "kept other"), ("three_kept", "kept other third"), ("two_kept_and_a_file", "kept --to file other"),
            ("kept_and_dash", "kept -x"), ("dash_and_kept_twice", "-x kept kept"), ("file_and_two_kept", "--to file kept other --help")):
        yield run(name, *words.split())
    for name, word in (("empty", ""), ("of_4096_bytes", "w" * 4096), ("of_4097_bytes", "w" * 4097), ("of_4097_bytes_and_dashes", "-" * 4097), ("of_70000_bytes", "w" * 70000)):
        yield run(name, word)
        yield run(f"to_{name}", "--to", word)
    for name, word in (("of_64_bytes", "w" * 64), ("of_65_bytes", "w" * 65), ("with_spaces_and_tilde", " ~ "), ("with_controls", "\x1b[2J\x7f\t"),
                       ("beyond_ascii", "caf\udce9")):
        yield run(f"second_{name}", KEPT, word)
        yield run(f"unknown_{name}", "-" + word[1:])
    yield Run("words_and_nothing", "pantry", ("-x",), b"")
