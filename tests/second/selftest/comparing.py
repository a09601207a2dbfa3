"""The generators, the stored run and the comparison: that each of them can fail."""

import os
import sys
import tempfile
from collections import defaultdict

from .. import cases, compare, desk
from ..stored import build
from ..verbs import ALL, GIVES, LANDED
from .common import check, same


@check
def generators_reach_every_answer_and_no_other():
    """R2.2: each verb gives each of its numbers, and no other."""
    reached = defaultdict(set)
    for lines in compare.chunks(cases.stream(12, 0, ALL)):
        for line, answer in compare.expected(lines, ALL):
            reached[compare.verb_of(line)].add(compare.kind_of(answer))
    same(set(reached) - {"(other)"}, set(ALL))
    for verb in ALL:
        same(reached[verb], {*map(str, GIVES[verb]), "?"}, verb)


@check
def a_seed_gives_the_same_lines():
    def some(seed):
        stream = cases.chance_blocks(seed, ALL)
        return [next(stream) for _ in range(100)]

    same(some(5), some(5))
    same(some(5) == some(6), False)


@check
def no_line_feed_inside_a_line():
    for seed in range(3):
        stream = cases.chance_blocks(seed, LANDED)
        for _ in range(3000):
            same(any(b"\n" in line for line in next(stream)), False)


@check
def stored_run_is_of_modest_size():
    """The stored run has hundreds of calls, and lines on both sides of the longest (D1.5)."""
    for verbs in (LANDED, ALL):
        given, printed = build(verbs)
        same(desk.answers(given, verbs), printed)
        same(len(given) + len(printed) < 1_500_000 and printed.count(b"\n") > 300, True)
        same({len(line) for line in given.split(b"\n")} >= {262144, 262145}, True)


@check
def lines_are_parted():
    """D1.1, D1.2."""
    for text, lines in ((b"", []), (b"\n", [b""]), (b"a", [b"a"]), (b"a\n", [b"a"]),
                        (b"a\n\n", [b"a", b""]), (b"a\nb", [b"a", b"b"])):
        same(desk.lines_of(text), lines)
    same(desk.answers(b"\n#\ncrc -\n\ncrc -"), b"0 00000000\n0 00000000\n")


@check
def verbs_that_have_not_landed_are_unknown():
    """An unknown verb prints `?` (D1.5), and every verb that is listed is written here."""
    same(desk.Desk(["crc"]).answer(b"sha256 -"), "?")
    written = {*desk.PLAIN, *desk.Desk().register_calls, "status", "manifest-write", "recover"}
    same(sorted(ALL), sorted(written))


# The verbs that the fakes are tried on: enough to show each fault, and quick.
FEW = ["varint-read", "varint-write", "crc"]

FAKE = """import sys
sys.path.insert(0, {tests!r})
from second.desk import answers
out = answers(sys.stdin.buffer.read(), {few!r})
{change}
sys.stdout.buffer.write(out)
{after}
"""

FAKES = {
    "faithful": ("", ""),
    "one answer wrong": ("out = out.replace(b'\\n0 00000000\\n', b'\\n0 00000001\\n', 1)", ""),
    "one refusal wrong": ("out = out.replace(b'\\n7\\n', b'\\n3\\n', 1)", ""),
    "spilled": ("out = out.replace(b'\\n11\\n', b'\\n11 spilled\\n', 1)", ""),
    "a line too few": ("out = out[:out.rindex(b'\\n', 0, -1) + 1]", ""),
    "a line too many": ("out += b'?\\n'", ""),
    "silent": ("out = b''", ""),
    "no last line feed": ("out = out[:-1]", ""),
    "fails at the end": ("", "sys.exit(1)"),
}


def fake_desk(folder, name, fakes, few):
    """A desk of few verbs in a file of its own, faithful but for one thing."""
    change, after = fakes[name]
    tests = os.path.dirname(os.path.dirname(os.path.dirname(os.path.abspath(__file__))))
    path = os.path.join(folder, name.replace(" ", "-") + ".py")
    with open(path, "w", encoding="ascii") as file:
        file.write(FAKE.format(tests=tests, few=few, change=change, after=after))
    return [sys.executable, "-B", path]


@check
def comparison_can_fail():
    """A desk that is wrong in one thing is found out, ` spilled` among them (R1.2, D1.6, D3.8)."""
    with tempfile.TemporaryDirectory() as folder:
        for name in FAKES:
            told = []
            passed = compare.compare(fake_desk(folder, name, FAKES, FEW), 1, 6000, FEW, told.append)
            same(passed, name == "faithful", name, told[:3])


@check
def comparison_needs_every_answer():
    same(sorted(GIVES), sorted(LANDED))
    counts = {("varint-write", kind): 1 for kind in ("0", "3", "?")}
    same(list(compare.lacking(counts, ["varint-write"])),
         ["varint-write never answered 11", "varint-write answered 3, which it cannot"])


@check
def comparison_needs_enough_lines():
    comparison = compare.Comparison([], LANDED, lambda text: None)
    same(compare.verdict(comparison, 1, lambda text: None, None), False)
