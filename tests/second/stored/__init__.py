"""The stored run of the desk: crates/desk/stdin and crates/desk/stdout.

Its calls are chosen by hand and say in `#` lines what they show. Where an
answer is published, or follows from a rule at sight, it is typed in here
beside the call, and the run is not made if this program answers otherwise.
"""

from ..desk import Desk
from . import digests, floats, forms, frames, lines, payloads, sessions, sharing, typed_lines

SECTIONS = [section for module in (forms, typed_lines, digests, frames, floats, payloads, sharing,
                                   sessions, lines)
            for section in module.SECTIONS]

OPENING = b"""\
# The stored run of the call desk. Written by `tests/second_program make`, as is
# stdout beside it; neither is edited by hand. docs/DESK.md says what a line means,
# docs/RULES.md what is answered; R and D with a number are their rules.
"""


class Contradiction(Exception):
    """A published answer that is not this program's."""


def script(verbs):
    """The entries of all sections whose verbs have landed."""
    known = set(verbs)
    return [entry for section in SECTIONS if set(section.verbs) <= known
            for entry in section.entries()]


def build(verbs):
    """The two files as bytes; the last line has no line feed on purpose."""
    desk, given, printed = Desk(verbs), [OPENING.rstrip(b"\n")], []
    for entry in script(verbs):
        given.append(entry.line)
        answer = desk.answer(entry.line)
        if entry.answer is not None and answer != entry.answer:
            raise Contradiction(f"{entry.line[:80]!r}: {answer} where {entry.answer} is published")
        if answer is not None:
            printed.append(answer.encode("ascii"))
    return b"\n".join(given), b"".join(line + b"\n" for line in printed)
