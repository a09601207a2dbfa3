"""A desk held to this program, line by line."""

import subprocess
from collections import Counter

from unreadable import unreadable

from . import cases
from .desk import Desk, answers
from .verbs import ALL, GIVES

CHUNK_LINES = 2000
CHUNK_BYTES = 8_000_000
MOST_SHOWN = 20
WIDTH = 160
SECONDS = 1200
READ = b"varint-write 300 10\ncrc 313233\n"


def chunks(blocks):
    """Blocks gathered into runs of the desk; a block is never parted."""
    lines, size = [], 0
    for block in blocks:
        lines += block
        size += sum(map(len, block))
        if len(lines) >= CHUNK_LINES or size >= CHUNK_BYTES:
            yield lines
            lines, size = [], 0
    if lines:
        yield lines


def expected(lines, verbs):
    """The lines that print something, each with its answer."""
    desk = Desk(verbs)
    answered = ((line, desk.answer(line)) for line in lines)
    return [(line, answer.encode("ascii")) for line, answer in answered if answer is not None]


def shortened(line):
    """A line as it can be shown."""
    text = line.decode("ascii", "backslashreplace")
    if len(text) <= WIDTH:
        return text
    return f"{text[:WIDTH - 40]} .. {text[-30:]} ({len(text)} characters)"


class Comparison:
    """Counts and differences of one comparison."""

    def __init__(self, command, verbs, tell=print):
        self.command, self.verbs, self.tell = command, verbs, tell
        self.counts, self.compared = Counter(), 0
        self.faults, self.first_input = 0, None

    def fault(self, text, given):
        """Something that is not as it must be."""
        self.faults += 1
        self.first_input = self.first_input or given
        if self.faults <= MOST_SHOWN:
            self.tell(text)

    def run(self, given):
        """What the desk prints for an input, as lines."""
        try:
            done = subprocess.run(self.command, input=given, stdout=subprocess.PIPE, check=False,
                                  timeout=SECONDS)
        except subprocess.TimeoutExpired:
            self.fault(f"the desk did not end within {SECONDS} seconds", given)
            return []
        if done.returncode != 0:
            self.fault(f"the desk ended with {done.returncode}", given)
        if done.stdout and not done.stdout.endswith(b"\n"):
            self.fault("the desk's last line has no line feed", given)
        return done.stdout.split(b"\n")[:-1]

    def chunk(self, lines, last_feed):
        """One run of the desk against this program; the lines that it printed."""
        given = b"\n".join(lines) + b"\n" * last_feed
        wanted, got = expected(lines, self.verbs), self.run(given)
        if len(got) != len(wanted):
            self.fault(f"the desk printed {len(got)} lines where {len(wanted)} are due", given)
        for (line, answer), printed in zip(wanted, got):
            self.compared += 1
            self.counts[verb_of(line), kind_of(answer)] += 1
            if printed != answer:
                self.fault(f"line     {shortened(line)}\n  due      {shortened(answer)}\n"
                           f"  printed  {shortened(printed)}", given)
        return got


def verb_of(line):
    """The row of the table for a line."""
    verb = line.split(b" ", 1)[0].decode("latin-1")
    return verb if verb in ALL else "(other)"


def kind_of(answer):
    """The column of the table for an answer: its number, or `?`."""
    words = answer.decode("ascii").split(" ")
    if words[0] == "refused":
        return words[1]
    return words[0] if words[0] == "?" or words[0].isdigit() else "0"


def table(counts):
    """Counts by verb and by answer."""
    columns = sorted({kind for _, kind in counts}, key=lambda k: (k == "?", k.zfill(3)))
    rows = [verb for verb in [*ALL, "(other)"] if any(v == verb for v, _ in counts)]
    yield "calls by verb and answer".ljust(24) + "".join(c.rjust(7) for c in columns)
    for verb in rows:
        cells = (counts.get((verb, c), "") for c in columns)
        yield verb.ljust(24) + "".join(str(cell).rjust(7) for cell in cells)


def compare(command, seed, count, verbs, tell=print, keep=None):
    """Whether a desk answers at least `count` calls as this program does."""
    return compare_blocks(command, cases.stream(seed, count, verbs), count, verbs, tell, keep)


def compare_blocks(command, blocks, count, verbs, tell=print, keep=None, called=()):
    """The same for blocks that are given. Each answer of the verbs `called` must occur (GIVES)."""
    comparison = Comparison(command, verbs, tell)
    for number, lines in enumerate(chunks(blocks)):
        comparison.chunk(lines, last_feed=number % 2 == 0)
        if comparison.faults > MOST_SHOWN:
            tell("too many faults; the rest is left out")
            break
    for row in table(comparison.counts):
        tell(row)
    for text in lacking(comparison.counts, called):
        comparison.fault(text, b"")
    return verdict(comparison, count, tell, keep)


def unread(command, verbs):
    """What the desk does otherwise than it must where its input cannot be read on (D1.9). Of these
    inputs only one gives anything before it fails, and that is answered."""
    for kind, given in unreadable(READ):
        done = subprocess.run(command, stdout=subprocess.PIPE, check=False, timeout=SECONDS, **given)
        due = answers(READ, verbs) if kind == "a reset connection" else b""
        if done.returncode != 0 or done.stdout != due:
            yield f"{kind}: the desk ended with {done.returncode}, and printed {done.stdout[:100]!r}"


def lacking(counts, called):
    """The answers that a verb can give and never gave, and those that it gave and cannot give."""
    for verb in called:
        given = {int(kind) for v, kind in counts if v == verb and kind != "?"}
        for number in sorted({*GIVES[verb]} - given):
            yield f"{verb} never answered {number}"
        for number in sorted(given.difference(GIVES[verb])):
            yield f"{verb} answered {number}, which it cannot"


def verdict(comparison, count, tell, keep):
    """The last word: no faults, and as many lines as asked for."""
    if comparison.compared < count:
        comparison.fault(f"fewer than {count} lines were compared", b"")
    tell(f"{comparison.compared} lines compared, {comparison.faults} faults")
    if keep and comparison.faults:
        with open(keep, "wb") as file:
            file.write(comparison.first_input)
        tell(f"the input of the first run with a fault is in {keep}")
    return comparison.faults == 0
