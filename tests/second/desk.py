"""The call desk, docs/DESK.md: lines in, lines out.

A verb that has not landed is an unknown verb. ` spilled` is never printed here (D1.6, D1.8, D3.8):
a library that keeps R1.2 gives no cause for it, and a desk that prints it differs from this one.
"""

import re

from . import collection, envelope, forms, frames, payloads, sharing, sums
from .answers import WITH_PLACE, Refusal, lend
from .floats import float_read, float_write
from .manifest import File, Manifest, manifest_read, manifest_write
from .typing_lines import read_typed, write_typed
from .verbs import ALL

LONGEST_LINE = 262144  # D1.5
MOST_ROOM = 65536  # D1.6
MOST_ENTRIES = 65  # D2.10
MOST_SLIPS = 300  # D2.14

HEX = re.compile(rb"(?:[0-9a-f]{2})+")
DIGITS = re.compile(rb"[0-9]{1,40}")
BITS = re.compile(rb"[0-9a-f]{16}")


class Malformed(Exception):
    """The line is not of the verb's form: `?` (D1.5)."""


# Arguments.


def demand(condition):
    """The form's own demand on an argument."""
    if not condition:
        raise Malformed


def as_bytes(argument):
    """BYTES: lower-case hex, or `-` (D1.3)."""
    if argument == b"-":
        return b""
    demand(HEX.fullmatch(argument))
    return bytes.fromhex(argument.decode("ascii"))


def as_number(argument, most=2**64 - 1):
    """A decimal number from 0 to `most` (D1.4)."""
    demand(DIGITS.fullmatch(argument) and int(argument) <= most)
    return int(argument)


def as_signed(argument):
    """A number that may begin with `-` (D1.4)."""
    number = as_number(argument.removeprefix(b"-"))
    return -number if argument.startswith(b"-") else number


def as_room(argument):
    """ROOM: the length of the lent output (D1.6)."""
    return as_number(argument, MOST_ROOM)


def as_register(argument):
    """REG: `a`, `b`, `c` or `d` (D3.1)."""
    demand(argument in (b"a", b"b", b"c", b"d"))
    return argument.decode("ascii")


def as_contents(argument):
    """What `load` puts into a register: BYTES, up to 65,536 of them (D3.2)."""
    data = as_bytes(argument)
    demand(len(data) <= MOST_ROOM)
    return data


def or_null(form):
    """An argument that may be `null` (D2.9)."""
    return lambda argument: None if argument == b"null" else form(argument)


def as_double(argument):
    """BITS: the 16 lower-case hex digits of a double (D2.12)."""
    demand(BITS.fullmatch(argument))
    return as_bytes(argument)


def as_created(argument):
    """CREATED: a signed number behind `i`, or a double's 16 digits behind `f` (D2.9)."""
    if argument.startswith(b"i"):
        return "i", as_signed(argument[1:])
    demand(argument.startswith(b"f"))
    return "f", as_double(argument[1:])


# Printed values.


def shown(value):
    """A value as it is printed: bytes (D1.3), nothing, or a number or word."""
    if isinstance(value, bytes):
        return value.hex() or "-"
    return "null" if value is None else str(value)


def shown_created(created):
    """CREATED as it is printed (D2.9)."""
    return created[0] + shown(created[1])


# Verbs. Each gives the values that are printed after the 0 (D1.7).


def varint_write(number, room):
    """varint-write (D2.1): 11 where it does not fit."""
    return [lend(room, forms.varint_write(number))]


def through(function):
    """A verb that turns bytes or text into the other within ROOM (D2.2, D2.13)."""
    return lambda given, room: [lend(room, function(given))]


def one(function):
    """A verb whose answer is one value (D2.3, D2.5, D2.6, D2.11, D2.12, D2.14)."""
    return lambda *arguments: [function(*arguments)]


def frame_read(raw):
    """frame-read: TYPE ID INDEX TOTAL DATA (D2.4)."""
    frame = frames.frame_read(raw)
    return [bytes([frame.type]), frame.id, frame.index, frame.total, frame.data]


def auth_write(pub, sig, digest, room):
    """auth-write (D2.7)."""
    return [payloads.auth_write(payloads.Auth(pub, sig, digest), room)]


def auth_signed(pub, digest, room):
    """auth-signed: the values without `sig` (D2.7)."""
    return [payloads.auth_signed(payloads.Auth(pub, b"", digest), room)]


def shard_write(*values_and_room):
    """shard-write (D2.8)."""
    *values, room = values_and_room
    return [payloads.shard_write(payloads.Shard(*values), room)]


def shard_signed(pub, *values_and_room):
    """shard-signed: the values without `sig` (D2.8)."""
    *values, room = values_and_room
    return [payloads.shard_signed(payloads.Shard(pub, b"", *values), room)]


def manifest_values(raw):
    """manifest-read: SEED SEALED CREATED N, and four values for each file (D2.9)."""
    manifest = manifest_read(raw)
    entries = [value for entry in manifest.files for value in entry]
    return [manifest.seed, int(manifest.sealed), shown_created(manifest.created),
            len(manifest.files), *entries]


BYTES, NUMBER, SIGNED, ROOM, REG = as_bytes, as_number, as_signed, as_room, as_register
SHARD_VALUES = (BYTES, BYTES, NUMBER, NUMBER, NUMBER, NUMBER)

# Verbs that only answer: the forms of their arguments, and the call.
PLAIN = {
    "varint-read": ((BYTES,), forms.varint_read),
    "varint-write": ((NUMBER, ROOM), varint_write),
    "base64-read": ((BYTES, ROOM), through(forms.base64_read)),
    "base64-write": ((BYTES, ROOM), through(forms.base64_write)),
    "zbase32-read": ((BYTES, ROOM), through(forms.zbase32_read)),
    "zbase32-write": ((BYTES, ROOM), through(forms.zbase32_write)),
    "typed-read": ((BYTES, ROOM), through(read_typed)),
    "typed-write": ((BYTES, ROOM), through(write_typed)),
    "crc": ((BYTES,), one(sums.crc)),
    "sha256": ((BYTES,), one(sums.sha256)),
    "blake2b": ((BYTES,), one(sums.blake2b)),
    "doc-id": ((BYTES,), one(sums.doc_id)),
    "frame-read": ((BYTES,), frame_read),
    "page-write": ((BYTES, NUMBER, NUMBER, ROOM), one(frames.page_write)),
    "key-write": ((BYTES, BYTES, ROOM), one(frames.key_write)),
    "auth-frame-write": ((BYTES, BYTES, ROOM), one(frames.auth_frame_write)),
    "float-read": ((BYTES,), float_read),
    "float-write": ((as_double, ROOM), one(float_write)),
    "auth-read": ((BYTES,), payloads.auth_read),
    "auth-write": ((BYTES, BYTES, BYTES, ROOM), auth_write),
    "auth-signed": ((BYTES, BYTES, ROOM), auth_signed),
    "shard-read": ((BYTES,), payloads.shard_read),
    "shard-write": ((BYTES, BYTES, BYTES, *SHARD_VALUES, ROOM), shard_write),
    "shard-signed": ((BYTES, BYTES, *SHARD_VALUES, ROOM), shard_signed),
    "manifest-read": ((BYTES,), manifest_values),
    "envelope-read": ((BYTES,), envelope.envelope_read),
    "envelope-write": ((BYTES, BYTES, ROOM), one(envelope.envelope_write)),
    "split": ((BYTES, NUMBER, NUMBER, BYTES, ROOM), one(sharing.split)),
}

ENTRY = (BYTES, BYTES, NUMBER, or_null(SIGNED))


def parsed(argument_forms, arguments):
    """Each argument by its form; their count must be right (D1.5)."""
    demand(len(arguments) == len(argument_forms))
    return [form(argument) for form, argument in zip(argument_forms, arguments)]


def manifest_write_parsed(arguments):
    """SEED SEALED CREATED N (HASH PATH SIZE MTIME)xN ROOM (D2.10)."""
    demand(len(arguments) >= 5)
    seed = or_null(BYTES)(arguments[0])
    sealed = as_number(arguments[1], 1) == 1
    created = as_created(arguments[2])
    count = as_number(arguments[3], MOST_ENTRIES)
    room = as_room(arguments[-1])
    values = parsed(ENTRY * count, arguments[4:-1])
    files = tuple(File(*values[i:i + 4]) for i in range(0, 4 * count, 4))
    return Manifest(seed, files, sealed, created), room


def recover_parsed(arguments):
    """ROOM, and behind it up to 300 slips (D2.14)."""
    slips = len(arguments) - 1
    demand(0 <= slips <= MOST_SLIPS)
    return parsed((ROOM, *[BYTES] * slips), arguments)


class Desk:
    """One run of the desk with the verbs that it knows, and its four registers (D3.1)."""

    def __init__(self, verbs=ALL):
        self.verbs = frozenset(verbs)
        self.registers = dict.fromkeys("abcd", b"")
        self.register_calls = {
            "load": ((REG, as_contents), self.load),
            "save": ((REG,), self.save),
            "open": ((REG, BYTES, ROOM), self.open),
            "offer": ((REG, BYTES), self.offer),
            "join": ((REG, REG), self.join),
            "finish": ((REG, ROOM), self.finish),
            "mend": ((REG,), self.mend),
        }

    def answer(self, line):
        """The printed line for a line without its line feed, or None (D1.2); else `?` (D1.5)."""
        if len(line) > LONGEST_LINE:
            return "?"
        if line == b"" or line.startswith(b"#"):
            return None
        try:
            return self.call(*line.split(b" "))
        except Malformed:
            return "?"
        except Refusal as refusal:
            return self.refused(refusal)

    def refused(self, refusal):
        """The number, and the place for 15, 16, 21 and 23 (D1.7)."""
        with_place = refusal.number in WITH_PLACE
        return f"{refusal.number} {refusal.place}" if with_place else f"{refusal.number}"

    def call(self, verb, *arguments):
        """Make the call that the verb names; one that is done prints 0 first (D1.7)."""
        verb = verb.decode("latin-1")
        demand(verb in self.verbs)
        if verb == "status":
            return self.status(*parsed((REG,), arguments))
        return " ".join(["0", *map(shown, self.values(verb, arguments))])

    def values(self, verb, arguments):
        """What is printed after the 0."""
        if verb == "manifest-write":
            return [manifest_write(*manifest_write_parsed(arguments))]
        if verb == "recover":
            return [sharing.recover(*recover_parsed(arguments))]
        argument_forms, function = PLAIN.get(verb) or self.register_calls[verb]
        return function(*parsed(argument_forms, arguments))

    def load(self, register, data):
        """Puts any bytes into a register; no call is made (D3.2)."""
        self.registers[register] = data
        return []

    def save(self, register):
        """What the register holds (D3.2)."""
        return [self.registers[register]]

    def open(self, register, ident, room):
        """A register of that many A5, which it stays where open refuses (D3.3)."""
        self.registers[register] = b"\xa5" * room
        self.registers[register] = collection.open_collection(ident, room)
        return []

    def offer(self, register, frame):
        """How the page of a raw frame then stands (D3.4). A refusal changes nothing."""
        result, kind = collection.offer(self.registers[register], frame)
        self.registers[register] = result
        return [kind]

    def join(self, register, other):
        """The first is written; one register twice is joined with a copy of itself (D3.5)."""
        self.registers[register] = collection.join(self.registers[register],
                                                   self.registers[other])
        return []

    def finish(self, register, room):
        """The ciphertext of a whole document (D3.6)."""
        return [collection.finish(self.registers[register], room)]

    def mend(self, register):
        """How many page blocks became absent (D3.6)."""
        result, count = collection.mend(self.registers[register])
        self.registers[register] = result
        return [count]

    def status(self, register):
        """The status line alone (D3.7)."""
        return collection.status(self.registers[register])


def lines_of(text):
    """The lines of an input; the last may lack its line feed (D1.1)."""
    lines = text.split(b"\n")
    return lines[:-1] if lines[-1] == b"" else lines


def answers(text, verbs=ALL):
    """All that a desk prints for an input, as one text."""
    desk = Desk(verbs)
    printed = (desk.answer(line) for line in lines_of(text))
    return "".join(line + "\n" for line in printed if line is not None).encode("ascii")
