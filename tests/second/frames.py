"""Frames and printed pages: sections 6 and 7 of docs/RULES.md."""

from collections import namedtuple

from .answers import (ENDS_OR_LEFT_OVER, FRAME_CRC, FRAME_TYPE, INDEX_TOTAL, MAGIC, OUT_OF_RANGE,
                      TOO_LARGE, VERSION, lend, refuse_if)
from .cursor import Cursor
from .forms import varint_write
from .payloads import auth_read, shard_read
from .sums import crc, doc_id

MAIN, KEY, AUTH = 0x44, 0x4B, 0x41  # R6.2
MOST_PAGES = 96  # R3.1
MOST_DATA = 480  # R3.2

Frame = namedtuple("Frame", "type id index total data")


def frame_write(frame):
    """The bytes of a frame (R6.1), whatever its values: nothing is judged here."""
    numbers = (frame.index, frame.total, len(frame.data))
    head = b"AP" + varint_write(1) + bytes([frame.type]) + frame.id
    body = head + b"".join(map(varint_write, numbers)) + frame.data
    return body + crc(body)


def frame_read(raw):
    """The fields from the left (R6.4), then the sum, 10 (R6.5), then 8 and 9 (R6.6, R6.7)."""
    cursor = Cursor(raw)
    frame, check = frame_fields(cursor)
    refuse_if(check != crc(raw[:-4]), FRAME_CRC)
    judge_numbers(frame)
    return frame


def frame_fields(cursor):
    """Magic 4, version 7 or 5, type 6, id, three varints 7, and 3 throughout (R6.4).

    What is left must be the data and the checksum, and nothing else (R6.5).
    """
    refuse_if(cursor.take(2) != b"AP", MAGIC)
    refuse_if(cursor.varint() != 1, VERSION)
    kind = cursor.take(1)[0]
    refuse_if(kind not in (MAIN, KEY, AUTH), FRAME_TYPE)
    ident = cursor.take(8)
    index, total, length = cursor.varint(), cursor.varint(), cursor.varint()
    refuse_if(cursor.left() != length + 4, ENDS_OR_LEFT_OVER)
    return Frame(kind, ident, index, total, cursor.take(length)), cursor.take(4)


def judge_numbers(frame):
    """8 for INDEX and TOTAL (R6.6), then 9 for what is above its size (R6.7)."""
    refuse_if(frame.total == 0, INDEX_TOTAL)
    refuse_if(frame.index >= frame.total, INDEX_TOTAL)
    refuse_if(frame.type in (KEY, AUTH) and frame.total != 1, INDEX_TOTAL)
    refuse_if(frame.total > MOST_PAGES, TOO_LARGE)
    refuse_if(len(frame.data) > MOST_DATA, TOO_LARGE)


def page_write(ciphertext, size, number, room):
    """One printed page (R7.2, R7.3): 19 where none can be printed so, then 9, 8, 11 (R7.4)."""
    refuse_if(not 1 <= size <= MOST_DATA or not ciphertext, OUT_OF_RANGE)
    total = (len(ciphertext) + size - 1) // size
    refuse_if(total > MOST_PAGES, TOO_LARGE)
    refuse_if(number >= total, INDEX_TOTAL)
    data = ciphertext[number * size:(number + 1) * size]
    return lend(room, frame_write(Frame(MAIN, doc_id(ciphertext), number, total, data)))


def single_write(kind, reader, ident, data, room):
    """A frame 0 of 1: id 19, data 9, the payload reader's refusal, output 11 (R7.5)."""
    refuse_if(len(ident) != 8, OUT_OF_RANGE)
    refuse_if(len(data) > MOST_DATA, TOO_LARGE)
    reader(data)
    return lend(room, frame_write(Frame(kind, ident, 0, 1, data)))


def key_write(ident, data, room):
    """A key frame; its data is a shard payload (R7.5)."""
    return single_write(KEY, shard_read, ident, data, room)


def auth_frame_write(ident, data, room):
    """An auth frame; its data is an auth payload (R7.5)."""
    return single_write(AUTH, auth_read, ident, data, room)
