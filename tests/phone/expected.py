"""What each of the phone's functions must answer and write, by the second program (R16.1).

Each takes the bytes of its two slices, as the function of include/stiltbasket.h does, and gives the
answer as one number (R16.2) and the bytes that the lent slice then has.
"""

from second import collection
from second.answers import NO_ROOM, Refusal, lend, refuse_if
from second.forms import base64_read
from second.frames import MOST_PAGES, frame_read
from second.typing_lines import read_typed


def packed(number=0, place=0, *others):
    """Number, place and what stands above them, from the lowest bits on, a byte each (R16.2)."""
    return int.from_bytes(bytes([number, place, *others]), "little")


def judged(lent, work):
    """What the work gives and writes at the front; where it refuses, nothing changes (R1.2)."""
    try:
        answer, written = work()
    except Refusal as refusal:
        return packed(refusal.number, refusal.place), lent
    return answer, written + lent[len(written):]


def opened(ident, lent):
    """stilt_open."""
    return judged(lent, lambda: (packed(), collection.open_collection(ident, len(lent))))


def offered(lent, frame):
    """stilt_offer: how the page stands is where a place would be."""
    def work():
        saved, stands = collection.offer(lent, frame)
        return packed(0, stands), saved
    return judged(lent, work)


def joined(lent, other):
    """stilt_join."""
    return judged(lent, lambda: (packed(), collection.join(lent, other)))


def finished(raw, lent):
    """stilt_finish: how many bytes were written is above the place."""
    def work():
        ciphertext = collection.finish(raw, len(lent))
        return len(ciphertext) << 16, ciphertext
    return judged(lent, work)


def status(raw, lent):
    """stilt_status: 13, then 11; how each page stands, and the counts below the total (R16.3)."""
    def work():
        saved = collection.read(raw)
        refuse_if(len(lent) < MOST_PAGES, NO_ROOM)
        stands = bytes(collection.page_of(saved, i)[0] for i in range(MOST_PAGES))
        head = collection.head_of(saved)
        if head.state == collection.DISAGREE:
            return packed(0, 3), stands
        counts = [stands[:head.total].count(state)
                  for state in (collection.HELD, collection.ABSENT, collection.DISPUTED)]
        return packed(0, 0, head.total, *counts), stands
    return judged(lent, work)


def frame(raw, lent):
    """stilt_frame: the frame's faults, then 11; page, total and type, and the id (R16.4)."""
    def work():
        read = frame_read(raw)
        refuse_if(len(lent) < len(read.id), NO_ROOM)
        return packed(0, read.index, read.total, read.type), read.id
    return judged(lent, work)


def base64(text, lent):
    """stilt_base64: 1, 2, then 11 (R16.5)."""
    def work():
        data = lend(len(lent), base64_read(text))
        return len(data) << 16, data
    return judged(lent, work)


def typed(text, lent):
    """stilt_typed: 1, 2, 23 with the line's number, 2, then 11 (R16.6)."""
    def work():
        data = lend(len(lent), read_typed(text))
        return len(data) << 16, data
    return judged(lent, work)


# In the order of the header: the function, which of its two slices it may write, and the numbers
# that it can answer.
FRAME_FAULTS = set(range(3, 11))
FUNCTIONS = {
    "open": (opened, 1, {0, 11, 19}),
    "offer": (offered, 0, {0, 12, 13} | FRAME_FAULTS),
    "join": (joined, 0, {0, 12, 13}),
    "finish": (finished, 1, {0, 11, 13, 14, 15, 16, 17}),
    "status": (status, 1, {0, 11, 13}),
    "frame": (frame, 1, {0, 11} | FRAME_FAULTS),
    "base64": (base64, 1, {0, 1, 2, 11}),
    "typed": (typed, 1, {0, 1, 2, 11, 23}),
}
