"""Which verbs of docs/DESK.md the desk knows.

When verbs land, move them from LATER to LANDED, then run
`tests/second_program make`. A verb that has not landed prints `?`.
"""

LANDED = [
    "varint-read", "varint-write", "base64-read", "base64-write", "zbase32-read",
    "zbase32-write", "typed-read", "typed-write", "crc", "sha256", "blake2b", "doc-id",
    "frame-read", "page-write", "key-write", "auth-frame-write",
    "float-read", "float-write",
    "load", "save", "open", "offer", "join", "finish", "mend", "status",
    "auth-read", "auth-write", "auth-signed", "shard-read", "shard-write", "shard-signed",
    "manifest-read", "manifest-write", "envelope-read", "envelope-write",
    "split", "recover",
]

LATER = []

ALL = LANDED + LATER

# The answers that each verb can give by the rules: a comparison must see each, and no other.
# Writers of auth and shard payloads have no 9 (R11.9); key and auth frames do, for any data (R7.5).
GIVES = {
    "varint-read": (0, 3, 7),
    "varint-write": (0, 11),
    "base64-read": (0, 1, 2, 11),
    "base64-write": (0, 11),
    "zbase32-read": (0, 1, 2, 11),
    "zbase32-write": (0, 11),
    "typed-read": (0, 1, 2, 11, 23),
    "typed-write": (0, 9, 11),
    "crc": (0,),
    "sha256": (0,),
    "blake2b": (0,),
    "doc-id": (0,),
    "frame-read": (0, 3, 4, 5, 6, 7, 8, 9, 10),
    "page-write": (0, 8, 9, 11, 19),
    "key-write": (0, 3, 9, 11, 18, 19),
    "auth-frame-write": (0, 3, 9, 11, 18, 19),
    "float-read": (0, 3, 18, 19),
    "float-write": (0, 11, 19),
    "load": (0,),
    "save": (0,),
    "open": (0, 11, 19),
    "offer": (0, 3, 4, 5, 6, 7, 8, 9, 10, 12, 13),
    "join": (0, 12, 13),
    "finish": (0, 11, 13, 14, 15, 16, 17),
    "mend": (0, 13),
    "status": (0, 13),
    "auth-read": (0, 3, 18, 19),
    "auth-write": (0, 11, 19),
    "auth-signed": (0, 11, 19),
    "shard-read": (0, 3, 18, 19),
    "shard-write": (0, 11, 19),
    "shard-signed": (0, 11, 19),
    "manifest-read": (0, 3, 9, 18, 19, 20),
    "manifest-write": (0, 9, 11, 19, 20),
    "envelope-read": (0, 3, 4, 5, 7, 9, 18, 19, 20, 21),
    "envelope-write": (0, 3, 9, 11, 18, 19, 20, 21),
    "split": (0, 11, 19),
    "recover": (0, 3, 11, 18, 19, 26, 27, 28, 29, 30),
}
