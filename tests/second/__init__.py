"""The second program: docs/RULES.md and docs/DESK.md written out once more, in Python (R18.7).

It shares nothing with the proved libraries but the rules. Each module is one
subject of them, and each function that judges by a rule gives its number:

    answers     the numbers that a call may answer
    cursor      reading fields from left to right
    forms       varints and the two text forms
    typing_lines  typed lines, written and read, and one line by itself
    sums        CRC-32, SHA-256, BLAKE2b, the document id
    frames      frames, printed pages, key and auth frames
    cbor        CBOR items, read and written
    floats      floating-point numbers of three widths
    payloads    auth and shard payloads, and the bytes that get signed
    sharing     a secret split into shares, and recovered from slips
    manifest    paths, file entries, the manifest
    envelope    the envelope
    collection  the collection of pages, which is also the saved file
    pier        the small program: scans in, a status line out
    press       the program of the harbour
    pantry      the program of the pantry
    typist      the program that makes a scan of typed lines
    desk        the call desk: lines in, lines out

The rest is for trying it out: `cases` makes calls, `stored` the run that is
kept beside the desk, `compare` holds a desk to this program, `every_float`
does so with floats of every exponent, `library` asks cbor2, `selftest`
holds this program to the standards and to itself.
"""
