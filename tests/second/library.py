"""Two libraries that know nothing of this project, where a Python of this machine has them: cbor2,
and pycryptodome, which splits and combines blocks of 16 bytes.

The compiled writer of cbor2 5.4.6, which Debian 12 has, is not canonical everywhere: it takes a
single for each half from 32768 to 65504, on either side of zero. By RFC 8949 those are halves (its
appendix A has 65504.0 as F9 7B FF), and cbor2's own writer in Python says so too.
"""

import importlib
import os
import struct
import sys
from functools import partial

DEBIANS = "/usr/bin/python3"
TRIED = "THIRD_OPINION_TRIED"
LACKING = "no cbor2 here (Debian's python3-cbor2)"
LACKING_SHARES = "no pycryptodome here (Debian's python3-pycryptodome)"

# The module of the writer in Python: its name in newer versions, and in older ones.
IN_PYTHON = ["cbor2._encoder", "cbor2.encoder"]


# The module of pycryptodome that splits: its own name, and Debian's.
SPLITTING = ["Crypto.Protocol.SecretSharing", "Cryptodome.Protocol.SecretSharing"]


def imported(script, *names):
    """The first of these modules that is here, or None.

    Where this Python lacks them, Debian's runs the script instead, from its beginning.
    """
    for name in names:
        try:
            return importlib.import_module(name)
        except ImportError:
            continue
    if not os.path.exists(DEBIANS) or os.environ.get(TRIED):
        return None
    os.environ[TRIED] = "1"
    return os.execv(DEBIANS, [DEBIANS, os.path.realpath(script), *sys.argv[1:]])


def writers(script):
    """The canonical writers of cbor2, the one in Python and the one that it gives, mostly compiled;
    or None."""
    cbor2 = imported(script, "cbor2")
    if cbor2 is None:
        return None
    return partial(in_python(cbor2).dumps, canonical=True), partial(cbor2.dumps, canonical=True)


def splitting(script):
    """The module of pycryptodome that splits, or None."""
    return imported(script, *SPLITTING)


def in_python(cbor2):
    """The module of its writer in Python, or cbor2 itself where there is none."""
    for name in IN_PYTHON:
        try:
            return importlib.import_module(name)
        except ImportError:
            continue
    return cbor2


def is_known_fault(number, form):
    """Whether a form is a single that the compiled writer takes for a half."""
    return 32768 <= abs(number) <= 65504 and form == b"\xfa" + struct.pack(">f", number)
