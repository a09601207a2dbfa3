"""The measured functions: how their programs are built, and whether their answers are right.

There are three sides: the plain C, ours (crates/speed, exported by crates/speed_c), and the peer:
the library that a C programmer would take instead.
"""

import hashlib
import os
import re
import shutil
import subprocess
import sys
import tempfile
import zlib

import counting

ROOT = os.path.dirname(counting.BENCH)
sys.path[:0] = [os.path.join(ROOT, "tests"), os.path.join(ROOT, "tools")]
import making  # noqa: E402
from second import answers, forms  # noqa: E402

FUNCTIONS = ("crc32", "sha256", "blake2b", "base64_write", "base64_read")

# What the plain side has besides: the checksum as ours was made before Ticket 2.
BIT_BY_BIT = "crc32_bits"

# Each library, the name to link it by, and the functions that it is the peer for.
PEERS = {
    "zlib": ("z", ("crc32",)),
    "openssl": ("crypto", ("sha256", "base64_write", "base64_read")),
    "libb2": ("b2", ("blake2b",)),
}
MACHINE = "x86_64-linux-gnu"
FETCHED = os.path.join(ROOT, "target", "bench", "amd64", "usr")


# Building.


def compiler():
    """gcc -O2 for x86-64, since that is what Rattle's archives hold."""
    which = ["gcc"] if counting.X86 else [f"{MACHINE}-gcc", "-static"]
    return [*which, "-std=c11", "-O2", "-Wall", "-Wextra", "-D_POSIX_C_SOURCE=199309L",
            "-I" + os.path.join(ROOT, "include")]


def lacking():
    """The compiler, or what runs what it compiled, where this machine has it not; else None."""
    tools = [compiler()[0], *counting.runner()[:1]]
    return next((tool for tool in tools if not shutil.which(tool)), None)


def build(output, sources, *more, **options):
    """Compile and link one program; None where that fails and `check` is false."""
    paths = [os.path.join(counting.BENCH, source) for source in sources]
    done = subprocess.run([*compiler(), "-o", output, *paths, *more], **{"check": True, **options})
    return output if done.returncode == 0 else None


def archive(crate, root):
    """The archive of what a crate exports for C, proved and built where that is not done yet."""
    return making.kept_archive(root, f"{crate}_c")


def desk():
    """The call desk, as a program."""
    return making.program(ROOT, "desk")


def build_plain(folder):
    """The plain side."""
    names = ("subjects.c", "crc32.c", "sha256.c", "blake2b.c", "base64.c")
    sources = ["functions.c", *(os.path.join("plain", name) for name in names)]
    return build(os.path.join(folder, "plain"), sources)


def build_ours(folder, root=ROOT):
    """Our side, as it is in a checkout: this one if no other is named."""
    output = os.path.join(tempfile.mkdtemp(dir=folder), "ours")
    return build(output, ["functions.c", "ours.c"], archive("speed", root))


def build_jobs(folder, root=ROOT):
    """The jobs, over the phone's library of a checkout."""
    output = os.path.join(tempfile.mkdtemp(dir=folder), "jobs")
    return build(output, ["jobs.c"], archive("phone", root), archive("speed", root))


def build_peer(folder, library):
    """The program of one library, or None where the compiler does not find the library."""
    places = []
    if os.path.isdir(FETCHED):
        places = [f"-I{FETCHED}/include", f"-I{FETCHED}/include/{MACHINE}",
                  f"-L{FETCHED}/lib/{MACHINE}"]
    sources = ["functions.c", os.path.join("peers", library + ".c")]
    return build(os.path.join(folder, library), sources, *places, "-l" + PEERS[library][0],
                 check=False, stderr=subprocess.DEVNULL)


def library_version(library):
    """The library's name and version, as its pkg-config file says."""
    name = {"openssl": "libcrypto"}.get(library, library)
    for place in (f"{FETCHED}/lib/{MACHINE}", f"/usr/lib/{MACHINE}", "/usr/lib64", "/usr/lib"):
        path = os.path.join(place, "pkgconfig", name + ".pc")
        if os.path.exists(path):
            with open(path, encoding="utf-8") as lines:
                found = re.search(r"^Version:\s*(\S+)", lines.read(), re.MULTILINE)
            return f"{library} {found.group(1)}" if found else library
    return library


def repeated(program, name, path):
    """The command that runs a function over a file's bytes, by the number of runs."""
    return lambda times: [program, name, "repeat", path, str(times)]


# Right answers.


def pattern(length):
    """Bytes to measure with."""
    return bytes((i * 167 + 13) // 2 % 256 for i in range(length))


def read_text(text):
    """The bytes of a base64 text: none where it is refused."""
    try:
        return forms.base64_read(text)
    except answers.Refusal:
        return b""


def checksum(data):
    """The checksum by Python's zlib."""
    return zlib.crc32(data).to_bytes(4, "big")


RIGHT = {
    "crc32": checksum,
    BIT_BY_BIT: checksum,
    "sha256": lambda data: hashlib.sha256(data).digest(),
    "blake2b": lambda data: hashlib.blake2b(data, digest_size=32).digest(),
    "base64_write": forms.base64_write,
    "base64_read": read_text,
}


def subject(name, data):
    """What a function is run over: the bytes, or their text."""
    return forms.base64_write(data) if name == "base64_read" else data


def other_texts(text):
    """Texts near this one: cut, with spaces, with a character changed, with padding."""
    half = len(text) // 2
    yield text[:-1]
    yield text[:half] + b" \t\r\n\v\f" + text[half:] + b" "
    yield text[:half] + b"-" + text[half + 1:]
    yield text[:-1] + b"/"
    yield text + b"="


def inputs(name, most, step):
    """What a function is tried on: lengths up to `most`, and for our reader also bad texts."""
    data = pattern(most)
    for length in range(0, most + 1, step):
        yield subject(name, data[:length])
    if name == "base64_read" and step == 1:
        for length in range(0, most + 1, 7):
            yield from other_texts(subject(name, data[:length]))


def wrong_inputs(folder, program, name, most, step=1):
    """The lengths of the inputs on which a program's answer is wrong."""
    tried = list(inputs(name, most, step))
    path = os.path.join(folder, "inputs")
    with open(path, "wb") as file:
        file.writelines(len(data).to_bytes(4, "little") + data for data in tried)
    done = subprocess.run([*counting.runner(), program, name, "list", path], text=True,
                          check=False, stdout=subprocess.PIPE)
    lines = done.stdout.split("\n")[:-1]
    if done.returncode != 0 or len(lines) != len(tried):
        return [len(lines)]
    return [len(data) for data, line in zip(tried, lines) if RIGHT[name](data).hex() != line]
