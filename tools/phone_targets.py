"""The phone's library for three kinds of processor, from one proved program.

The kit hands its clang the whole library as one LLVM module, for x86-64. That module is kept here,
what names a processor in it is taken out, and the same clang compiles it with the same options for
64-bit Arm and for WebAssembly. What is proved is the program that all three come from; that they do
the same is tested (tests/phone).

In the module a slice is a pointer and a length of 64 bits. A pointer of WebAssembly has 32, so
there each function is (i32, i64, i32, i64) -> i64. JavaScript passes such a length as a BigInt
(include/stiltbasket.mjs). C that is compiled for wasm32 could not call it by the header, since its
size_t has 32 bits.
"""

import os
import re
import struct
import subprocess
import sys
import tempfile
from collections import namedtuple

sys.path.insert(0, os.path.dirname(os.path.realpath(__file__)))
import making  # noqa: E402
from making import kit  # noqa: E402

# The crate that exports for C what the crate `phone` promises, and the name of its archive.
CRATE, ARCHIVE = "phone_c", "libphone.a"
ARM = "aarch64-linux-gnu"
NAMING = re.compile(r'^target .*\n| "(?:target-(?:cpu|features)|tune-cpu)"="[^"]*"', re.MULTILINE)
FUNCTION = re.compile(r"^define [^@\n]*@(stilt_\w+)\(", re.MULTILINE)
POINTER_AS_NUMBER = re.compile(r"\b(?:ptrtoint|inttoptr)\b")
# Where two slices lie, to see whether they overlap: such a number becomes no pointer again.
ADDRESS = re.compile(r"\bptrtoaddr\b(?= \(?ptr )")
# A pair of a small number and a pointer, read at once: as the module lays it out, the pointer
# stands 8 bytes behind the number.
PAIR = re.compile(r"^( *)(%[\w.]+) = load \{ (i\d+), ptr \}, ptr (%[\w.]+), align \d+$", re.MULTILINE)
PAIRS = r"""\1\2.number = load \3, ptr \4
\1\2.place = getelementptr i8, ptr \4, i64 8
\1\2.pointer = load ptr, ptr \2.place
\1\2.half = insertvalue { \3, ptr } poison, \3 \2.number, 0
\1\2 = insertvalue { \3, ptr } \2.half, ptr \2.pointer, 1"""
# Any other that has a pointer behind something else.
POINTER_BEHIND = re.compile(r"(?:load|store) \{ [^}]*, ptr\b")

# What an archive may want of the C library, and no more: include/stiltbasket.h says so.
FROM_C = {"memcpy", "memset"}

# One page of WebAssembly's memory, which comes in pages of 64 KiB. It is the first, so that a stack
# that ran over would leave the memory, which is a trap, and overwrite nothing.
WASM_STACK = 65536

LOADED, CODE = 2, 4  # flags of a section (ELF): it is in memory, and it is run
SYMBOLS = 2  # the type of the section that has the symbols

# The folder with what was kept, the folder of the kit's programs, and the words that clang was
# given.
Proved = namedtuple("Proved", "folder tools words")
Section = namedtuple("Section", "name type flags address offset length link")


# Proving, and keeping the module.


def prove(checkout, folder, archive):
    """Prove and build the library in the checkout, and keep the module in the folder."""
    making.archive(checkout, CRATE, archive, keeping=folder)
    with open(os.path.join(folder, "words"), encoding="utf-8") as file:
        return Proved(folder, os.path.join(kit.folder(), "toolchain", "bin"), file.read().splitlines())


def run(folder, tool, *words):
    """Run a program, which says itself what it finds wrong."""
    if subprocess.run([os.path.join(folder, tool), *words], check=False).returncode != 0:
        raise SystemExit(f"{tool} failed")


def without_processor(proved):
    """The module as text, without what names a processor in it."""
    module, path = (os.path.join(proved.folder, name) for name in ("module.bc", "module.ll"))
    run(proved.tools, "clang", "-x", "ir", module, "-S", "-emit-llvm", "-O3", "-Xclang",
        "-disable-llvm-passes", "-o", path)
    with open(path, encoding="utf-8") as file:
        return NAMING.sub("", file.read())


# Compiling it.


def compiled(proved, text, triple, *more):
    """The object file of the module for another processor, with the options that the kit gave."""
    source, output = (os.path.join(proved.folder, name) for name in ("phone.ll", "phone.o"))
    with open(source, "w", encoding="utf-8") as file:
        file.write(text)
    exchanged = {"module.bc": source, "module.o": output}
    words = [exchanged.get(word, word) for word in proved.words
             if not word.startswith(("--target=", "-march=", "--sysroot="))]
    run(proved.tools, "clang", *words, f"--target={triple}", "-Wno-override-module", *more)
    return output


def place(into, *names):
    """The path of a file that is to be made anew."""
    path = os.path.join(into, *names)
    os.makedirs(os.path.dirname(path), exist_ok=True)
    if os.path.exists(path):
        os.remove(path)
    return path


def held_to_c(path):
    """The object file or archive, unless it wants more than the header says."""
    more = wanted(path) - FROM_C
    if more:
        raise SystemExit(f"{path} wants {', '.join(sorted(more))}")
    return path




def for_arm(proved, text, into, triple):
    """The archive for 64-bit Arm."""
    path = place(into, "aarch64", ARCHIVE)
    run(proved.tools, "llvm-ar", "rcs", path, held_to_c(compiled(proved, text, triple)))
    return path


def refused(text):
    """The module, unless pointers of 32 bits would make another of it."""
    if POINTER_AS_NUMBER.search(text):
        raise SystemExit("the module takes pointers for numbers, which have other sizes in wasm32")
    if POINTER_BEHIND.search(PAIR.sub("", text)):
        raise SystemExit("the module reads a pointer at a place that is another in wasm32")
    return text


def for_wasm(proved, text, into):
    """The module for WebAssembly. It imports nothing: the linker refuses what is not defined.

    A pointer that was taken for a number of 64 bits could not be told from one that is none, so a
    module that does so is refused. An address that is only compared has 32 bits there: it is
    widened to the 64 that the module takes it for. And where a pair is read at once, its pointer is
    read where the module put it. clang does neither of itself.
    """
    text = PAIR.sub(PAIRS, ADDRESS.sub("ptrtoint", refused(text)))
    path = place(into, "phone.wasm")
    # The kit's linker is one program for several formats, and the name that it is called by says
    # for which.
    os.symlink(os.path.join(proved.tools, "ld.lld"), os.path.join(proved.folder, "wasm-ld"))
    exported = ["__heap_base", "__stack_pointer", *FUNCTION.findall(text)]
    run(proved.folder, "wasm-ld", "--no-entry", "--strip-all", "--stack-first", "-z",
        f"stack-size={WASM_STACK}", *(f"--export={name}" for name in exported),
        compiled(proved, text, "wasm32", "-mbulk-memory", "-fno-PIC"), "-o", path)
    return path


def build(checkout, into, triple=ARM):
    """The three files, proved and built from the checkout: their paths."""
    with tempfile.TemporaryDirectory() as folder:
        x86_64 = place(into, "x86_64", ARCHIVE)
        proved = prove(checkout, folder, x86_64)
        text = without_processor(proved)
        return [held_to_c(x86_64), for_arm(proved, text, into, triple), for_wasm(proved, text, into)]


# Looking into an archive of one object file (ELF, 64 bits).


def text_at(data, at):
    """A name, which ends with a zero."""
    return data[at:data.index(b"\0", at)].decode()


def opened(path):
    """The object file's bytes and its sections."""
    with open(path, "rb") as file:
        data = file.read()
    if b"\x7fELF" not in data:
        raise SystemExit(f"{path} has no object file of the form ELF")
    data = data[data.index(b"\x7fELF"):]
    start, = struct.unpack_from("<Q", data, 40)
    size, count, names = struct.unpack_from("<HHH", data, 58)
    heads = [Section(*struct.unpack_from("<IIQQQQI", data, start + size * i)) for i in range(count)]
    at = heads[names].offset
    return data, [head._replace(name=text_at(data, at + head.name)) for head in heads]


def wanted(path):
    """The names that are used and not defined."""
    data, sections = opened(path)
    names = set()
    for table in (section for section in sections if section.type == SYMBOLS):
        for at in range(table.offset, table.offset + table.length, 24):
            name, _, _, section = struct.unpack_from("<IBBH", data, at)
            if section == 0:
                names.add(text_at(data, sections[table.link].offset + name))
    return names - {""}


def loaded(path):
    """Bytes of code, and of constants. What serves unwinding is neither."""
    _, sections = opened(path)
    code = sum(section.length for section in sections if section.flags & CODE)
    both = sum(section.length for section in sections
               if section.flags & LOADED and section.name != ".eh_frame")
    return code, both - code
