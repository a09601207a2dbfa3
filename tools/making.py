"""Programs and libraries for C, proved and built where they are lacking.

A program stands as crates/NAME/out/NAME, and a library for C as crates/NAME/out/libNAME.a. `rt ci`
leaves its programs there, and the libraries that it proved: `./test` notes of what sources they
are (`note`), and while these stay the same nothing is proved again. Else `rt run` and `rt lib`
prove what has changed since they last did.
"""

import hashlib
import json
import os
import shutil
import subprocess
import sys
import tempfile

sys.path.append(os.path.join(os.path.dirname(os.path.dirname(os.path.realpath(__file__))), "tests"))
import kit  # noqa: E402

NOTED = os.path.join("target", "made.json")


def sum_of(path):
    """The sum of a file, or nothing where there is none."""
    try:
        with open(path, "rb") as file:
            return hashlib.sha256(file.read()).hexdigest()
    except OSError:
        return None


def sources(root):
    """A sum of all that is proved, and of what proves it."""
    told = [kit.version(), sum_of(os.path.join(root, "crates.txt")), sum_of(os.path.join(root, "HANDLES"))]
    for folder, below, files in os.walk(os.path.join(root, "crates")):
        below[:] = sorted({*below} - {"out", "must-fail", "data"})
        told += [(os.path.relpath(os.path.join(folder, name), root), sum_of(os.path.join(folder, name)))
                 for name in sorted(files) if name.endswith((".rt", ".antt"))]
    return hashlib.sha256(repr(told).encode()).hexdigest()


def made(crate):
    """The file by which it is known whether what was built of a crate is still there."""
    if crate.is_program:
        return os.path.join(crate.folder, "out", crate.name)
    return os.path.join(crate.rlib, "format")


def note(root):
    """Notes what `rt ci`, which has just passed here, has built of these sources."""
    found = {crate.name: sum_of(made(crate)) for crate in kit.crates(root).values()}
    os.makedirs(os.path.join(root, "target"), exist_ok=True)
    with open(os.path.join(root, NOTED), "w", encoding="utf-8") as file:
        json.dump({"sources": sources(root), "made": found}, file)


def are_noted(root, crates):
    """Whether `rt ci` built these crates of the sources that stand here."""
    try:
        with open(os.path.join(root, NOTED), encoding="utf-8") as file:
            noted = json.load(file)
    except (OSError, ValueError):
        return False
    same = all(noted["made"].get(crate.name) == sum_of(made(crate)) is not None for crate in crates)
    return same and noted["sources"] == sources(root)


def ran(crate, *words):
    """Has rt do something in a crate's folder, on the program's stored input. What it said is
    shown where that fails."""
    given = os.path.join(crate.folder, "stdin")
    with open(given if os.path.exists(given) else os.devnull, "rb") as file:
        done = subprocess.run(["rt", *words], cwd=crate.folder, stdin=file, text=True, check=False,
                              errors="replace", stdout=subprocess.DEVNULL, stderr=subprocess.PIPE)
    return done.returncode, done.stderr


def arguments(crate):
    """The words of a program's stored run."""
    path = os.path.join(crate.folder, "args")
    if not os.path.exists(path):
        return []
    with open(path, encoding="utf-8") as file:
        return ["--", *file.read().split("\n")[:-1]]


def program(root, name):
    """A program, proved and built: its path."""
    crate = kit.crates(root)[name]
    if not are_noted(root, [crate]):
        _, said = ran(crate, "run", *arguments(crate))
        if not os.path.exists(made(crate) + ".stamp"):
            raise SystemExit(f"{name} is not proved:\n{said[-2000:]}")
    return made(crate)


def toolchain(folder, keeping=None):
    """The kit's toolchain as a folder of links, whose clang keeps the module that it is given, and
    the words, in the folder `keeping`."""
    true = os.path.join(kit.folder(), "toolchain")
    into = os.path.join(folder, "toolchain")
    os.makedirs(os.path.join(into, "bin"))
    os.symlink(os.path.join(true, "lib"), os.path.join(into, "lib"))
    for tool in os.listdir(os.path.join(true, "bin")):
        if tool != "clang" or not keeping:
            os.symlink(os.path.join(true, "bin", tool), os.path.join(into, "bin", tool))
    if keeping:
        wrapper = os.path.join(into, "bin", "clang")
        with open(wrapper, "w", encoding="utf-8") as script:
            script.write(f"#!/bin/sh\n[ ! -e module.bc ] || cp module.bc {keeping}/ && "
                         f"printf '%s\\n' \"$@\" >{keeping}/words\n"
                         f"exec {os.path.join(true, 'bin', 'clang')} \"$@\"\n")
        os.chmod(wrapper, 0o755)
    return into


def archive(root, name, into, keeping=None):
    """A library for C, proved and built into the file `into`."""
    crate = kit.crates(root)[name]
    below = crate.below()
    if not are_noted(root, below) and not all(it.is_built() for it in below):
        status, said = ran(crate, "lib")
        if status != 0:
            raise SystemExit(f"{name} is not proved:\n{said[-2000:]}")
    with tempfile.TemporaryDirectory() as folder, kit.silent():
        words = [kit.rt().rtlib.RATTLE, "build", *crate.words(["--jobs", "2"], keeps=False),
                 "--toolchain", toolchain(folder, keeping), "--backend", "llvm", "-o", os.path.realpath(into)]
        done = subprocess.run(words, cwd=crate.folder, stdin=subprocess.DEVNULL, text=True, check=False,
                              errors="replace", stdout=subprocess.PIPE, stderr=subprocess.STDOUT)
    if done.returncode != 0:
        raise SystemExit(f"{name} is not proved:\n{done.stdout[-2000:]}")
    return into


def kept_archive(root, name):
    """The same beside the crate's other output, where it is only built if that is lacking or older
    than a source."""
    crate = kit.crates(root)[name]
    path, noted = (os.path.join(crate.folder, "out", f"lib{name}.a{end}") for end in ("", ".sources"))
    now = sources(root)
    try:
        with open(noted, encoding="utf-8") as file:
            is_same = file.read() == f"{now} {sum_of(path)}"
    except OSError:
        is_same = False
    if not is_same:
        os.makedirs(os.path.dirname(path), exist_ok=True)
        archive(root, name, path)
        with open(noted, "w", encoding="utf-8") as file:
            file.write(f"{now} {sum_of(path)}")
    return path
