"""The kit's own program `rt`, as a module: how it applies an edit to a crate, and checks what comes
of it, over the libraries that stand built in the crates' folders out/."""
import importlib.machinery
import importlib.util
import os
import shutil
import subprocess
import sys
import tempfile
from contextlib import contextmanager
from functools import cache

# a crate of the kit keeps the stream that it was made with
NOWHERE = open(os.devnull, "w", encoding="utf-8")


@cache
def folder():
    """Where the kit is: `rt doc` names a page at its top."""
    said = subprocess.run(["rt", "doc"], text=True, check=True, stdout=subprocess.PIPE).stdout
    return os.path.dirname(os.path.realpath(said.strip()))


@cache
def version():
    """The line that says which kit it is."""
    return subprocess.run(["rt", "version"], text=True, check=True, stdout=subprocess.PIPE).stdout.strip()


@cache
def rt():
    """The program as a module; its own library is `rt().rtlib`."""
    loader = importlib.machinery.SourceFileLoader("rt_of_the_kit", os.path.join(folder(), "bin", "rt"))
    module = importlib.util.module_from_spec(importlib.util.spec_from_loader(loader.name, loader))
    sys.dont_write_bytecode = True
    loader.exec_module(module)
    return module


@cache
def crates(root):
    """The crates of a checkout, as the kit knows them, by their names."""
    rt().rtlib.Crate = rt().Crate
    with silent():
        return {crate.name: crate for crate in rt().rtlib.crates_below(os.path.realpath(root))}


@contextmanager
def silent():
    """What the kit says meanwhile on how it goes about it is not shown."""
    out, sys.stdout = sys.stdout, NOWHERE
    try:
        yield
    finally:
        sys.stdout = out


@cache
def shared():
    """Has libraries be built with what other checkouts on this machine kept, as the command
    does."""
    rt().share_work(False)


def with_libraries(crate):
    """Builds the libraries that a crate stands on, where `rt ci` has not left them built."""
    for it in crate.below():
        if not os.path.isdir(it.rlib):
            shared()
            it.build_rlib(["--jobs", "2"], anew=False)


def said_of(root, name, edits):
    """All that the prover says of a crate with each of these edits, one after another. What it
    proves of the crate without an edit is kept for them meanwhile."""
    crate, flags = crates(root)[name], ["--jobs", "2"]
    with silent():
        with_libraries(crate)
        room = rt().seeded(crate, flags)
    try:
        for edit in edits:
            with tempfile.TemporaryDirectory() as place, silent():
                begun = os.path.join(place, "begun")
                if room:
                    rt().linked(os.path.join(room, "seed"), begun)
                texts, fault = rt().read_edit(edit, crate.folder)
                said = fault or rt().checked(crate, texts, flags, begun if room else None).stdout
            yield said
    finally:
        shutil.rmtree(room or "", ignore_errors=True)
