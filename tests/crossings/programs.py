"""Running the programs, and what one did otherwise than it was due."""

import os
import signal
import subprocess
import tempfile
from contextlib import contextmanager

from second.pantry import Done
from second.sums import doc_id

# No run needs so many seconds.
PATIENCE = 10


class Programs:
    """The programs as tools/place puts them into a folder, each with its launcher (R15.13)."""

    def __init__(self, folder):
        self.folder = os.path.abspath(folder)

    def command(self, run):
        """The words that start a run."""
        if run.launched:
            return [os.path.join(self.folder, run.program), *run.words]
        programs = os.path.join(self.folder, "programs")
        emulator, start = os.path.join(programs, "emulator"), []
        if os.path.isdir(emulator):
            libraries = os.path.join(emulator, "lib")
            start = [os.path.join(emulator, "bin", "qemu-x86_64"), os.path.join(libraries, "ld-linux-x86-64.so.2"), "--library-path", libraries]
        return [*start, os.path.join(programs, run.program), *run.words]

    def start(self, run, folder, **streams):
        """A run that has begun, in a folder."""
        streams = {"stdout": subprocess.PIPE, "stderr": subprocess.PIPE, **streams}
        return subprocess.Popen(self.command(run), cwd=folder, start_new_session=True, **streams)

    def run(self, run, **streams):
        """What a run does in a folder with its files alone; a string where it does not end."""
        with place(run.files) as folder, tempfile.TemporaryFile() as file:
            return self.done(run, folder, file, **streams)

    def done(self, run, folder, file, **streams):
        """The same in a folder that is there. The file is to hold the input where that is one."""
        file.write(run.given)
        file.seek(0)
        given = {} if "stdin" in streams else {"stdin": file if run.regular else subprocess.PIPE}
        process = self.start(run, folder, **given, **streams)
        ended = finished(process, run.given if process.stdin else None)
        return ended if isinstance(ended, str) else Done(*ended, process.returncode, held(folder))


def finished(process, given=None):
    """What a run printed and told once it has ended; a string where it does not end."""
    try:
        return process.communicate(given, timeout=PATIENCE)
    except subprocess.TimeoutExpired:
        os.killpg(process.pid, signal.SIGKILL)
        process.communicate()
        return f"it has not ended after {PATIENCE} seconds"


@contextmanager
def place(files):
    """A folder with these files and nothing else, and with nothing beside it."""
    with tempfile.TemporaryDirectory(prefix="crossings-") as around:
        folder = os.path.join(around, "folder")
        os.mkdir(folder)
        for name, contents in files:
            write(os.path.join(folder, name), contents)
        yield folder


def held(folder):
    """What each file in the folder and beside it holds, by its name; a link is a string."""
    found = {}
    for at, folders, names in os.walk(os.path.dirname(folder)):
        for path in (os.path.join(at, name) for name in (*folders, *names)):
            if os.path.islink(path):
                found[os.path.relpath(path, folder)] = os.readlink(path)
            elif os.path.isfile(path):
                found[os.path.relpath(path, folder)] = read(path)
    return found


def write(path, contents):
    """A file's whole contents."""
    os.makedirs(os.path.dirname(path), exist_ok=True)
    with open(path, "wb") as file:
        file.write(contents)


def read(path):
    """The same back."""
    with open(path, "rb") as file:
        return file.read()


# What is due, and what came.


def differences(wanted, got):
    """What a program did otherwise than it was due; None is not compared."""
    if isinstance(got, str):
        yield got
        return
    if wanted.printed is not None and got.printed != wanted.printed:
        yield f"due {shortened(wanted.printed)}, printed {shortened(got.printed)}"
    if callable(wanted.told) and not wanted.told(got.told):
        yield f"told {shortened(got.told)}, for which {wanted.told.__name__} does not hold"
    if isinstance(wanted.told, bytes) and got.told != wanted.told:
        yield f"due to tell {shortened(wanted.told)}, told {shortened(got.told)}"
    if got.status != wanted.status:
        yield f"due status {wanted.status}, and it is {got.status}"
    for name in sorted({*wanted.files, *got.files}):
        one, other = wanted.files.get(name), got.files.get(name)
        if one != other:
            yield f"{name!r} is not as it is due ({described(one)}): it is {described(other)}"


def shortened(printed):
    """An output as it can be shown."""
    return repr(printed) if len(printed) <= 400 else f"{printed[:60]!r} .. {printed[-240:]!r} ({len(printed)} bytes)"


def described(contents):
    """What a file holds, as it can be shown."""
    if not contents:
        return "no file" if contents is None else "nothing"
    return f"a link to {contents}" if isinstance(contents, str) else f"{len(contents)} bytes, BLAKE2b {doc_id(contents).hex()}"
