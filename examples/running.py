"""How the examples run our programs and other people's: with what was printed and the status.

Our programs are run as their users run them, by bin/NAME, which gives an exit status. Where
./sample has not put them there, tests/program runs what was built, and its status says nothing.
"""

import os
import pty
import re
import select
import shutil
import subprocess
import sys
from collections import namedtuple

ROOT = os.path.dirname(os.path.dirname(os.path.realpath(__file__)))
NOT_RUN = 77
PACKAGES = {"age": "age", "b2sum": "coreutils", "gs": "ghostscript", "openssl": "openssl", "qrencode": "qrencode", "zbarimg": "zbar-tools"}
# What it takes to have a sailing cross on paper.
CROSSING = ("age", "gs", "qrencode", "zbarimg")

Outcome = namedtuple("Outcome", "out err status")


def run(*words, given=b"", folder=None):
    """Runs a command on these bytes to its end, in a folder where one is named. Where a word is
    bytes, it is the name of a file in memory that has them: some commands read nothing but a file,
    and what is secret is to lie in no folder."""
    files = {at: in_memory(word) for at, word in enumerate(words) if isinstance(word, bytes)}
    named = [f"/proc/self/fd/{files[at]}" if at in files else word for at, word in enumerate(words)]
    try:
        done = subprocess.run(named, input=given, stdout=subprocess.PIPE, stderr=subprocess.PIPE, cwd=folder, pass_fds=tuple(files.values()), check=False)
    finally:
        for file in files.values():
            os.close(file)
    return Outcome(done.stdout, done.stderr, done.returncode)


def in_memory(contents):
    """An open file that is in no folder, and is gone when it is closed."""
    file = os.memfd_create("lent")
    with open(file, "wb", closefd=False) as whole:
        whole.write(contents)
    return file


def program(name, *words, given=b""):
    """Runs one of our programs."""
    launcher = os.path.join(ROOT, "bin", name)
    start = [launcher] if os.access(launcher, os.X_OK) else [os.path.join(ROOT, "tests", "program"), name]
    return run(*start, *words, given=given)


def lacking(*tools):
    """Which of these tools are not on this machine, and what Debian calls their packages; or
    nothing."""
    gone = [name for name in tools if not shutil.which(name)]
    return f"no {', '.join(gone)} here (Debian's {', '.join(PACKAGES[name] for name in gone)})" if gone else None


def fault(what):
    """Something is not as it must be: the journey ends here."""
    sys.exit(f"FAULT: {what}")


def tool(*command, given=b""):
    """What a command prints; its own complaints are shown only where it fails."""
    done = run(*command, given=given)
    if done.status != 0:
        fault(f"{' '.join('(bytes)' if isinstance(word, bytes) else word for word in command)} ended with {done.status}: {(done.err or done.out[-500:]).decode(errors='replace')}")
    return done.out


def age(passphrase, *command):
    """Runs age at a terminal of its own, since it takes a passphrase from nowhere else, and answers
    each time it asks."""
    child, terminal = pty.fork()
    if child == 0:
        os.execvp("age", ["age", *command])
    said, answered = b"", 0
    while True:
        part = heard(terminal)
        if not part:
            break
        said += part
        asked = len(re.findall(rb"passphrase[^:]*: ", said))
        os.write(terminal, (passphrase + b"\n") * (asked - answered))
        answered = asked
    os.close(terminal)
    if os.waitpid(child, 0)[1] != 0:
        fault(f"age {' '.join(command)}: {said.decode(errors='replace')}")


def heard(terminal):
    """What comes from a terminal next; nothing where its program has ended, or has said nothing for
    a minute."""
    if not select.select([terminal], [], [], 60)[0]:
        return b""
    try:
        return os.read(terminal, 4096)
    except OSError:  # so Linux says that nobody is at the other end any more
        return b""


def read(path):
    """A file's whole contents."""
    with open(path, "rb") as file:
        return file.read()
