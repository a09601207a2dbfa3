"""How tests/faults runs `pantry`, and how a run comes to a fault."""

import fcntl
import os
import re
import select
import shutil
import signal
import struct
import subprocess
import tempfile
import termios
import time
from collections import Counter, namedtuple
from itertools import count

from faults_scenes import Outcome, read, says_complete

LONGEST = 15  # seconds, for what takes a part of one

# Stands where the program stood, so that the launcher stays as it is.
WRAPPER = """#!/bin/sh
[ -n "$FAULTS_TRACE" ] || exec "$0.traced" "$@"
exec strace -o "$FAULTS_TRACE" $FAULTS_INJECT "$0.traced" "$@"
"""

# A system call, its number among those of its name, and what it was given.
Call = namedtuple("Call", "name number words")

CALL = re.compile(r"(\w+)\((.*)")


class Unfit(Exception):
    """A run that shows nothing, and so is wrong: no fault came, or no end."""


class Stage:
    """A copy of the programs, in which strace can stand between launcher and program."""

    def __init__(self, source, folder):
        self.folder, self.numbers = folder, count()
        self.launcher = os.path.join(folder, "bin", "pantry")
        self.program = os.path.join(folder, "bin", "programs", "pantry")
        shutil.copytree(source, os.path.dirname(self.launcher))
        os.rename(self.program, self.program + ".traced")
        with open(self.program, "w", encoding="ascii") as file:
            file.write(WRAPPER)
        os.chmod(self.program, 0o755)

    def laid(self, scene):
        """A new folder, as the scene has it before."""
        folder = os.path.join(self.folder, str(next(self.numbers)))
        scene.lay(folder)
        return folder

    def start(self, scene, folder, start=(), trace="", inject="", **streams):
        """The launcher, or what is started in its place, in a group of its own."""
        env = {**os.environ, "LC_ALL": "C", "FAULTS_TRACE": trace, "FAULTS_INJECT": inject}
        streams = {"stdin": subprocess.DEVNULL, "stderr": subprocess.PIPE, **streams}
        words = [*(start or [self.launcher]), *scene.words]
        return subprocess.Popen(words, cwd=folder, env=env, start_new_session=True, **streams)

    def run(self, scene, folder, scans=None, **more):
        """A run to its end, on the scene's scans or on others. Standard output is a file."""
        with tempfile.TemporaryFile() as given, tempfile.TemporaryFile() as out:
            given.write(scans or scene.scans)
            given.seek(0)
            return outcome(self.start(scene, folder, **{"stdin": given, "stdout": out, **more}), out)

    # With strace.

    def injected(self, injections, bare, scene, folder):
        """A run in which strace does this to the program, under its launcher or bare."""
        words = " ".join(f"-e inject={injection}" for injection in injections)
        done = self.run(scene, folder, start=[self.program] if bare else (), trace=trace_of(folder), inject=words)
        came(injections, folder)
        # a bare program has no status (R15.13): what it says counts
        return done._replace(status=0 if says_complete(done) else 1) if bare else done

    def launcher_injected(self, injections, scene, folder):
        """A run in which strace does this to the launcher; the program goes on alone."""
        words = [word for injection in injections for word in ("-e", f"inject={injection}")]
        done = self.run(scene, folder, start=["strace", "-o", trace_of(folder), *words, self.launcher])
        came(injections, folder)
        return done

    # With a limit, and with standard streams that are of no use.

    def limited(self, size, ignored, scene, folder):
        """A run in which no file grows beyond a size. A write is cut short there; the next one
        fails, or kills where the signal for it is not ignored."""
        ignore = ["env", "--ignore-signal=XFSZ"] if ignored else []
        return self.run(scene, folder, start=[*ignore, "prlimit", "--core=0", f"--fsize={size}", self.launcher])

    def full(self, scene, folder):
        """A run whose standard output has no room."""
        with open("/dev/full", "wb") as out:
            return self.run(scene, folder, stdout=out)

    def unread(self, scene, folder):
        """A run whose standard output is a pipe that nobody reads any more."""
        near, far = os.pipe()
        os.close(near)
        with os.fdopen(far, "wb") as out:
            return self.run(scene, folder, stdout=out)

    def closed(self, stream, scene, folder):
        """A run that has one of its three standard streams closed, as bash writes that."""
        return self.run(scene, folder, start=["bash", "-c", f'exec "$0" "$@" {stream}', self.launcher])

    # With a signal while the program waits for input.

    def waiting(self, scene, folder, out):
        """A launcher whose program has read a part of its input, the pipe to it, and the rest."""
        near, far = os.pipe()
        # under nohup, or behind a shell's &, a signal may be ignored
        start = ["env", "--default-signal=HUP,INT,TERM", self.launcher]
        process = self.start(scene, folder, start, stdin=near, stdout=out)
        os.close(near)
        half = len(scene.scans) // 2
        os.write(far, scene.scans[:half])
        drained(far, process)
        return process, os.fdopen(far, "wb"), scene.scans[half:]

    def struck(self, number, everything, scene, folder):
        """A run that gets a signal: all of it, or its launcher alone, and then the input goes
        on."""
        with tempfile.TemporaryFile() as out:
            process, pipe, rest = self.waiting(scene, folder, out)
            with pipe:
                os.kill(-process.pid if everything else process.pid, number)
                pipe.write(b"" if everything else rest)
            return outcome(process, out)

    def overtaken(self, scene, folder):
        """A run whose launcher is killed, and another that begins before the program has ended: it
        must wait for that (R15.13). It brings no scans."""
        with tempfile.TemporaryFile() as out:
            process, pipe, rest = self.waiting(scene, folder, out)
            with pipe:
                process.kill()
                process.wait()
                other = self.start(scene, folder, stdout=subprocess.DEVNULL)
                said = [os.read(stream.fileno(), 4096) for stream in select.select([other.stderr], [], [], LONGEST)[0]]
                pipe.write(rest)
            done = outcome(process, out)
            ended(other)
        if b"another pantry is at work" not in b"".join(said):
            raise Unfit("the next run does not wait for a program whose launcher was killed")
        return done


def outcome(process, out):
    """What a run came to; what it printed is read back from a file."""
    err = ended(process)
    out.seek(0)
    return Outcome(process.returncode, out.read(), err)


def ended(process):
    """What a run said, once it and all that it started have ended."""
    try:
        return process.communicate(timeout=LONGEST)[1]
    except subprocess.TimeoutExpired:
        os.killpg(process.pid, signal.SIGKILL)
        process.communicate()
        raise Unfit(f"it has not ended in {LONGEST} seconds") from None


def drained(pipe, process):
    """Waits until a process has read all that is in a pipe."""
    for _ in range(LONGEST * 1000):
        if struct.unpack("i", fcntl.ioctl(pipe, termios.FIONREAD, bytes(4))) == (0,):
            return
        if process.poll() is not None:
            break
        time.sleep(0.001)
    os.close(pipe)
    ended(process)
    raise Unfit("it does not read its input")


# Traces.


def trace_of(folder):
    """Where strace leaves the trace of a run."""
    return folder + ".trace"


def came(injections, folder):
    """Fails where strace has not done what it was to do."""
    trace = read(trace_of(folder))
    if injections and b"(INJECTED)" not in trace and b"+++ killed by SIGKILL +++" not in trace:
        raise Unfit(f"{injections} never came")


def calls_from(first, folder):
    """The calls of a run from the one on in which this is found. The others count too, since strace
    counts them."""
    counts, begun = Counter(), False
    for line in read(trace_of(folder)).decode("utf-8", "replace").split("\n"):
        found = CALL.match(line)
        if found:
            counts[found[1]] += 1
            begun = begun or bool(re.search(first, line))
        if found and begun:
            yield Call(found[1], counts[found[1]], found[2].rsplit(" = ", 1)[0].rstrip())
