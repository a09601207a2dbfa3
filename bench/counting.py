"""What a run costs: its instructions, however this machine can count them, and its time."""

import os
import platform
import re
import shutil
import subprocess

BENCH = os.path.dirname(os.path.realpath(__file__))
X86 = platform.machine() in ("x86_64", "AMD64")

# How a program here ends where this machine lacks what it takes: ./test then says `not run`.
NOT_RUN = 77

# The libraries ask the processor what it can do: `max` is one that can all that qemu can.
PROCESSOR = "max"

# The versions of qemu's plugin interface so far, the lowest first.
INTERFACES = range(1, 8)


def runner(processor=PROCESSOR):
    """How a built program is run: as it is, or under the emulator."""
    return [] if X86 else ["qemu-x86_64", "-cpu", processor]


def said(command, given=os.devnull, **more):
    """What a command writes to standard error, with a file on standard input: how much a pipe gives
    at a time would show in the counts. It has next to no environment, whose size would too: where
    memory begins decides how the C library copies."""
    with open(given, "rb") as file:
        done = subprocess.run(command, text=True, check=False, stdin=file,
                              stdout=subprocess.DEVNULL, stderr=subprocess.PIPE,
                              env={"PATH": os.environ["PATH"], **more})
    if done.returncode != 0:
        raise SystemExit(f"{' '.join(command)} failed: {done.stderr.strip()[-300:]}")
    return done.stderr


class Counter:
    """A way of counting: what stands before the program, and what says the number."""

    def __init__(self, name, prefix, number):
        self.name, self.prefix, self.number = name, prefix, re.compile(number, re.MULTILINE)

    def count(self, command, given):
        """The instructions of one run, the program's start included."""
        return int(self.number.search(said([*self.prefix, *command], given)).group(1))

    def within(self, function):
        """The same for callgrind, of what runs within one function alone."""
        return Counter(f"{self.name} --toggle-collect={function}",
                       [*self.prefix, f"--toggle-collect={function}"], self.number.pattern)

    def works(self):
        """Whether it counts a program that does nothing."""
        done = subprocess.run([*self.prefix, "true"], text=True, check=False,
                              stdout=subprocess.DEVNULL, stderr=subprocess.PIPE)
        return done.returncode == 0 and bool(self.number.search(done.stderr))


PERF = Counter("perf stat -e instructions:u", ["perf", "stat", "-x", ",", "-e", "instructions:u"],
               r"^(\d+),[^,]*,\S*instructions")
CALLGRIND = Counter("valgrind --tool=callgrind",
                    ["valgrind", "--tool=callgrind", "--callgrind-out-file=/dev/null"],
                    r"Collected : (\d+)")


def plugged(folder, processor):
    """The emulator with our plugin, in the version that it takes; or None and why not."""
    if not shutil.which("qemu-x86_64"):
        return None, "there is no qemu-x86_64 here (Debian: qemu-user)"
    if not shutil.which("gcc"):
        return None, "there is no gcc here to build bench/count.c with"
    plugin = os.path.join(folder, "count.so")
    probe = os.path.join(folder, "nothing")
    with open(probe + ".c", "w", encoding="ascii") as source:
        source.write("int main(void) { return 0; }\n")
    subprocess.run(["x86_64-linux-gnu-gcc", "-static", "-o", probe, probe + ".c"], check=True)
    for interface in INTERFACES:
        subprocess.run(["gcc", "-std=c11", "-O2", "-Wall", "-Wextra", "-shared", "-fPIC",
                        f"-DAPI={interface}", "-o", plugin, os.path.join(BENCH, "count.c")],
                       check=True)
        prefix = [*runner(processor), "-plugin", plugin]
        done = subprocess.run([*prefix, probe], text=True, check=False, capture_output=True)
        if done.returncode == 0 and "instructions" in done.stderr:
            name = f"{version('qemu-x86_64')} -cpu {processor} with bench/count.c"
            return Counter(name, prefix, r"^instructions (\d+)"), None
    return None, "this qemu-x86_64 takes no plugin"


def counter(folder, processor):
    """The way of counting on this machine; or None and why there is none."""
    if not X86:
        return plugged(folder, processor)
    for way in (PERF, CALLGRIND):
        if shutil.which(way.prefix[0]) and way.works():
            return way, None
    return None, "neither perf (with its counters) nor valgrind is here"


def version(program):
    """The first line that a program says of its version."""
    done = subprocess.run([program, "--version"], text=True, check=False, stdout=subprocess.PIPE)
    return done.stdout.split("\n", maxsplit=1)[0]


def instructions(way, command, times, given=lambda times: os.devnull):
    """Instructions of one run: 2 R runs less R runs, so that the start cancels out."""
    once, twice = (way.count(command(runs), given(runs)) for runs in (times, 2 * times))
    return (twice - once) / times


def nanoseconds(command, times, tries=5):
    """Time of one run: the shortest of a few tries, as the program itself takes it."""
    texts = (said([*runner(), *command(times)], BENCH_TIME="1") for _ in range(tries))
    return min(int(re.search(r"nanoseconds (\d+)", text).group(1)) for text in texts) / times
