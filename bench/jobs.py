"""The jobs: what they are given, what they must leave, and the parts that they need."""

import functools
import os
import random
import subprocess

import bench  # noqa: F401 (it says where the second program is)
import counting
from second import collection, forms
from second.frames import page_write
from second.sums import doc_id

# Each job and its parts, each of which jobs.c can run alone.
JOBS = {
    "offer": ("crc32",),
    "join": ("crc32",),
    "finish": ("crc32", "blake2b"),
    "main": ("crc32", "blake2b", "base64"),
}
NAMES = {
    "offer": "one offer, of the last missing page",
    "join": "a join of two halves",
    "finish": "a finish",
    "main": "the main job: all scans, then a finish",
}
FULL_PAGE = 480


class Document:
    """A document of full pages, as a file of scans.

    They are shuffled, and every fourth page is there twice; the last page is
    there once, at the end.
    """

    def __init__(self, folder, pages):
        rng = random.Random(pages)
        self.pages, self.ciphertext = pages, rng.randbytes(pages * FULL_PAGE)
        frames = [page_write(self.ciphertext, FULL_PAGE, number, 512) for number in range(pages)]
        scans = frames[:-1] + frames[:-1:4]
        rng.shuffle(scans)
        self.scans = [*scans, frames[-1]]
        self.path = os.path.join(folder, f"scans{pages}")
        with open(self.path, "wb") as file:
            file.write(doc_id(self.ciphertext).hex().encode() + b"\n")
            file.writelines(forms.base64_write(scan) + b"\n" for scan in self.scans)

    @functools.cached_property
    def saved(self):
        """The collection of all pages, by the second program."""
        saved = collection.open_collection(doc_id(self.ciphertext), collection.SIZE)
        for scan in self.scans:
            saved, _ = collection.offer(saved, scan)
        return saved

    def left(self, job):
        """What a job must leave: the collection of all pages, and the ciphertext if it finishes."""
        return self.saved + (self.ciphertext if "blake2b" in JOBS[job] else b"")


def words(program, job, part, document, times, most):
    """The command of a job's part: so many runs, and so many collections made ready."""
    return [program, job, part, document.path, str(times), str(most)]


def wrong(program, job, document):
    """Whether a job leaves something else than it must."""
    command = [*counting.runner(), *words(program, job, "all", document, 1, 2)]
    done = subprocess.run(command, check=False, stdout=subprocess.PIPE, stderr=subprocess.DEVNULL)
    return done.returncode != 0 or done.stdout != document.left(job)


def cost(way, program, job, part, document, times):
    """Instructions of one run of a part of a job."""
    def command(count):
        return words(program, job, part, document, count, 2 * times)
    return counting.instructions(way, command, times)


def time(program, job, document, times):
    """Nanoseconds of one run of a job."""
    def command(count):
        return words(program, job, "all", document, count, count)
    return counting.nanoseconds(command, times)
