"""Calls of the system that fail in a program, as a script asks while the program runs, and how many allocations and reads there were
(trials/failing.c). Wants a C compiler and the GNU C library.

    failing = Failing(folder)
    Array(disks, more=failing.environment) ..
    failing.let("pread", errno.EIO)                    the next one fails
    failing.let("memory", errno.ENOMEM, behind=3)      the one behind three others
    failing.is_over("memory")                          whether it has
"""

import mmap
import os
import shutil
import struct

from running import library

# As in trials/failing.c.
KINDS = ("memory", "open", "statx", "flock", "lseek", "pread", "pwrite", "fdatasync", "fsync", "ftruncate", "rename", "accept", "send")
ROW = struct.Struct("=qqQ")
READS = 512
FROM_ACCEPT, ALLOCATIONS, READ, BEFORE = range(ROW.size * len(KINDS), ROW.size * len(KINDS) + 32, 8)
EVER = 1 << 62


def is_there():
    return shutil.which("cc") is not None


def shared(path, size):
    """A file of so many zeros that a program shares with this script."""
    with open(path, "w+b") as file:
        file.truncate(size)
        return mmap.mmap(file.fileno(), size)


class Failing:
    """What is to fail in the programs that run with this environment."""

    def __init__(self, folder):
        path = os.path.join(folder, "failing")
        self.map = shared(path, BEFORE + 8 * READS)
        self.environment = {"LD_PRELOAD": library("trials/failing.c", folder), "FAILING": path}

    def let(self, kind, error, behind=0, times=1):
        """Behind so many calls of this kind so many fail with this error."""
        ROW.pack_into(self.map, ROW.size * KINDS.index(kind), behind, times, error)

    def slow(self, kind, seconds):
        """From now on each call of this kind takes so many seconds longer, one at least; with 0 none does."""
        self.let(kind, int(1_000_000 * seconds), times=EVER if seconds else 0)

    def is_over(self, kind):
        """Whether as many of them have failed as were to."""
        return ROW.unpack_from(self.map, ROW.size * KINDS.index(kind))[1] <= 0

    def stop(self):
        """Nothing fails any more."""
        for kind in KINDS:
            self.let(kind, 0, times=0)

    # ---- what is counted

    def count(self, from_accept=False):
        """Before a start: counts anew, allocations and reads of standard input; or, behind the first connection that is accepted,
        allocations, which do not fail before, and reads of connections."""
        self.map[FROM_ACCEPT:] = bytes(len(self.map) - FROM_ACCEPT)
        self.map[FROM_ACCEPT] = from_accept

    def at(self, place):
        return struct.unpack_from("=Q", self.map, place)[0]

    def allocations(self):
        """How many there were, with those that failed."""
        return self.at(ALLOCATIONS)

    def reads(self):
        return self.at(READ)

    def before(self, read):
        """How many allocations there were before the so many'th read, counted from 1."""
        return self.at(BEFORE + 8 * (read - 1))
