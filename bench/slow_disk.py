#!/usr/bin/env python3
"""How fast arrayd is on a disk that takes time, beside tgt where it is installed, or beside another build of itself: both
serve a sparse file on tmpfs that bench/slow_disk.c makes slow, in turn, to the same client on the loopback. A page that is
not in memory takes 100 us, those of one call arrive side by side, and a flush takes 2 ms. Prints a line for each kind of work,
with the medians of the runs and how the two compare; then which part of their rate readers and writers keep beside one
session that writes and flushes. The same with FUA in place of the flush. It wants rustc and cc.

usage: bench/slow_disk.py [--seconds N] [--runs N] [--only WORDS] [--before PROGRAM] [--page US] [--flush US]

The program is $ARRAYD, or ./arrayd.
"""

import argparse
import os
import shutil
import statistics
import subprocess
import sys
import tempfile

from beside import Arrayd, Tgt, undisturbed
from running import PORT, TARGET, client, library, made

# So long is the disk that hardly any place is read twice in a run.
SIZE = 16 << 30

# What is measured: a name, and the client's words for it: work, bytes, depth, sessions.
RATES = [
    ("read 4 KiB, depth 1, one session", ("read", 4096, 1, 1)),
    ("read 4 KiB, depth 32, one session", ("read", 4096, 32, 1)),
    ("read 4 KiB, depth 1, 8 sessions", ("read", 4096, 1, 8)),
    ("read 4 KiB, depth 8, 4 sessions", ("read", 4096, 8, 4)),
    ("write 4 KiB, depth 32", ("write", 4096, 32, 1)),
    ("write 512 bytes, depth 32", ("write", 512, 32, 1)),
    ("read 256 KiB, depth 8", ("read", 262144, 8, 1)),
    ("write and flush in turn, one session", ("flush", 4096, 1, 1)),
    ("write and flush in turn, 4 sessions", ("flush", 4096, 1, 4)),
    ("write with FUA, one session", ("fua", 4096, 1, 1)),
    ("write with FUA, 4 sessions", ("fua", 4096, 1, 4)),
]
# What is kept beside one session that does this.
KEPT = [
    ("what readers keep beside one that flushes", ("read", 4096, 8, 4), "flush"),
    ("what writers keep beside one that flushes", ("write", 4096, 8, 4), "flush"),
    ("what readers keep beside one that writes with FUA", ("read", 4096, 8, 4), "fua"),
    ("what writers keep beside one that writes with FUA", ("write", 4096, 8, 4), "fua"),
]
# Sessions of the one beside are named from this number on.
OTHER_NAMES = 100


class Bench:
    """The client, and the disk that each run has anew."""

    def __init__(self, place, seconds):
        self.seconds = seconds
        self.client = client(place)
        self.slow = {"LD_PRELOAD": library("bench/slow_disk.c", place), "SLOW_DISK": os.path.join(place, "disks")}
        os.mkdir(self.slow["SLOW_DISK"])
        self.disk = os.path.join(self.slow["SLOW_DISK"], "disk.img")

    def words(self, server, work, seconds, first=0):
        kind, size, depth, sessions = work
        return [self.client, f"127.0.0.1:{PORT}", TARGET, str(server.unit), kind, str(size), str(depth), str(sessions),
                str(seconds), str(SIZE), str(first)]

    def serve(self, start):
        for name in os.listdir(self.slow["SLOW_DISK"]):
            os.unlink(os.path.join(self.slow["SLOW_DISK"], name))
        made(self.disk, SIZE // 512)
        os.environ.update(self.slow)
        try:
            return start(self.disk)
        finally:
            del os.environ["LD_PRELOAD"]

    def rate(self, start, work, beside=None):
        """How many commands end a second, beside a session that does something else or alone."""
        server = self.serve(start)
        other = None
        try:
            if beside:
                words = self.words(server, (beside, 4096, 1, 1), self.seconds + 0.5, OTHER_NAMES)
                other = subprocess.Popen(words, stdout=subprocess.DEVNULL)
            ran = subprocess.run(self.words(server, work, self.seconds), capture_output=True, text=True, timeout=120)
            if ran.returncode != 0:
                sys.exit(ran.stderr)
            return float(ran.stdout)
        finally:
            if other:
                other.wait()
            server.end()

    def kept(self, start, work, beside):
        return self.rate(start, work, beside) / self.rate(start, work)


def compared(runs, sides, run):
    """The medians of what each side gives, each first in every other turn."""
    got = [[] for _ in sides]
    for turn in range(runs):
        for at in list(range(len(sides)))[:: 1 - turn % 2 * 2]:
            got[at].append(undisturbed(lambda: run(sides[at])))
    return [statistics.median(numbers) for numbers in got]


def main():
    words = argparse.ArgumentParser(description="How fast arrayd is on a disk that takes time.")
    words.add_argument("--seconds", type=float, default=1.0, help="how long a run is")
    words.add_argument("--runs", type=int, default=3, help="runs of each, of which the median counts")
    words.add_argument("--only", default="", help="only lines with these words")
    words.add_argument("--before", help="another arrayd, in place of tgt")
    words.add_argument("--page", type=int, default=100, help="microseconds until a page is there")
    words.add_argument("--flush", type=int, default=2000, help="microseconds of a flush")
    asked = words.parse_args()
    os.environ.update(SLOW_PAGE=str(asked.page), SLOW_FLUSH=str(asked.flush))
    sides, names = [Arrayd], ["arrayd"]
    if asked.before:
        sides, names = [Arrayd, lambda disk: Arrayd(disk, asked.before)], ["arrayd", "before"]
    elif shutil.which("tgtd"):
        sides, names = [Arrayd, Tgt], ["arrayd", "tgt"]
    with tempfile.TemporaryDirectory(dir="/dev/shm") as place:
        bench = Bench(place, asked.seconds)
        rows = [(line, lambda start, work=work: bench.rate(start, work), "{:,.0f} a second") for line, work in RATES]
        rows += [(line, lambda start, work=work, beside=beside: bench.kept(start, work, beside), "{:.2f}")
                 for line, work, beside in KEPT]
        for line, run, form in rows:
            if asked.only not in line:
                continue
            medians = compared(asked.runs, sides, run)
            told = ", ".join(f"{name} {form.format(median)}" for name, median in zip(names, medians))
            print(f"{line}: {told}" + (f": {medians[0] / medians[1]:.2f}" if len(medians) > 1 else ""), flush=True)


if __name__ == "__main__":
    main()
