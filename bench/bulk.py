#!/usr/bin/env python3
"""What others keep beside a host that writes much more than the disk takes: arrayd, without and with a deadline, beside tgt where it
is installed, or beside another build of itself. Each serves the same sparse files, in turn, to the same client on the loopback.
The files lie on tmpfs below bench/page_cache.c, a page cache before a disk of 50 MB/s; with --loop on a file system on a loop
device that the kernel's throttle holds to that pace, and with --devices each disk is such a loop device itself, with
vm.dirty_bytes of 256 MiB for the whole machine meanwhile: root may do that, where there is the cgroup `blkio` of version 1.
Prints a line for each row and program; a bulk writer writes 256 KiB, 8 deep. It wants rustc and cc.

usage: bench/bulk.py [--seconds N] [--runs N] [--only WORDS] [--before PROGRAM] [--pace BYTES] [--loop FOLDER | --devices FOLDER]
                     [--without-tgt]

The program is $ARRAYD, or ./arrayd.
"""

import argparse
import contextlib
import os
import shutil
import statistics
import subprocess
import sys
import tempfile
import threading
import time

from beside import Arrayd, Tgt
from running import ARRAYD, PORT, TARGET, Array, client, library, made

SIZE = 1 << 30
DISKS = "first.img", "second.img"
# What is read, which is in memory.
CACHED = 64 << 20
DEADLINE = "20"
BULK = ("write", 262144, 8)
# So long a bulk writer writes before others are measured.
AHEAD = 2.0


THROTTLE = "/sys/fs/cgroup/blkio/blkio.throttle.write_bps_device"
LIMIT = "/proc/sys/vm/dirty_bytes"


def put(path, text):
    with open(path, "w") as file:
        file.write(text)


@contextlib.contextmanager
def slow_device(image, sectors, pace):
    """A loop device over this file, which is made, that writes so many bytes a second."""
    asked = ["losetup", "--find", "--show", "--direct-io=on", made(image, sectors)]
    device = subprocess.run(asked, check=True, capture_output=True, text=True).stdout.strip()
    number = os.stat(device).st_rdev
    number = f"{os.major(number)}:{os.minor(number)}"
    try:
        put(THROTTLE, f"{number} {pace}")
        yield device
    finally:
        put(THROTTLE, f"{number} 0")
        subprocess.run(["losetup", "--detach", device])


@contextlib.contextmanager
def few_unflushed():
    """The whole machine has 256 MiB at most that are not on its disks."""
    kept = {name: open(f"/proc/sys/vm/{name}").read() for name in ("dirty_ratio", "dirty_bytes")}
    try:
        put(LIMIT, str(256 << 20))
        yield
    finally:
        for name, value in kept.items():
            if int(value):
                put(f"/proc/sys/vm/{name}", value)


@contextlib.contextmanager
def slow_folder(below, pace):
    """A file system on a slow loop device over a file in this folder."""
    with tempfile.TemporaryDirectory(dir=below) as place, contextlib.ExitStack() as held:
        folder = os.path.join(place, "on")
        os.mkdir(folder)
        # it is made at the pace of the file below
        device = held.enter_context(slow_device(os.path.join(place, "image"), 8 << 21, 0))
        subprocess.run(["mkfs.ext4", "-q", "-E", "nodiscard,lazy_itable_init=0", device], check=True)
        subprocess.run(["mount", device, folder], check=True)
        held.callback(subprocess.run, ["umount", folder])
        number = os.stat(device).st_rdev
        put(THROTTLE, f"{os.major(number)}:{os.minor(number)} {pace}")
        held.enter_context(few_unflushed())
        yield folder


@contextlib.contextmanager
def slow_disks(below, pace):
    """A folder with two names of a slow loop device each, over files in this folder."""
    with tempfile.TemporaryDirectory(dir=below) as place, contextlib.ExitStack() as held:
        folder = os.path.join(place, "disks")
        os.mkdir(folder)
        held.enter_context(few_unflushed())
        for name in DISKS:
            device = held.enter_context(slow_device(os.path.join(place, name), SIZE // 512, pace))
            os.symlink(device, os.path.join(folder, name))
            # while somebody has it open it keeps what is in memory of it
            held.enter_context(open(device, "rb"))
        yield folder


class Two(Arrayd):
    """An arrayd of one unit or two, with this program, with a deadline or without one."""

    def __init__(self, disks, program=ARRAYD, deadline=None):
        Array.__init__(self, disks, program=program, more={"ARRAYD_DEADLINE": deadline} if deadline else None)
        self.units = [0, 1]


class TgtOfTwo(Tgt):
    """A tgt of one unit or two."""

    def __init__(self, disks):
        super().__init__(disks[0])
        if len(disks) > 1:
            self.ask("logicalunit", "new", "--lun", "2", "-b", disks[1])
        self.units = [1, 2]


class Bench:
    def __init__(self, place, asked, on):
        self.client, self.seconds, self.on = client(place), asked.seconds, on
        self.folder, self.preloaded = on, None
        if not on:
            self.folder = os.path.join(place, "disks")
            os.mkdir(self.folder)
            self.preloaded = {"LD_PRELOAD": library("bench/page_cache.c", place), "PAGE_CACHE": self.folder,
                              "CACHE_PACE": str(asked.pace)}
        self.disks = [os.path.join(self.folder, name) for name in DISKS]

    def serve(self, start, units=2):
        for disk in self.disks:
            with contextlib.suppress(FileNotFoundError):
                os.unlink(f"{disk}.reg")
            if not os.path.islink(disk):
                with contextlib.suppress(FileNotFoundError):
                    os.unlink(disk)
                made(disk, SIZE // 512)
        if self.on:
            # what the one before has left to be written is none of this one's, and what is read is in memory
            os.sync()
            for disk in self.disks:
                with open(disk, "rb") as file:
                    file.read(CACHED)
        os.environ.update(self.preloaded or {})
        try:
            return start(self.disks[:units])
        finally:
            os.environ.pop("LD_PRELOAD", None)

    def run(self, server, work, size, depth, sessions=1, units=1, seconds=None, region=SIZE, name=0, wait=True):
        """A client: how many commands end a second, and the milliseconds of the worst."""
        which = ",".join(str(unit) for unit in server.units[:units])
        words = [self.client, f"127.0.0.1:{PORT}", TARGET, which, work, str(size), str(depth), str(sessions),
                 str(seconds or self.seconds), str(region), str(name)]
        process = subprocess.Popen(words, env={**os.environ, "CLIENT_WORST": "1"}, text=True, stdout=subprocess.PIPE,
                                   stderr=subprocess.PIPE)
        return self.told(process) if wait else process

    @staticmethod
    def told(process):
        out, errors = process.communicate()
        if process.returncode != 0:
            return None, errors.strip()
        rate, worst = out.split()
        return float(rate), float(worst)

    def beside(self, server, work, size, writers, region):
        """Another alone, and beside so many bulk writers of as many units as there are, if those are more than one."""
        alone = self.run(server, work, size, 1, region=region)
        units = 2 if writers > 1 else 1
        bulk = self.run(server, *BULK, sessions=writers, units=units, seconds=self.seconds + AHEAD + 1, name=100, wait=False)
        time.sleep(AHEAD)
        beside = self.run(server, work, size, 1, region=region)
        return alone, beside, self.told(bulk)


def said(row):
    """A rate and a worst, or a failure."""
    rate, worst = row
    return f"failed: {worst}" if rate is None else f"{rate:,.0f} a second, at most {worst:,.1f} ms"


def keeps(bench, start, work, size, writers):
    server = bench.serve(start)
    try:
        alone, beside, bulk = bench.beside(server, work, size, writers, CACHED if work == "read" else SIZE)
    finally:
        server.end()
    kept = f"keeps {beside[0] / alone[0]:.2f}" if alone[0] and beside[0] else "keeps nothing"
    pace = f"{bulk[0] * 262144 / 1e6:.1f} MB/s" if bulk[0] else said(bulk)
    return f"alone {said(alone)}; beside {said(beside)}; {kept}; bulk {pace}"


def burst(bench, start):
    """Of an array of one unit: what may be unflushed is divided by the units."""
    server = bench.serve(start, units=1)
    try:
        rate, worst = bench.run(server, *BULK, seconds="256x")
        return f"{rate * 262144 / 1e6:,.0f} MB/s, at most {worst:,.1f} ms" if rate else worst
    finally:
        server.end()


def paced(bench, start, seconds):
    server = bench.serve(start)
    try:
        rate, worst = bench.run(server, *BULK, seconds=seconds)
        return f"{rate * 262144 / 1e6:,.1f} MB/s in {seconds} s, at most {worst:,.1f} ms" if rate else worst
    finally:
        server.end()


def flushed(bench, start, seconds):
    """So many seconds of bulk, then a flush, while others read."""
    server = bench.serve(start)
    try:
        alone = bench.run(server, "read", 4096, 1, region=CACHED)
        bulk = bench.run(server, *BULK, seconds=seconds)
        began, ends = time.monotonic(), []
        flush = bench.run(server, "flush", 4096, 1, seconds="1x", name=200, wait=False)
        waiter = threading.Thread(target=lambda: ends.append((bench.told(flush), time.monotonic() - began)))
        waiter.start()
        reader = bench.run(server, "read", 4096, 1, region=CACHED, name=300)
        waiter.join()
        end, took = ends[0]
        behind = bench.run(server, "read", 4096, 1, region=CACHED, seconds=1)
        good = f"GOOD in {took:.1f} s" if end[0] is not None else f"failed: {end[1]}"
        return f"alone {said(alone)}; bulk {said(bulk)}; flush {good}; reader meanwhile {said(reader)}; behind {said(behind)}"
    finally:
        server.end()


def main():
    words = argparse.ArgumentParser(description="What others keep beside a host that writes much.")
    words.add_argument("--seconds", type=float, default=6.0, help="how long a run is")
    words.add_argument("--runs", type=int, default=1, help="runs of each")
    words.add_argument("--only", default="", help="only rows with these words")
    words.add_argument("--before", help="another arrayd, in place of tgt")
    words.add_argument("--pace", type=int, default=50_000_000, help="bytes that the disk writes in a second")
    words.add_argument("--loop", help="files on a loop device over a file in this folder, in place of the library")
    words.add_argument("--devices", help="loop devices over files in this folder, in place of the library")
    words.add_argument("--without-tgt", action="store_true", help="arrayd alone")
    asked = words.parse_args()
    sides = [("arrayd", Two), ("arrayd with a deadline", lambda disks: Two(disks, deadline=DEADLINE))]
    if asked.before:
        sides.append(("before", lambda disks: Two(disks, program=asked.before)))
        sides.append(("before with a deadline", lambda disks: Two(disks, program=asked.before, deadline=DEADLINE)))
    if shutil.which("tgtd") and not asked.without_tgt:
        sides.append(("tgt", TgtOfTwo))
    rows = [
        ("reader beside a bulk writer", lambda b, s: keeps(b, s, "read", 4096, 1)),
        ("reader beside four bulk writers of two units", lambda b, s: keeps(b, s, "read", 4096, 4)),
        ("writer of 4 KiB beside a bulk writer", lambda b, s: keeps(b, s, "write", 4096, 1)),
        ("writer of 4 KiB with FUA beside a bulk writer", lambda b, s: keeps(b, s, "fua", 4096, 1)),
        ("bulk writer alone", lambda b, s: paced(b, s, 20)),
        ("burst of 64 MiB", burst),
        ("flush behind 8 s of bulk", lambda b, s: flushed(b, s, 8)),
        ("flush behind 60 s of bulk", lambda b, s: flushed(b, s, 60)),
    ]
    with contextlib.ExitStack() as held:
        place = held.enter_context(tempfile.TemporaryDirectory(dir="/dev/shm"))
        on = None
        if asked.loop or asked.devices:
            slow, below = (slow_folder, asked.loop) if asked.loop else (slow_disks, asked.devices)
            on = held.enter_context(slow(below, asked.pace))
        bench = Bench(place, asked, on)
        for row, run in rows:
            if asked.only not in row:
                continue
            for _ in range(asked.runs):
                for name, start in sides:
                    print(f"{row}: {name}: {run(bench, start)}", flush=True)


if __name__ == "__main__":
    main()
